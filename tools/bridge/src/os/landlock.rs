//! Files that the program may read and run: a domain of landlock(7).
#![allow(unsafe_code)]
use std::ffi::CString;
use std::fs::File;
use std::io::{self, Read};
use std::mem::size_of;
use std::os::unix::ffi::OsStrExt;
use std::os::unix::io::{AsRawFd, FromRawFd, OwnedFd};
use std::path::Path;

use libc::{c_int, c_long, c_ulong};

use crate::os::system_call::checked;

// Of <linux/landlock.h>.
const EXECUTE: u64 = 1;
pub const READ_FILE: u64 = 1 << 2;
const PATH_BENEATH: c_ulong = 1;
const TELL_VERSION: c_ulong = 1;
const FIRST_FILE_RIGHTS: u64 = (1 << 13) - 1;

/// What a domain of Landlock has rules for.
#[repr(C)]
struct RulesetAttributes {
    files: u64,
    net: u64,
    scopes: u64,
}

/// A rule for a file, or for all below a folder.
#[repr(C, packed)]
struct PathRule {
    rights: u64,
    descriptor: c_int,
}

impl RulesetAttributes {
    /// All that this version of Landlock can refuse.
    fn of(version: c_long) -> RulesetAttributes {
        let more = match version {
            1 => 0,
            2 => 1 << 13,
            3 | 4 => 3 << 13,
            _ => 7 << 13,
        };
        let net = if version >= 4 { 3 } else { 0 };
        RulesetAttributes { files: FIRST_FILE_RIGHTS | more, net, scopes: if version >= 6 { 3 } else { 0 } }
    }

    /// How many octets of them this version knows.
    fn length(version: c_long) -> usize {
        match version {
            1..=3 => size_of::<u64>(),
            4 | 5 => 2 * size_of::<u64>(),
            _ => size_of::<RulesetAttributes>(),
        }
    }
}

/// What a program that was linked to libraries reads and runs to begin.
const LIBRARIES: [(&str, u64); 5] = [
    ("/lib", READ_FILE | EXECUTE),
    ("/lib64", READ_FILE | EXECUTE),
    ("/usr/lib", READ_FILE | EXECUTE),
    ("/usr/lib64", READ_FILE | EXECUTE),
    ("/etc/ld.so.cache", READ_FILE),
];

/// Where the kernel tells a process of itself.
pub const OF_ITSELF: &[u8] = b"/proc/self\0";

/// A domain of Landlock in which the program can run itself and read its configuration, or `None` if this kernel has
/// none.
pub fn domain(program: &Path, config: &Path) -> io::Result<Option<OwnedFd>> {
    // SAFETY: no memory is handed over.
    let version = unsafe {
        libc::syscall(libc::SYS_landlock_create_ruleset, std::ptr::null::<RulesetAttributes>(), 0usize, TELL_VERSION)
    };
    if version < 1 {
        return Ok(None);
    }
    let (attributes, length) = (RulesetAttributes::of(version), RulesetAttributes::length(version));
    let flags: c_ulong = 0;
    // SAFETY: the kernel reads so many octets of the attributes.
    let made = checked(unsafe { libc::syscall(libc::SYS_landlock_create_ruleset, &attributes, length, flags) })?;
    // SAFETY: the descriptor is new, and owned from here on.
    let domain = unsafe { OwnedFd::from_raw_fd(made as c_int) };
    allow(&domain, program, EXECUTE | READ_FILE)?;
    allow(&domain, config, READ_FILE)?;
    if is_linked(program)? {
        for (path, rights) in LIBRARIES.iter().filter(|(path, _)| Path::new(path).exists()) {
            allow(&domain, Path::new(path), *rights)?;
        }
    }
    Ok(Some(domain))
}

/// In the domain these rights hold of this file, or of all below this folder.
fn allow(domain: &OwnedFd, path: &Path, rights: u64) -> io::Result<()> {
    let name = CString::new(path.as_os_str().as_bytes())?;
    allow_name(domain, name.as_bytes_with_nul(), rights)
}

/// The same of a name that ends with its zero octet. It allocates nothing.
pub fn allow_name(domain: &OwnedFd, name: &[u8], rights: u64) -> io::Result<()> {
    // SAFETY: the name ends with its zero octet.
    let opened = checked(unsafe { libc::open(name.as_ptr().cast(), libc::O_PATH | libc::O_CLOEXEC) })?;
    // SAFETY: the descriptor is new, and owned from here on.
    let file = unsafe { OwnedFd::from_raw_fd(opened) };
    let rule = PathRule { rights, descriptor: file.as_raw_fd() };
    // SAFETY: the kernel reads the rule, which is as long as this kind has it.
    checked(unsafe {
        libc::syscall(libc::SYS_landlock_add_rule, domain.as_raw_fd(), PATH_BENEATH, &rule, 0 as c_ulong)
    })?;
    Ok(())
}

/// Whether a program is loaded by another one, which its file names (elf(5), PT_INTERP).
pub fn is_linked(program: &Path) -> io::Result<bool> {
    const HEADERS_AT: usize = 32;
    const HEADER_LEN_AT: usize = 54;
    const INTERPRETER: u32 = 3;
    let mut begin = Vec::new();
    File::open(program)?.take(1 << 14).read_to_end(&mut begin)?;
    let number = |place: usize, length: usize| {
        let octets = begin.get(place..place + length)?;
        Some(octets.iter().rev().fold(0u64, |number, octet| number << 8 | u64::from(*octet)))
    };
    let (at, length, count) = match (number(HEADERS_AT, 8), number(HEADER_LEN_AT, 2), number(HEADER_LEN_AT + 2, 2)) {
        (Some(at), Some(length), Some(count)) if begin.starts_with(b"\x7fELF\x02\x01") => (at, length, count),
        _ => return Ok(true),
    };
    let mut places = (0..count).map(|place| (at + place * length) as usize);
    Ok(places.any(|place| number(place, 4) == Some(u64::from(INTERPRETER))))
}
