//! What the bridge and the program may do: as little as they need. `tools/live` starts the bridge as a user of its own;
//! here it gives up what is left, starts the program within bounds, and then keeps to a list of calls of the system.
//!
//! | | the bridge | the program |
//! |---|---|---|
//! | capabilities | none | none |
//! | new privileges by a file | none | none |
//! | files (landlock(7)) | | reads its configuration and what the kernel tells of it, and runs itself |
//! | calls (seccomp(2)) | no file opened, no socket made, no program run | no socket made, no process begun, no file opened for writing |
//! | files that are written | bounded, if neither the record nor the log is a file without a limit | none |
//! | address space | | bounded, so that want of memory is an answer of the program and no kill |
//!
//! A call that isn't listed ends the process by the signal SIGSYS. What a library may try, and does without, is
//! refused. What is unsafe here are the calls of the system that no crate has.
#![allow(unsafe_code)]
use std::io;
use std::os::unix::io::{AsRawFd, OwnedFd};
use std::os::unix::process::CommandExt;
use std::process::Command;

use libc::{c_int, c_ulong};

use crate::control::faults::Fault;
use crate::os::landlock::{allow_name, domain, OF_ITSELF, READ_FILE};
use crate::os::seccomp::{of_bridge, of_program, Calls, Rule};
use crate::os::system_call::checked;

/// The head of capset(2), and its two halves of three sets.
#[repr(C)]
struct CapabilityHeader {
    version: u32,
    process: c_int,
}

const CAPABILITY_VERSION: u32 = 0x2008_0522;
const LAST_CAPABILITY: c_ulong = 63;

/// This process has no capability from now on, and gets none by running a file.
pub fn give_up_capabilities() -> Result<(), Fault> {
    let none = [0u32; 6];
    let header = CapabilityHeader { version: CAPABILITY_VERSION, process: 0 };
    // Those that a file could bring: if this process may not take them away they can't be had all the same.
    for capability in 0..=LAST_CAPABILITY {
        let _ = control_process(libc::PR_CAPBSET_DROP, capability);
    }
    // SAFETY: the kernel reads the header and the sets, which are as long as this version has them.
    let given_up = checked(unsafe { libc::syscall(libc::SYS_capset, &header, none.as_ptr()) });
    let outcome = given_up.and_then(|_| control_process(libc::PR_SET_NO_NEW_PRIVS, 1));
    outcome.map_err(|fault| Fault::of("the bridge's rights can't be given up", &fault))
}

/// Changes something of this process by prctl(2), by a number alone.
fn control_process(what: c_int, number: c_ulong) -> io::Result<()> {
    const NONE: c_ulong = 0;
    // SAFETY: no memory is handed over.
    checked(unsafe { libc::prctl(what, number, NONE, NONE, NONE) }).map(drop)
}

/// The bridge keeps to its list of calls from now on. Of all processes it may end this one, its program.
pub fn keep_to_calls(program: u32) -> Result<(), Fault> {
    let ends_program = Rule::OfProcess(libc::SYS_kill, program);
    let calls = Calls::of(of_bridge().chain([&ends_program]));
    calls.take_on().map_err(|fault| Fault::of("no list of calls can be kept to (seccomp)", &fault))
}

/// No file gets more octets by what this process writes from now on, if there is a bound. A write beyond it is an
/// error, and ends nothing: so it is also if somebody else has set a bound.
pub fn bound_files(most: Option<u64>) -> Result<(), Fault> {
    let outcome = ignore(libc::SIGXFSZ).and_then(|()| most.map_or(Ok(()), bound_written));
    outcome.map_err(|fault| Fault::of("what is written can't be bounded", &fault))
}

/// A lower bound that is there already stays.
fn bound_written(most: u64) -> io::Result<()> {
    let mut found = libc::rlimit { rlim_cur: 0, rlim_max: 0 };
    // SAFETY: the kernel writes the bound.
    checked(unsafe { libc::getrlimit(libc::RLIMIT_FSIZE, &mut found) })?;
    limit(libc::RLIMIT_FSIZE, most.min(found.rlim_cur))
}

/// A signal of this number does nothing any more.
fn ignore(signal: c_int) -> io::Result<()> {
    // SAFETY: no function of this program is called.
    match unsafe { libc::signal(signal, libc::SIG_IGN) } {
        libc::SIG_ERR => Err(io::Error::last_os_error()),
        _ => Ok(()),
    }
}

/// Within what the program runs.
#[derive(Debug)]
pub struct Bounds {
    domain: Option<OwnedFd>,
    calls: Calls,
    memory: u64,
}

impl Bounds {
    /// For this program and its configuration, with so many octets of address space.
    pub fn of(program: &str, config: &str, memory: u64) -> Result<Bounds, Fault> {
        let domain = domain(program.as_ref(), config.as_ref()).map_err(|fault| Fault::of(program, &fault))?;
        Ok(Bounds { domain, calls: Calls::of(of_program()), memory })
    }

    /// What a command starts runs within them.
    pub fn hold(self, command: &mut Command) {
        // SAFETY: between fork and exec nothing is allocated, and nothing else is done than calls of the system.
        unsafe { command.pre_exec(move || self.take_on()) };
    }

    /// This process is within them from now on. It allocates nothing.
    fn take_on(&self) -> io::Result<()> {
        limit(libc::RLIMIT_AS, self.memory)?;
        control_process(libc::PR_SET_NO_NEW_PRIVS, 1)?;
        if let Some(domain) = &self.domain {
            // Its words, its variables and its own memory are files there.
            allow_name(domain, OF_ITSELF, READ_FILE)?;
            let flags: c_ulong = 0;
            // SAFETY: no memory is handed over.
            checked(unsafe { libc::syscall(libc::SYS_landlock_restrict_self, domain.as_raw_fd(), flags) })?;
        }
        self.calls.take_on()
    }
}

/// Bounds what this process may use of a resource.
fn limit(resource: libc::__rlimit_resource_t, most: u64) -> io::Result<()> {
    let bound = libc::rlimit { rlim_cur: most, rlim_max: most };
    // SAFETY: the kernel reads the bound.
    checked(unsafe { libc::setrlimit(resource, &bound) }).map(drop)
}

#[cfg(test)]
#[path = "sandbox_test.rs"]
mod tests;
