//! What is asked and set of a descriptor by one value (getsockopt(2), setsockopt(2), ioctl(2)).
#![allow(unsafe_code)]
use std::io;
use std::mem::size_of;
use std::os::unix::io::{AsRawFd, BorrowedFd};

use libc::{c_int, c_void, sock_filter};

use crate::os::system_call::checked;

/// A type of which any octets are a value: the kernel may write some of them.
///
/// # Safety
///
/// It has to be one of numbers alone.
pub unsafe trait OfNumbers: Copy {}

// SAFETY: it is a number.
unsafe impl OfNumbers for c_int {}
// SAFETY: it has three numbers.
unsafe impl OfNumbers for libc::ucred {}

pub(super) fn set_option<T>(socket: BorrowedFd<'_>, level: c_int, name: c_int, value: &T) -> io::Result<()> {
    let (place, length) = ((value as *const T).cast::<c_void>(), size_of::<T>() as u32);
    // SAFETY: the kernel reads as many octets as the value has.
    checked(unsafe { libc::setsockopt(socket.as_raw_fd(), level, name, place, length) }).map(drop)
}

/// Reads an option of a socket into a value.
pub(super) fn read_option<T: OfNumbers>(
    socket: BorrowedFd<'_>,
    level: c_int,
    name: c_int,
    value: &mut T,
) -> io::Result<()> {
    let (place, mut length) = ((value as *mut T).cast::<c_void>(), size_of::<T>() as u32);
    // SAFETY: the kernel writes at most `length` octets into the value, which is as long, and any octets are one.
    checked(unsafe { libc::getsockopt(socket.as_raw_fd(), level, name, place, &mut length) }).map(drop)
}

/// A socket hears from now on only what a filter lets through.
pub(super) fn attach(socket: BorrowedFd<'_>, filter: &[sock_filter]) -> io::Result<()> {
    let program = libc::sock_fprog { len: filter.len() as u16, filter: filter.as_ptr() as *mut sock_filter };
    set_option(socket, libc::SOL_SOCKET, libc::SO_ATTACH_FILTER, &program)
}

/// How many octets of a pipe wait to be read.
pub fn octets_in_pipe(pipe: BorrowedFd<'_>) -> io::Result<usize> {
    number_of(pipe, libc::FIONREAD)
}

/// How many octets a socket was given that it hasn't sent yet.
pub(super) fn unsent_octets(socket: BorrowedFd<'_>) -> io::Result<usize> {
    number_of(socket, libc::TIOCOUTQ)
}

/// The number that a request by ioctl(2) answers, for one of those that write one number.
fn number_of(descriptor: BorrowedFd<'_>, request: libc::c_ulong) -> io::Result<usize> {
    let mut found: c_int = 0;
    // SAFETY: the kernel writes one number.
    checked(unsafe { libc::ioctl(descriptor.as_raw_fd(), request, &mut found as *mut c_int) })?;
    Ok(found.max(0) as usize)
}

/// The user who connected a socket of this machine.
pub fn user_of(socket: BorrowedFd<'_>) -> io::Result<u32> {
    let mut found = libc::ucred { pid: 0, uid: libc::uid_t::MAX, gid: libc::gid_t::MAX };
    read_option(socket, libc::SOL_SOCKET, libc::SO_PEERCRED, &mut found)?;
    Ok(found.uid)
}
