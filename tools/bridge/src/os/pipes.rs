//! What std can't ask of a pipe (fcntl(2)). What is unsafe here are these calls of the system.
#![allow(unsafe_code)]
use std::io;
use std::os::unix::io::{AsRawFd, BorrowedFd};

use libc::c_int;

use crate::os::system_call::checked;

/// Nobody is kept waiting by reading or writing this pipe from now on.
pub fn set_nonblocking(pipe: BorrowedFd<'_>) -> io::Result<()> {
    // SAFETY: no memory is handed over.
    let flags = checked(unsafe { libc::fcntl(pipe.as_raw_fd(), libc::F_GETFL) })?;
    // SAFETY: no memory is handed over.
    checked(unsafe { libc::fcntl(pipe.as_raw_fd(), libc::F_SETFL, flags | libc::O_NONBLOCK) }).map(drop)
}

/// So many octets may wait in this pipe from now on.
pub fn set_room(pipe: BorrowedFd<'_>, octets: c_int) -> io::Result<()> {
    // SAFETY: no memory is handed over.
    checked(unsafe { libc::fcntl(pipe.as_raw_fd(), libc::F_SETPIPE_SZ, octets) }).map(drop)
}
