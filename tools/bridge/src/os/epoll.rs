//! Waiting for several descriptors at once (epoll(7)), or for one and a short time (ppoll(2)), for which std has
//! nothing. What is unsafe here are these calls of the system.
#![allow(unsafe_code)]
use crate::os::clock::Duration;
use std::io;
use std::os::unix::io::{AsRawFd, BorrowedFd, FromRawFd, OwnedFd};
use std::ptr::{null, null_mut};

use libc::{c_int, epoll_event, pollfd, timespec};

use crate::os::system_call::checked;

/// How many events are taken by one call.
const AT_A_TIME: usize = 32;

/// Waits until this descriptor can be read or was closed, for so long at most: to less than a millisecond. A signal may
/// end the wait before.
pub fn wait_for_one(descriptor: BorrowedFd<'_>, most: Duration) -> io::Result<()> {
    let mut wanted = pollfd { fd: descriptor.as_raw_fd(), events: libc::POLLIN, revents: 0 };
    let most = timespec { tv_sec: most.as_secs() as _, tv_nsec: most.subsec_nanos() as _ };
    // SAFETY: the kernel reads the time, and reads and writes one descriptor; no set of signals is handed over.
    match checked(unsafe { libc::ppoll(&mut wanted, 1, &most, null()) }) {
        Err(fault) if fault.kind() != io::ErrorKind::Interrupted => Err(fault),
        _ => Ok(()),
    }
}

/// What came of the descriptor that was added with this number.
#[derive(Debug, Clone, Copy, PartialEq, Eq)]
pub struct Came {
    pub number: u64,
    /// Whether it can be read, or was closed, or has a fault.
    pub can_read: bool,
    /// Whether there is room to write.
    pub can_write: bool,
}

#[derive(Debug)]
pub struct Epoll {
    descriptor: OwnedFd,
    events: [epoll_event; AT_A_TIME],
    /// How many of them the last wait wrote.
    number: usize,
}

impl Epoll {
    pub fn new() -> io::Result<Epoll> {
        // SAFETY: no memory is handed over; the descriptor is owned from here on.
        let descriptor = unsafe { OwnedFd::from_raw_fd(checked(libc::epoll_create1(libc::EPOLL_CLOEXEC))?) };
        Ok(Epoll { descriptor, events: [epoll_event { events: 0, u64: 0 }; AT_A_TIME], number: 0 })
    }

    /// Waits for a descriptor too, and calls it by this number.
    pub fn add(&self, descriptor: BorrowedFd<'_>, number: u64, reads: bool, writes: bool) -> io::Result<()> {
        self.control(libc::EPOLL_CTL_ADD, descriptor, number, reads, writes)
    }

    /// Waits for something else of a descriptor.
    pub fn change(&self, descriptor: BorrowedFd<'_>, number: u64, reads: bool, writes: bool) -> io::Result<()> {
        self.control(libc::EPOLL_CTL_MOD, descriptor, number, reads, writes)
    }

    /// Waits for a descriptor no more.
    pub fn remove(&self, descriptor: BorrowedFd<'_>) -> io::Result<()> {
        let (own, gone) = (self.descriptor.as_raw_fd(), descriptor.as_raw_fd());
        // SAFETY: this operation reads no event.
        checked(unsafe { libc::epoll_ctl(own, libc::EPOLL_CTL_DEL, gone, null_mut()) }).map(drop)
    }

    fn control(&self, operation: c_int, of: BorrowedFd<'_>, number: u64, reads: bool, writes: bool) -> io::Result<()> {
        let events = if reads { libc::EPOLLIN } else { 0 } | if writes { libc::EPOLLOUT } else { 0 };
        let mut event = epoll_event { events: events as u32, u64: number };
        // SAFETY: the kernel reads the event.
        checked(unsafe { libc::epoll_ctl(self.descriptor.as_raw_fd(), operation, of.as_raw_fd(), &mut event) })
            .map(drop)
    }

    /// Waits until something comes, or for so many milliseconds at most. A signal may end the wait before.
    pub fn wait(&mut self, most: Option<u16>) -> io::Result<()> {
        let (room, most) = (self.events.len() as c_int, most.map_or(-1, c_int::from));
        self.number = 0;
        // SAFETY: the kernel writes no more events than there is room for.
        match checked(unsafe { libc::epoll_wait(self.descriptor.as_raw_fd(), self.events.as_mut_ptr(), room, most) }) {
            Ok(number) => self.number = number as usize,
            Err(fault) if fault.kind() == io::ErrorKind::Interrupted => {}
            Err(fault) => return Err(fault),
        }
        Ok(())
    }

    /// What came in the last wait.
    pub fn came(&self) -> impl Iterator<Item = Came> + '_ {
        let reads = (libc::EPOLLIN | libc::EPOLLERR | libc::EPOLLHUP) as u32;
        let writes = libc::EPOLLOUT as u32;
        self.events[..self.number].iter().map(move |event| {
            let epoll_event { events, u64: number } = *event;
            Came { number, can_read: events & reads != 0, can_write: events & writes != 0 }
        })
    }
}
