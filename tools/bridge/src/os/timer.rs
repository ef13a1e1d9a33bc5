//! The clock that nobody sets, and a timer by it that is exact to less than a millisecond (timerfd_create(2)): std has
//! a time of neither that the kernel takes. What is unsafe here are these calls of the system.
#![allow(unsafe_code)]
use std::io;
use std::mem::zeroed;
use std::os::unix::io::{AsFd, AsRawFd, BorrowedFd, FromRawFd, OwnedFd};
use std::ptr::null_mut;

use libc::{itimerspec, timespec};

use crate::os::clock::{Duration, Instant};
use crate::os::system_call::checked;

/// The time of the clock that nobody sets.
pub fn now() -> Instant {
    time_of(libc::CLOCK_MONOTONIC)
}

/// The time of the clock that nobody sets and that goes on while the machine is suspended. It is compared with moments
/// of the same clock alone.
pub fn boot_now() -> Instant {
    time_of(libc::CLOCK_BOOTTIME)
}

fn time_of(clock: libc::clockid_t) -> Instant {
    let mut found = timespec { tv_sec: 0, tv_nsec: 0 };
    // SAFETY: the kernel writes one time.
    let answer = unsafe { libc::clock_gettime(clock, &mut found) };
    assert_eq!(answer, 0, "every kernel has this clock");
    Instant::START + Duration::new(found.tv_sec as u64, found.tv_nsec as u32)
}

/// A descriptor that can be read once a time has come.
#[derive(Debug)]
pub struct Timer(OwnedFd);

impl Timer {
    /// One whose time never comes.
    pub fn new() -> io::Result<Timer> {
        let flags = libc::TFD_CLOEXEC | libc::TFD_NONBLOCK;
        // SAFETY: no memory is handed over; the descriptor is owned from here on.
        Ok(Timer(unsafe { OwnedFd::from_raw_fd(checked(libc::timerfd_create(libc::CLOCK_MONOTONIC, flags))?) }))
    }

    pub fn descriptor(&self) -> BorrowedFd<'_> {
        self.0.as_fd()
    }

    /// It can be read once this time has come, and not before.
    pub fn set(&self, due: Instant) -> io::Result<()> {
        // SAFETY: all zero is a time that doesn't come again.
        let mut time: itimerspec = unsafe { zeroed() };
        let due = due.since(Instant::START);
        // A time of zero would be none.
        time.it_value = timespec { tv_sec: due.as_secs() as _, tv_nsec: due.subsec_nanos().max(1) as _ };
        // SAFETY: the kernel reads the time, and writes nothing.
        checked(unsafe { libc::timerfd_settime(self.0.as_raw_fd(), libc::TFD_TIMER_ABSTIME, &time, null_mut()) })
            .map(drop)
    }

    /// Reads it, if its time has come: from then on it can't be read before another time was set.
    pub fn clear(&self) {
        let mut times = 0u64;
        // SAFETY: the kernel writes at most eight octets into a number of eight. That it may write none is of no
        // account.
        unsafe { libc::read(self.0.as_raw_fd(), (&mut times as *mut u64).cast(), 8) };
    }
}

#[cfg(test)]
mod tests {
    use super::*;
    use crate::os::clock::{Duration, MILLISECOND, SECOND};
    use std::thread::sleep;
    use std::time::Instant as StdInstant;

    #[test]
    fn the_clock_goes_on_as_that_of_std_does() {
        let (begun_by_std, begun) = (StdInstant::now(), now());
        sleep((20 * MILLISECOND).into());
        let (gone, gone_by_std) = (now().since(begun), Duration::from(begun_by_std.elapsed()));
        assert!(gone >= 20 * MILLISECOND && gone <= gone_by_std, "{gone:?} {gone_by_std:?}");
        assert!(gone_by_std - gone < SECOND, "{gone:?} {gone_by_std:?}");
    }
}
