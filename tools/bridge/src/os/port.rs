//! By which packets come and go: an interface, whatever its socket is.
use crate::os::clock::Duration;
use std::io;
use std::os::unix::io::{BorrowedFd, OwnedFd};

use libc::sock_filter;

use crate::os::batch::Batch;
use crate::os::link::Link;

/// How many packets are read or written by one call. Four calls read no more than may wait of one flow
/// (`queue::MOST_OF_FLOW`) before the program is given what was read: else bursts, in which TCP sends, would be cut.
pub const AT_A_TIME: usize = 8;

/// What came by an interface.
#[derive(Debug, Clone, Copy, PartialEq, Eq)]
pub struct Packet<'a> {
    /// Its octets, as many as were read.
    pub octets: &'a [u8],
    /// Whether it was longer.
    pub is_cut: bool,
    /// Whether this machine sent it.
    pub is_outgoing: bool,
    /// Whether the kernel took a VLAN's tag off.
    pub had_tag: bool,
    /// Whether its checksum was left to an interface.
    pub has_no_checksum: bool,
    /// When it came, by the wall clock, if the kernel says it.
    pub arrived: Option<Duration>,
}

/// By which packets come and go.
pub trait Port {
    /// By which one waits for it, unless it was closed.
    fn descriptor(&self) -> Option<BorrowedFd<'_>>;
    fn interface(&self) -> &str;
    /// Reads as many packets as wait and fit, and answers how many: fewer than were asked for if no more wait.
    fn receive(&mut self, batch: &mut Batch) -> io::Result<usize>;
    /// Sends the first so many of these frames as the interface has room for, and answers how many. An error is of the
    /// first one alone: `WouldBlock` if there is no room.
    fn send(&mut self, frames: &[&[u8]]) -> io::Result<usize>;
    /// Hears from now on only what a filter lets through.
    fn set_filter(&mut self, filter: &[sock_filter]) -> io::Result<()>;
    /// How many packets the kernel has dropped here so far, since nobody read them.
    fn count_dropped(&mut self) -> u64;
    /// How many octets the interface was given and hasn't sent yet, what the kernel keeps beside them included.
    fn unsent(&self) -> io::Result<usize>;
    fn link(&self) -> io::Result<Link> {
        Ok(Link::Up)
    }
    /// Forgets that the interface was down, if nobody was told that yet.
    fn forget_fault(&self) {}
    /// Gives the interface up: nothing is heard or sent by it any more, and it has no descriptor. What is read or sent
    /// from then on is refused as by an interface that is down. A port without a socket has nothing to close.
    fn close(&mut self) {}
}

/// What is made of a socket that was handed over.
pub trait OfSocket: Port {
    fn of(interface: &str, socket: OwnedFd) -> Self;
}
