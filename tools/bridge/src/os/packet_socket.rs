//! Packet sockets (packet(7)): those of the monitor interface, one of each wired port, all of which `tools/live` opens
//! and hands over.
#![allow(unsafe_code)]
use std::io;
use std::os::unix::io::{AsFd, AsRawFd, BorrowedFd, OwnedFd};

use libc::{c_int, sock_filter};

use crate::os::batch::Batch;
use crate::os::link::{link_of, Link};
use crate::os::port::{OfSocket, Port, AT_A_TIME};
use crate::os::socket_options::{attach, read_option, unsent_octets, OfNumbers};
use crate::os::system_call::checked;

/// Of <linux/if_packet.h>, and not in the crate libc yet.
const PACKET_STATISTICS: c_int = 6;

/// How many packets came since it was asked last, and how many of them were dropped.
#[repr(C)]
#[derive(Clone, Copy, Default)]
struct Statistics {
    packets: u32,
    drops: u32,
}

// SAFETY: it has two numbers.
unsafe impl OfNumbers for Statistics {}

/// A socket that hears all of an interface and sends whole frames by it.
#[derive(Debug)]
pub struct PacketSocket {
    interface: String,
    /// `None` once it was closed.
    socket: Option<OwnedFd>,
    dropped: u64,
}

impl PacketSocket {
    /// The socket, if it wasn't closed.
    fn open_socket(&self) -> io::Result<BorrowedFd<'_>> {
        self.descriptor().ok_or_else(|| io::Error::from_raw_os_error(libc::ENETDOWN))
    }
}

impl OfSocket for PacketSocket {
    fn of(interface: &str, socket: OwnedFd) -> PacketSocket {
        PacketSocket { interface: interface.to_owned(), socket: Some(socket), dropped: 0 }
    }
}

impl Port for PacketSocket {
    fn descriptor(&self) -> Option<BorrowedFd<'_>> {
        self.socket.as_ref().map(AsFd::as_fd)
    }

    fn interface(&self) -> &str {
        &self.interface
    }

    fn receive(&mut self, batch: &mut Batch) -> io::Result<usize> {
        batch.receive(self.open_socket()?)
    }

    fn send(&mut self, frames: &[&[u8]]) -> io::Result<usize> {
        send_each(self.open_socket()?, frames)
    }

    fn set_filter(&mut self, filter: &[sock_filter]) -> io::Result<()> {
        attach(self.open_socket()?, filter)
    }

    fn count_dropped(&mut self) -> u64 {
        let mut found = Statistics::default();
        if let Some(socket) = self.descriptor() {
            if read_option(socket, libc::SOL_PACKET, PACKET_STATISTICS, &mut found).is_ok() {
                self.dropped += u64::from(found.drops);
            }
        }
        self.dropped
    }

    fn unsent(&self) -> io::Result<usize> {
        unsent_octets(self.open_socket()?)
    }

    fn link(&self) -> io::Result<Link> {
        link_of(self.open_socket()?)
    }

    fn forget_fault(&self) {
        let mut fault: c_int = 0;
        if let Some(socket) = self.descriptor() {
            // The kernel forgets it by telling it.
            let _ = read_option(socket, libc::SOL_SOCKET, libc::SO_ERROR, &mut fault);
        }
    }

    fn close(&mut self) {
        self.count_dropped();
        self.socket = None;
    }
}

/// Sends frames, each by a call of its own without an address: one that sends several may name another interface for
/// each, and the kernel asks for no right then, so the bridge's list of calls has none (`seccomp`).
fn send_each(socket: BorrowedFd<'_>, frames: &[&[u8]]) -> io::Result<usize> {
    let mut number = 0;
    for frame in frames.iter().take(AT_A_TIME) {
        // SAFETY: the kernel reads as many octets as the frame has.
        let sent = unsafe { libc::send(socket.as_raw_fd(), frame.as_ptr().cast(), frame.len(), libc::MSG_DONTWAIT) };
        match checked(sent) {
            Ok(_) => number += 1,
            Err(fault) if number == 0 => return Err(fault),
            Err(_) => break,
        }
    }
    Ok(number)
}

/// A socket of an interface, as `tools/live` opens one.
#[cfg(test)]
pub fn open(interface: &str) -> io::Result<PacketSocket> {
    use crate::os::socket_options::set_option;
    use std::mem::{size_of, zeroed};
    use std::os::unix::io::FromRawFd;

    const PACKET_AUXDATA: c_int = 8;
    const PACKET_IGNORE_OUTGOING: c_int = 23;
    let name = std::ffi::CString::new(interface)?;
    // SAFETY: the name ends with its zero octet.
    let index = unsafe { libc::if_nametoindex(name.as_ptr()) } as c_int;
    let kind = libc::SOCK_RAW | libc::SOCK_NONBLOCK | libc::SOCK_CLOEXEC;
    // SAFETY: no memory is handed over; the descriptor is owned from here on.
    let socket = unsafe { OwnedFd::from_raw_fd(checked(libc::socket(libc::AF_PACKET, kind, 0))?) };
    let one: c_int = 1;
    let room: c_int = 1 << 16;
    set_option(socket.as_fd(), libc::SOL_SOCKET, libc::SO_SNDBUFFORCE, &room)?;
    set_option(socket.as_fd(), libc::SOL_SOCKET, libc::SO_TIMESTAMPNS, &one)?;
    set_option(socket.as_fd(), libc::SOL_PACKET, PACKET_AUXDATA, &one)?;
    set_option(socket.as_fd(), libc::SOL_PACKET, PACKET_IGNORE_OUTGOING, &one)?;
    // SAFETY: all zero is an address.
    let mut address: libc::sockaddr_ll = unsafe { zeroed() };
    address.sll_family = libc::AF_PACKET as u16;
    address.sll_protocol = (libc::ETH_P_ALL as u16).to_be();
    address.sll_ifindex = index;
    let (place, length) = (&address as *const libc::sockaddr_ll, size_of::<libc::sockaddr_ll>() as u32);
    // SAFETY: the kernel reads an address, whose length is its own.
    checked(unsafe { libc::bind(socket.as_raw_fd(), place.cast(), length) })?;
    Ok(PacketSocket::of(interface, socket))
}

#[cfg(test)]
#[path = "packet_socket_test.rs"]
mod tests;
