//! The packets that are read by one call, and what the kernel says beside each of them.
#![allow(unsafe_code)]
use crate::os::clock::Duration;
use std::io;
use std::mem::{size_of, zeroed};
use std::os::unix::io::{AsRawFd, BorrowedFd};
use std::ptr::null_mut;

use libc::{c_int, iovec, mmsghdr, sockaddr_ll, time_t};

use crate::os::messages::{control_messages, header_of, ControlRoom};
use crate::os::port::{Packet, AT_A_TIME};
use crate::os::system_call::checked;

/// The octets that are read of a packet: a frame that goes on has fewer, with its header of radiotap.
const PACKET_LEN: usize = 8192;
const CONTROL_LEN: usize = 128;
// What follows is of <linux/if_packet.h>, and not in the crate libc yet.
const NO_CHECKSUM: u32 = 1 << 3;
const HAD_TAG: u32 = 1 << 4;
const OUTGOING: u8 = 4;
const PACKET_AUXDATA: c_int = 8;

/// Room for the packets of one call, and what it read.
pub struct Batch {
    octets: Vec<u8>,
    controls: Vec<ControlRoom<CONTROL_LEN>>,
    addresses: Vec<sockaddr_ll>,
    /// Points into the three before, and is pointed to by `headers`: none of them ever grows.
    vectors: Vec<iovec>,
    headers: Vec<mmsghdr>,
    used: usize,
    most: usize,
}

impl Batch {
    /// Room, in which nothing was read.
    pub fn new() -> Batch {
        let mut octets = vec![0; AT_A_TIME * PACKET_LEN];
        let mut controls = vec![ControlRoom([0; CONTROL_LEN]); AT_A_TIME];
        // SAFETY: all zero is an address.
        let mut addresses: Vec<sockaddr_ll> = vec![unsafe { zeroed() }; AT_A_TIME];
        let mut vectors: Vec<iovec> = octets
            .chunks_mut(PACKET_LEN)
            .map(|piece| iovec { iov_base: piece.as_mut_ptr().cast(), iov_len: piece.len() })
            .collect();
        let headers = vectors
            .iter_mut()
            .zip(&mut addresses)
            .zip(&mut controls)
            .map(|((vector, address), control)| {
                let mut header = header_of(vector);
                header.msg_hdr.msg_name = (address as *mut sockaddr_ll).cast();
                header.msg_hdr.msg_control = control.0.as_mut_ptr().cast();
                header
            })
            .collect();
        Batch { octets, controls, addresses, vectors, headers, used: AT_A_TIME, most: AT_A_TIME }
    }

    /// So many packets are read by a call from now on, `AT_A_TIME` at most.
    pub fn ask_for(&mut self, most: usize) {
        self.most = most.min(AT_A_TIME);
    }

    /// Reads as many packets of a socket as wait and fit.
    pub fn receive(&mut self, socket: BorrowedFd<'_>) -> io::Result<usize> {
        debug_assert_eq!(self.vectors.len(), AT_A_TIME);
        for header in &mut self.headers[..self.used] {
            header.msg_hdr.msg_namelen = size_of::<sockaddr_ll>() as u32;
            header.msg_hdr.msg_controllen = CONTROL_LEN as _;
            header.msg_hdr.msg_flags = 0;
        }
        self.used = 0;
        let flags = libc::MSG_DONTWAIT | libc::MSG_TRUNC;
        let (socket, first, most) = (socket.as_raw_fd(), self.headers.as_mut_ptr(), self.most as u32);
        // SAFETY: each header points to room of this batch, as long as it says; none of it moved since `new`.
        match checked(unsafe { libc::recvmmsg(socket, first, most, flags as _, null_mut()) }) {
            Ok(found) => self.used = found as usize,
            Err(fault) if fault.kind() == io::ErrorKind::WouldBlock => {}
            Err(fault) => return Err(fault),
        }
        Ok(self.used)
    }

    pub fn packets(&self) -> impl Iterator<Item = Packet<'_>> {
        (0..self.used).map(move |place| self.packet(place))
    }

    fn packet(&self, place: usize) -> Packet<'_> {
        let length = self.headers[place].msg_len as usize;
        let begin = place * PACKET_LEN;
        let (status, arrived) = self.auxiliary(place);
        Packet {
            octets: &self.octets[begin..begin + length.min(PACKET_LEN)],
            is_cut: length > PACKET_LEN,
            is_outgoing: self.addresses[place].sll_pkttype == OUTGOING,
            had_tag: status & HAD_TAG != 0,
            has_no_checksum: status & NO_CHECKSUM != 0,
            arrived,
        }
    }

    /// What the kernel says beside a packet: its status, and when it came. If there was no room for all of that, some of
    /// it is missing.
    fn auxiliary(&self, place: usize) -> (u32, Option<Duration>) {
        let length = self.headers[place].msg_hdr.msg_controllen as usize;
        let (mut status, mut arrived) = (0, None);
        for message in control_messages(&self.controls[place].0[..length.min(CONTROL_LEN)]) {
            match (message.level, message.kind) {
                (libc::SOL_PACKET, PACKET_AUXDATA) => status = status_of(message.content).unwrap_or(status),
                (libc::SOL_SOCKET, libc::SCM_TIMESTAMPNS) => arrived = time_of(message.content),
                _ => {}
            }
        }
        (status, arrived)
    }
}

/// The status of a packet, with which its `tpacket_auxdata` begins.
fn status_of(content: &[u8]) -> Option<u32> {
    Some(u32::from_ne_bytes(content.get(..4)?.try_into().ok()?))
}

/// A time, as a `timespec` has it.
fn time_of(content: &[u8]) -> Option<Duration> {
    const SECONDS_LEN: usize = size_of::<time_t>();
    let seconds = time_t::from_ne_bytes(content.get(..SECONDS_LEN)?.try_into().ok()?);
    let nanos = libc::c_long::from_ne_bytes(content.get(SECONDS_LEN..)?.try_into().ok()?);
    Some(Duration::new(seconds as u64, nanos as u32))
}

#[cfg(test)]
mod tests {
    use super::*;

    #[test]
    fn what_stands_beside_a_packet_is_read_and_what_is_cut_is_not() {
        let status = [(HAD_TAG | 1).to_ne_bytes(), [7; 4], [7; 4], [7; 4], [7; 4]].concat();
        assert_eq!(status_of(&status), Some(HAD_TAG | 1));
        assert_eq!(status_of(&status[..3]), None);
        let seconds: time_t = 1_700_000_000;
        let time = [&seconds.to_ne_bytes()[..], &(999_999_999 as libc::c_long).to_ne_bytes()].concat();
        assert_eq!(time.len(), size_of::<libc::timespec>());
        assert_eq!(time_of(&time), Some(Duration::new(1_700_000_000, 999_999_999)));
        assert_eq!(time_of(&time[..time.len() - 1]), None);
    }
}
