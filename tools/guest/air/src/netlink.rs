//! Messages of generic netlink: how they are laid out, and a socket that carries them.
//!
//! A message is a header of 16 octets, a generic header of 4 and attributes, each of which is its length, its kind and
//! its octets, padded to a multiple of four. Numbers are in this machine's order. (Linux, `linux/netlink.h` and
//! `linux/genetlink.h`.)

use std::fs::File;
use std::io::{self, Read, Write};
use std::os::unix::io::FromRawFd;

const HEADER_LEN: usize = 16;
const GENERIC_LEN: usize = 4;
const ATTRIBUTE_LEN: usize = 4;
const KIND_AT: usize = 4;
const ERROR: u16 = 2;
const REQUEST: u16 = 1;
const CONTROL_FAMILY: u16 = 16;
const GET_FAMILY: u8 = 3;
const FAMILY_ID: u16 = 1;
const FAMILY_NAME: u16 = 2;
/// Flags of an attribute's kind: nested, and in the network's order.
const KIND_MASK: u16 = 0x3fff;
const MOST: usize = 1 << 16;
const BUFFER: libc::c_int = 8 << 20;

fn padded(len: usize) -> usize {
    (len + 3) & !3
}

/// A message that is being written.
pub struct Message(Vec<u8>);

impl Message {
    /// A request to this family.
    pub fn new(family: u16, command: u8) -> Message {
        let mut octets = vec![0; HEADER_LEN + GENERIC_LEN];
        octets[KIND_AT..KIND_AT + 2].copy_from_slice(&family.to_ne_bytes());
        octets[KIND_AT + 2..KIND_AT + 4].copy_from_slice(&REQUEST.to_ne_bytes());
        octets[HEADER_LEN] = command;
        octets[HEADER_LEN + 1] = 1;
        Message(octets)
    }

    /// The message with one more attribute.
    #[must_use]
    pub fn with(mut self, kind: u16, octets: &[u8]) -> Message {
        let len = u16::try_from(ATTRIBUTE_LEN + octets.len()).expect("an attribute has at most 65,531 octets");
        self.0.extend_from_slice(&len.to_ne_bytes());
        self.0.extend_from_slice(&kind.to_ne_bytes());
        self.0.extend_from_slice(octets);
        self.0.resize(padded(self.0.len()), 0);
        self
    }

    /// The whole message, with its length.
    pub fn octets(mut self) -> Vec<u8> {
        let len = u32::try_from(self.0.len()).expect("a message has fewer than 2^32 octets");
        self.0[..4].copy_from_slice(&len.to_ne_bytes());
        self.0
    }
}

/// A message that was read.
#[derive(Debug, PartialEq, Eq)]
pub enum Heard<'a> {
    /// The kernel refused what was asked, with this number of an error; 0 confirms it.
    Answer(i32),
    /// A message of a family.
    Generic { command: u8, attributes: Attributes<'a> },
}

/// The attributes of a message.
#[derive(Clone, Copy, Debug, PartialEq, Eq)]
pub struct Attributes<'a>(&'a [u8]);

impl<'a> Attributes<'a> {
    /// The octets of the first attribute of a kind, or None.
    pub fn get(self, wanted: u16) -> Option<&'a [u8]> {
        self.into_iter().find_map(|(kind, octets)| (kind == wanted).then_some(octets))
    }

    /// An attribute of exactly N octets.
    pub fn array<const N: usize>(self, wanted: u16) -> Option<[u8; N]> {
        self.get(wanted)?.try_into().ok()
    }
}

impl<'a> Iterator for Attributes<'a> {
    type Item = (u16, &'a [u8]);

    fn next(&mut self) -> Option<(u16, &'a [u8])> {
        let len = usize::from(number(self.0.get(..2)?));
        let kind = number(self.0.get(2..ATTRIBUTE_LEN)?) & KIND_MASK;
        let octets = self.0.get(ATTRIBUTE_LEN..len)?;
        self.0 = self.0.get(padded(len)..).unwrap_or(&[]);
        Some((kind, octets))
    }
}

fn number(octets: &[u8]) -> u16 {
    octets.try_into().map_or(0, u16::from_ne_bytes)
}

/// The messages of one datagram, up to the first that is cut.
pub fn messages(datagram: &[u8]) -> impl Iterator<Item = Heard<'_>> {
    let mut rest = datagram;
    std::iter::from_fn(move || {
        let len = u32::from_ne_bytes(rest.get(..4)?.try_into().ok()?) as usize;
        let message = rest.get(..len)?;
        let body = message.get(HEADER_LEN..)?;
        rest = rest.get(padded(len)..).unwrap_or(&[]);
        if number(&message[KIND_AT..KIND_AT + 2]) == ERROR {
            return Some(Heard::Answer(i32::from_ne_bytes(body.get(..4)?.try_into().ok()?)));
        }
        Some(Heard::Generic { command: *body.first()?, attributes: Attributes(body.get(GENERIC_LEN..)?) })
    })
}

/// A socket of generic netlink.
pub struct Socket(File);

impl Socket {
    /// Opens one, with room for what comes while this program is busy.
    pub fn open() -> io::Result<Socket> {
        // SAFETY: `socket` takes three numbers; what it answers is a new descriptor, which only this `File` owns, or -1.
        let file = unsafe {
            let descriptor = libc::socket(libc::AF_NETLINK, libc::SOCK_RAW | libc::SOCK_CLOEXEC, libc::NETLINK_GENERIC);
            if descriptor < 0 {
                return Err(io::Error::last_os_error());
            }
            let room = BUFFER;
            let len = std::mem::size_of_val(&room) as libc::socklen_t;
            // Without it the buffer is as small as the kernel makes it: no fault.
            libc::setsockopt(descriptor, libc::SOL_SOCKET, libc::SO_RCVBUFFORCE, std::ptr::addr_of!(room).cast(), len);
            File::from_raw_fd(descriptor)
        };
        Ok(Socket(file))
    }

    /// The same socket for another thread.
    pub fn share(&self) -> io::Result<Socket> {
        self.0.try_clone().map(Socket)
    }

    /// Sends a message to the kernel.
    pub fn send(&self, message: Message) -> io::Result<()> {
        (&self.0).write_all(&message.octets())
    }

    /// The next datagram.
    pub fn receive(&self) -> io::Result<Vec<u8>> {
        let mut octets = vec![0; MOST];
        let len = (&self.0).read(&mut octets)?;
        octets.truncate(len);
        Ok(octets)
    }

    /// The number of a family.
    pub fn family(&self, name: &str) -> io::Result<u16> {
        let name = [name.as_bytes(), &[0]].concat();
        self.send(Message::new(CONTROL_FAMILY, GET_FAMILY).with(FAMILY_NAME, &name))?;
        let datagram = self.receive()?;
        let found = messages(&datagram).find_map(|message| match message {
            Heard::Generic { attributes, .. } => attributes.array(FAMILY_ID).map(u16::from_ne_bytes),
            Heard::Answer(_) => None,
        });
        found.ok_or_else(|| io::Error::new(io::ErrorKind::NotFound, "the kernel has no such family"))
    }
}

#[cfg(test)]
mod tests {
    use super::*;

    fn attributes(octets: &[u8]) -> Attributes<'_> {
        match messages(octets).next() {
            Some(Heard::Generic { command: 2, attributes }) => attributes,
            other => panic!("{other:?}"),
        }
    }

    #[test]
    fn attributes_come_back_as_they_were_written() {
        let octets = Message::new(29, 2).with(3, &[1, 2, 3]).with(8, &7u64.to_ne_bytes()).octets();
        let found = attributes(&octets);
        assert_eq!(found.get(3), Some(&[1, 2, 3][..]));
        assert_eq!(found.array(8).map(u64::from_ne_bytes), Some(7));
        assert_eq!(found.get(4), None);
        assert_eq!(found.array::<4>(8), None);
    }

    #[test]
    fn a_datagram_may_have_several_messages_and_end_in_a_cut_one() {
        let one = Message::new(29, 2).with(3, &[1]).octets();
        let mut octets = [one.clone(), one].concat();
        octets.extend_from_slice(&[40, 0, 0, 0, 29, 0]);
        assert_eq!(messages(&octets).count(), 2);
    }

    #[test]
    fn every_cut_of_a_message_ends_well() {
        let whole = Message::new(29, 2).with(3, &[1, 2, 3, 4, 5]).octets();
        for len in 0..whole.len() {
            assert_eq!(messages(&whole[..len]).count(), 0);
        }
    }

    #[test]
    fn an_attribute_whose_length_is_too_small_or_too_large_ends_the_list() {
        for len in [0u8, 1, 3, 200] {
            let mut octets = Message::new(29, 2).with(3, &[9]).octets();
            octets[HEADER_LEN + GENERIC_LEN] = len;
            assert_eq!(attributes(&octets).get(3), None);
        }
    }

    #[test]
    fn a_refusal_is_known() {
        let mut octets = Message::new(ERROR, 0).octets();
        octets[HEADER_LEN..HEADER_LEN + 4].copy_from_slice(&(-16i32).to_ne_bytes());
        assert_eq!(messages(&octets).next(), Some(Heard::Answer(-16)));
    }
}
