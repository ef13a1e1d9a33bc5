//! Headers of messages, and what the kernel says beside one (recvmsg(2), cmsg(3)).
#![allow(unsafe_code)]
use std::mem::{align_of, size_of, zeroed};

use libc::{c_int, cmsghdr, iovec, mmsghdr};

/// The header of a control message: its length, its level and its type.
const HEADER_LEN: usize = size_of::<usize>() + 2 * size_of::<c_int>();
const _: () = assert!(size_of::<cmsghdr>() == HEADER_LEN && align_of::<cmsghdr>() == size_of::<usize>());

/// Room for control messages, aligned as they are.
#[repr(C, align(8))]
#[derive(Debug, Clone)]
pub struct ControlRoom<const LEN: usize>(pub [u8; LEN]);

/// What the kernel says beside a message.
#[derive(Debug, Clone, Copy, PartialEq, Eq)]
pub struct ControlMessage<'a> {
    pub level: c_int,
    pub kind: c_int,
    pub content: &'a [u8],
}

/// The header of a message of one piece, without an address.
pub fn header_of(vector: &mut iovec) -> mmsghdr {
    // SAFETY: all zero is a header without address, pieces and control messages.
    let mut header: mmsghdr = unsafe { zeroed() };
    header.msg_hdr.msg_iov = vector;
    header.msg_hdr.msg_iovlen = 1;
    header
}

/// The control messages in these octets, which the kernel wrote. One that isn't whole ends them.
pub fn control_messages(octets: &[u8]) -> impl Iterator<Item = ControlMessage<'_>> {
    let mut rest = octets;
    std::iter::from_fn(move || {
        let (length, header) = rest.get(..HEADER_LEN)?.split_at(size_of::<usize>());
        let (level, kind) = header.split_at(size_of::<c_int>());
        let length = usize::from_ne_bytes(length.try_into().ok()?);
        let content = rest.get(HEADER_LEN..length)?;
        let (level, kind) = (level.try_into().ok()?, kind.try_into().ok()?);
        // The next one begins where its length can stand.
        rest = rest.get(aligned(length)..).unwrap_or_default();
        Some(ControlMessage { level: c_int::from_ne_bytes(level), kind: c_int::from_ne_bytes(kind), content })
    })
}

/// So many octets, and as many more as it takes for a whole number of words.
fn aligned(octets: usize) -> usize {
    (octets + size_of::<usize>() - 1) & !(size_of::<usize>() - 1)
}

/// Writes one control message, as the kernel does; answers how many octets it takes.
#[cfg(test)]
pub fn write_control_message(room: &mut [u8], message: ControlMessage<'_>) -> usize {
    let ControlMessage { level, kind, content } = message;
    let length = HEADER_LEN + content.len();
    let octets = [&length.to_ne_bytes()[..], &level.to_ne_bytes(), &kind.to_ne_bytes(), content].concat();
    room[..length].copy_from_slice(&octets);
    aligned(length)
}

#[cfg(test)]
mod tests {
    use super::*;

    #[test]
    fn control_messages_follow_one_another() {
        let mut room = ControlRoom([0; 128]);
        let wanted = [&b"one"[..], b"", b"eight is", b"what is the last one"].map(|content| ControlMessage {
            level: 1,
            kind: content.len() as c_int,
            content,
        });
        let mut end = 0;
        for message in wanted {
            end += write_control_message(&mut room.0[end..], message);
        }
        assert_eq!(control_messages(&room.0[..end]).collect::<Vec<_>>(), wanted);
        // cmsg(3) counts the room of each as the kernel does.
        // SAFETY: it reckons with numbers alone.
        let space: u32 = wanted.iter().map(|one| unsafe { libc::CMSG_SPACE(one.content.len() as u32) }).sum();
        assert_eq!(end, space as usize);
        for cut in 0..end {
            let found: Vec<_> = control_messages(&room.0[..cut]).collect();
            assert!(wanted.starts_with(&found), "{cut}");
        }
    }

    #[test]
    fn a_length_that_cannot_be_ends_them() {
        for length in [0, 1, HEADER_LEN - 1, 33, usize::MAX] {
            let octets = [&length.to_ne_bytes()[..], &[0; 24]].concat();
            assert_eq!(control_messages(&octets).count(), 0, "{length}");
        }
    }
}
