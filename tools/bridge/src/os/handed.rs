//! Descriptors that `tools/live` hands over: by their numbers at the start, and later beside lines (unix(7),
//! SCM_RIGHTS). What this process starts has none of them.
#![allow(unsafe_code)]
use std::collections::VecDeque;
use std::io;
use std::os::unix::io::{AsFd, AsRawFd, FromRawFd, OwnedFd, RawFd};
use std::os::unix::net::{UnixListener, UnixStream};

use libc::iovec;

use crate::os::messages::{control_messages, header_of, ControlMessage, ControlRoom};
use crate::os::socket_options::read_option;
use crate::os::system_call::checked;

/// The room for descriptors that are handed over at a time: those of the radio and of 16 wires fit.
const HANDED_LEN: usize = 256;

/// A descriptor that this process was started with, whose number `tools/live` gave.
pub fn inherited(number: RawFd) -> io::Result<OwnedFd> {
    // SAFETY: no memory is handed over.
    checked(unsafe { libc::fcntl(number, libc::F_SETFD, libc::FD_CLOEXEC) })?;
    // SAFETY: the descriptor is open, and nothing else of this process owns it.
    Ok(unsafe { OwnedFd::from_raw_fd(number) })
}

/// The listening socket that this process was started with.
pub fn inherited_listener(number: RawFd) -> io::Result<UnixListener> {
    let socket = inherited(number)?;
    let mut listens = 0;
    read_option(socket.as_fd(), libc::SOL_SOCKET, libc::SO_ACCEPTCONN, &mut listens)?;
    if listens == 0 {
        return Err(io::Error::from_raw_os_error(libc::EINVAL));
    }
    Ok(socket.into())
}

/// Appends what a socket has to read, and the descriptors that come with it; answers how many octets came, and is
/// refused if none wait. It is a fault of `InvalidData` if more descriptors came than there is room for: the
/// kernel has closed the others.
pub fn receive_handed(
    socket: &UnixStream,
    octets: &mut Vec<u8>,
    descriptors: &mut VecDeque<OwnedFd>,
) -> io::Result<usize> {
    let mut piece = [0u8; 256];
    let mut control = ControlRoom([0; HANDED_LEN]);
    let mut vector = iovec { iov_base: piece.as_mut_ptr().cast(), iov_len: piece.len() };
    let mut header = header_of(&mut vector).msg_hdr;
    header.msg_control = control.0.as_mut_ptr().cast();
    header.msg_controllen = HANDED_LEN as _;
    let flags = libc::MSG_DONTWAIT | libc::MSG_CMSG_CLOEXEC;
    // SAFETY: the header points to a piece and to room for control messages, both as long as it says.
    let found = checked(unsafe { libc::recvmsg(socket.as_raw_fd(), &mut header, flags) })? as usize;
    octets.extend(&piece[..found]);
    let (length, flags) = (header.msg_controllen as usize, header.msg_flags);
    for message in control_messages(&control.0[..length.min(HANDED_LEN)]).filter(is_of_descriptors) {
        let numbers = message.content.chunks_exact(4).filter_map(|octets| octets.try_into().ok());
        // SAFETY: the kernel has just opened each of these descriptors, for nobody else.
        descriptors.extend(numbers.map(|octets| unsafe { OwnedFd::from_raw_fd(RawFd::from_ne_bytes(octets)) }));
    }
    if flags & libc::MSG_CTRUNC != 0 {
        return Err(io::ErrorKind::InvalidData.into());
    }
    Ok(found)
}

fn is_of_descriptors(message: &ControlMessage<'_>) -> bool {
    (message.level, message.kind) == (libc::SOL_SOCKET, libc::SCM_RIGHTS)
}

/// Writes octets, and hands over descriptors with them, as `tools/live` does.
#[cfg(test)]
pub fn hand(socket: &UnixStream, octets: &[u8], descriptors: &[OwnedFd]) -> io::Result<()> {
    use crate::os::messages::write_control_message;

    let content: Vec<u8> = descriptors.iter().flat_map(|descriptor| descriptor.as_raw_fd().to_ne_bytes()).collect();
    let mut control = ControlRoom([0; 2 * HANDED_LEN]);
    let mut vector = iovec { iov_base: octets.as_ptr() as *mut libc::c_void, iov_len: octets.len() };
    let mut header = header_of(&mut vector).msg_hdr;
    let message = ControlMessage { level: libc::SOL_SOCKET, kind: libc::SCM_RIGHTS, content: &content };
    header.msg_controllen = write_control_message(&mut control.0, message) as _;
    header.msg_control = control.0.as_mut_ptr().cast();
    // SAFETY: the header points to the octets and to a control message, both as long as it says.
    checked(unsafe { libc::sendmsg(socket.as_raw_fd(), &header, 0) }).map(drop)
}
