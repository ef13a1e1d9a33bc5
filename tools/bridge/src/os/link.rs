//! Whether the interface of a packet socket is up, or gone (packet(7), netdevice(7)). What is unsafe here are these
//! calls of the system.
#![allow(unsafe_code)]
use std::io;
use std::mem::{size_of, zeroed};
use std::os::unix::io::{AsRawFd, BorrowedFd};

use libc::{c_int, c_ulong, ifreq, sockaddr_ll};

use crate::os::system_call::checked;

/// What is asked of an interface by ioctl(2): its name, and whether it is up.
pub(super) const ASKED: [c_ulong; 2] = [libc::SIOCGIFNAME, libc::SIOCGIFFLAGS];

#[derive(Debug, Clone, Copy, PartialEq, Eq)]
pub enum Link {
    /// Frames go.
    Up,
    /// None go until it is up. The socket hears and sends again then.
    Down,
    /// It was deleted, and the socket is of no use any more, whatever has its name now.
    Gone,
}

/// How the interface is that a packet socket was bound to.
pub(super) fn link_of(socket: BorrowedFd<'_>) -> io::Result<Link> {
    let index = index_of(socket)?;
    if index < 0 {
        return Ok(Link::Gone);
    }
    // SAFETY: all zero is a question.
    let mut question: ifreq = unsafe { zeroed() };
    question.ifr_ifru.ifru_ifindex = index;
    // It may have another name than it had.
    for what in ASKED {
        // SAFETY: the kernel reads and writes a whole question.
        checked(unsafe { libc::ioctl(socket.as_raw_fd(), what as _, &mut question as *mut ifreq) })?;
    }
    // SAFETY: of the values of an answer the kernel has left the flags, and any octets are such.
    let flags = unsafe { question.ifr_ifru.ifru_flags };
    Ok(if c_int::from(flags) & libc::IFF_UP != 0 { Link::Up } else { Link::Down })
}

/// The number of the interface, which is -1 once it was deleted.
fn index_of(socket: BorrowedFd<'_>) -> io::Result<c_int> {
    let mut length = size_of::<sockaddr_ll>() as u32;
    // SAFETY: all zero is an address.
    let mut address: sockaddr_ll = unsafe { zeroed() };
    let place: *mut sockaddr_ll = &mut address;
    // SAFETY: the kernel writes at most `length` octets into the address, which is as long.
    checked(unsafe { libc::getsockname(socket.as_raw_fd(), place.cast(), &mut length) })?;
    Ok(address.sll_ifindex)
}

#[cfg(test)]
mod tests {
    use super::*;
    use crate::control::faults::is_down;
    use crate::os::batch::Batch;
    use crate::os::packet_socket::{open, PacketSocket};
    use crate::os::port::Port;
    use crate::testing::samples::tell_not_run;
    use std::process::Command;
    use std::thread;
    use std::time::{Duration, Instant};

    /// Whether ip(8) does this in the network namespace of this thread.
    fn ip(words: &str) -> bool {
        Command::new("ip").args(words.split(' ')).status().map_or(false, |status| status.success())
    }

    /// Does this in a network namespace of its own, with two interfaces that are wired to one another.
    fn wired(does: impl FnOnce() + Send) {
        let is_run = thread::scope(|scope| {
            let alone = scope.spawn(|| {
                // SAFETY: no memory is handed over.
                let is_alone = unsafe { libc::unshare(libc::CLONE_NEWNET) } == 0;
                let is_wired = is_alone
                    && ["link add near type veth peer name far", "link set near up", "link set far up"].map(ip)
                        == [true; 3];
                is_wired.then(does).is_some()
            });
            alone.join().unwrap()
        });
        if !is_run {
            tell_not_run("no network namespace with interfaces here, which takes root and ip");
        }
    }

    /// Whether a frame with this mark comes within a while; it is sent again and again, since the other end of a wire
    /// takes its time to see that this one is up.
    fn hears(socket: &mut PacketSocket, from: &mut PacketSocket, mark: &[u8]) -> bool {
        let (mut batch, begun) = (Batch::new(), Instant::now());
        while begun.elapsed() < Duration::from_secs(5) {
            let _ = from.send(&[&ethernet(mark)]);
            thread::sleep(Duration::from_millis(5));
            socket.receive(&mut batch).unwrap();
            if batch.packets().any(|packet| packet.octets.ends_with(mark)) {
                return true;
            }
        }
        false
    }

    fn ethernet(mark: &[u8]) -> Vec<u8> {
        [&[0xff; 12][..], &[0x88, 0xb5], &[0; 40], mark].concat()
    }

    #[test]
    fn an_interface_is_up_or_down_or_gone() {
        wired(|| {
            let socket = open("near").unwrap();
            assert_eq!(socket.link().unwrap(), Link::Up);
            assert!(ip("link set near down"));
            assert_eq!(socket.link().unwrap(), Link::Down);
            assert!(ip("link set near name other") && ip("link set other up"));
            assert_eq!(socket.link().unwrap(), Link::Up);
            assert!(ip("link del other") && ip("link add other type veth peer name far") && ip("link set other up"));
            assert_eq!(socket.link().unwrap(), Link::Gone);
        });
    }

    /// It says once that its interface was down, and one that nobody reads says it of the next frame, unless it
    /// forgets.
    #[test]
    fn a_socket_hears_and_sends_again_once_its_interface_is_up() {
        wired(|| {
            let [mut near, mut beside, far] = ["near", "near", "far"].map(|name| open(name).unwrap());
            let mut far = far;
            let is_refused = |socket: &mut PacketSocket| is_down(&socket.send(&[&ethernet(b"refused")]).unwrap_err());
            for forgets in [false, true] {
                assert!(ip("link set near down"));
                assert!(is_down(&near.receive(&mut Batch::new()).unwrap_err()));
                assert!(near.receive(&mut Batch::new()).is_ok());
                assert!(is_refused(&mut near));
                assert!(ip("link set near up"));
                assert_eq!(near.send(&[&ethernet(b"near")]).unwrap(), 1);
                assert!(hears(&mut far, &mut near, b"near"));
                if forgets {
                    beside.forget_fault();
                } else {
                    assert!(is_refused(&mut beside));
                }
                assert_eq!(beside.send(&[&ethernet(b"beside")]).unwrap(), 1);
                assert!(hears(&mut far, &mut beside, b"beside"));
                assert!(hears(&mut near, &mut far, b"far") && hears(&mut beside, &mut far, b"far"));
            }
        });
    }
}
