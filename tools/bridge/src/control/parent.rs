//! What `tools/live`, which started the bridge, asks for: lines of a Unix socket, which is the bridge's standard input.
//! Beside its lines it hands over descriptors (unix(7), SCM_RIGHTS): the sockets of the interfaces, which the bridge may
//! not open itself.
use std::collections::VecDeque;
use std::io::ErrorKind;
use std::os::unix::io::{AsFd, BorrowedFd, OwnedFd};
use std::os::unix::net::UnixStream;

use crate::control::faults::Fault;
use crate::os::handed::receive_handed;

/// How many octets of a line are kept at most, and how many descriptors that no line has named.
pub const MOST_OCTETS: usize = 1024;
const MOST_DESCRIPTORS: usize = 64;
/// The sockets of the radio: what it hears, its beacons, and what it shows as acknowledged.
const OF_RADIO: usize = 3;
/// The files of the state.
const OF_STATE: usize = 2;

/// The sockets of the interfaces.
#[derive(Debug)]
pub struct Handed {
    /// Those of the radio, in order, and then one of each wire that is there.
    pub sockets: Vec<OwnedFd>,
    /// The places of the networks with these wires, in the order of their sockets.
    pub wires: Vec<usize>,
}

/// What `tools/live` asks for.
#[derive(Debug)]
pub enum Request {
    /// In these files is what an earlier bridge left of stations, and this one leaves it there too.
    State([OwnedFd; OF_STATE]),
    /// The interfaces are there: from now on frames go.
    Open(Handed),
    /// The wire of the network of this place is there, or there again.
    Wire(usize, OwnedFd),
    /// The tables are to be shown.
    Tables,
    /// All stations of the networks of these places are to be told that they have to join again.
    Dismiss(Vec<usize>),
    /// The bridge is to end.
    End,
}

/// Reads requests as they come.
#[derive(Debug)]
pub struct Requests {
    input: UnixStream,
    octets: Vec<u8>,
    descriptors: VecDeque<OwnedFd>,
    has_ended: bool,
}

impl Requests {
    /// Of this socket, by which nobody is kept waiting.
    pub fn new(input: UnixStream) -> Requests {
        Requests { input, octets: Vec::new(), descriptors: VecDeque::new(), has_ended: false }
    }

    /// By which one waits for it.
    pub fn descriptor(&self) -> BorrowedFd<'_> {
        self.input.as_fd()
    }

    /// The next request, or `None` if none waits. Other lines are none.
    pub fn next(&mut self) -> Result<Option<Request>, Fault> {
        loop {
            if let Some(place) = self.octets.iter().position(|octet| *octet == b'\n') {
                let line: Vec<u8> = self.octets.drain(..=place).collect();
                match self.read(&String::from_utf8_lossy(&line[..place]))? {
                    None => continue,
                    request => return Ok(request),
                }
            }
            if self.has_ended {
                return Ok(Some(Request::End));
            }
            if self.octets.len() > MOST_OCTETS || self.descriptors.len() > MOST_DESCRIPTORS {
                return Err(Fault::Request("tools/live asks what isn't known".to_owned()));
            }
            match receive_handed(&self.input, &mut self.octets, &mut self.descriptors) {
                Ok(0) => self.has_ended = true,
                Ok(_) => {}
                Err(fault) if fault.kind() == ErrorKind::WouldBlock => return Ok(None),
                Err(fault) if fault.kind() == ErrorKind::Interrupted => {}
                Err(fault) if fault.kind() == ErrorKind::InvalidData => {
                    return Err(Fault::Request("tools/live handed over too many descriptors at a time".to_owned()))
                }
                Err(_) => self.has_ended = true,
            }
        }
    }

    /// The request of a line, with what was handed over beside it.
    fn read(&mut self, line: &str) -> Result<Option<Request>, Fault> {
        let (word, rest) = line.split_once(' ').unwrap_or((line, ""));
        let places: Result<Vec<usize>, _> = rest.split_ascii_whitespace().map(str::parse).collect();
        let places = places.map_err(|_| Fault::Request(format!("tools/live asks what isn't known: {line}")))?;
        Ok(match (word, &places[..]) {
            ("state", []) => <[OwnedFd; OF_STATE]>::try_from(self.take(OF_STATE)?).ok().map(Request::State),
            ("open", _) => Some(Request::Open(Handed { sockets: self.take(OF_RADIO + places.len())?, wires: places })),
            ("wire", [place]) => self.take(1)?.pop().map(|socket| Request::Wire(*place, socket)),
            ("tables", []) => Some(Request::Tables),
            ("dismiss", _) => Some(Request::Dismiss(places)),
            _ => None,
        })
    }

    /// The first so many descriptors that were handed over.
    fn take(&mut self, number: usize) -> Result<Vec<OwnedFd>, Fault> {
        if self.descriptors.len() < number {
            return Err(Fault::Request("tools/live handed over too few descriptors".to_owned()));
        }
        Ok(self.descriptors.drain(..number).collect())
    }
}

#[cfg(test)]
mod tests {
    use super::*;
    use crate::os::handed::hand;
    use std::fs::File;
    use std::io::Write;

    fn nothing() -> OwnedFd {
        File::open("/dev/null").unwrap().into()
    }

    #[test]
    fn requests_are_read_as_they_come() {
        let (input, mut other) = UnixStream::pair().unwrap();
        let mut requests = Requests::new(input);
        assert!(requests.next().unwrap().is_none());
        other.write_all(b"tables\nhello\ndis").unwrap();
        assert!(matches!(requests.next(), Ok(Some(Request::Tables))));
        assert!(matches!(requests.next(), Ok(None)));
        other.write_all(b"miss 0 2\ntables\n").unwrap();
        match requests.next() {
            Ok(Some(Request::Dismiss(places))) => assert_eq!(places, [0, 2]),
            found => panic!("{found:?}"),
        }
        assert!(matches!(requests.next(), Ok(Some(Request::Tables))));
        drop(other);
        assert!(matches!(requests.next(), Ok(Some(Request::End))));
        assert!(matches!(requests.next(), Ok(Some(Request::End))));
    }

    #[test]
    fn descriptors_come_beside_lines() {
        let (input, other) = UnixStream::pair().unwrap();
        let mut requests = Requests::new(input);
        let all: Vec<OwnedFd> = (0..5).map(|_| nothing()).collect();
        hand(&other, b"open 0 2\n", &all).unwrap();
        hand(&other, b"wire 1\n", &[nothing()]).unwrap();
        hand(&other, b"state\n", &[nothing(), nothing()]).unwrap();
        match requests.next() {
            Ok(Some(Request::Open(handed))) => assert_eq!((handed.sockets.len(), &handed.wires[..]), (5, &[0, 2][..])),
            found => panic!("{found:?}"),
        }
        assert!(matches!(requests.next(), Ok(Some(Request::Wire(1, _)))));
        assert!(matches!(requests.next(), Ok(Some(Request::State(_)))));
        assert!(matches!(requests.next(), Ok(None)));
    }

    /// The kernel closes what there is no room for: then none of a line is known for sure.
    #[test]
    fn more_descriptors_than_there_is_room_for_are_refused() {
        let (input, other) = UnixStream::pair().unwrap();
        let mut requests = Requests::new(input);
        let all: Vec<OwnedFd> = (0..64).map(|_| nothing()).collect();
        hand(&other, b"open 0 2\n", &all[..60]).unwrap();
        assert!(matches!(requests.next(), Ok(Some(Request::Open(_)))));
        hand(&other, b"open 0 2\n", &all).unwrap();
        assert!(matches!(requests.next(), Err(Fault::Request(_))));
    }

    #[test]
    fn what_lacks_its_descriptors_or_has_no_end_is_told() {
        for line in [&b"open 0\n"[..], b"wire 1\n", b"state\n", b"dismiss x\n", b"wire x\n", &[b'x'; 3000]] {
            let (input, mut other) = UnixStream::pair().unwrap();
            let mut requests = Requests::new(input);
            other.write_all(line).unwrap();
            assert!(requests.next().is_err(), "{:?}", String::from_utf8_lossy(line));
        }
    }
}
