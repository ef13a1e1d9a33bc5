//! Frames that several tests use, and a port that keeps what is sent by it.
use std::io::{self, Read, Write};
use std::os::unix::io::BorrowedFd;
use std::os::unix::net::UnixStream;

use libc::sock_filter;

use crate::formats::frames::Address;
use crate::network::Network;
use crate::os::batch::Batch;
use crate::os::clock::{Duration, Instant};
use crate::os::port::Port;

pub const OURS: Address = Address::of([2, 0, 0, 0, 1, 1]);
pub const OTHER: Address = Address::of([2, 0, 0, 0, 1, 2]);
pub const STATION: Address = Address::of([2, 0xaa, 0, 0, 0, 1]);
pub const STRANGER: Address = Address::of([2, 0xbb, 0, 0, 0, 1]);

/// The shortest time that moments differ by.
pub const NANOSECOND: Duration = Duration::from_nanos(1);

/// The moment that is so long after the start of the machine.
pub fn at(time: Duration) -> Instant {
    Instant::START + time
}

/// A network of this address, without a wire.
pub fn network(bssid: Address) -> Network {
    Network {
        bssid,
        ssid: b"lab".to_vec(),
        rates: vec![0x82],
        max_stations: 100,
        max_known: 100,
        quota: 100,
        wire: None,
        relays: true,
        weight: 1,
    }
}

/// A frame with a header of three addresses: of data from a station to one of our networks unless said otherwise.
#[derive(Debug, Clone)]
pub struct Unit {
    pub control: [u8; 2],
    pub receiver: Address,
    pub transmitter: Address,
    pub sequence: u16,
    pub body: Vec<u8>,
}

impl Default for Unit {
    fn default() -> Unit {
        Unit { control: [0x08, 0x01], receiver: OURS, transmitter: STATION, sequence: 0x10, body: b"body".to_vec() }
    }
}

impl Unit {
    pub fn octets(&self) -> Vec<u8> {
        let mut octets = self.control.to_vec();
        octets.extend([0, 0]);
        for address in [self.receiver, self.transmitter, Address::BROADCAST] {
            octets.extend(address.octets());
        }
        octets.extend(self.sequence.to_le_bytes());
        octets.extend(&self.body);
        octets
    }
}

/// The octets of a unit of data from a station.
pub fn data() -> Vec<u8> {
    Unit::default().octets()
}

/// A frame between a network and a station.
pub fn frame_of(control: [u8; 2], receiver: Address, transmitter: Address, bssid: Address, body: &[u8]) -> Vec<u8> {
    let addresses = [receiver, transmitter, bssid].map(|address| *address.octets()).concat();
    [&control[..], &[0, 0], &addresses, &[0x10, 0], body].concat()
}

/// A frame of a network to a station.
pub fn of_network(bssid: Address, station: Address, control: u8, body: &[u8]) -> Vec<u8> {
    frame_of([control, 0], station, bssid, bssid, body)
}

/// A made-up address of this number.
pub fn made_up(number: usize) -> Address {
    let [.., high, low] = number.to_be_bytes();
    Address::of([2, 9, 0, 0, high, low])
}

/// A frame as a monitor interface gives it: the first word of fields, and their octets.
pub fn radiotap(frame: &[u8], present: u32, fields: &[u8]) -> Vec<u8> {
    let length = 8 + fields.len() as u16;
    let mut packet = vec![0, 0];
    packet.extend(length.to_le_bytes());
    packet.extend(present.to_le_bytes());
    packet.extend(fields);
    packet.extend(frame);
    packet
}

/// Tells that this test can't run here, past what the test's runner keeps back, so that whoever counts the tests that
/// passed can leave this one out.
pub fn tell_not_run(why: &str) {
    let thread = std::thread::current();
    let mut told = io::stderr();
    writeln!(told, "not run: {}: {why}", thread.name().unwrap_or("a test")).unwrap();
}

/// All that comes by this stream until its other end is closed.
pub fn read_all(mut stream: UnixStream) -> String {
    let mut text = String::new();
    stream.read_to_string(&mut text).unwrap();
    text
}

/// Numbers that look random, always the same from one seed (SplitMix64).
pub struct Seeded(pub u64);

impl Seeded {
    pub fn number(&mut self) -> u64 {
        self.0 = self.0.wrapping_add(0x9e37_79b9_7f4a_7c15);
        let mixed = (self.0 ^ self.0 >> 30).wrapping_mul(0xbf58_476d_1ce4_e5b9);
        let mixed = (mixed ^ mixed >> 27).wrapping_mul(0x94d0_49bb_1331_11eb);
        mixed ^ mixed >> 31
    }

    /// A number below this one.
    pub fn below(&mut self, most: usize) -> usize {
        (self.number() % most.max(1) as u64) as usize
    }
}

/// A port that keeps what is sent by it, or refuses it.
#[derive(Debug, Default)]
pub struct Recorder {
    pub sent: Vec<Vec<u8>>,
    /// How many frames it has room for, if not for all.
    pub room: Option<usize>,
    /// How long a frame may be.
    pub longest: Option<usize>,
    /// The octets that it hasn't sent yet.
    pub unsent: usize,
    pub is_down: bool,
}

impl Port for Recorder {
    fn descriptor(&self) -> Option<BorrowedFd<'_>> {
        None
    }

    fn interface(&self) -> &str {
        "mon0"
    }

    fn receive(&mut self, _: &mut Batch) -> io::Result<usize> {
        Ok(0)
    }

    fn send(&mut self, frames: &[&[u8]]) -> io::Result<usize> {
        if self.is_down {
            return Err(io::Error::from_raw_os_error(libc::ENETDOWN));
        }
        let long = frames.iter().position(|frame| self.longest.map_or(false, |most| frame.len() > most));
        let fitting = frames.len().min(self.room.unwrap_or(usize::MAX)).min(long.unwrap_or(usize::MAX));
        if fitting == 0 {
            let number = if long == Some(0) { libc::EMSGSIZE } else { libc::EAGAIN };
            return Err(io::Error::from_raw_os_error(number));
        }
        self.room = self.room.map(|room| room - fitting);
        self.sent.extend(frames[..fitting].iter().map(|frame| frame.to_vec()));
        Ok(fitting)
    }

    fn set_filter(&mut self, _: &[sock_filter]) -> io::Result<()> {
        Ok(())
    }

    fn count_dropped(&mut self) -> u64 {
        0
    }

    fn unsent(&self) -> io::Result<usize> {
        Ok(self.unsent)
    }
}
