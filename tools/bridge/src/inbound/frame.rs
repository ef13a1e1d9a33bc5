//! A frame that waits for the program: where it comes from, what it is worth, and how long it is worth to wait.
use std::fmt;

use crate::formats::frames::{Address, Frame, FrameType};
use crate::os::clock::{Duration, Instant};
use crate::spare::copy_of;

/// How long a frame of data waits at most, and a probe request: a station that looks for networks listens on a channel
/// for some 20 to 100 ms.
pub const LONGEST: Duration = Duration::from_millis(50);
/// How long another request waits at most: a station that got no answer asks again after some 100 to 200 ms, and then
/// awaits the answer to what it asked last.
pub(super) const LONGEST_OF_REQUEST: Duration = Duration::from_millis(200);
/// The subtypes of management frames that are looked at (IEEE Std 802.11-2016, table 9-1).
const PROBE_REQUEST: u8 = 4;
const DISASSOCIATION: u8 = 10;
const DEAUTHENTICATION: u8 = 12;

/// Where a frame comes from and whom it is for: the name of its queue.
#[derive(Debug, Clone, Copy, PartialEq, Eq, Hash, PartialOrd, Ord)]
pub enum Source {
    /// From the air, for all networks.
    AirForAll,
    /// From the air, for the network of this place.
    Air(usize),
    /// From the wire of the network of this place.
    Wire(usize),
}

impl Source {
    /// That of a frame of the air, for the network of this place or for all.
    pub fn of_air(network: Option<usize>) -> Source {
        network.map_or(Source::AirForAll, Source::Air)
    }
}

/// A sender and a receiver.
pub(super) type Flow = (Address, Address);

/// What a frame is, in the order of its worth.
#[derive(Debug, Clone, Copy, PartialEq, Eq, Hash, PartialOrd, Ord)]
pub enum Priority {
    /// A probe request: a station looks for networks.
    Probe,
    Data,
    /// Another management frame or a PS-Poll: a station asks for something, or sends what no network reads.
    Request,
    /// A station says what holds from then on: that it leaves, dozes or is awake, be it by a unit of data.
    Notice,
    /// A station leaves for good, or is sent away: the bridge says that by the same frame (`stations`). It is worth
    /// more than notices, so that a station pushes it out by nothing that says that it is there.
    Departure,
}

impl Priority {
    pub const ALL: [Priority; 5] =
        [Priority::Probe, Priority::Data, Priority::Request, Priority::Notice, Priority::Departure];

    /// That of a frame of the air, which changes the mode of its station or doesn't.
    fn of(frame: Frame<'_>, changes_mode: bool) -> Priority {
        match (frame.frame_type(), frame.octets()[0] >> 4) {
            (FrameType::Data, _) if changes_mode || frame.is_null() => Priority::Notice,
            (FrameType::Data, _) => Priority::Data,
            (FrameType::Management, PROBE_REQUEST) => Priority::Probe,
            (FrameType::Management, DISASSOCIATION) => Priority::Notice,
            (FrameType::Management, DEAUTHENTICATION) => Priority::Departure,
            _ => Priority::Request,
        }
    }

    /// How long it is worth to let one wait. A notice and a departure have no end: what they say is as true later, and
    /// isn't said again.
    pub fn longest(self) -> Option<Duration> {
        match self {
            Priority::Probe | Priority::Data => Some(LONGEST),
            Priority::Request => Some(LONGEST_OF_REQUEST),
            Priority::Notice | Priority::Departure => None,
        }
    }
}

impl fmt::Display for Priority {
    fn fmt(&self, to: &mut fmt::Formatter<'_>) -> fmt::Result {
        to.write_str(match self {
            Priority::Probe => "probe requests",
            Priority::Data => "frames of data",
            Priority::Request => "other requests and polls",
            Priority::Notice => "frames by which stations leave, doze or wake",
            Priority::Departure => "deauthentications",
        })
    }
}

#[derive(Debug, Clone, PartialEq, Eq)]
pub struct InboundFrame {
    pub(super) priority: Priority,
    pub(super) flow: Flow,
    pub arrived: Instant,
    pub octets: Vec<u8>,
}

impl InboundFrame {
    /// A frame of the air that came at this time, and changes the mode of its station or doesn't.
    pub fn of_air(frame: Frame<'_>, changes_mode: bool, arrived: Instant) -> InboundFrame {
        let flow = (frame.transmitter().unwrap_or(NOBODY), frame.receiver());
        let priority = Priority::of(frame, changes_mode);
        InboundFrame { priority, flow, arrived, octets: copy_of(frame.octets()) }
    }

    /// A frame of a wire that came at this time.
    pub fn of_wire(octets: &[u8], arrived: Instant) -> InboundFrame {
        let flow = (Address::at(octets, 6).unwrap_or(NOBODY), Address::at(octets, 0).unwrap_or(NOBODY));
        InboundFrame { priority: Priority::Data, flow, arrived, octets: copy_of(octets) }
    }

    /// Whether it may say that its station dozes, is awake or leaves.
    pub fn is_notice(&self) -> bool {
        self.priority == Priority::Notice
    }

    pub fn sender(&self) -> Address {
        self.flow.0
    }

    pub fn receiver(&self) -> Address {
        self.flow.1
    }

    /// Whether it waited longer than it is worth.
    pub fn is_late(&self, now: Instant) -> bool {
        self.priority.longest().map_or(false, |longest| now > self.arrived + longest)
    }
}

/// In place of an address that a frame is too short for.
pub const NOBODY: Address = Address::of([0; 6]);
