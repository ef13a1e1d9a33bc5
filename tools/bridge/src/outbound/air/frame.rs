//! A frame that waits for the air: in which queue of its network, and how long it is worth sending.
use std::hash::{Hash, Hasher};
use std::rc::Rc;

use crate::formats::frames::{Address, Frame, FrameType};
use crate::inbound::frame::LONGEST;
use crate::os::clock::{Duration, Instant, MILLISECOND, SECOND};

pub(super) const PROBE_RESPONSE: u8 = 0x50;
const AUTHENTICATION: u8 = 0xb0;
const ASSOCIATION_RESPONSES: [u8; 2] = [0x10, 0x30];

/// Whose frames wait in one queue of a network.
#[derive(Debug, Clone, Copy, Eq, PartialOrd, Ord)]
pub enum Receiver {
    /// All frames for groups but beacons.
    Groups,
    /// Management frames for those who aren't associated.
    Others,
    Station(Address),
}

impl Receiver {
    /// One number for each: a station's is its address.
    fn number(&self) -> u64 {
        match self {
            Receiver::Groups => 1 << 48,
            Receiver::Others => 1 << 49,
            Receiver::Station(address) => address.number(),
        }
    }
}

impl PartialEq for Receiver {
    fn eq(&self, other: &Receiver) -> bool {
        self.number() == other.number()
    }
}

impl Hash for Receiver {
    fn hash<H: Hasher>(&self, to: &mut H) {
        to.write_u64(self.number());
    }
}

/// What a frame is, as far as it decides how long it is worth sending and how often it is tried.
#[derive(Debug, Clone, Copy, PartialEq, Eq)]
pub enum FrameKind {
    /// A unit of data for a station.
    Unit,
    /// A unit that the program kept for a station until it woke.
    Kept,
    /// A unit by which the program answers the poll of a station that dozes.
    PollAnswer,
    /// A unit that was lost, and is sent once more.
    Again,
    /// A unit of data for a group.
    GroupUnit,
    /// An answer to a probe request for all networks: many stations ask so, and few still listen.
    AnswerToAll,
    /// An answer that a station waits for before it goes on.
    Answer,
    /// What tells a station that it has to go, and all else.
    Word,
    /// The same for one who isn't associated: whoever sends frames of made-up addresses causes it.
    Notice,
    /// A frame that the bridge made, tried again so often.
    Own { retries: u8 },
}

impl FrameKind {
    pub fn of(frame: Frame<'_>) -> FrameKind {
        match (frame.frame_type(), frame.octets()[0]) {
            (FrameType::Data, _) if frame.receiver().is_group() => FrameKind::GroupUnit,
            (FrameType::Data, _) => FrameKind::Unit,
            (_, PROBE_RESPONSE | AUTHENTICATION) => FrameKind::Answer,
            (_, first) if ASSOCIATION_RESPONSES.contains(&first) => FrameKind::Answer,
            _ => FrameKind::Word,
        }
    }

    pub fn is_unit(self) -> bool {
        matches!(self, FrameKind::Unit | FrameKind::Kept | FrameKind::PollAnswer | FrameKind::Again)
    }

    /// How long it is worth sending, and of a unit when it is late: stations that ask for all networks listen for some
    /// 20 ms, and those that join ask again after some 200 ms. What is for groups comes at once behind a DTIM beacon,
    /// and may last to the next beacon.
    pub(super) fn lifetime(self) -> Duration {
        match self {
            FrameKind::Unit | FrameKind::Again => LONGEST,
            FrameKind::PollAnswer => MOST_LIFETIME,
            FrameKind::Kept => MOST_UNDRAINED,
            FrameKind::GroupUnit => 100 * MILLISECOND,
            FrameKind::AnswerToAll => 20 * MILLISECOND,
            FrameKind::Answer => 200 * MILLISECOND,
            FrameKind::Word | FrameKind::Notice | FrameKind::Own { .. } => 2 * SECOND,
        }
    }
}

/// A unit is worth nothing after so long, whatever it waited for.
pub(super) const MOST_LIFETIME: Duration = Duration::from_millis(400);
/// A unit that was kept is worth nothing once its station has acknowledged nothing for so long.
pub(super) const MOST_UNDRAINED: Duration = Duration::from_secs(2);

#[derive(Debug)]
pub struct OutboundFrame {
    pub octets: Rc<Vec<u8>>,
    pub address: Address,
    pub kind: FrameKind,
    pub since: Instant,
}

/// What those who aren't associated wait for, in the order in which it goes to them.
#[derive(Debug, Clone, Copy, PartialEq, Eq, PartialOrd, Ord)]
pub enum Urgency {
    /// The answer to an authentication or an association: who gets it joins.
    Joining,
    /// The answer to a probe request for this network alone.
    Probing,
    /// The answer to one for all networks.
    ProbingAll,
    /// No answer.
    Rest,
}

impl OutboundFrame {
    /// When it goes to one who isn't associated.
    pub fn urgency(&self) -> Urgency {
        match self.kind {
            FrameKind::Answer if self.octets.first() == Some(&PROBE_RESPONSE) => Urgency::Probing,
            FrameKind::Answer => Urgency::Joining,
            FrameKind::AnswerToAll => Urgency::ProbingAll,
            _ => Urgency::Rest,
        }
    }
}
