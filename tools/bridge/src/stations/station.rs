//! A station of a network: how far it has joined, and what is known of it.
use crate::formats::frames::Address;
use crate::os::clock::{Duration, Instant};

/// By then the program has read that a station left, unless that was dropped on its way.
const TO_LEAVE: Duration = Duration::from_secs(5);

/// A network's place, and the address of a station of it.
pub type Member = (usize, Address);

/// How far a station has joined its network.
#[derive(Debug, Clone, Copy, Default, PartialEq, Eq)]
pub enum State {
    /// It is authenticated, and not associated.
    #[default]
    Authenticated,
    /// It is associated, with this identifier.
    Associated(u16),
}

/// How a station's mode changes, or whether it is one of its network, as the program knows it.
#[derive(Debug, Clone, Copy, PartialEq, Eq)]
pub enum Move {
    /// It dozes, by a frame that the program was given.
    Dozes,
    /// It is awake, by a frame that the program was given.
    Wakes,
    /// It polls, and dozes, by a frame that the program was given.
    Polls,
    /// It leaves, by a frame that the program was given.
    Leaves,
    /// It isn't associated, by what the program answered or has in its tables.
    Left,
    /// It is associated, by what the program answered; a frame that came since says that it dozes, or none.
    Joins { dozes: bool },
}

/// What was sent to a station or heard of it: data with a unit, in whole frames.
#[derive(Debug, Clone, Copy, Default, PartialEq, Eq)]
pub struct Traffic {
    pub octets: u64,
    pub frames: u64,
    /// The rate of the last one, in units of 500 kb/s, if the radio says it.
    pub rate: Option<u8>,
}

impl Traffic {
    pub fn count(&mut self, octets: usize) {
        self.octets += octets as u64;
        self.frames += 1;
    }
}

/// Whether a station was asked if it is there.
#[derive(Debug, Clone, Copy, Default, PartialEq, Eq)]
pub struct Asked {
    /// When it is to be looked at again.
    pub due: Instant,
    /// How often it was asked since it was heard.
    pub times: u32,
}

#[derive(Debug, Clone, Default, PartialEq, Eq)]
pub struct Station {
    pub state: State,
    pub dozes: bool,
    /// Whether it dozes by the last frame that was heard of it, which may still wait for the program.
    pub(super) will_doze: bool,
    /// Whether it dozes once it is associated, by what the program was given since it asked.
    pub(super) joins_dozing: bool,
    /// Since when it has this state.
    pub since: Instant,
    /// When a frame or an acknowledgement of it was heard last.
    pub heard: Instant,
    /// When a frame of it was heard last.
    pub(super) frame_heard: Instant,
    /// The signal of its last frame in dBm.
    pub signal: Option<i8>,
    /// What was sent to it.
    pub to: Traffic,
    /// What was heard of it.
    pub from: Traffic,
    pub asked: Asked,
    /// Whether the program is about to be told that it left, and since when.
    pub(super) is_leaving: bool,
    pub(super) leaving_since: Instant,
    /// The number of the program's last table that has it.
    pub(super) listed_in: u64,
    /// Its turn among all: the order in which they were entered.
    pub turn: u64,
    /// Its listen interval, if it is associated.
    pub listen: u16,
    /// Whether it has dozed since it was associated.
    pub has_dozed: bool,
    /// The association request by which it was associated last, if it is.
    pub(super) joined_by: Option<Vec<u8>>,
    pub(super) wanted_listen: u16,
    /// Its association request that wasn't answered yet.
    pub(super) asks_by: Option<Vec<u8>>,
}

impl Station {
    pub fn is_associated(&self) -> bool {
        matches!(self.state, State::Associated(_))
    }

    /// Whether the program may still be about to read that it left.
    pub(super) fn leaves_by(&self, now: Instant) -> bool {
        self.is_leaving && now < self.leaving_since + TO_LEAVE
    }
}

/// What a new program has to know of a station that is associated.
#[derive(Debug, Clone, PartialEq, Eq)]
pub struct KeptStation {
    pub address: Address,
    pub aid: u16,
    pub listen: u16,
    pub dozes: bool,
    /// Whether it has dozed since it was associated.
    pub has_dozed: bool,
    /// The association request by which it was associated last.
    pub request: Vec<u8>,
}
