//! What the air was to each network: for how long it was used, what waits, and what never went.
use crate::os::clock::Duration;
use std::collections::BTreeMap;
use std::fmt;

/// Why a frame never went on the air.
#[derive(Debug, Clone, Copy, PartialEq, Eq, PartialOrd, Ord)]
pub enum Unsent {
    /// It had waited as long as it was worth sending.
    Late,
    /// Too many younger ones waited for its receiver.
    Crowded,
    /// No more of its network could wait.
    Full,
    Refused,
    /// Its station had left, or authenticated anew.
    Left,
    /// Its station dozed, and more went back to the program in a second than its network keeps.
    OverQuota,
    /// Its station dozed, and as it has no wired form it couldn't go back to the program.
    NoWiredForm,
    /// The radio had it when its interface went down.
    Reset,
    /// The library didn't have it, or had no memory for its turn.
    Stray,
}

impl fmt::Display for Unsent {
    fn fmt(&self, to: &mut fmt::Formatter<'_>) -> fmt::Result {
        to.write_str(match self {
            Unsent::Late => "had waited too long",
            Unsent::Crowded => "too many for one receiver",
            Unsent::Full => "no more could wait",
            Unsent::Refused => "refused by the interface",
            Unsent::Left => "its station had left",
            Unsent::OverQuota => "more than `quota` came back in a second, as its station dozed",
            Unsent::NoWiredForm => "its station dozed, and it has no wired form",
            Unsent::Reset => "with the radio, as its interface went down",
            Unsent::Stray => "unknown to the queues",
        })
    }
}

/// What the air was to one network.
#[derive(Debug, Clone, Default, PartialEq, Eq)]
pub struct Account {
    /// For how long its frames were sent, all tries and the mean wait before each counted, and beacons left out.
    pub used: Duration,
    /// How many of its frames wait.
    pub waiting: usize,
    /// How many octets they have.
    pub octets: usize,
    /// How many frames never went, and why.
    pub unsent: BTreeMap<Unsent, u64>,
    /// What went back to the program, since its station dozed.
    pub handed_back: HandedBack,
}

/// Units that went back to the program, since their station dozed.
#[derive(Debug, Clone, Copy, Default, PartialEq, Eq)]
pub struct HandedBack {
    pub units: u64,
    /// How many of them went back behind others of their station, some of which they had been before.
    pub out_of_order: u64,
}

impl Account {
    /// A frame of so many octets waits.
    pub(super) fn count_in(&mut self, octets: usize) {
        self.waiting += 1;
        self.octets += octets;
    }

    /// A frame of so many octets waits no more.
    pub(super) fn count_out(&mut self, octets: usize) {
        self.waiting -= 1;
        self.octets -= octets;
    }

    /// A frame never went.
    pub(super) fn count_unsent(&mut self, why: Unsent) {
        *self.unsent.entry(why).or_default() += 1;
    }
}
