//! How long each sends, by addresses: networks of one access point share a radio, whose number doesn't tell them apart.

use std::collections::btree_map::{BTreeMap, Iter};
use std::fmt;

use crate::exchange::Exchange;
use crate::frame::{Address, Kind};

/// Frames of one kind from one address to another; an address is None if frames are too short to say it.
#[derive(Clone, Copy, Debug, PartialEq, Eq, PartialOrd, Ord)]
pub struct Flow {
    pub from: Option<Address>,
    pub to: Option<Address>,
    pub kind: Kind,
}

/// How often and how long they were sent. All times are in nanoseconds.
#[derive(Clone, Copy, Debug, Default, PartialEq, Eq)]
pub struct Airtime {
    pub tries: u64,
    /// The frames, each with the time of its acknowledgement if one is wanted, whether it comes or not.
    pub sending: u64,
    /// DIFS and the slots of backoff before each try.
    pub spaces: u64,
    /// Frames for which the radio had no room.
    pub dropped: u64,
}

impl Airtime {
    pub fn count_try(&mut self, sending: u64, spaces: u64) {
        self.tries += 1;
        self.sending += sending;
        self.spaces += spaces;
    }
}

/// The time of all flows.
#[derive(Debug, Default)]
pub struct Airtimes(BTreeMap<Flow, Airtime>);

impl Airtimes {
    /// The time of the flow to which a frame belongs.
    pub fn of(&mut self, exchange: &Exchange) -> &mut Airtime {
        let Exchange { transmitter, receiver, kind, .. } = *exchange;
        self.0.entry(Flow { from: transmitter, to: receiver, kind }).or_default()
    }

    pub fn iter(&self) -> Iter<'_, Flow, Airtime> {
        self.0.iter()
    }

    pub fn clear(&mut self) {
        self.0.clear();
    }
}

/// Writes an address in hexadecimal, or `nobody` if there is none.
struct Named(Option<Address>);

impl fmt::Display for Named {
    fn fmt(&self, out: &mut fmt::Formatter<'_>) -> fmt::Result {
        match self.0 {
            Some([a, b, c, d, e, f]) => write!(out, "{a:02x}:{b:02x}:{c:02x}:{d:02x}:{e:02x}:{f:02x}"),
            None => out.write_str("nobody"),
        }
    }
}

impl fmt::Display for Flow {
    fn fmt(&self, out: &mut fmt::Formatter<'_>) -> fmt::Result {
        write!(out, "from {} to {} {}", Named(self.from), Named(self.to), self.kind)
    }
}

impl fmt::Display for Airtime {
    fn fmt(&self, out: &mut fmt::Formatter<'_>) -> fmt::Result {
        let Airtime { tries, sending, spaces, dropped } = self;
        write!(out, "tries {tries} sending {sending} spaces {spaces} dropped {dropped}")
    }
}

#[cfg(test)]
mod tests {
    use super::*;

    #[test]
    fn a_flow_and_its_time_are_written_in_words() {
        let flow = Flow { from: Some([2, 0, 0, 0, 1, 0xab]), to: None, kind: Kind::Data };
        assert_eq!(flow.to_string(), "from 02:00:00:00:01:ab to nobody data");
        let mut airtime = Airtime::default();
        airtime.count_try(7, 5);
        airtime.count_try(8, 6);
        assert_eq!(airtime.to_string(), "tries 2 sending 15 spaces 11 dropped 0");
    }
}
