//! How a new program comes to know the stations of a state, and whether it answers as the one before did. Nothing is
//! sent, timed, opened or written here.
//!
//! The program gives the least identifier that is free, so stations are said in ascending order of their identifiers.
//! Gaps are filled by made-up stations, which leave last. Of each station its authentication is said, which is the same
//! of all that are accepted, the association request that it sent itself, and if it dozes a Null frame that says so.
//! Then the tables are asked for: what comes before they end is the answer to all this, and is swallowed. A station
//! whose identifier, listen interval and mode are those that it had stays. Any other is told to join again.
use std::collections::{HashSet, VecDeque};

use crate::apctl::protocol::{Answer, Event};
use crate::formats::frames::{Address, AddressMap, Frame};
use crate::network::Network;
use crate::restart::state::{NotUsed, State};
use crate::stations::meaning::{from_network, FromNetwork};
use crate::stations::own_frames::{association_request, authentication, departure, mode_of_station};
use crate::stations::station::{KeptStation, Member};

/// A row of a table: what a network has of a station that is associated, or `None` of one that is authenticated only.
type Row = Option<(u16, u16, bool)>;

/// A network whose stations are said to the program.
#[derive(Debug)]
struct NetworkReplay {
    bssid: Address,
    wanted: Vec<KeptStation>,
    /// The identifiers that the program answered.
    answered: AddressMap<u16>,
    rows: AddressMap<Row>,
}

#[derive(Debug, Default, PartialEq, Eq)]
pub struct Restored {
    pub stay: Vec<(Member, KeptStation)>,
    pub again: Vec<Member>,
    /// Those of which the program has to be told that they have left.
    pub leave: Vec<Member>,
    pub swallowed: usize,
}

/// What is said to a new program, and what it answers.
#[derive(Debug, Default)]
pub struct Replay {
    events: VecDeque<Vec<u8>>,
    has_asked: bool,
    networks: Vec<NetworkReplay>,
    /// The place of the network whose table is read.
    reads: Option<usize>,
    ended: usize,
    swallowed: usize,
    /// Stations that don't fit.
    unfit: Vec<Member>,
}

impl Replay {
    /// The stations of a state are to be said, as far as these networks are those that they joined.
    pub fn of(state: &State, networks: &[Network]) -> Result<Replay, NotUsed> {
        let mut replay = Replay::default();
        let mut is_any = state.networks.is_empty();
        for (place, network) in networks.iter().enumerate() {
            let left = state.networks.iter().find(|left| left.is(network));
            is_any |= left.is_some();
            let (fit, unfit): (Vec<KeptStation>, Vec<KeptStation>) = left
                .into_iter()
                .flat_map(|left| left.stations.iter())
                .map(|kept| KeptStation { dozes: kept.dozes || kept.has_dozed && !state.is_last, ..kept.clone() })
                .partition(|kept| kept.aid <= network.max_stations);
            replay.unfit.extend(unfit.into_iter().map(|kept| (place, kept.address)));
            replay.say_network(network, fit);
        }
        is_any.then_some(replay).ok_or(NotUsed::OtherConfiguration)
    }

    /// The stations of a network, in the order of their identifiers, are to be said.
    fn say_network(&mut self, network: &Network, stations: Vec<KeptStation>) {
        let used: HashSet<Address> = stations.iter().map(|kept| kept.address).collect();
        let mut strangers = (0..).map(made_up).filter(|address| !used.contains(address) && *address != network.bssid);
        let mut left = Vec::new();
        let mut next = 1;
        for kept in &stations {
            for stranger in (next..kept.aid).filter_map(|_| strangers.next()) {
                self.events.push_back(authentication(network.bssid, stranger));
                self.events.push_back(association_request(network, stranger));
                left.push(departure(network.bssid, stranger));
            }
            next = kept.aid + 1;
            self.events.push_back(authentication(network.bssid, kept.address));
            self.events.push_back(kept.request.clone());
            if kept.dozes {
                self.events.push_back(mode_of_station(network.bssid, kept.address, true));
            }
        }
        self.events.extend(left);
        let (answered, rows) = (AddressMap::default(), AddressMap::default());
        self.networks.push(NetworkReplay { bssid: network.bssid, wanted: stations, answered, rows });
    }

    pub fn is_empty(&self) -> bool {
        self.events.is_empty() && self.unfit.is_empty()
    }

    /// The next event for the program; the last one asks for the tables.
    pub fn next(&mut self) -> Option<ReplayEvent> {
        match self.events.pop_front() {
            Some(octets) => Some(ReplayEvent::Frame(octets)),
            None if !self.has_asked => {
                self.has_asked = true;
                Some(ReplayEvent::Tables)
            }
            None => None,
        }
    }

    /// Swallows what the program answers.
    pub fn take(&mut self, answer: &Answer) {
        match answer {
            Answer::Air(bssid, octets) => {
                self.swallowed += 1;
                let network = self.networks.iter_mut().find(|network| network.bssid == *bssid);
                let frame = Frame::of(octets);
                let what = frame.and_then(|frame| Some((frame.receiver(), from_network(frame)?)));
                if let (Some(network), Some((station, FromNetwork::Association { status: 0, aid }))) = (network, what) {
                    network.answered.insert(station, aid);
                }
            }
            Answer::Wire(..) => self.swallowed += 1,
            Answer::Told(line) => self.take_line(line),
            Answer::Ready(_) => {}
        }
    }

    fn take_line(&mut self, line: &str) {
        let words: Vec<&str> = line.split(' ').collect();
        match words[..] {
            ["network", bssid, ..] => {
                let found = bssid.parse().ok();
                self.reads = self.networks.iter().position(|network| Some(network.bssid) == found);
            }
            ["station", address, ..] => {
                let network = self.reads.and_then(|place| self.networks.get_mut(place));
                if let (Some(network), Ok(address)) = (network, address.parse()) {
                    network.rows.insert(address, row_of(&words));
                }
            }
            ["end"] => self.ended += 1,
            _ => {}
        }
    }

    /// Whether the tables came whole.
    pub fn is_done(&self) -> bool {
        self.has_asked && self.ended >= self.networks.len()
    }

    pub fn restored(self) -> Restored {
        let mut found = Restored { again: self.unfit, swallowed: self.swallowed, ..Restored::default() };
        for (place, network) in self.networks.into_iter().enumerate() {
            let NetworkReplay { wanted, answered, mut rows, .. } = network;
            for kept in wanted {
                let is_answered = answered.get(&kept.address) == Some(&kept.aid);
                let row = Some(Some((kept.aid, kept.listen, kept.dozes)));
                if is_answered && rows.get(&kept.address).copied() == row {
                    rows.remove(&kept.address);
                    found.stay.push(((place, kept.address), kept));
                } else {
                    found.again.push((place, kept.address));
                }
            }
            let mut others: Vec<Address> = rows.into_keys().collect();
            others.sort();
            found.leave.extend(others.into_iter().map(|address| (place, address)));
        }
        found
    }
}

/// What is said to the program.
#[derive(Debug, Clone, PartialEq, Eq)]
pub enum ReplayEvent {
    /// A frame, as one that was heard.
    Frame(Vec<u8>),
    /// The tables are asked for.
    Tables,
}

impl ReplayEvent {
    pub fn event(&self) -> Event<'_> {
        match self {
            ReplayEvent::Frame(octets) => Event::Air(octets),
            ReplayEvent::Tables => Event::Tables,
        }
    }
}

/// The address of a made-up station: one that its owner gave it, and nobody's.
fn made_up(number: u32) -> Address {
    let [a, b, c, d] = number.to_be_bytes();
    Address::of([0x02, 0x67, a, b, c, d])
}

/// What a line of a table says of a station.
fn row_of(words: &[&str]) -> Row {
    match words {
        [_, _, "associated", "aid", aid, "listen", listen, mode, "kept", _] => {
            Some((aid.parse().ok()?, listen.parse().ok()?, *mode == "doze"))
        }
        _ => None,
    }
}

#[cfg(test)]
#[path = "replay_test.rs"]
mod tests;
