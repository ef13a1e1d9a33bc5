//! Frames of stations that are held, and for some of these stations also those for them. They wait apart; all other
//! frames go on. A station is held while it falls asleep: units that come back go before what comes of it and for it
//! (`outbound::air::sleeping`). It is held too if it wakes and what comes of that has to wait (`run::wake_timing`).
//!
//! So much for one station that is held: what is taken out of the queues of it and for it keeps its order, also with
//! what comes once it is released. Of each priority a bounded number waits with a station: few that say how it is from
//! then on, since the last one of these holds. One more drops the oldest. Of a network a bounded number of octets
//! waits: one more drops the oldest of what is worth least and is still held.
use std::collections::{BTreeMap, HashMap, VecDeque};

use crate::formats::frames::Address;
use crate::inbound::frame::{InboundFrame, Priority, Source};
use crate::inbound::source_queue::{Dropped, Why, MOST_OCTETS};
use crate::stations::station::Member;

/// How many frames of a priority wait apart at most of a station and for it, and how many that say how it is from then
/// on.
const MOST_HELD: usize = 256;
const MOST_NOTICES: usize = 4;

/// Which frames wait with a station that is held.
#[derive(Debug, Clone, Copy, PartialEq, Eq, PartialOrd, Ord)]
pub enum Holding {
    /// Those that it sent.
    Own,
    /// Those that it sent, and those of the wire for it.
    OwnAndWired,
}

#[derive(Debug)]
struct Held {
    holding: Holding,
    /// In the order in which they came.
    frames: VecDeque<Waiting>,
}

/// A frame that waits with a station, with its number among all that ever did.
#[derive(Debug)]
struct Waiting {
    number: u64,
    source: Source,
    frame: InboundFrame,
}

/// What waits apart of one network.
#[derive(Debug, Default)]
struct OfNetwork {
    /// How many octets, those of stations that aren't held any more included.
    octets: usize,
    /// The station with which each frame is held: what is worth least first, and of that the oldest.
    stations: BTreeMap<(Priority, u64), Address>,
}

/// The frames that wait apart.
#[derive(Debug, Default)]
pub struct HeldFrames {
    /// Each station that is held.
    held: HashMap<Member, Held>,
    /// The frames of stations that aren't held any more, and how many these are of each station.
    released: VecDeque<(Source, InboundFrame)>,
    released_of: HashMap<Member, usize>,
    /// By the places of the networks.
    networks: HashMap<usize, OfNetwork>,
    /// How many frames ever waited with stations.
    came: u64,
    dropped: BTreeMap<(Source, Dropped), u64>,
}

/// The station that a frame is of or for, and which holding it waits for.
fn station_of(source: Source, frame: &InboundFrame) -> Option<(Member, Holding)> {
    match source {
        Source::AirForAll => None,
        Source::Air(place) => Some(((place, frame.flow.0), Holding::Own)),
        Source::Wire(place) => Some(((place, frame.flow.1), Holding::OwnAndWired)),
    }
}

impl HeldFrames {
    /// These frames of a station wait apart from now on.
    pub fn hold(&mut self, place: usize, station: Address, holding: Holding) {
        let held = self.held.entry((place, station)).or_insert(Held { holding, frames: VecDeque::new() });
        held.holding = held.holding.max(holding);
    }

    /// They don't any more. Those of the station that are released already came behind these.
    pub fn release(&mut self, place: usize, station: Address) {
        let frames = self.held.remove(&(place, station)).map(|held| held.frames).unwrap_or_default();
        if frames.is_empty() {
            return;
        }
        let network = self.networks.entry(place).or_default();
        for waiting in &frames {
            network.stations.remove(&(waiting.frame.priority, waiting.number));
        }
        let released = self.released_of.entry((place, station)).or_default();
        let is_of_station = |(source, frame): &(Source, InboundFrame)| {
            station_of(*source, frame).map_or(false, |(found, _)| found == (place, station))
        };
        let first = (*released > 0).then(|| self.released.iter().position(is_of_station)).flatten();
        let behind = first.map(|first| self.released.split_off(first)).unwrap_or_default();
        *released += frames.len();
        self.released.extend(frames.into_iter().map(|waiting| (waiting.source, waiting.frame)).chain(behind));
    }

    /// The next frame that waits apart no more.
    pub fn next(&mut self) -> Option<(Source, InboundFrame)> {
        let (source, frame) = self.released.pop_front()?;
        if let Some((station, _)) = station_of(source, &frame) {
            self.networks.entry(station.0).or_default().octets -= frame.octets.len();
            self.released_of.get_mut(&station).into_iter().for_each(|released| *released -= 1);
            if self.released_of.get(&station) == Some(&0) {
                self.released_of.remove(&station);
            }
        }
        Some((source, frame))
    }

    /// Whether no frame may go on.
    pub fn is_empty(&self) -> bool {
        self.released.is_empty()
    }

    /// Whether frames wait apart.
    pub fn has_frames(&self) -> bool {
        !self.released.is_empty() || self.held.values().any(|held| !held.frames.is_empty())
    }

    /// How many frames wait apart.
    pub fn len(&self) -> usize {
        self.released.len() + self.held.values().map(|held| held.frames.len()).sum::<usize>()
    }

    /// A frame waits apart, if its station is held; else it is given back.
    pub fn keep(&mut self, source: Source, frame: InboundFrame) -> Option<(Source, InboundFrame)> {
        let station = station_of(source, &frame).filter(|_| !self.held.is_empty());
        let is_held = |(member, holding): &(Member, Holding)| {
            self.held.get(member).map_or(false, |held| *holding <= held.holding)
        };
        let member = match station.filter(is_held) {
            Some((member, _)) => member,
            None => return Some((source, frame)),
        };
        self.make_room_with(member, frame.priority);
        let has_room = self.make_room_in(member.0, &frame);
        match self.held.get_mut(&member).filter(|_| has_room) {
            Some(held) => {
                self.came += 1;
                let network = self.networks.entry(member.0).or_default();
                network.octets += frame.octets.len();
                network.stations.insert((frame.priority, self.came), member.1);
                held.frames.push_back(Waiting { number: self.came, source, frame });
            }
            None => self.count(source, frame.priority),
        }
        None
    }

    /// Drops the oldest frame of a priority that waits with a station, if no more of these may.
    fn make_room_with(&mut self, member: Member, priority: Priority) {
        let most = if priority < Priority::Notice { MOST_HELD } else { MOST_NOTICES };
        let held = self.held.get(&member).into_iter().flat_map(|held| &held.frames);
        let mut alike = held.filter(|waiting| waiting.frame.priority == priority).map(|waiting| waiting.number);
        let oldest = alike.next();
        if 1 + alike.count() >= most {
            oldest.into_iter().for_each(|oldest| self.drop_one(member, oldest));
        }
    }

    /// Drops what is worth no more than a frame of a network, until there is room for that; answers whether there is.
    fn make_room_in(&mut self, place: usize, frame: &InboundFrame) -> bool {
        loop {
            let network = self.networks.entry(place).or_default();
            if network.octets + frame.octets.len() <= MOST_OCTETS {
                return true;
            }
            match network.stations.iter().next() {
                Some(((priority, oldest), station)) if *priority <= frame.priority => {
                    let (member, oldest) = ((place, *station), *oldest);
                    self.drop_one(member, oldest);
                }
                _ => return false,
            }
        }
    }

    /// The frame of this number, which waits with this station, is dropped and counted.
    fn drop_one(&mut self, member: Member, number: u64) {
        let dropped = self.held.get_mut(&member).and_then(|held| {
            let found = held.frames.binary_search_by_key(&number, |waiting| waiting.number).ok()?;
            held.frames.remove(found)
        });
        if let Some(Waiting { source, frame, .. }) = dropped {
            let network = self.networks.entry(member.0).or_default();
            network.octets -= frame.octets.len();
            network.stations.remove(&(frame.priority, number));
            self.count(source, frame.priority);
        }
    }

    fn count(&mut self, source: Source, priority: Priority) {
        *self.dropped.entry((source, Dropped { priority, why: Why::Held })).or_default() += 1;
    }

    pub fn has_dropped(&self) -> bool {
        !self.dropped.is_empty()
    }

    pub fn dropped(&self) -> impl Iterator<Item = (Source, Dropped, u64)> + '_ {
        self.dropped.iter().map(|((source, what), number)| (*source, *what, *number))
    }
}
