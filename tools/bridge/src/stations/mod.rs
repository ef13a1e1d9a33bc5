//! What the bridge does by itself beside the way of frames: it knows the stations from the frames that pass, tells what
//! happens to them, asks those that have fallen silent, and lets the program know who is gone. Whatever it tells the
//! program is an event as any other: a station's deauthentication, which stands in the record too.
mod echoes;
pub mod joining;
pub mod keep_alive;
pub mod meaning;
pub mod news;
mod observing;
pub mod own_frames;
mod roaming;
pub mod station;
pub mod table;
pub mod tally;

use crate::control::events::Happened;
use crate::control::log::{self, Bounded};
use crate::formats::ethernet::test_command;
use crate::formats::frames::{Address, Frame};
use crate::formats::radiotap::Outcome;
use crate::network::Network;
use crate::os::clock::{wall_now, Duration, Instant};
use crate::restart::replay::Restored;
use crate::stations::keep_alive::{KeepAlive, Step};
use crate::stations::news::{sentence, Forgotten, News};
use crate::stations::own_frames::{
    deauthentication, departure, disassociation, is_null_of_network, null, number_beside, INACTIVITY, LEAVING,
};
use crate::stations::roaming::Roaming;
use crate::stations::station::{KeptStation, Member, State};
use crate::stations::table::StationTable;
use crate::stations::tally::Tally;

/// How often a question is tried again if nobody acknowledges it, and how often what a station is told that is
/// there.
const QUESTION_RETRIES: u8 = 3;
/// Where the source of a frame of Ethernet stands.
const SOURCE_AT: usize = 6;
const WORD_RETRIES: u8 = 3;

/// What is to be done for it.
#[derive(Debug, Clone, PartialEq, Eq)]
pub enum Errand {
    /// The network of this place sends a frame, and so often again if nobody acknowledges it.
    Send { place: usize, frame: Vec<u8>, retries: u8 },
    /// The program is told of a frame as of one that was heard.
    Say(Vec<u8>),
    /// The program is given a unit for a station that dozes, as what came by the wire of the network of this place.
    Ask { place: usize, frame: Vec<u8> },
}

/// What is known, and what is to be done.
#[derive(Debug)]
pub struct Stations {
    bssids: Vec<Address>,
    pub table: StationTable,
    keep_alive: KeepAlive,
    roaming: Roaming,
    log: Bounded,
    /// What happened since it was taken last, in which network, and how long after 1970.
    events: Vec<(usize, Duration, Happened)>,
    /// Of each network how often stations came and went.
    pub tallies: Vec<Tally>,
    /// Of each network the sequence number of its last frame.
    numbers: Vec<u16>,
    /// The networks whose stations have still to be told that they have to join again.
    to_dismiss: Vec<usize>,
    /// Of each network whether its stations are or were told so.
    is_dismissed: Vec<bool>,
}

impl Stations {
    /// Of these networks; who was silent for so long is asked, or nobody.
    pub fn new(networks: &[Network], most_silence: Option<Duration>) -> Stations {
        let bssids: Vec<Address> = networks.iter().map(|network| network.bssid).collect();
        Stations {
            table: StationTable::new(bssids.clone()),
            keep_alive: KeepAlive::new(most_silence, networks.iter().map(|network| usize::from(network.max_known))),
            roaming: Roaming::new(bssids.len()),
            log: Bounded::new(bssids.len()),
            events: Vec::new(),
            tallies: vec![Tally::default(); bssids.len()],
            numbers: vec![0; bssids.len()],
            to_dismiss: Vec::new(),
            is_dismissed: vec![false; bssids.len()],
            bssids,
        }
    }

    /// The same, and nothing is told of stations.
    #[cfg(test)]
    pub fn quiet(networks: &[Network], most_silence: Option<Duration>) -> Stations {
        Stations { log: Bounded::quiet(networks.len()), ..Stations::new(networks, most_silence) }
    }

    /// A frame of the air is said to the program.
    pub fn fed(&mut self, octets: &[u8], now: Instant) {
        self.table.fed(octets, now);
        self.tell(now);
    }

    /// The radio tells what became of a frame that it was given.
    pub fn reported(&mut self, frame: &[u8], outcome: Outcome, now: Instant) {
        let is_unit = frame.first() == Some(&0x08) && !is_null_of_network(frame);
        self.table.reported(frame, outcome, is_unit, now);
    }

    /// The program has a network send a frame; answers what is to be done behind it.
    pub fn answered(&mut self, bssid: Address, octets: &[u8], now: Instant) -> Vec<Errand> {
        let place = match self.table.places.of(&bssid) {
            Some(place) => place,
            None => return Vec::new(),
        };
        if let Some(number) = Frame::of(octets).and_then(|frame| frame.sequence_control()) {
            self.numbers[place] = number >> 4;
        }
        let tim = self.table.answered(place, octets, now);
        let errand = tim.and_then(|_| self.dismiss_behind_beacon(place));
        self.tell(now);
        errand.into_iter().collect()
    }

    /// What is to be done of stations that are silent or don't associate, at a time at which no beacon is due, or in a
    /// further piece of it.
    pub fn look(&mut self, now: Instant) -> Vec<Errand> {
        let steps = self.keep_alive.look(&mut self.table, now);
        let errands = steps.into_iter().flat_map(|(place, step)| self.take_step(place, step, now)).collect();
        self.tell(now);
        errands
    }

    /// Whether `look` has a further piece to do at once.
    pub fn is_behind(&self) -> bool {
        self.keep_alive.is_behind()
    }

    /// When `look_who_moved` has something to do next, or before.
    pub fn moves_due(&self) -> Instant {
        self.roaming.look_due()
    }

    /// What is to be done of stations that may have moved, if that is due.
    pub fn look_who_moved(&mut self, now: Instant) -> Vec<Errand> {
        if now < self.moves_due() {
            return Vec::new();
        }
        let steps = self.roaming.look(&self.table, now);
        let errands = steps.into_iter().filter_map(|step| self.take_roaming_step(step, now)).collect();
        self.tell(now);
        errands
    }

    /// The wire of the network of this place brought a frame; answers what is to be done, if it shows that a station
    /// is elsewhere. `answers` says whether the radio tells of acknowledgements.
    pub fn wired(&mut self, place: usize, frame: &[u8], answers: bool, now: Instant) -> Option<Errand> {
        let member = (place, Address::at(frame, SOURCE_AT)?);
        let station = self.table.station(&member)?;
        if !matches!(station.state, State::Associated(_)) || station.is_leaving {
            return None;
        }
        let step = self.roaming.hint(member, station, frame, answers, now)?;
        let errand = self.take_roaming_step(step, now);
        self.tell(now);
        errand
    }

    pub fn put_on_wire(&mut self, place: usize, frame: &[u8], now: Instant) {
        self.roaming.put(place, frame, now);
    }

    /// A person wants a station to be forgotten, which has to be known. One that should have left a while ago can be
    /// kicked again: what was said to the program may have been dropped.
    pub fn kick(&mut self, bssid: Address, station: Address, now: Instant) -> Result<Vec<Errand>, String> {
        let place = self.table.places.of(&bssid).ok_or_else(|| format!("{bssid} is no network of these"))?;
        let known = self.table.station(&(place, station)).filter(|station| !station.leaves_by(now));
        let state = known.ok_or_else(|| format!("{bssid} has no station {station}"))?.state;
        let errand = self.word((place, station), state, WORD_RETRIES);
        let errands = vec![errand, self.forget((place, station), Forgotten::Kicked, now)];
        self.tell(now);
        Ok(errands)
    }

    /// All stations of the networks of these places are to be told that they have to join again, behind the next
    /// beacon.
    pub fn dismiss(&mut self, places: &[usize]) {
        for place in places.iter().filter(|place| **place < self.bssids.len()) {
            self.to_dismiss.push(*place);
            self.is_dismissed[*place] = true;
        }
    }

    /// What a new program has to know of the stations of the network of this place: of those that aren't told to join
    /// again.
    pub fn kept(&self, place: usize) -> Vec<KeptStation> {
        if self.is_dismissed[place] {
            return Vec::new();
        }
        self.table.kept(place)
    }

    /// A new program knows stations as the one before did; answers what is to be done for the others.
    pub fn restore(&mut self, restored: &Restored, now: Instant) -> Vec<Errand> {
        for (member, kept) in &restored.stay {
            self.table.restore(*member, kept, now);
        }
        let leave = restored.leave.iter().map(|(place, station)| Errand::Say(departure(self.bssids[*place], *station)));
        let again = restored.again.iter().map(|(place, station)| {
            let frame = deauthentication(self.bssids[*place], *station, LEAVING, self.number(*place));
            Errand::Send { place: *place, frame, retries: WORD_RETRIES }
        });
        leave.chain(again).collect()
    }

    /// What happened since this was asked last: in the network of which place, and how long after
    /// 1970.
    pub fn take_events(&mut self) -> Vec<(usize, Duration, Happened)> {
        std::mem::take(&mut self.events)
    }

    /// Whether stations of a network have still to be told so.
    pub fn dismisses(&self) -> bool {
        !self.to_dismiss.is_empty()
    }

    fn dismiss_behind_beacon(&mut self, place: usize) -> Option<Errand> {
        let found = self.to_dismiss.iter().position(|network| *network == place)?;
        self.to_dismiss.remove(found);
        let frame = deauthentication(self.bssids[place], Address::BROADCAST, LEAVING, self.number(place));
        Some(Errand::Send { place, frame, retries: 0 })
    }

    fn take_step(&mut self, place: usize, step: Step, now: Instant) -> Vec<Errand> {
        match step {
            Step::Ask(station) => vec![self.question((place, station))],
            Step::AskByUnit(station) => vec![self.question_by_unit((place, station))],
            Step::Forget { station, why, tells } => {
                let member = (place, station);
                let state = self.table.station(&member).map(|station| station.state).filter(|_| tells);
                let word = state.map(|state| self.word(member, state, 0));
                word.into_iter().chain([self.forget(member, why, now)]).collect()
            }
        }
    }

    fn take_roaming_step(&mut self, step: roaming::Step, now: Instant) -> Option<Errand> {
        match step {
            roaming::Step::Ask(member) => Some(self.question(member)),
            roaming::Step::AskByUnit(member) => Some(self.question_by_unit(member)),
            roaming::Step::Move(member) => Some(self.forget(member, Forgotten::Moved, now)),
            roaming::Step::Stay(member) => {
                self.table.tell(member, News::Claimed);
                None
            }
        }
    }

    fn question(&self, (place, station): Member) -> Errand {
        let frame = null(self.bssids[place], station, self.number(place));
        Errand::Send { place, frame, retries: QUESTION_RETRIES }
    }

    fn question_by_unit(&self, (place, station): Member) -> Errand {
        Errand::Ask { place, frame: test_command(self.bssids[place], station) }
    }

    /// A station is told that it is forgotten.
    fn word(&self, (place, station): Member, state: State, retries: u8) -> Errand {
        let (bssid, number) = (self.bssids[place], self.number(place));
        let frame = match state {
            State::Associated(_) => disassociation(bssid, station, INACTIVITY, number),
            State::Authenticated => deauthentication(bssid, station, INACTIVITY, number),
        };
        Errand::Send { place, frame, retries }
    }

    /// A station is forgotten: the program is told that it left.
    fn forget(&mut self, member: Member, why: Forgotten, now: Instant) -> Errand {
        self.table.forget(member, why, now);
        Errand::Say(departure(self.bssids[member.0], member.1))
    }

    fn number(&self, place: usize) -> u16 {
        number_beside(self.numbers[place])
    }

    fn tell(&mut self, now: Instant) {
        for (place, more) in self.log.take_left_out(now) {
            let bssid = self.bssids[place];
            log::notice(format_args!("{more} more lines of stations in one second, of {bssid}"));
            self.events.push((place, wall_now(), Happened::LeftOut { count: more }));
        }
        for (member, news) in self.table.take_news() {
            let (place, station) = member;
            let happened = self.happened(member, news);
            self.tallies[place].count(&happened);
            if self.log.takes(place) {
                let (level, text) = sentence(station, self.bssids[place], news);
                log::write_event(level, text);
                self.events.push((place, wall_now(), happened));
            }
        }
    }

    fn happened(&self, (place, station): Member, news: News) -> Happened {
        let moved = match news {
            News::Joins { aid, listen } => self.other_network_of((place, station)).map(|from| (from, aid, listen)),
            _ => None,
        };
        match moved {
            Some((from, aid, listen)) => Happened::Moved { station, from, aid, listen },
            None => Happened::Station { station, news },
        }
    }

    /// The other network that has this station too.
    fn other_network_of(&self, (place, address): Member) -> Option<Address> {
        let mut others = (0..self.bssids.len()).filter(|other| *other != place);
        let has = |other: &usize| {
            let station = self.table.station(&(*other, address)).filter(|station| !station.is_leaving);
            station.map_or(false, |station| matches!(station.state, State::Associated(_)))
        };
        others.find(has).map(|other| self.bssids[other])
    }
}

#[cfg(test)]
#[path = "stations_test.rs"]
mod tests;
