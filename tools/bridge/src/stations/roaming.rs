//! Which stations have moved to another access point of their site, as the wire of their network shows.
//!
//! A frame that a wire brings with the address of an associated station as its source is a *hint* that the station is
//! elsewhere. An *update* is the frame that an access point puts on its wire for a station that has just joined
//! (`formats::ethernet`). The rules, of any order of calls:
//!
//! 1. By an update a station moves that was associated here for a second and didn't move within the last ten. If
//!    nothing was heard of it for 100 ms, it moves at once. So one that is here moves at most once in ten seconds.
//! 2. If it was heard just before, that doesn't show where it is now. So it is asked, and moves if nothing is heard
//!    of it within 30 ms. If it only acknowledges, it moves if it sends no frame within 100 ms of the update: on one
//!    channel a station acknowledges whoever asks.
//! 3. One that dozes isn't asked then, and neither is one if the radio tells of no acknowledgement or too many are
//!    asked. It moves if it sends no frame until 100 ms after it was heard.
//! 4. By any other frame, and by an update within that second, the station is asked. It moves if nothing is heard of
//!    it within a second. By a second update within ten seconds it is asked too, and moves if nothing is heard of it
//!    within half a second. One that dozes is asked by a unit, and has five seconds.
//! 5. An echo is no hint (`echoes`), unless it is an update: another access point's looks like one of this.
//! 6. What is heard of a station meanwhile shows that it is here: its acknowledgement too, unless 2 or 3 says
//!    otherwise.
//! 7. Of a station that moved within the last ten seconds and turns out to be here it is told, once, that the wire
//!    shows it elsewhere.
//! 8. Of a network at most two stations are asked in 100 ms for each network that there is, so that all together ask as
//!    many as one alone. Of at most 256 of its stations is it awaited whether they are here. A second update within
//!    ten seconds waits until its station may be asked; any other hint beyond that counts for nothing, unless 3 says
//!    otherwise. If the radio tells of no acknowledgement, nobody is asked.
//! 9. What the wire of one network brings changes nothing of another one's stations.
//!
//! Nothing is sent or timed here.
use std::collections::{BTreeMap, VecDeque};

use crate::formats::ethernet::is_update;
use crate::formats::frames::Address;
use crate::os::clock::{Duration, Instant, SECOND};
use crate::stations::echoes::Echoes;
use crate::stations::station::{Member, State, Station};
use crate::stations::table::StationTable;

/// Since when a station must have been associated before an update moves it unasked.
const TO_SETTLE: Duration = SECOND;
/// If nothing was heard of it for so long by then, it moves at once.
const QUIET: Duration = Duration::from_millis(100);
/// How long it has to acknowledge otherwise. The radio may have frames for some 8 ms before the question.
const TO_ACKNOWLEDGE: Duration = Duration::from_millis(30);
/// How long an answer is awaited, by a second update, and that of a station that dozes.
const TO_ANSWER: Duration = SECOND;
const TO_ANSWER_TO_UPDATE: Duration = Duration::from_millis(500);
const TO_ANSWER_OF_DOZING: Duration = Duration::from_secs(5);
/// Unasked a station moves at most once in this time.
const BETWEEN_MOVES: Duration = Duration::from_secs(10);
/// How many stations of a network are asked in how long, for each network that there is.
const MOST_ASKED: u32 = 2;
const ASKED_IN: Duration = Duration::from_millis(100);
/// Of how many stations of a network it is awaited at most whether they are here.
const MOST_AWAITED: usize = 256;
/// How many moves away from a network are remembered at most.
const MOST_MOVES: usize = 4096;

/// What is to be done of a station.
#[derive(Debug, Clone, Copy, PartialEq, Eq)]
pub(super) enum Step {
    /// It is asked.
    Ask(Member),
    /// It dozes, and is asked by a unit.
    AskByUnit(Member),
    /// It has moved.
    Move(Member),
    /// The wire shows it elsewhere again soon after it moved, and it is here.
    Stay(Member),
}

/// What shows that a station is here.
#[derive(Debug, Clone, Copy, PartialEq, Eq)]
enum Sign {
    /// Whatever is heard of it. It has still to be asked, since too many were.
    AnythingOnceAsked,
    /// Whatever is heard of it.
    Anything,
    /// A frame of its own; an acknowledgement shows only that one has to wait for that.
    FrameIfAcknowledged,
    /// A frame of its own.
    Frame,
}

/// A station of which it is awaited whether it is here.
#[derive(Debug, Clone, Copy)]
struct Awaited {
    since: Instant,
    until: Instant,
    sign: Sign,
}

impl Awaited {
    /// Whether a station has shown that it is here.
    fn is_met_by(&self, station: &Station) -> bool {
        let last = match self.sign {
            Sign::AnythingOnceAsked | Sign::Anything => station.heard,
            Sign::FrameIfAcknowledged | Sign::Frame => station.frame_heard,
        };
        last > self.since
    }
}

#[derive(Debug)]
struct Moved {
    station: Address,
    at: Instant,
    /// Whether it was told that the wire showed it elsewhere again.
    is_told: bool,
}

/// The stations of all networks.
#[derive(Debug)]
pub(super) struct Roaming {
    networks: Vec<OfNetwork>,
}

impl Roaming {
    /// Nothing was put on the wires of so many networks.
    pub(super) fn new(networks: usize) -> Roaming {
        let asked_in = ASKED_IN * networks as u32;
        Roaming { networks: (0..networks).map(|place| OfNetwork::new(place, asked_in)).collect() }
    }

    /// A frame goes to the wire of the network of this place.
    pub(super) fn put(&mut self, place: usize, frame: &[u8], now: Instant) {
        self.networks[place].echoes.put(frame, now);
    }

    /// When `look` has something to do next, or before: none of those that are awaited is due before.
    pub(super) fn look_due(&self) -> Instant {
        self.networks.iter().map(|network| network.look_due).min().unwrap_or(Instant::NEVER)
    }

    /// A wire brought a frame from the address of a station that is associated; `answers` says whether the radio tells of
    /// acknowledgements.
    pub(super) fn hint(
        &mut self,
        member: Member,
        station: &Station,
        frame: &[u8],
        answers: bool,
        now: Instant,
    ) -> Option<Step> {
        self.networks[member.0].hint(member, station, frame, answers, now)
    }

    /// What is to be done of those that were awaited for long enough.
    pub(super) fn look(&mut self, table: &StationTable, now: Instant) -> Vec<Step> {
        self.networks.iter_mut().flat_map(|network| network.look(table, now)).collect()
    }
}

/// The stations of one network, and what came by its wire.
#[derive(Debug)]
struct OfNetwork {
    place: usize,
    echoes: Echoes,
    awaited: BTreeMap<Address, Awaited>,
    look_due: Instant,
    moved: VecDeque<Moved>,
    /// In how long it may ask `MOST_ASKED` stations, since when that time runs, and how many it asked in it.
    asked_in: Duration,
    asked: (Instant, u32),
}

impl OfNetwork {
    fn new(place: usize, asked_in: Duration) -> OfNetwork {
        OfNetwork {
            place,
            asked_in,
            echoes: Echoes::default(),
            awaited: BTreeMap::new(),
            look_due: Instant::NEVER,
            moved: VecDeque::new(),
            asked: (Instant::START, 0),
        }
    }

    fn hint(&mut self, member: Member, station: &Station, frame: &[u8], answers: bool, now: Instant) -> Option<Step> {
        let is_update = is_update(frame, member.1);
        let is_settled = is_update && now >= station.since + TO_SETTLE;
        let moves = is_settled && self.moved_lately(member, now).is_none();
        if is_settled && !moves && !answers {
            return self.stays(member, now);
        }
        let is_known = self.awaited.contains_key(&member.1) || !is_update && self.echoes.may_be(frame, now);
        if !moves && (is_known || !answers) {
            return None;
        }
        if moves && now >= station.heard + QUIET {
            return Some(self.moves(member, now));
        }
        if moves {
            return self.asks_if_still_here(member, station, answers, now);
        }
        let to_answer = if is_settled { TO_ANSWER_TO_UPDATE } else { TO_ANSWER };
        let step = self.asks(member, station, (to_answer, Sign::Anything), now);
        if step.is_none() && is_settled {
            let sign = Sign::AnythingOnceAsked;
            self.awaits(member, Awaited { since: now, until: self.asks_again(), sign });
        }
        step
    }

    /// By an update a station moves that was heard just before, unless it shows soon that it is still here.
    fn asks_if_still_here(&mut self, member: Member, station: &Station, answers: bool, now: Instant) -> Option<Step> {
        let may_be_asked = answers && !station.dozes;
        let within = (TO_ACKNOWLEDGE, Sign::FrameIfAcknowledged);
        let step = may_be_asked.then(|| self.asks(member, station, within, now)).flatten();
        if step.is_none() {
            self.awaits(member, Awaited { since: now, until: station.heard + QUIET, sign: Sign::Frame });
        }
        step
    }

    fn look(&mut self, table: &StationTable, now: Instant) -> Vec<Step> {
        if now < self.look_due {
            return Vec::new();
        }
        let is_over = |awaited: &Awaited| awaited.until <= now;
        let over = self.awaited.iter().filter(|(_, awaited)| is_over(awaited));
        let over: Vec<(Address, Awaited)> = over.map(|(station, awaited)| (*station, *awaited)).collect();
        let mut steps = Vec::new();
        for (station, awaited) in over {
            self.awaited.remove(&station);
            let member = (self.place, station);
            let is_associated = |station: &&Station| {
                matches!(station.state, State::Associated(_)) && !station.is_leaving && station.since <= awaited.since
            };
            if let Some(station) = table.station(&member).filter(is_associated) {
                steps.extend(self.look_at(member, station, awaited, now));
            }
        }
        self.look_due = self.awaited.values().map(|awaited| awaited.until).min().unwrap_or(Instant::NEVER);
        steps
    }

    /// What is to be done of one that was awaited for long enough.
    fn look_at(&mut self, member: Member, station: &Station, awaited: Awaited, now: Instant) -> Option<Step> {
        match awaited.sign {
            _ if awaited.is_met_by(station) => self.stays(member, now),
            Sign::AnythingOnceAsked => {
                let step = self.asks(member, station, (TO_ANSWER_TO_UPDATE, Sign::Anything), now);
                if step.is_none() {
                    self.awaits(member, Awaited { until: self.asks_again(), ..awaited });
                }
                step
            }
            Sign::FrameIfAcknowledged if station.heard > awaited.since => {
                self.awaits(member, Awaited { until: awaited.since + QUIET, sign: Sign::Frame, ..awaited });
                None
            }
            Sign::Anything | Sign::FrameIfAcknowledged | Sign::Frame => Some(self.moves(member, now)),
        }
    }

    fn moves(&mut self, member: Member, now: Instant) -> Step {
        self.awaited.remove(&member.1);
        if self.moved.len() == MOST_MOVES {
            self.moved.pop_front();
        }
        self.moved.push_back(Moved { station: member.1, at: now, is_told: false });
        Step::Move(member)
    }

    /// A station is here: if it moved lately, that is told once.
    fn stays(&mut self, member: Member, now: Instant) -> Option<Step> {
        let moved = self.moved_lately(member, now).filter(|moved| !moved.is_told)?;
        moved.is_told = true;
        Some(Step::Stay(member))
    }

    /// Its last move, if it moved lately.
    fn moved_lately(&mut self, member: Member, now: Instant) -> Option<&mut Moved> {
        while self.moved.front().map_or(false, |moved| moved.at + BETWEEN_MOVES <= now) {
            self.moved.pop_front();
        }
        self.moved.iter_mut().rev().find(|moved| moved.station == member.1)
    }

    /// Whether there is room for one more that is awaited, which is from now on.
    fn awaits(&mut self, member: Member, awaited: Awaited) -> bool {
        let has_room = self.awaited.len() < MOST_AWAITED || self.awaited.contains_key(&member.1);
        if has_room {
            self.look_due = self.look_due.min(awaited.until);
            self.awaited.insert(member.1, awaited);
        }
        has_room
    }

    /// When a network that has asked as many as it may asks again.
    fn asks_again(&self) -> Instant {
        self.asked.0 + self.asked_in
    }

    /// A station is asked if it may be asked now, and shows within a time that it is here, or doesn't.
    fn asks(
        &mut self,
        member: Member,
        station: &Station,
        (to_answer, sign): (Duration, Sign),
        now: Instant,
    ) -> Option<Step> {
        let (to_answer, step) = match station.dozes {
            true => (TO_ANSWER_OF_DOZING, Step::AskByUnit(member)),
            false => (to_answer, Step::Ask(member)),
        };
        if now >= self.asks_again() {
            self.asked = (now, 0);
        }
        let awaited = Awaited { since: now, until: now + to_answer, sign };
        let may = self.asked.1 < MOST_ASKED && self.awaits(member, awaited);
        self.asked.1 += u32::from(may);
        may.then_some(step)
    }
}

#[cfg(test)]
#[path = "roaming_test.rs"]
mod tests;
