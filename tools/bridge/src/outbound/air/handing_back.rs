//! A station dozes, wakes or leaves: its units go back to the program, go, or are dropped (rules 18 to 20 of `air`).
use std::rc::Rc;

use super::Transmitter;
use crate::formats::ethernet::wired_form;
use crate::formats::frames::{Address, Frame};
use crate::formats::radiotap::SENDING_LEN;
use crate::os::clock::Instant;
use crate::outbound::air::account::Unsent;
use crate::outbound::air::proved_queues::Change;
use crate::outbound::air::scheduler::Place;
use crate::outbound::air::sleeping::{Late, Mark, Mode, Octets, Step};

/// What is to be done for stations that fell asleep, in this order.
#[derive(Debug, Clone, PartialEq, Eq)]
pub enum Errand {
    /// The program is given a unit as what came by the network's wire.
    HandBack { place: Place, frame: Vec<u8> },
    /// The program may be told what waits of this station and for it.
    GoOn { place: Place, station: Address },
}

impl Transmitter {
    /// The program was given a frame by which a station that was awake dozes, and behind it this mark. It may have said
    /// so before the answer by which it joins.
    pub fn dozes(&mut self, place: Place, station: Address, mark: Mark, now: Instant) {
        self.take_settled();
        self.queue.change(place, station, Change::Joins);
        let waited = self.queue.take_units(place, station, Change::Dozes);
        let mut waiting = self.take_chosen(place, station);
        waiting.extend(waited.into_iter().map(|frame| frame.octets));
        let is_told = self.links.is_told();
        let units = self.in_flight.of(place, station).filter(|(_, sent)| is_told && sent.kind.is_unit());
        let with_radio = units.map(|(name, sent)| (name.number, Rc::clone(&sent.octets)));
        let lost = self.sleepers.falls_asleep((place, station), mark, with_radio, waiting, now);
        self.count_unsent(place, Unsent::Full, lost as u64);
        self.release(place, station);
    }

    /// A station isn't associated any more. If the program wasn't given more than that yet, behind it stands this mark.
    pub fn leaves(&mut self, place: Place, station: Address, mark: Option<Mark>, now: Instant) {
        let waited = self.queue.take_units(place, station, Change::Leaves).len();
        let waiting = waited + self.take_chosen(place, station).len();
        let waiting = waiting + self.sleepers.leaves(place, station, mark, now);
        self.take_settled();
        self.count_unsent(place, Unsent::Left, waiting as u64);
        self.links.leave(place, station, now);
        self.release(place, station);
    }

    /// The program was given a frame by which a station that dozed is awake, and behind it this mark.
    pub fn wakes(&mut self, place: Place, station: Address, mark: Mark, now: Instant) {
        self.sleepers.wakes(place, station, mark, now);
        self.take_settled();
        self.queue.change(place, station, Change::Wakes);
    }

    /// The program was given a poll of a station, and behind it this mark: if it dozes, the unit that comes next for it
    /// goes.
    pub fn polls(&mut self, place: Place, station: Address, mark: Mark, now: Instant) {
        self.sleepers.polls(place, station, mark);
        self.queue.polls(place, station, now);
    }

    /// Whether polls of a station are ignored now: the program has one of it, or the answer to one is on its way.
    pub fn ignores_polls(&self, place: Place, station: Address) -> bool {
        self.sleepers.has_polled(place, station) || self.queue.ignores_polls(place, station)
    }

    /// Whether it isn't known what became of a frame for a station that the radio was given.
    pub fn has_out(&self, place: Place, station: Address) -> bool {
        self.in_flight.has(place, station)
    }

    /// A station is associated, and awake.
    pub fn joins(&mut self, place: Place, station: Address, now: Instant) {
        self.sleepers.joins(place, station, now);
        self.take_settled();
        self.queue.change(place, station, Change::Joins);
    }

    /// A station dozes since before this bridge began.
    pub fn has_dozed(&mut self, place: Place, station: Address, now: Instant) {
        self.sleepers.has_dozed(place, station, now);
        self.take_settled();
        [Change::Joins, Change::Dozes, Change::Settles].map(|change| self.queue.change(place, station, change));
    }

    /// The program answered a mark. Answers whether there is such a mark.
    pub fn answered(&mut self, mark: Mark, now: Instant) -> bool {
        let is_known = self.sleepers.answered(mark, now);
        self.take_settled();
        is_known
    }

    /// The library learns of which stations all is answered that came before they said that they doze.
    pub(super) fn take_settled(&mut self) {
        while let Some((place, station)) = self.sleepers.take_settled() {
            self.queue.change(place, station, Change::Settles);
        }
    }

    pub fn is_asleep(&self, place: Place, station: Address) -> bool {
        matches!(self.sleepers.mode(place, station), Mode::Dozes | Mode::FallsAsleep)
    }

    /// What is to be done next for them.
    pub fn next_errand(&mut self) -> Option<Errand> {
        while let Some(step) = self.sleepers.next() {
            match step {
                Step::GoOn { place, station } => {
                    self.count_over_quota(place);
                    return Some(Errand::GoOn { place, station });
                }
                Step::HandBack { place, octets, .. } => match wired_form(&octets) {
                    Some(frame) => {
                        self.queue.accounts[place].handed_back.units += 1;
                        return Some(Errand::HandBack { place, frame });
                    }
                    None => self.count_unsent(place, Unsent::NoWiredForm, 1),
                },
            }
        }
        None
    }

    /// A unit of a station that dozes goes back to the program though it wasn't awaited, or is lost since too many did.
    /// Answers whether its station dozes.
    pub(super) fn hand_back_late(&mut self, place: Place, station: Address, octets: &Octets, now: Instant) -> bool {
        let late = self.sleepers.goes_back_late(place, station, Rc::clone(octets), now);
        match late {
            Late::GoesBack { is_behind_others: true } => self.queue.accounts[place].handed_back.out_of_order += 1,
            Late::OverQuota => self.count_over_quota(place),
            Late::NoRoom => self.count_unsent(place, Unsent::Full, 1),
            Late::GoesBack { is_behind_others: false } | Late::Stays => {}
        }
        late != Late::Stays
    }

    /// What had no room in its network goes back, since its station dozes.
    pub(super) fn hand_back_without_room(&mut self, now: Instant) {
        while let Some((place, frame)) = self.queue.take_without_room() {
            if !self.hand_back_late(place, frame.address, &frame.octets, now) {
                self.count_unsent(place, Unsent::Full, 1);
            }
        }
    }

    fn count_over_quota(&mut self, place: Place) {
        let over_quota = self.sleepers.take_over_quota(place);
        self.count_unsent(place, Unsent::OverQuota, over_quota);
    }

    fn count_unsent(&mut self, place: Place, why: Unsent, number: u64) {
        (0..number).for_each(|_| self.queue.accounts[place].count_unsent(why));
    }

    /// Takes out the units for a station that had their turn and that the radio's socket had no room for.
    fn take_chosen(&mut self, place: Place, station: Address) -> Vec<Octets> {
        let mut units = Vec::new();
        for (name, packet) in std::mem::take(&mut self.awaiting_room) {
            let is_meant = (name.place, name.receiver) == (place, station);
            match is_meant.then(|| unit_of(&packet)).flatten() {
                Some(unit) => {
                    if let Some(sent) = self.in_flight.forget(name) {
                        self.queue.never_went(place, sent.receiver, sent.ticket);
                    }
                    units.push(unit);
                }
                None => self.awaiting_room.push_back((name, packet)),
            }
        }
        units
    }
}

/// The unit of a packet. `in_flight` may have forgotten it: it had its turn long ago, and still waits for room.
pub(super) fn unit_of(packet: &[u8]) -> Option<Octets> {
    let octets = packet.get(SENDING_LEN..)?;
    Frame::of(octets)?.is_unit().then(|| Rc::new(octets.to_vec()))
}
