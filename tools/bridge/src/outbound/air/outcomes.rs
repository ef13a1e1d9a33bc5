//! The radio tells what became of a frame: who waited for that goes on, and the share of its network is corrected.
use super::{microseconds, Intake, Interface, Reports, Sent, Transmitter};
use crate::formats::frames::{Address, Frame};
use crate::formats::radiotap::Outcome;
use crate::os::clock::{earliest, Instant};
use crate::os::port::AT_A_TIME;
use crate::outbound::air::account::Unsent;
use crate::outbound::air::dequeue::LOOK_EVERY;
use crate::outbound::air::frame::{FrameKind, OutboundFrame, Receiver};
use crate::outbound::air::in_flight::FrameName;
use crate::outbound::air::links::{Next, Reported};
use crate::outbound::air::proved_queues::Fate;
use crate::outbound::air::queue::Ticketed;
use crate::outbound::air::scheduler::Place;
use crate::outbound::air::sleeping::Mode;
use crate::stations::own_frames::is_null_of_network;

/// After how many frames that the radio was given what it tells of them is read, though nothing waits for that.
const MOST_UNREAD: u64 = AT_A_TIME as u64;

impl Transmitter {
    /// Whether one waits for what the radio tells of frames that it has.
    pub fn awaits_outcomes(&self) -> bool {
        self.holds_back() || self.links.due().is_some() || self.sleepers.awaits_outcomes()
    }

    /// Whether frames wait that may go once it is known what became of those that the radio has.
    fn holds_back(&self) -> bool {
        self.in_flight.len() > 0 && !self.queue.scheduler.is_empty()
    }

    /// Whether what the radio tells of frames that it has is to be read now, if it was given so many since that was read
    /// last. What became of frames that have left it since then holds others, and so is read in any case.
    pub fn wants_outcomes(&self, given: u64) -> bool {
        let are_waited_for = self.holds_back() || self.sleepers.awaits_outcomes() || self.reports == Reports::Wanted;
        given >= MOST_UNREAD || given > 0 && are_waited_for || self.in_flight.any_unknown()
    }

    /// Of how many frames that it was given the radio hasn't told yet.
    pub fn in_flight(&self) -> usize {
        self.in_flight.len()
    }

    /// What the radio told so far was looked at.
    pub fn reports_read(&mut self) {
        self.reports = Reports::Read;
        self.in_flight.reports_read();
    }

    /// The radio shows a frame that it sent, with what became of it.
    pub fn reported(&mut self, place: Place, frame: &[u8], outcome: Outcome, now: Instant) {
        let (address, number) = match Frame::of(frame) {
            Some(found) => (found.receiver(), found.sequence_control()),
            None => return,
        };
        let name = FrameName { place, receiver: address, number };
        let tries = |outcome: Outcome| 1 + u32::from(outcome.retries);
        let found = self.in_flight.reported(name, now, |sent| sent.cost.tries(tries(sent.within_tries(outcome))));
        let outcome = found.as_ref().map_or(outcome, |sent| sent.within_tries(outcome));
        let mut fate = None;
        if let Some(sent) = &found {
            let took = sent.told_cost(outcome).tries(tries(outcome));
            let more = took.saturating_sub(sent.cost.tries(1));
            self.resume();
            self.queue.accounts[place].used += more;
            self.queue.charge(place, sent.receiver, microseconds(more));
            let is_acknowledged = outcome.is_acknowledged || !sent.kind.is_unit();
            fate = self.queue.told(place, sent.ticket, is_acknowledged);
        }
        let is_own = found.as_ref().map_or_else(|| is_null_of_network(frame), Sent::is_own);
        if !address.is_group() && !is_own {
            self.take_outcome(name, frame, found.zip(fate), outcome, now);
        }
        self.release(place, address);
    }

    /// What became of a frame of the program for a station is learned. A unit that was lost is sent once more or goes
    /// back to the program, as the library has decided.
    fn take_outcome(
        &mut self,
        name: FrameName,
        frame: &[u8],
        sent: Option<(Sent, Fate)>,
        outcome: Outcome,
        now: Instant,
    ) {
        let FrameName { place, receiver: address, number } = name;
        let mode = self.sleepers.mode(place, address);
        let answers_poll = sent.as_ref().map_or(false, |(sent, _)| sent.kind == FrameKind::PollAnswer);
        let listens = match mode {
            Mode::Awake | Mode::Wakes => true,
            Mode::Dozes => answers_poll,
            Mode::FallsAsleep | Mode::Leaves => false,
        };
        let is_awaited = self.sleepers.reported((place, address), number, outcome.is_acknowledged, now);
        self.take_settled();
        let goes_again = matches!(sent, Some((_, Fate::WaitsAgain)));
        let next = self.links.reported(place, address, frame, Reported { outcome, listens, goes_again }, now);
        match (next, sent) {
            (_, Some((sent, Fate::WaitsAgain))) => self.send_once_more(name, sent, now),
            _ if is_awaited => {}
            (_, Some((sent, Fate::HandedBack))) => {
                if !self.hand_back_late(place, address, &sent.octets, now) {
                    self.links.count_lost(place);
                }
            }
            (Next::GivenUp, _) => self.links.count_lost(place),
            _ => {}
        }
    }

    /// A unit that was lost is sent once more, with Retry set.
    fn send_once_more(&mut self, name: FrameName, sent: Sent, now: Instant) {
        let FrameName { place, receiver: address, .. } = name;
        let octets = self.links.once_more(place, address, &sent.octets);
        let frame = OutboundFrame { octets, address, kind: FrameKind::Again, since: now };
        self.queue.push_first(place, sent.receiver, Ticketed { ticket: sent.ticket, frame }, now);
        self.hand_back_without_room(now);
        if self.sleepers.mode(place, address) == Mode::Dozes {
            self.queue.scheduler.hurry(place, sent.receiver);
        }
    }

    /// What comes next for a station goes, unless it waits for another frame.
    pub(super) fn release(&mut self, place: Place, address: Address) {
        let station = Receiver::Station(address);
        if self.queue.scheduler.is_held(place, station) && !self.links.waits(place, address) {
            self.queue.release(place, station);
        }
    }

    /// When `expire` has something to do.
    pub fn due(&self) -> Option<Instant> {
        let notices = self.queue.notices.due();
        earliest(&[self.links.due(), self.in_flight.due(), self.sleepers.due(), notices, self.look_due])
    }

    /// What has waited long enough for what became of the frame before is sent, and what the radio doesn't have any
    /// more leaves it room.
    pub fn expire(&mut self, now: Instant) {
        self.sleepers.expire(now);
        self.take_settled();
        self.queue.notices.expire(now);
        let gone = self.in_flight.expire(now);
        self.forget_expired(gone, now);
        while let Some((place, address)) = self.links.expire(now) {
            self.release(place, address);
        }
    }

    /// Whether one looks at the radio's socket at this time.
    pub fn wants_look(&self, now: Instant) -> bool {
        self.look_due.map_or(false, |due| due <= now)
    }

    /// The radio's socket was looked at, and is empty or isn't. What became of the frames that left it may be unread.
    pub fn looked(&mut self, is_empty: bool, now: Instant) {
        if is_empty && self.awaiting_room.is_empty() {
            self.look_due = None;
            let had = self.in_flight.names().collect();
            let gone = if self.links.is_told() {
                self.in_flight.settle();
                self.in_flight.give_up_missing()
            } else {
                self.in_flight.clear()
            };
            self.forget(gone);
            self.left(had);
        } else {
            self.look_due = Some(now + LOOK_EVERY);
        }
    }

    /// The radio may have more again.
    pub(super) fn resume(&mut self) {
        if self.intake == Intake::Closed {
            self.intake = Intake::Bounded;
            self.look_due = None;
        }
    }

    /// Nothing will be told any more of these frames. The radio lost those that it was given before its interface went
    /// down.
    fn forget_expired(&mut self, gone: Vec<(FrameName, Sent)>, now: Instant) {
        if self.interface == Interface::Up {
            return self.forget(gone);
        }
        let awaits_room = |name: FrameName| self.awaiting_room.iter().any(|(waiting, _)| *waiting == name);
        let (waiting, lost) = gone.into_iter().partition(|(name, _)| awaits_room(*name));
        self.forget(waiting);
        self.was_reset(lost, now);
    }

    /// The radio lost these frames as its interface went down. A unit goes once more or back to the program, as the
    /// library decides; the others are dropped.
    pub(super) fn was_reset(&mut self, lost: Vec<(FrameName, Sent)>, now: Instant) {
        let names = lost.iter().map(|(name, _)| *name).collect();
        for (name, sent) in lost {
            let FrameName { place, receiver: address, number } = name;
            let fate = self.queue.told(place, sent.ticket, false);
            let is_awaited = self.sleepers.reported((place, address), number, false, now);
            self.take_settled();
            self.links.was_reset(place, address, fate == Some(Fate::WaitsAgain), now);
            let goes_back = fate == Some(Fate::HandedBack);
            if fate == Some(Fate::WaitsAgain) {
                self.send_once_more(name, sent, now);
                continue;
            }
            let went_back = !is_awaited && goes_back && self.hand_back_late(place, address, &sent.octets, now);
            if !is_awaited && !went_back {
                self.queue.accounts[place].count_unsent(Unsent::Reset);
            }
        }
        self.left(names);
    }

    /// Nothing will be told any more of these frames: none of them goes once more.
    fn forget(&mut self, gone: Vec<(FrameName, Sent)>) {
        for (FrameName { place, .. }, sent) in &gone {
            self.queue.told(*place, sent.ticket, true);
        }
        self.left(gone.into_iter().map(|(name, _)| name).collect());
    }

    /// The radio doesn't have these frames any more, and said nothing of them yet.
    pub(super) fn left(&mut self, gone: Vec<FrameName>) {
        if !gone.is_empty() {
            self.resume();
        }
        gone.into_iter().for_each(|name| self.release(name.place, name.receiver));
    }
}
