//! What waits of each network: how much may, and which frame is dropped if more would (rules 2 to 6 of `air`). What
//! goes next, what goes once more and what goes back the proved library decides (`downlink`): a frame that it names
//! goes or leaves, and no other one. Of those who aren't associated it decides that one goes or leaves, and not which.
use std::collections::VecDeque;

use crate::formats::frames::Address;
use crate::os::clock::Instant;
use crate::outbound::air::account::{Account, Unsent};
use crate::outbound::air::backlog::Backlogs;
use crate::outbound::air::downlink::{Downlink, Ticket};
use crate::outbound::air::frame::{FrameKind, OutboundFrame, Receiver};
use crate::outbound::air::notices::Notices;
use crate::outbound::air::proved_queues::{Change, Fate};
use crate::outbound::air::scheduler::{Place, Scheduler};

/// The most octets that wait of a network.
pub const MOST_OCTETS: usize = 2 << 20;
/// How many frames wait for a station before what was kept for it waits apart.
const MOST_BEFORE_BACKLOG: usize = 16;

/// A frame that waits, by the ticket by which the library knows it. Of those who aren't associated any ticket is any
/// frame's.
#[derive(Debug)]
pub struct Ticketed {
    pub ticket: Ticket,
    pub frame: OutboundFrame,
}

/// A frame that came and doesn't wait, since its station dozes or left.
#[derive(Debug)]
pub struct Returned {
    pub frame: OutboundFrame,
    /// Whether it goes back to the program.
    pub goes_back: bool,
}

/// The frames of all networks that wait. By the calls here they come and go.
#[derive(Debug)]
pub struct Queue {
    pub(super) downlink: Downlink,
    pub(super) scheduler: Scheduler<Receiver, Ticketed>,
    pub(super) accounts: Vec<Account>,
    /// Of each network.
    backlogs: Vec<Backlogs>,
    pub(super) notices: Notices,
    /// What had no room, and goes back to the program, as the library decided.
    without_room: VecDeque<(Place, OutboundFrame)>,
    /// How many frames were dropped that the library didn't have.
    pub(super) strays: u64,
}

impl Queue {
    /// Nothing waits of networks of these weights.
    pub fn new(weights: impl ExactSizeIterator<Item = u8>) -> Queue {
        let networks = weights.len();
        let backlogs = (0..networks).map(|_| Backlogs::default()).collect();
        let (accounts, notices) = (vec![Account::default(); networks], Notices::new(networks));
        let (downlink, scheduler) = (Downlink::new(weights), Scheduler::new(networks));
        Queue { downlink, scheduler, accounts, backlogs, notices, without_room: VecDeque::new(), strays: 0 }
    }

    pub fn is_empty(&self) -> bool {
        self.scheduler.is_empty() && self.notices.is_empty() && self.backlogs.iter().all(Backlogs::is_empty)
    }

    // ---- whose turn it is

    /// Whose frame goes next, with the frame; `None` if none may go.
    pub fn first(&self) -> Option<(Place, Receiver, &Ticketed)> {
        let place = self.downlink.turn()?;
        let (receiver, waiting) = self.scheduler.first(place)?;
        Some((place, receiver, waiting))
    }

    /// The network whose turn it is, if all that waits of it is held: no other one's frame goes before.
    pub fn held(&self) -> Option<Place> {
        self.downlink.turn().filter(|place| !self.scheduler.has_ready(*place))
    }

    /// Whether a frame may go.
    pub fn has_ready(&self) -> bool {
        self.downlink.turn().map_or(false, |place| self.scheduler.has_ready(place))
    }

    /// A network of which all that waits is held has no turn any more while that is so, until a frame of it goes.
    pub fn pass_over(&mut self, place: Place) {
        self.scheduler.pass_over(place);
        self.tell_whether_it_waits(place);
    }

    pub fn hold(&mut self, place: Place, receiver: Receiver) {
        self.scheduler.hold(place, receiver);
        self.tell_whether_it_waits(place);
    }

    pub fn release(&mut self, place: Place, receiver: Receiver) {
        self.scheduler.release(place, receiver);
        self.tell_whether_it_waits(place);
    }

    /// The library learns whether a network is passed over, after each call by which that may have changed.
    fn tell_whether_it_waits(&mut self, place: Place) {
        self.downlink.set_paused(place, self.scheduler.is_passed_over(place));
    }

    /// The frame that is next goes, if it is its network's turn. Answers which one goes: `serve` takes it out then.
    pub fn goes(&mut self, place: Place, next: Ticket, now: Instant) -> Option<Ticket> {
        self.downlink.goes(place, next, now)
    }

    /// A frame goes that the library has go, and costs so many microseconds of air.
    pub fn serve(
        &mut self,
        place: Place,
        receiver: Receiver,
        ticket: Ticket,
        cost: u32,
        now: Instant,
    ) -> Option<OutboundFrame> {
        self.downlink.used(place, cost);
        let served = self.scheduler.serve(place, receiver, cost, |waiting| is_meant(receiver, waiting, ticket));
        let frame = served?.frame;
        self.count_out(place, &frame);
        self.refill(place, receiver, now);
        self.tell_whether_it_waits(place);
        Some(frame)
    }

    /// A frame of a network for a receiver took so many more microseconds of air than was reckoned.
    pub fn charge(&mut self, place: Place, receiver: Receiver, microseconds: u32) {
        if microseconds > 0 {
            self.downlink.used(place, microseconds);
            self.scheduler.charge(place, receiver, microseconds);
        }
    }

    // ---- what becomes of frames that went

    /// The radio told what became of a frame.
    pub fn told(&mut self, place: Place, ticket: Ticket, is_acknowledged: bool) -> Option<Fate> {
        self.downlink.told(place, ticket, is_acknowledged)
    }

    /// A unit goes once more, as the library decided: it waits before all others for its receiver.
    pub fn push_first(&mut self, place: Place, receiver: Receiver, again: Ticketed, now: Instant) {
        self.count_in(place, &again.frame);
        self.scheduler.push_first(place, receiver, again);
        self.drop_excess(place, now);
        self.tell_whether_it_waits(place);
    }

    /// A frame went, and the radio was never given it. Answers whether it goes back to the program.
    pub fn never_went(&mut self, place: Place, receiver: Receiver, ticket: Ticket) -> bool {
        let fate = match self.downlink.told(place, ticket, false) {
            Some(Fate::WaitsAgain) => self.downlink.gives_up(place, receiver).map(|(_, fate)| fate),
            fate => fate,
        };
        fate == Some(Fate::HandedBack)
    }

    // ---- what stations do

    /// A station joins, wakes or polls, or it is settled that it dozes.
    pub fn change(&mut self, place: Place, station: Address, change: Change) {
        self.downlink.change(place, station, change);
    }

    /// Whether the library may have something of a station.
    pub fn knows(&self, place: Place, station: Address) -> bool {
        self.downlink.knows(place, station)
    }

    /// Whether polls of a station are ignored now.
    pub fn ignores_polls(&self, place: Place, station: Address) -> bool {
        self.downlink.ignores_polls(place, station)
    }

    pub fn polls(&mut self, place: Place, station: Address, now: Instant) {
        self.downlink.polls(place, station, now);
    }

    /// A station dozes or leaves: answers its units, in their order. None of them waits any more.
    pub fn take_units(&mut self, place: Place, station: Address, change: Change) -> Vec<OutboundFrame> {
        self.downlink.change(place, station, change);
        let receiver = Receiver::Station(station);
        let mut units = Vec::new();
        while let Some((ticket, _)) = self.downlink.returns(place, receiver) {
            let taken = self.scheduler.take_first(place, receiver, |waiting| waiting.ticket == ticket);
            units.extend(taken.map(|waiting| waiting.frame));
        }
        units.iter().for_each(|frame| self.count_out(place, frame));
        let behind = self.backlogs[place].take_all(station);
        self.accounts[place].waiting -= behind.len();
        units.extend(behind);
        self.tell_whether_it_waits(place);
        units
    }

    // ---- what comes

    /// A frame waits for its receiver; management frames don't wait for units that were kept. What is too
    /// much by it is dropped. Answers the frame if it doesn't wait, since its station dozes or left.
    pub fn push(&mut self, place: Place, receiver: Receiver, frame: OutboundFrame, now: Instant) -> Option<Returned> {
        let is_unit = frame.kind.is_unit() && matches!(receiver, Receiver::Station(_));
        if is_unit && self.backlogs[place].waits(frame.address) {
            self.push_behind(place, frame);
            return None;
        }
        self.count_in(place, &frame);
        let returned = self.enter(place, receiver, frame, now);
        self.drop_excess(place, now);
        self.tell_whether_it_waits(place);
        returned
    }

    /// A frame of a network waits. Units that were kept have room of their own.
    fn count_in(&mut self, place: Place, frame: &OutboundFrame) {
        match frame.kind {
            FrameKind::Kept => self.accounts[place].waiting += 1,
            _ => self.accounts[place].count_in(frame.octets.len()),
        }
    }

    /// A frame of a network left the queue.
    fn count_out(&mut self, place: Place, frame: &OutboundFrame) {
        match frame.kind {
            FrameKind::Kept => {
                self.accounts[place].waiting -= 1;
                self.backlogs[place].forget_kept(frame.octets.len());
            }
            _ => self.accounts[place].count_out(frame.octets.len()),
        }
    }

    /// What is more than may wait of a network in all is dropped.
    fn drop_excess(&mut self, place: Place, now: Instant) {
        while self.accounts[place].octets > MOST_OCTETS {
            match self.scheduler.longest(place) {
                Some(longest) if self.drop_longest(place, longest, now) => {}
                _ => break,
            }
        }
    }

    /// A unit waits that the program kept for its station until now, behind all for that. It drops none; if it has
    /// no room itself, it is dropped.
    pub fn push_kept(&mut self, place: Place, frame: OutboundFrame, now: Instant) {
        let (receiver, backlog) = (Receiver::Station(frame.address), &mut self.backlogs[place]);
        if !backlog.has_room_for_kept(frame.octets.len()) {
            return self.accounts[place].count_unsent(Unsent::Full);
        }
        backlog.count_kept(frame.octets.len());
        self.count_in(place, &frame);
        if !self.backlogs[place].waits(frame.address) && self.has_room_before_backlog(place, receiver) {
            self.enter_awake(place, receiver, frame, now);
        } else {
            self.backlogs[place].push_kept(frame.address, frame);
        }
    }

    /// Whether a further unit that was kept waits in its station's queue, and not apart.
    fn has_room_before_backlog(&self, place: Place, receiver: Receiver) -> bool {
        self.scheduler.waiting(place, receiver) < MOST_BEFORE_BACKLOG
    }

    /// A unit waits behind those of its station that were kept.
    fn push_behind(&mut self, place: Place, frame: OutboundFrame) {
        match self.backlogs[place].push_behind(frame.address, frame) {
            None => self.accounts[place].waiting += 1,
            Some(_) => self.accounts[place].count_unsent(Unsent::Crowded),
        }
    }

    /// The first frame for the receiver for which most wait is dropped. What waits apart for it still waits. Answers
    /// whether one was.
    fn drop_longest(&mut self, place: Place, longest: Receiver, now: Instant) -> bool {
        let is_dropped = self.drop_one(place, longest, Unsent::Full);
        if self.scheduler.waiting(place, longest) == 0 {
            self.refill(place, longest, now);
        }
        is_dropped
    }

    /// One frame for a receiver is gone: if more wait apart and few in its queue, the next one waits in its place.
    fn refill(&mut self, place: Place, receiver: Receiver, now: Instant) {
        let address = match receiver {
            Receiver::Station(address) if self.backlogs[place].waits(address) => address,
            _ => return,
        };
        let before = self.scheduler.waiting(place, receiver);
        // If the library has no memory for one, the next one is tried: else nothing goes by which others had room.
        while before < MOST_BEFORE_BACKLOG && self.scheduler.waiting(place, receiver) == before {
            let frame = match self.backlogs[place].pop(address) {
                Some(frame) => frame,
                None => return,
            };
            // It is counted as one that waits already.
            if frame.kind != FrameKind::Kept {
                self.accounts[place].octets += frame.octets.len();
            }
            self.enter_awake(place, receiver, frame, now);
        }
    }

    /// All units that wait for a station apart are dropped.
    pub fn drop_backlog(&mut self, place: Place, address: Address, why: Unsent) {
        let dropped = self.backlogs[place].take_all(address).len();
        self.accounts[place].waiting -= dropped;
        (0..dropped).for_each(|_| self.accounts[place].count_unsent(why));
    }

    /// A notice waits for one who isn't associated, until its turn comes (`notices`).
    pub fn push_notice(&mut self, place: Place, notice: OutboundFrame) {
        self.accounts[place].count_in(notice.octets.len());
        let dropped = self.notices.push(place, notice);
        self.count_dropped(place, dropped, Unsent::Crowded);
    }

    /// What was to tell this address to go is dropped, since it is answered.
    pub fn drop_notices(&mut self, place: Place, address: Address) {
        let waiting = self.notices.take_of(place, address);
        self.count_dropped(place, waiting, Unsent::Left);
        let is_meant = |frame: &OutboundFrame| frame.address == address && frame.kind == FrameKind::Notice;
        let in_turn = self.take_from_others(place, is_meant);
        self.count_dropped(place, in_turn, Unsent::Left);
    }

    /// Takes out what waits for those who aren't associated and of which this is true.
    fn take_from_others(&mut self, place: Place, is_meant: impl Fn(&OutboundFrame) -> bool) -> Vec<OutboundFrame> {
        if self.scheduler.waiting(place, Receiver::Others) == 0 {
            return Vec::new();
        }
        let taken = self.scheduler.take_all(place, Receiver::Others, |waiting| is_meant(&waiting.frame));
        taken.iter().for_each(|_| {
            self.downlink.gives_up(place, Receiver::Others);
        });
        self.tell_whether_it_waits(place);
        taken.into_iter().map(|waiting| waiting.frame).collect()
    }

    /// The notices whose time it is wait among the answers of their networks from now on, where none of these waits.
    pub fn admit_notices(&mut self, now: Instant) {
        while let Some((place, late)) = self.notices.take_late(now) {
            self.count_dropped(place, [late], Unsent::Late);
        }
        loop {
            let scheduler = &self.scheduler;
            match self.notices.next(now, |place| scheduler.waiting(place, Receiver::Others) == 0) {
                Some((place, notice)) => self.enter_awake(place, Receiver::Others, notice, now),
                None => return,
            }
        }
    }

    fn count_dropped(&mut self, place: Place, frames: impl IntoIterator<Item = OutboundFrame>, why: Unsent) {
        for frame in frames {
            self.count_out(place, &frame);
            self.accounts[place].count_unsent(why);
        }
    }

    /// A frame that is counted waits for this receiver from now on. Of those who aren't associated each is answered
    /// first who asked last: who asked before may have given up. Answers the frame if it doesn't wait.
    fn enter(&mut self, place: Place, receiver: Receiver, frame: OutboundFrame, now: Instant) -> Option<Returned> {
        let is_unit = receiver != Receiver::Others && (frame.kind.is_unit() || frame.kind == FrameKind::GroupUnit);
        let came = match self.downlink.comes(place, receiver, is_unit, now) {
            Some(came) => came,
            None => {
                self.count_dropped(place, [frame], Unsent::Full);
                return None;
            }
        };
        let waiting = Ticketed { ticket: came.ticket, frame };
        match receiver {
            Receiver::Others => {
                let urgency = waiting.frame.urgency();
                self.scheduler.push_behind(place, receiver, waiting, |other| other.frame.urgency() < urgency);
            }
            Receiver::Groups | Receiver::Station(_) => self.scheduler.push(place, receiver, waiting),
        }
        if let Some(crowded_out) = came.crowded_out {
            self.drop_ticket(place, receiver, crowded_out, Unsent::Crowded);
        }
        let (ticket, fate) = came.may_return.then(|| self.downlink.returns(place, receiver)).flatten()?;
        let Ticketed { frame, .. } = self.scheduler.take_first(place, receiver, |waiting| waiting.ticket == ticket)?;
        self.count_out(place, &frame);
        Some(Returned { frame, goes_back: fate == Fate::HandedBack })
    }

    /// The same of a frame that isn't for a station that dozes or left; if it is, it is dropped.
    fn enter_awake(&mut self, place: Place, receiver: Receiver, frame: OutboundFrame, now: Instant) {
        if self.enter(place, receiver, frame, now).is_some() {
            self.accounts[place].count_unsent(Unsent::Left);
        }
        self.tell_whether_it_waits(place);
    }

    /// A station is associated: what waits for it among the others' frames waits behind what waits for the station, in
    /// the order in which it came.
    pub fn join(&mut self, place: Place, address: Address, now: Instant) {
        let mut frames = self.take_from_others(place, |frame| frame.address == address);
        // They are in the order in which they would go, of each kind the newest first. Several have come at one time.
        frames.reverse();
        frames.sort_by_key(|frame| frame.since);
        frames.into_iter().for_each(|frame| self.enter_awake(place, Receiver::Station(address), frame, now));
    }

    /// The next frame for a receiver is given up.
    pub fn take_first(&mut self, place: Place, receiver: Receiver, now: Instant) -> Option<OutboundFrame> {
        let (ticket, _) = self.downlink.gives_up(place, receiver)?;
        let taken = self.scheduler.take_first(place, receiver, |waiting| is_meant(receiver, waiting, ticket));
        let frame = taken?.frame;
        self.count_out(place, &frame);
        self.refill(place, receiver, now);
        self.tell_whether_it_waits(place);
        Some(frame)
    }

    /// The next frame for a receiver can't go: the library doesn't have it, or has no memory. It is dropped, as all
    /// networks would wait for it.
    pub fn drop_stray(&mut self, place: Place, receiver: Receiver, now: Instant) {
        let known = self.take_first(place, receiver, now);
        let stray = if known.is_some() { None } else { self.scheduler.take_first(place, receiver, |_| true) };
        if let Some(Ticketed { frame, .. }) = &stray {
            self.count_out(place, frame);
            self.refill(place, receiver, now);
            self.tell_whether_it_waits(place);
        }
        self.accounts[place].count_unsent(Unsent::Stray);
        self.strays += 1;
    }

    /// The oldest frame for a receiver is dropped, of others the one that would go last. The answer to a
    /// poll goes back. Answers whether there was one.
    fn drop_one(&mut self, place: Place, receiver: Receiver, why: Unsent) -> bool {
        match self.downlink.gives_up(place, receiver) {
            Some((ticket, Fate::HandedBack)) => {
                let taken = self.scheduler.take_first(place, receiver, |waiting| waiting.ticket == ticket);
                if let Some(Ticketed { frame, .. }) = taken {
                    self.count_out(place, &frame);
                    self.without_room.push_back((place, frame));
                }
                true
            }
            Some((ticket, _)) => {
                self.drop_ticket(place, receiver, ticket, why);
                true
            }
            None => false,
        }
    }

    /// Takes out what had no room, and goes back to the program.
    pub fn take_without_room(&mut self) -> Option<(Place, OutboundFrame)> {
        self.without_room.pop_front()
    }

    /// A frame is dropped that the library doesn't have any more: of others the one that would go last.
    fn drop_ticket(&mut self, place: Place, receiver: Receiver, ticket: Ticket, why: Unsent) {
        let dropped = match receiver {
            Receiver::Others => self.scheduler.drop_last(place, receiver),
            Receiver::Groups | Receiver::Station(_) => {
                self.scheduler.take_first(place, receiver, |waiting| waiting.ticket == ticket)
            }
        };
        self.count_dropped(place, dropped.map(|waiting| waiting.frame), why);
    }
}

/// Whether a frame that waits is the one of this ticket: of those who aren't associated any is.
fn is_meant(receiver: Receiver, waiting: &Ticketed, ticket: Ticket) -> bool {
    receiver == Receiver::Others || waiting.ticket == ticket
}

#[cfg(test)]
#[path = "queue_test.rs"]
mod tests;
