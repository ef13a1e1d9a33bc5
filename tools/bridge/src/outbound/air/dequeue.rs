//! A frame goes: whose it is, whether it is held or dropped instead, at which rate it goes, and how often it is tried.
use std::rc::Rc;

use super::{microseconds, Intake, Interface, Reports, Sent, Transmitter};
use crate::formats::frames::{Address, Frame};
use crate::formats::radiotap::{sending_header, MOST_RETRIES, SENDING_LEN};
use crate::os::clock::{Duration, Instant, MILLISECOND};
use crate::outbound::air::account::Unsent;
use crate::outbound::air::air_time::{Cost, Size};
use crate::outbound::air::downlink::Ticket;
use crate::outbound::air::frame::{FrameKind, OutboundFrame, Receiver, MOST_LIFETIME, MOST_UNDRAINED};
use crate::outbound::air::in_flight::FrameName;
use crate::outbound::air::lateness::Lateness;
use crate::outbound::air::links::{Beside, Links, Outlook};
use crate::outbound::air::queue::Ticketed;
use crate::outbound::air::rate_control::Choice;
use crate::outbound::air::scheduler::Place;
use crate::outbound::air::sleeping::Octets;

/// How long the tries of one sending take at most, the waits before them included. Linux stations and hostapd give up
/// after seven tries, which take so long for a long unit at 54 Mb/s.
const MOST_TRYING: Duration = Duration::from_micros(25_200);
/// One that has to be acknowledged is tried twice, however long that takes.
const LEAST_TRIES: u8 = 2;
/// How long the radio takes at most for the frames of one network that it has at once, if nobody acknowledges any of
/// them, unless that is one frame. A beacon waits so long if a station has gone.
pub const MOST_TRYING_AT_ONCE: Duration = Duration::from_millis(50);
/// So often a unit is tried at most that goes behind others of its network, to a station that loses few tries: if it
/// loses a tenth of them, one unit in 10,000 goes once more. So the radio may have enough of them at once.
const MOST_TRIES_BEHIND: u8 = 4;
/// While no more frames wait for a station that loses some, the radio has one of them at a time.
pub const FEW: usize = 8;
/// Answers are tried twice at most while one other of their network is sent or waits, and once while more than so many
/// are or do.
const MOST_TRIED_TWICE: usize = 8;
/// How often the radio's socket is looked at, if the radio doesn't say what became of a frame.
pub const LOOK_EVERY: Duration = MILLISECOND;
/// A network is busy for so long once the radio had as much of it as it may have at once.
const BUSY_SINCE_FULL: Duration = Duration::from_millis(100);

/// The frame that is next.
#[derive(Debug, Clone, Copy)]
struct Next {
    place: Place,
    receiver: Receiver,
    ticket: Ticket,
    address: Address,
    kind: FrameKind,
}

/// How a frame is expected to go, unless it is a sample or one that was lost.
#[derive(Debug, Clone, Copy)]
struct Expected {
    size: Size,
    cost: Cost,
    /// For how long it may be tried.
    trying: Duration,
}

impl Transmitter {
    /// Whether the frame that waits first is worth nothing any more. A unit's time counts since its station could be
    /// sent to, and late ones go for a while (`lateness`). What was kept is worth something while it drains.
    fn is_worthless(links: &Links, lateness: &mut Lateness, place: Place, frame: &OutboundFrame, now: Instant) -> bool {
        let is_late = now > frame.since + frame.kind.lifetime();
        match frame.kind {
            FrameKind::Unit | FrameKind::Again if !is_late => lateness.look(place, frame.address, false, now),
            FrameKind::Unit | FrameKind::Again => {
                let since = links.had_kept(place, frame.address).max(frame.since);
                let could_go = links.goes_since(place, frame.address).max(since);
                let is_late = now > could_go + frame.kind.lifetime();
                lateness.look(place, frame.address, is_late, now) || now > since + MOST_LIFETIME
            }
            FrameKind::Kept => is_late && now > links.acknowledged(place, frame.address) + MOST_UNDRAINED,
            _ => is_late,
        }
    }

    /// The frame that waits first is worth nothing any more. A unit that answers a poll goes back to the program, as long
    /// as its station dozes. If what was kept for a station doesn't drain, all of it is dropped.
    fn give_up(&mut self, place: Place, frame: OutboundFrame, now: Instant) {
        if frame.kind.is_unit() && self.hand_back_late(place, frame.address, &frame.octets, now) {
            return;
        }
        self.queue.accounts[place].count_unsent(Unsent::Late);
        if frame.kind == FrameKind::Kept {
            self.queue.drop_backlog(place, frame.address, Unsent::Late);
        }
    }

    /// Chooses what goes next, until so many frames are chosen or none may go. Answers whether any is chosen that may
    /// be handed to the radio: none while a beacon waits.
    pub fn choose(&mut self, most: usize, now: Instant) -> bool {
        if self.interface == Interface::Down || !self.beacons.is_empty() {
            return false;
        }
        while self.awaiting_room.len() < most && self.choose_one(now) {}
        !self.awaiting_room.is_empty()
    }

    /// Whether frames wait behind such as are out for long, so that one asks the radio's socket whether they are.
    pub fn is_doubtful(&self, now: Instant) -> bool {
        self.in_flight.is_doubtful(now) && self.awaiting_room.is_empty() && self.queue.scheduler.any_ready()
    }

    /// The radio's socket is empty or isn't. If it is, what became of those frames needn't be known before others go.
    pub fn resolve(&mut self, is_empty: bool) {
        if is_empty {
            self.in_flight.settle();
            self.resume();
        } else {
            self.reports = Reports::Wanted;
        }
    }

    /// What may go is chosen: the radio's socket is looked at some time later, if frames wait for the radio.
    pub fn set_look(&mut self, now: Instant) {
        let waits_for_radio = match self.intake {
            Intake::Closed => true,
            Intake::Bounded if self.in_flight.any_missing() => !self.queue.scheduler.is_empty(),
            Intake::Bounded => self.queue.scheduler.any_ready() && self.queue.held().is_some(),
            Intake::Unbounded => false,
        };
        self.look_due = waits_for_radio.then(|| self.look_due.unwrap_or_else(|| self.next_look(now)));
    }

    /// When the radio's socket is looked at: once its first frame is overdue, and at once if it never tells
    /// anything.
    fn next_look(&self, now: Instant) -> Instant {
        let overdue = self.in_flight.overdue().filter(|_| self.links.is_told());
        overdue.unwrap_or(now).max(now + LOOK_EVERY)
    }

    /// Chooses the frame that goes next, or drops one that can't go; false if none may go now.
    fn choose_one(&mut self, now: Instant) -> bool {
        if !self.queue.notices.is_empty() {
            self.queue.admit_notices(now);
        }
        loop {
            let (place, receiver, Ticketed { ticket, frame }) = match self.queue.first() {
                Some(first) => first,
                None => {
                    if self.pass_over() {
                        continue;
                    }
                    return false;
                }
            };
            let address = frame.address;
            let outlook = self.links.outlook(place, address, now);
            if Self::is_worthless(&self.links, &mut self.lateness, place, frame, now) {
                match self.queue.take_first(place, receiver, now) {
                    Some(frame) => self.give_up(place, frame, now),
                    None => self.queue.drop_stray(place, receiver, now),
                }
            } else if matches!(receiver, Receiver::Station(_)) && self.awaits(place, frame, outlook, now) {
                self.queue.hold(place, receiver);
            } else {
                let rate = if frame.kind.is_unit() { outlook.unit_rate } else { self.links.lowest(place) };
                let size = Size { octets: frame.octets.len(), rate, is_acknowledged: !address.is_group() };
                let cost = size.cost();
                let next = Next { place, receiver, ticket: *ticket, address, kind: frame.kind };
                let octets = Rc::clone(&frame.octets);
                let trying = self.most_trying((place, receiver), frame, outlook, cost, now);
                let has_room = trying.is_some() && self.in_flight.has_room(cost.tries(1), now);
                if self.intake != Intake::Unbounded && !has_room {
                    self.intake = Intake::Closed;
                    if trying.is_none() || self.in_flight.is_filled_by(place, cost.tries(1)) {
                        self.busy_until[place] = now + BUSY_SINCE_FULL;
                    }
                    return false;
                }
                self.resume();
                let expected = Expected { size, cost, trying: trying.unwrap_or(MOST_TRYING) };
                self.take(next, &octets, expected, now);
                return true;
            }
        }
    }

    /// For how long a frame may be tried that costs so much a try; `None` if it waits until the radio told of others
    /// of its network.
    fn most_trying(
        &self,
        (place, receiver): (Place, Receiver),
        frame: &OutboundFrame,
        outlook: Outlook,
        cost: Cost,
        now: Instant,
    ) -> Option<Duration> {
        let others = self.in_flight.longest_of(place, now);
        if others.is_zero() {
            return Some(MOST_TRYING);
        }
        let is_sure = frame.kind.is_unit() && outlook.is_sure;
        let most = if is_sure { MOST_TRIES_BEHIND - 1 } else { most_retries(frame) };
        let most = most.min(self.retries_beside_others(place, receiver, frame.kind));
        let trying = cost.tries(u32::from(tries_within(cost, MOST_TRYING, most)));
        (others + trying <= MOST_TRYING_AT_ONCE).then_some(trying)
    }

    /// If all is held of the network whose turn it is, the others wait with it until the radio told of its frames. If
    /// the radio has none of them, that may take long, and it is passed over. Answers whether it is.
    fn pass_over(&mut self) -> bool {
        let held = self.queue.held();
        let passed = held.filter(|held| !self.in_flight.has_any(*held) || self.intake == Intake::Unbounded);
        passed.into_iter().for_each(|place| self.queue.pass_over(place));
        passed.is_some()
    }

    /// Whether what comes next for a station waits for what became of a frame before: of one that takes long, and of
    /// one that may be lost, since a unit is sent once more only if nothing went to its station since. If many
    /// wait, the radio has several of them all the same, unless the last one was lost.
    fn awaits(&self, place: Place, frame: &OutboundFrame, outlook: Outlook, now: Instant) -> bool {
        let address = frame.address;
        if self.awaits_first_unit(place, frame, outlook) {
            return true;
        }
        if outlook.is_sure {
            return self.in_flight.is_overdue(place, address, now);
        }
        let few_wait = self.queue.scheduler.waiting(place, Receiver::Station(address)) <= FEW;
        let goes_alone = few_wait || outlook.is_in_doubt;
        self.in_flight.is_overdue(place, address, now)
            || self.in_flight.is_unknown(place, address)
            || goes_alone && self.in_flight.has(place, address)
    }

    /// Whether a unit waits until its station acknowledges the first one after a silence.
    fn awaits_first_unit(&self, place: Place, frame: &OutboundFrame, outlook: Outlook) -> bool {
        let is_unit = |sent: &Sent| sent.kind.is_unit();
        outlook.is_silent && frame.kind.is_unit() && self.in_flight.has_such(place, frame.address, is_unit)
    }

    /// The frame that is next goes, if the library lets it: its rate and tries are chosen, and its packet is made. One
    /// that either of both doesn't have is dropped, so that others go.
    fn take(&mut self, next: Next, octets: &Octets, expected: Expected, now: Instant) {
        let Next { place, receiver, ticket, address, kind } = next;
        let most_retries = self.retries_beside_others(place, receiver, kind);
        let ticket = match self.queue.goes(place, ticket, now) {
            Some(ticket) => ticket,
            None => return self.queue.drop_stray(place, receiver, now),
        };
        let (choice, waits, cost) = self.choice(place, address, kind, octets, expected, now);
        let choice = Choice { retries: choice.retries.min(most_retries), ..choice };
        let one_try = cost.tries(1);
        if self.queue.serve(place, receiver, ticket, microseconds(one_try), now).is_none() {
            self.queue.told(place, ticket, true);
            return;
        }
        if kind == FrameKind::Kept {
            self.links.has_kept(place, address, now);
        }
        if waits {
            self.queue.hold(place, receiver);
        }
        self.queue.accounts[place].used += one_try;
        let number = Frame::of(octets).and_then(|frame| frame.sequence_control());
        let name = FrameName { place, receiver: address, number };
        // A sample is likely to need both of its tries.
        let reckoned = cost.tries(1 + u32::from(choice.is_sample));
        let (size, retries) = (Size { rate: choice.rate, ..expected.size }, choice.retries);
        let longest = cost.tries(1 + u32::from(retries));
        let mut packet = self.spare.pop().unwrap_or_default();
        packet.clear();
        packet.reserve_exact(SENDING_LEN + octets.len());
        packet.extend(sending_header(choice.rate, choice.retries));
        packet.extend_from_slice(octets);
        let octets = Rc::clone(octets);
        self.in_flight.give(name, Sent { size, cost, retries, longest, receiver, kind, ticket, octets }, reckoned, now);
        self.awaiting_room.push_back((name, packet));
    }

    /// How often a frame is tried again at most that goes next, if others wait to be answered: most of them may be
    /// addresses that somebody made up, and who is there asks again. So one that is lost costs the others little.
    fn retries_beside_others(&self, place: Place, receiver: Receiver, kind: FrameKind) -> u8 {
        match kind {
            FrameKind::Notice => 0,
            FrameKind::Answer => {
                let is_answer = |waiting: &Ticketed| waiting.frame.kind == FrameKind::Answer;
                let waiting = self.queue.scheduler.count_first(place, Receiver::Others, is_answer);
                let with_radio = self.in_flight.count(place, |sent| sent.kind == FrameKind::Answer);
                match waiting + with_radio - usize::from(receiver == Receiver::Others) {
                    0 => u8::MAX,
                    1..=MOST_TRIED_TWICE => 1,
                    _ => 0,
                }
            }
            _ => u8::MAX,
        }
    }

    /// At which rate a frame goes, how often it is tried again, whether what comes next for its station waits, and what
    /// it takes of the air, which is reckoned anew where it goes otherwise than was expected.
    fn choice(
        &mut self,
        place: Place,
        address: Address,
        kind: FrameKind,
        octets: &Rc<Vec<u8>>,
        expected: Expected,
        now: Instant,
    ) -> (Choice, bool, Cost) {
        let lowest = self.links.lowest(place);
        let plainly = |retries| Choice { rate: lowest, retries, is_sample: false };
        let (choice, waits) = match kind {
            FrameKind::Own { retries } => (plainly(retries), false),
            _ if address.is_group() => (plainly(0), false),
            _ => {
                let beside = Beside {
                    is_busy: now < self.busy_until[place] || self.in_flight.is_busy(place),
                    others_wait: self.queue.scheduler.waiting(place, Receiver::Station(address)) > 1,
                };
                self.links.choose(place, address, octets, beside, now)
            }
        };
        let choice = if kind == FrameKind::AnswerToAll { plainly(0) } else { choice };
        let size = Size { rate: choice.rate, ..expected.size };
        let cost = if size == expected.size { expected.cost } else { size.cost() };
        let tries = tries_within(cost, expected.trying, choice.retries);
        (Choice { retries: tries - 1, ..choice }, waits, cost)
    }
}

/// How often a frame is tried within a time, if it is tried again so often at most.
fn tries_within(cost: Cost, time: Duration, retries: u8) -> u8 {
    match retries {
        0 => 1,
        retries => cost.tries_within(time, LEAST_TRIES, retries + 1),
    }
}

/// How often a frame is tried again at most, by what it is.
fn most_retries(frame: &OutboundFrame) -> u8 {
    match frame.kind {
        FrameKind::Own { retries } => retries,
        FrameKind::AnswerToAll | FrameKind::Notice => 0,
        _ if frame.address.is_group() => 0,
        _ => MOST_RETRIES,
    }
}
