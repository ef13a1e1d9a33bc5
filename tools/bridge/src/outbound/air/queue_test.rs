//! A slow model of what waits, written from rules 2 to 6 of `air`: one list for each network, which is searched.
use std::collections::{BTreeMap, BTreeSet};
use std::rc::Rc;

use super::*;
use crate::os::clock::Instant;
use crate::outbound::air::backlog::MOST_KEPT;
use crate::outbound::air::downlink::MOST_FOR_STATION;
use crate::outbound::air::frame::{FrameKind, Urgency};
use crate::testing::samples::{made_up, Seeded, OTHER, OURS, STATION, STRANGER};

const CALLS: usize = if cfg!(debug_assertions) { 20_000 } else { 1_000_000 };
const CALLS_OF_A_RUN: usize = 2500;
/// How long frames are, of a run each: in one no network ever has 2 MB.
const LENGTHS: [[usize; 4]; 3] = [[24, 40, 400, 1500], [24, 400, 4000, 50_000], [4000, 4000, 4000, 4000]];
const STATIONS: [Address; 4] = [STATION, OTHER, STRANGER, OURS];

struct ModelFrame {
    mark: u64,
    receiver: Receiver,
    address: Address,
    octets: usize,
    is_again: bool,
    room: Room,
    is_kept: bool,
    urgency: Urgency,
}

/// Whether a frame waits in its receiver's queue, or apart.
#[derive(Debug, Clone, Copy, PartialEq, Eq)]
enum Room {
    Queue,
    Apart,
}

#[derive(Default)]
struct Model {
    /// In the order in which they came, those first that are sent once more.
    frames: Vec<ModelFrame>,
    dropped: BTreeMap<Unsent, u64>,
}

impl Model {
    fn octets(&self) -> usize {
        let are_counted = self.frames.iter().filter(|frame| frame.room == Room::Queue && !frame.is_kept);
        are_counted.map(|frame| frame.octets).sum()
    }

    fn waiting(&self, receiver: Receiver) -> usize {
        self.frames.iter().filter(|frame| frame.receiver == receiver && frame.room == Room::Queue).count()
    }

    /// Where the first frame of a receiver stands that waits apart, and was kept or wasn't.
    fn first_apart(&self, receiver: Receiver, is_kept: bool) -> Option<usize> {
        let is_it =
            |frame: &ModelFrame| (frame.receiver, frame.room, frame.is_kept) == (receiver, Room::Apart, is_kept);
        self.frames.iter().position(is_it)
    }

    fn is_apart(&self, receiver: Receiver) -> bool {
        self.first_apart(receiver, true).is_some() || self.first_apart(receiver, false).is_some()
    }

    /// Rule 5: in the place of one that is gone waits the next one that waited apart.
    fn refill(&mut self, receiver: Receiver) {
        if self.waiting(receiver) >= 16 {
            return;
        }
        let found = self.first_apart(receiver, true).or_else(|| self.first_apart(receiver, false));
        if let Some(found) = found {
            let frame = self.frames.remove(found);
            self.frames.push(ModelFrame { room: Room::Queue, ..frame });
        }
    }

    fn take_one(&mut self, receiver: Receiver) -> Option<ModelFrame> {
        let is_first = |frame: &ModelFrame| frame.receiver == receiver && frame.room == Room::Queue;
        let found = self.frames.iter().position(is_first)?;
        Some(self.frames.remove(found))
    }

    fn take_first(&mut self, receiver: Receiver) -> Option<ModelFrame> {
        let found = self.take_one(receiver)?;
        self.refill(receiver);
        Some(found)
    }

    fn count(&mut self, why: Unsent) {
        *self.dropped.entry(why).or_default() += 1;
    }

    /// Rules 2 and 4: of too many for a station the first is dropped that isn't sent once more.
    fn drop_crowded(&mut self, receiver: Receiver) {
        let is_first = |frame: &ModelFrame| frame.receiver == receiver && frame.room == Room::Queue && !frame.is_again;
        match receiver {
            Receiver::Others => self.drop_one(receiver, Unsent::Crowded),
            _ => {
                let found = self.frames.iter().position(is_first).unwrap();
                self.frames.remove(found);
                self.count(Unsent::Crowded);
            }
        }
    }

    /// Rule 2: of others the last one is dropped, of any other receiver the first.
    fn drop_one(&mut self, receiver: Receiver, why: Unsent) {
        let last = self.frames.iter().rposition(|frame| frame.receiver == Receiver::Others);
        let dropped = match receiver {
            Receiver::Others => last.map(|last| self.frames.remove(last)),
            _ => self.take_one(receiver),
        };
        if dropped.is_some() {
            self.count(why);
        }
    }

    fn longest(&self) -> Option<Receiver> {
        let in_queues = self.frames.iter().filter(|frame| frame.room == Room::Queue);
        let receivers: BTreeSet<Receiver> = in_queues.map(|frame| frame.receiver).collect();
        receivers.into_iter().max_by_key(|receiver| (self.waiting(*receiver), *receiver))
    }

    /// Rules 2 and 21.
    fn enter(&mut self, frame: ModelFrame) {
        let receiver = frame.receiver;
        let most = if let Receiver::Station(_) = receiver { 64 } else { 256 };
        let is_behind = |other: &ModelFrame| {
            (receiver, other.receiver) == (Receiver::Others, Receiver::Others) && other.urgency >= frame.urgency
        };
        let place = self.frames.iter().position(is_behind).unwrap_or(self.frames.len());
        self.frames.insert(place, frame);
        let is_again = |frame: &&ModelFrame| frame.receiver == receiver && frame.is_again;
        if self.waiting(receiver) - self.frames.iter().filter(is_again).count() > most {
            self.drop_crowded(receiver);
        }
    }

    /// Rules 2, 3 and 6.
    fn push(&mut self, frame: ModelFrame) {
        let receiver = frame.receiver;
        if self.is_apart(receiver) {
            return self.push_behind(ModelFrame { room: Room::Apart, ..frame });
        }
        self.enter(frame);
        self.drop_excess();
    }

    /// Rule 3.
    fn drop_excess(&mut self) {
        while self.octets() > 2 << 20 {
            let longest = self.longest().unwrap();
            self.drop_one(longest, Unsent::Full);
            if self.waiting(longest) == 0 {
                self.refill(longest);
            }
        }
    }

    /// Rules 3 and 4.
    fn push_first(&mut self, frame: ModelFrame) {
        self.frames.insert(0, frame);
        self.drop_excess();
    }

    fn push_behind(&mut self, frame: ModelFrame) {
        let receiver = frame.receiver;
        self.frames.push(frame);
        let is_behind =
            |frame: &&ModelFrame| (frame.receiver, frame.room, frame.is_kept) == (receiver, Room::Apart, false);
        if self.frames.iter().filter(is_behind).count() > 64 {
            let oldest = self.first_apart(receiver, false).unwrap();
            self.frames.remove(oldest);
            self.count(Unsent::Crowded);
        }
    }

    /// Rule 5.
    fn push_kept(&mut self, frame: ModelFrame) {
        let octets: usize = self.frames.iter().filter(|frame| frame.is_kept).map(|frame| frame.octets).sum();
        if octets + frame.octets > 4 << 20 {
            self.count(Unsent::Full);
        } else if !self.is_apart(frame.receiver) && self.waiting(frame.receiver) < 16 {
            self.frames.push(frame);
        } else {
            self.frames.push(ModelFrame { room: Room::Apart, ..frame });
        }
    }

    /// All units for a station, in their order.
    fn take_units(&mut self, station: Receiver) -> Vec<u64> {
        let mut marks = Vec::new();
        for (room, kept) in [(Room::Queue, &[true, false][..]), (Room::Apart, &[true]), (Room::Apart, &[false])] {
            let is_it = |frame: &ModelFrame| {
                let is_unit = frame.urgency == Urgency::Rest;
                is_unit && frame.receiver == station && frame.room == room && kept.contains(&frame.is_kept)
            };
            marks.extend(self.frames.iter().filter(|frame| is_it(frame)).map(|frame| frame.mark));
            self.frames.retain(|frame| !is_it(frame));
        }
        marks
    }

    /// Rules 2 and 16: what waits for a station among the others' frames waits behind its own, in the order in which it
    /// came.
    fn join(&mut self, address: Address) {
        let station = Receiver::Station(address);
        let is_meant = |frame: &ModelFrame| frame.receiver == Receiver::Others && frame.address == address;
        let (mut joined, rest): (Vec<_>, Vec<_>) = std::mem::take(&mut self.frames).into_iter().partition(is_meant);
        self.frames = rest;
        joined.sort_by_key(|frame| frame.mark);
        joined.into_iter().for_each(|frame| self.enter(ModelFrame { receiver: station, ..frame }));
    }
}

fn any_receiver(seeded: &mut Seeded) -> (Receiver, Address) {
    let address = STATIONS[seeded.below(STATIONS.len())];
    match seeded.below(4) {
        0 => (Receiver::Groups, Address::BROADCAST),
        1 => (Receiver::Others, address),
        _ => (Receiver::Station(address), address),
    }
}

/// A frame of 40 octets that came at this time.
fn frame_for_station(kind: FrameKind, since: u64) -> OutboundFrame {
    OutboundFrame { octets: Rc::new(vec![0; 40]), address: STATION, kind, since: Instant::from_nanos(since) }
}

/// A frame comes that waits.
fn push(queue: &mut Queue, receiver: Receiver, frame: OutboundFrame) {
    let since = frame.since;
    assert!(queue.push(0, receiver, frame, since).is_none());
}

/// The frame that is next goes.
fn send_next(queue: &mut Queue) -> Ticketed {
    let (place, receiver, Ticketed { ticket, .. }) = queue.first().unwrap();
    let ticket = queue.goes(place, *ticket, Instant::START).unwrap();
    Ticketed { ticket, frame: queue.serve(place, receiver, ticket, 1, Instant::START).unwrap() }
}

/// The next unit for a station goes, nobody acknowledges it, and it waits to go once more. Answers when it came.
fn lose_one(queue: &mut Queue, station: Receiver) -> u64 {
    queue.hold(0, Receiver::Others);
    let Ticketed { ticket, frame } = send_next(queue);
    queue.release(0, Receiver::Others);
    assert_eq!(queue.told(0, ticket, false), Some(Fate::WaitsAgain));
    let since = frame.since;
    let again = OutboundFrame { kind: FrameKind::Again, ..frame };
    queue.push_first(0, station, Ticketed { ticket, frame: again }, Instant::START);
    since.as_nanos()
}

/// A queue, its model, and frames of some lengths.
struct Both {
    queue: Queue,
    models: [Model; 2],
    octets: [Rc<Vec<u8>>; 4],
    /// How many frames waited apart.
    apart: usize,
}

impl Both {
    fn new(lengths: [usize; 4]) -> Both {
        let octets = lengths.map(|length| Rc::new(vec![0; length]));
        Both { queue: Queue::new([1, 3].into_iter()), models: [Model::default(), Model::default()], octets, apart: 0 }
    }

    /// A frame that was kept, if there is such a station.
    fn push_kept(&mut self, seeded: &mut Seeded, place: Place, mark: u64) {
        let address = STATIONS[seeded.below(2)];
        let octets = Rc::clone(&self.octets[seeded.below(4)]);
        let receiver = Receiver::Station(address);
        let in_model = ModelFrame {
            mark,
            receiver,
            address,
            octets: octets.len(),
            is_again: false,
            room: Room::Queue,
            is_kept: true,
            urgency: Urgency::Rest,
        };
        let since = Instant::from_nanos(mark);
        self.queue.push_kept(place, OutboundFrame { octets, address, kind: FrameKind::Kept, since }, since);
        self.models[place].push_kept(in_model);
        self.apart += usize::from(self.models[place].is_apart(receiver));
    }

    fn take_units(&mut self, seeded: &mut Seeded, place: Place) {
        let address = STATIONS[seeded.below(2)];
        let taken = self.queue.take_units(place, address, Change::Dozes);
        let taken: Vec<u64> = taken.into_iter().map(|frame| frame.since.as_nanos()).collect();
        assert_eq!(taken, self.models[place].take_units(Receiver::Station(address)));
        self.queue.change(place, address, Change::Wakes);
    }

    fn push(&mut self, seeded: &mut Seeded, place: Place, mark: u64) {
        let (receiver, address) = any_receiver(seeded);
        let octets = Rc::clone(&self.octets[[0, 1, 1, 2, 2, 3][seeded.below(6)]]);
        let (kind, urgency) = match receiver {
            Receiver::Others => [
                (FrameKind::Answer, Urgency::Joining),
                (FrameKind::AnswerToAll, Urgency::ProbingAll),
                (FrameKind::Unit, Urgency::Rest),
            ][seeded.below(3)],
            Receiver::Groups | Receiver::Station(_) => (FrameKind::Unit, Urgency::Rest),
        };
        let (room, is_kept, is_again) = (Room::Queue, false, false);
        let in_model = ModelFrame { mark, receiver, address, octets: octets.len(), is_again, room, is_kept, urgency };
        self.models[place].push(in_model);
        let frame = OutboundFrame { octets, address, kind, since: Instant::from_nanos(mark) };
        let since = frame.since;
        assert!(self.queue.push(place, receiver, frame, since).is_none());
    }

    /// The next frame goes. Nobody acknowledges some of those for stations: they are sent once more.
    fn serve(&mut self, seeded: &mut Seeded, cost: u32) {
        let (place, receiver, mark, next) = match self.queue.first() {
            Some((place, receiver, next)) => (place, receiver, next.frame.since.as_nanos(), next.ticket),
            None => return assert!(self.models.iter().all(|model| model.frames.is_empty())),
        };
        let now = Instant::from_nanos(mark);
        assert_eq!(self.queue.goes(1 - place, next, now), None);
        let ticket = self.queue.goes(place, next, now).unwrap();
        assert!(ticket == next || receiver == Receiver::Others);
        let frame = self.queue.serve(place, receiver, ticket, cost, now).unwrap();
        let in_model = self.models[place].take_first(receiver).unwrap();
        assert_eq!((frame.since.as_nanos(), in_model.mark), (mark, mark));
        let may_be_lost = matches!(receiver, Receiver::Station(_)) && frame.kind.is_unit();
        let is_lost = may_be_lost && seeded.below(4) == 0;
        let fate = self.queue.told(place, ticket, !is_lost);
        let expected = match (is_lost, in_model.is_again) {
            (false, _) => Fate::Acknowledged,
            (true, false) => Fate::WaitsAgain,
            (true, true) => Fate::Lost,
        };
        assert_eq!(fate, Some(expected));
        if expected == Fate::WaitsAgain {
            let kind = FrameKind::Again;
            self.models[place].push_first(ModelFrame { is_again: true, is_kept: false, ..in_model });
            self.queue.push_first(place, receiver, Ticketed { ticket, frame: OutboundFrame { kind, ..frame } }, now);
        }
    }

    fn call(&mut self, seeded: &mut Seeded, pushes: usize, mark: u64) {
        let place = seeded.below(2);
        match seeded.below(6 + pushes) {
            0..=2 => {
                let cost = 1 + seeded.below(1000) as u32;
                self.serve(seeded, cost);
            }
            3 => {
                let (receiver, _) = any_receiver(seeded);
                let taken = self.queue.take_first(place, receiver, Instant::from_nanos(mark));
                let taken = taken.map(|frame| frame.since.as_nanos());
                assert_eq!(taken, self.models[place].take_first(receiver).map(|frame| frame.mark));
            }
            4 if seeded.below(8) == 0 => {
                let address = STATIONS[seeded.below(STATIONS.len())];
                let is_kept = |frame: &ModelFrame| frame.is_kept && frame.address == address;
                if !self.models[place].frames.iter().any(is_kept) {
                    self.queue.join(place, address, Instant::from_nanos(mark));
                    self.models[place].join(address);
                }
            }
            5 if seeded.below(40) == 0 => self.take_units(seeded, place),
            5 => (0..4).for_each(|more| self.push_kept(seeded, place, mark + more)),
            _ => self.push(seeded, place, mark),
        }
    }

    fn agree(&self) {
        for (place, (account, model)) in self.queue.accounts.iter().zip(&self.models).enumerate() {
            assert_eq!((account.waiting, account.octets), (model.frames.len(), model.octets()));
            assert_eq!(account.unsent, model.dropped);
            let stations = STATIONS.map(Receiver::Station);
            for receiver in [Receiver::Groups, Receiver::Others].into_iter().chain(stations) {
                assert_eq!(self.queue.scheduler.waiting(place, receiver), model.waiting(receiver));
            }
        }
    }
}

/// Any calls leave what the sentences say, in that order, and each frame that was dropped is counted.
#[test]
fn any_calls_leave_what_the_rules_say() {
    let (mut seeded, mut dropped, mut apart) = (Seeded(23), BTreeMap::new(), 0);
    for run in 0..CALLS / CALLS_OF_A_RUN {
        let (mut both, pushes) = (Both::new(LENGTHS[run % 3]), [20, 4, 4, 0][run % 4]);
        for mark in 0..CALLS_OF_A_RUN as u64 {
            both.call(&mut seeded, pushes, 4 * mark);
            if seeded.below(20) == 0 {
                both.agree();
            }
        }
        both.agree();
        while !both.queue.scheduler.is_empty() {
            both.serve(&mut seeded, 7);
        }
        apart += both.apart;
        let counts = both.models.iter().flat_map(|model| &model.dropped);
        counts.for_each(|(why, number)| *dropped.entry(*why).or_insert(0) += number);
    }
    assert!(apart > CALLS / 20, "{apart}");
    for why in [Unsent::Crowded, Unsent::Full] {
        assert!(dropped[&why] > CALLS as u64 / 200, "{dropped:?}");
    }
}

/// 256 frames may wait for an address that isn't associated, and 64 for a station.
#[test]
fn no_more_waits_for_a_station_that_joins_than_for_any_other() {
    let mut queue = Queue::new([1].into_iter());
    (0..100).for_each(|since| push(&mut queue, Receiver::Others, frame_for_station(FrameKind::Answer, since)));
    queue.join(0, STATION, Instant::START);
    assert_eq!(queue.scheduler.waiting(0, Receiver::Station(STATION)), MOST_FOR_STATION);
    assert_eq!(queue.first().map(|(_, _, next)| next.frame.since), Some(Instant::from_nanos(36)));
    assert_eq!((queue.accounts[0].waiting, queue.accounts[0].octets), (64, 64 * 40));
    assert_eq!(queue.accounts[0].unsent, [(Unsent::Crowded, 36)].into());
}

/// As a request may be answered before a unit for the station came, and its association after that.
#[test]
fn what_waits_for_a_station_that_joins_goes_behind_its_own_frames() {
    let (mut queue, station) = (Queue::new([1].into_iter()), Receiver::Station(STATION));
    push(&mut queue, Receiver::Others, frame_for_station(FrameKind::Answer, 1));
    (2..5).for_each(|since| push(&mut queue, station, frame_for_station(FrameKind::Unit, since)));
    assert_eq!(lose_one(&mut queue, station), 2);
    queue.join(0, STATION, Instant::START);
    let mut since = Vec::new();
    while queue.first().is_some() {
        since.push(send_next(&mut queue).frame.since.as_nanos());
    }
    assert_eq!(since, [2, 3, 4, 1]);
}

/// The program answers several frames at one time.
#[test]
fn answers_of_one_time_go_in_their_order_to_a_station_that_joins() {
    let mut queue = Queue::new([1].into_iter());
    for octets in [40, 41, 42] {
        let frame = frame_for_station(FrameKind::Answer, 1);
        push(&mut queue, Receiver::Others, OutboundFrame { octets: Rc::new(vec![0; octets]), ..frame });
    }
    queue.join(0, STATION, Instant::START);
    let of_station = queue.scheduler.take_all(0, Receiver::Station(STATION), |_| true);
    assert_eq!(of_station.iter().map(|waiting| waiting.frame.octets.len()).collect::<Vec<_>>(), [40, 41, 42]);
}

/// However many stations wake, and none of what was kept drops anything, nor does what comes then drop any of it.
#[test]
fn what_was_kept_for_many_stations_is_bounded() {
    const LONGEST: usize = 24 + 2304;
    let mut queue = Queue::new([1].into_iter());
    for number in 0..2007 {
        for _ in 0..2 {
            let frame = frame_for_station(FrameKind::Kept, 1);
            let (octets, address) = (Rc::new(vec![0; LONGEST]), made_up(number));
            queue.push_kept(0, OutboundFrame { octets, address, ..frame }, Instant::START);
        }
    }
    let Account { waiting, unsent, .. } = &queue.accounts[0];
    assert_eq!((*waiting, unsent[&Unsent::Full]), (MOST_KEPT, 4014 - MOST_KEPT as u64));
    push(&mut queue, Receiver::Groups, frame_for_station(FrameKind::GroupUnit, 1));
    assert_eq!((queue.accounts[0].waiting, queue.accounts[0].octets), (MOST_KEPT + 1, 40));
    (0..2007).for_each(|number| drop(queue.take_units(0, made_up(number), Change::Leaves)));
    assert_eq!(queue.accounts[0].waiting, 1);
    queue.push_kept(0, frame_for_station(FrameKind::Kept, 2), Instant::START);
    assert_eq!(queue.accounts[0].waiting, 2);
}

/// Management frames pass what waits apart, and leave it there.
#[test]
fn management_frames_that_go_fill_no_queue_with_what_was_kept() {
    let (mut queue, station) = (Queue::new([1].into_iter()), Receiver::Station(STATION));
    (0..100).for_each(|since| queue.push_kept(0, frame_for_station(FrameKind::Kept, since), Instant::START));
    for _ in 0..40 {
        push(&mut queue, station, frame_for_station(FrameKind::Word, 100));
        push(&mut queue, station, frame_for_station(FrameKind::Word, 100));
        send_next(&mut queue);
        queue.take_first(0, station, Instant::START);
    }
    let kept = queue.scheduler.count_first(0, station, |waiting| waiting.frame.kind == FrameKind::Kept);
    assert!(kept <= MOST_BEFORE_BACKLOG, "{kept}");
    assert!(queue.accounts[0].unsent.is_empty());
}

#[test]
fn a_unit_that_is_sent_once_more_waits_beside_as_many_as_may_wait() {
    let (mut queue, station) = (Queue::new([1].into_iter()), Receiver::Station(STATION));
    (0..65).for_each(|since| push(&mut queue, station, frame_for_station(FrameKind::Unit, since)));
    assert_eq!(lose_one(&mut queue, station), 1);
    push(&mut queue, station, frame_for_station(FrameKind::Unit, 65));
    assert_eq!(queue.scheduler.waiting(0, station), MOST_FOR_STATION + 1);
    push(&mut queue, station, frame_for_station(FrameKind::Unit, 66));
    assert_eq!(queue.first().map(|(_, _, next)| next.frame.kind), Some(FrameKind::Again));
    assert_eq!((queue.accounts[0].waiting, queue.accounts[0].octets), (65, 65 * 40));
    assert_eq!(queue.accounts[0].unsent, [(Unsent::Crowded, 2)].into());
}

/// So strangers who come and go, doze or stay take no number for good.
#[test]
fn numbers_of_stations_for_which_nothing_waits_are_those_of_others() {
    let mut queue = Queue::new([1].into_iter());
    for number in 0..9000 {
        let station = made_up(number);
        let frame = OutboundFrame { address: station, ..frame_for_station(FrameKind::Unit, 1) };
        let receiver = Receiver::Station(station);
        push(&mut queue, receiver, frame);
        let Ticketed { ticket, .. } = send_next(&mut queue);
        let (change, fate) = match number % 3 {
            0 => (Change::Leaves, Fate::Lost),
            1 => (Change::Dozes, Fate::HandedBack),
            _ => (Change::Joins, Fate::Acknowledged),
        };
        queue.change(0, station, change);
        assert_eq!(queue.told(0, ticket, number % 3 == 2), Some(fate));
    }
    assert!(queue.accounts[0].unsent.is_empty());
    let known = |number| queue.knows(0, made_up(number));
    assert!((0..9000).filter(|number| number % 3 == 1).all(known));
    assert!((0..9000).filter(|number| number % 3 != 1 && known(*number)).count() < 8000 / 3);
}

/// Units for stations that doze go back, also if others had their numbers meanwhile.
#[test]
fn a_station_that_gets_a_number_anew_is_as_it_said() {
    let mut queue = Queue::new([1].into_iter());
    let unit = |number| OutboundFrame { address: made_up(number), ..frame_for_station(FrameKind::Unit, 1) };
    for number in 0..6 {
        queue.change(0, made_up(number), Change::Dozes);
    }
    queue.change(0, made_up(1), Change::Settles);
    queue.change(0, made_up(2), Change::Wakes);
    queue.polls(0, made_up(3), Instant::START);
    [1, 4].map(|number| queue.change(0, made_up(number), Change::Settles));
    for number in 100..4000 {
        push(&mut queue, Receiver::Station(made_up(number)), unit(number));
        queue.take_units(0, made_up(number), Change::Leaves);
    }
    queue.polls(0, made_up(1), Instant::START);
    let goes_back = |number| {
        let returned = queue.push(0, Receiver::Station(made_up(number)), unit(number), Instant::START);
        returned.map(|returned| returned.goes_back)
    };
    assert_eq!([0, 1, 2, 3, 4, 5].map(goes_back), [Some(true), None, None, Some(true), Some(true), Some(true)]);
}

/// More than can be associated have no number while frames of all wait, and a frame for one is dropped.
#[test]
fn stations_beyond_those_that_can_be_associated_have_no_room() {
    let mut queue = Queue::new([1].into_iter());
    for number in 0..3000 {
        let frame = OutboundFrame { address: made_up(number), ..frame_for_station(FrameKind::Unit, 1) };
        push(&mut queue, Receiver::Station(frame.address), frame);
    }
    let Account { waiting, unsent, .. } = &queue.accounts[0];
    assert!(*waiting >= 2007 && unsent[&Unsent::Full] == 3000 - *waiting as u64, "{waiting} {unsent:?}");
}

/// The tickets of the first network's frames, as these come and go beside so much of another one.
fn tickets_beside(load: usize) -> Vec<(Ticket, Option<Ticket>)> {
    let mut downlink = Downlink::new([1, 1].into_iter());
    let come_and_go = |number: usize| {
        for other in 0..load * (number % 3) {
            downlink.comes(1, Receiver::Station(made_up(other % 4)), true, Instant::START);
            downlink.used(1, 1000);
        }
        let receiver = Receiver::Station(made_up(number % 5));
        let came = downlink.comes(0, receiver, true, Instant::START).unwrap();
        if number % 2 == 0 {
            let sent = downlink.goes(0, came.ticket, Instant::START).unwrap();
            assert!(downlink.told(0, sent, number % 4 == 0).is_some());
        }
        (came.ticket, came.crowded_out)
    };
    (0..1000).map(come_and_go).collect()
}

/// They hang on its own calls alone.
#[test]
fn tickets_of_a_network_do_not_hang_on_another() {
    let alone = tickets_beside(0);
    assert_eq!([tickets_beside(1), tickets_beside(7)], [alone.clone(), alone]);
}
