use std::collections::HashMap;

use super::*;
use crate::formats::frames::{Address, Frame};
use crate::inbound::frame::{Priority, LONGEST, LONGEST_OF_REQUEST, NOBODY};
use crate::inbound::held::Holding;
use crate::inbound::source_queue::{Why, MOST_FRAMES, MOST_OCTETS, MOST_OF_FLOW};
use crate::os::clock::{Duration, Instant, MILLISECOND, SECOND};
use crate::testing::samples::{at, data as unit, made_up, Seeded, Unit, NANOSECOND, OTHER, OURS, STATION, STRANGER};

const AIR: Source = Source::Air(0);

fn of(priority: Priority, sender: Address, arrived: Instant, mark: u8) -> InboundFrame {
    InboundFrame { priority, flow: (sender, OURS), arrived, octets: vec![mark; 100] }
}

fn data(sender: Address, arrived: Instant, mark: u8) -> InboundFrame {
    of(Priority::Data, sender, arrived, mark)
}

fn request(arrived: Instant, mark: u8) -> InboundFrame {
    of(Priority::Request, STATION, arrived, mark)
}

fn marks(waiting: &mut InboundQueue, now: Instant) -> Vec<(Source, u8)> {
    std::iter::from_fn(|| waiting.pop(now)).map(|(source, frame)| (source, frame.octets[0])).collect()
}

fn dropped(waiting: &InboundQueue) -> Vec<(Source, Priority, Why, u64)> {
    let mut found: Vec<_> =
        waiting.dropped().map(|(source, Dropped { priority, why }, number)| (source, priority, why, number)).collect();
    found.sort();
    found
}

#[test]
fn frames_of_a_source_keep_their_order_and_sources_take_turns() {
    let mut waiting = InboundQueue::new(2);
    let (all, wire, other) = (Source::AirForAll, Source::Wire(0), Source::Air(1));
    (0..3).for_each(|mark| waiting.push(AIR, data(STATION, Instant::START, mark)));
    waiting.push(AIR, request(Instant::START, 3));
    waiting.push(other, request(Instant::START, 10));
    waiting.push(other, data(STATION, Instant::START, 11));
    waiting.push(wire, data(STRANGER, Instant::START, 20));
    waiting.push(all, of(Priority::Probe, STATION, Instant::START, 30));
    assert_eq!(waiting.len(), 8);
    let wanted = [(all, 30), (AIR, 0), (wire, 20), (other, 10), (AIR, 1), (other, 11), (AIR, 2), (AIR, 3)];
    assert_eq!(marks(&mut waiting, Instant::START), wanted);
    assert!(waiting.is_empty());
    assert_eq!(dropped(&waiting), []);
}

#[test]
fn what_a_frame_is_is_seen() {
    let management = |subtype: u8| Unit { control: [subtype << 4, 0], ..Unit::default() }.octets();
    let poll = [&[0xa4, 0x10, 1, 0xc0][..], OURS.octets(), STATION.octets()].concat();
    for (octets, wanted) in [
        (unit(), Priority::Data),
        (Unit { control: [0x48, 0x11], ..Unit::default() }.octets(), Priority::Notice),
        (poll, Priority::Request),
        (management(4), Priority::Probe),
        (management(11), Priority::Request),
        (management(0), Priority::Request),
        (management(2), Priority::Request),
        (management(10), Priority::Notice),
        (management(12), Priority::Departure),
        (management(13), Priority::Request),
    ] {
        let frame = InboundFrame::of_air(Frame::of(&octets).unwrap(), false, Instant::from_nanos(7));
        let arrived = Instant::from_nanos(7);
        assert_eq!(frame, InboundFrame { priority: wanted, flow: (STATION, OURS), arrived, octets });
    }
    let mode = InboundFrame::of_air(Frame::of(&unit()).unwrap(), true, Instant::from_nanos(7));
    assert_eq!((mode.priority, mode.is_late(Instant::START + 9 * SECOND)), (Priority::Notice, false));
    let ethernet = [&[0xff; 6][..], STRANGER.octets(), &[8, 6]].concat();
    assert_eq!(InboundFrame::of_wire(&ethernet, Instant::from_nanos(7)).flow, (STRANGER, Address::BROADCAST));
    assert_eq!(InboundFrame::of_wire(&[1; 7], Instant::from_nanos(7)).flow, (NOBODY, Address::of([1; 6])));
}

#[test]
fn what_waited_too_long_is_dropped_but_for_notices() {
    let mut waiting = InboundQueue::new(1);
    for (mark, priority) in (0..).zip(Priority::ALL) {
        waiting.push(AIR, of(priority, STATION, Instant::START, mark));
        waiting.push(AIR, of(priority, STATION, at(SECOND), 10 + mark));
    }
    assert_eq!(marks(&mut waiting, at(LONGEST))[..4], [(AIR, 0), (AIR, 10), (AIR, 1), (AIR, 11)]);
    for (mark, priority) in (0..).zip(Priority::ALL) {
        waiting.push(AIR, of(priority, STATION, Instant::START, mark));
        waiting.push(AIR, of(priority, STATION, at(200 * MILLISECOND), 10 + mark));
    }
    let wanted = [10, 11, 2, 12, 3, 13, 4, 14].map(|mark| (AIR, mark));
    assert_eq!(marks(&mut waiting, at(200 * MILLISECOND)), wanted);
    waiting.push(AIR, request(Instant::START, 1));
    waiting.push(AIR, of(Priority::Notice, STATION, Instant::START, 2));
    assert_eq!(marks(&mut waiting, at(200 * MILLISECOND + NANOSECOND)), [(AIR, 2)]);
    let wanted = [Priority::Probe, Priority::Data, Priority::Request].map(|priority| (AIR, priority, Why::Late, 1));
    assert_eq!(dropped(&waiting), wanted);
}

#[test]
fn who_sends_too_much_loses_its_own_oldest_frames() {
    for priority in Priority::ALL {
        let mut waiting = InboundQueue::new(1);
        waiting.push(AIR, of(priority, STRANGER, Instant::START, 200));
        waiting.push(AIR, of(Priority::Request, OTHER, Instant::START, 201));
        (0..MOST_OF_FLOW as u8 + 2).for_each(|mark| waiting.push(AIR, of(priority, STATION, Instant::START, mark)));
        let wanted: Vec<_> = [200, 201].into_iter().chain(2..MOST_OF_FLOW as u8 + 2).map(|mark| (AIR, mark)).collect();
        assert_eq!(marks(&mut waiting, Instant::START), wanted);
        assert_eq!(dropped(&waiting), [(AIR, priority, Why::Crowded, 2)]);
    }
}

#[test]
fn a_full_lane_drops_the_oldest_of_what_is_worth_least() {
    let mut waiting = InboundQueue::new(1);
    waiting.push(AIR, data(STRANGER, Instant::START, 1));
    for number in 0..MOST_FRAMES + 3 {
        waiting.push(AIR, of(Priority::Request, made_up(number), Instant::START, if number < 3 { 2 } else { 3 }));
    }
    waiting.push(AIR, data(STRANGER, Instant::START, 4));
    waiting.push(AIR, of(Priority::Notice, STRANGER, Instant::START, 5));
    let wanted = [(AIR, Priority::Data, Why::Full, 2), (AIR, Priority::Request, Why::Full, 4)];
    assert_eq!(dropped(&waiting), wanted);
    let mut wanted = vec![(AIR, 3); MOST_FRAMES - 1];
    wanted.push((AIR, 5));
    assert_eq!(marks(&mut waiting, Instant::START), wanted);
}

#[test]
fn a_full_lane_drops_first_what_is_late() {
    let mut waiting = InboundQueue::new(1);
    for number in 0..MOST_FRAMES {
        waiting.push(AIR, of(Priority::Request, made_up(number), Instant::from_nanos(u64::from(number >= 100)), 1));
    }
    waiting.push(AIR, data(STATION, at(LONGEST_OF_REQUEST + NANOSECOND), 2));
    assert_eq!(dropped(&waiting), [(AIR, Priority::Request, Why::Late, 100)]);
    assert_eq!(waiting.len(), MOST_FRAMES - 99);
}

#[test]
fn a_flood_of_one_network_takes_nothing_from_another() {
    let mut waiting = InboundQueue::new(2);
    let (all, other, wire) = (Source::AirForAll, Source::Air(1), Source::Wire(1));
    waiting.push(other, data(STATION, Instant::START, 1));
    waiting.push(wire, data(STATION, Instant::START, 2));
    for number in 0..3 * MOST_FRAMES {
        let priority = Priority::ALL[number % Priority::ALL.len()];
        for source in [all, AIR, Source::Wire(0)] {
            waiting.push(source, of(priority, made_up(number), Instant::START, 3));
        }
    }
    waiting.push(other, request(Instant::START, 4));
    let found: Vec<_> = std::iter::from_fn(|| waiting.pop(Instant::START)).take(9).collect();
    let place = |source, mark| found.iter().position(|(from, frame)| (*from, frame.octets[0]) == (source, mark));
    assert_eq!((place(other, 1), place(wire, 2), place(other, 4)), (Some(3), Some(4), Some(8)));
    assert!(dropped(&waiting).iter().all(|(source, ..)| ![other, wire].contains(source)));
}

#[test]
fn octets_are_bounded_too() {
    let mut waiting = InboundQueue::new(1);
    for number in 0..2000 {
        waiting.push(AIR, InboundFrame { octets: vec![0; 4096], ..data(made_up(number), Instant::START, 0) });
    }
    assert_eq!(marks(&mut waiting, Instant::START).len(), MOST_OCTETS / 4096);
}

#[test]
fn memory_is_given_back_after_a_flood() {
    let mut queue = SourceQueue::default();
    (0..MOST_FRAMES).for_each(|number| queue.push(data(made_up(number), Instant::START, 0)));
    assert!(queue.queues[Priority::Data as usize].slots.len() == MOST_FRAMES);
    while queue.pop(Instant::START).is_some() {}
    assert_eq!(queue.queues[Priority::Data as usize].slots.capacity(), 0);
}

#[test]
fn what_was_dropped_is_a_sentence() {
    for (priority, why, wanted) in [
        (Priority::Data, Why::Late, "frames of data that had waited 50 ms"),
        (Priority::Request, Why::Late, "other requests and polls that had waited 200 ms"),
        (Priority::Probe, Why::Crowded, "probe requests before 32 younger ones of the same sender"),
        (Priority::Notice, Why::Full, "frames by which stations leave, doze or wake, since no more could wait"),
        (
            Priority::Departure,
            Why::Held,
            "deauthentications, since too many waited for stations to fall asleep or wake",
        ),
    ] {
        assert_eq!(Dropped { priority, why }.to_string(), wanted);
    }
}

/// A queue as its rules say it, whose calls walk over all that waits.
#[derive(Default)]
struct Slow {
    waiters: Vec<InboundFrame>,
    dropped: HashMap<Dropped, u64>,
}

impl Slow {
    fn count(&mut self, priority: Priority, why: Why) {
        *self.dropped.entry(Dropped { priority, why }).or_default() += 1;
    }

    fn drop_late(&mut self, now: Instant) {
        for priority in Priority::ALL {
            while let Some(place) = self.waiters.iter().position(|found| found.priority == priority) {
                if !self.waiters[place].is_late(now) {
                    break;
                }
                self.waiters.remove(place);
                self.count(priority, Why::Late);
            }
        }
    }

    fn has_room(&self, length: usize) -> bool {
        let octets: usize = self.waiters.iter().map(|found| found.octets.len()).sum();
        self.waiters.len() < MOST_FRAMES && octets + length <= MOST_OCTETS
    }

    fn push(&mut self, frame: InboundFrame) {
        let is_alike = |found: &InboundFrame| (found.priority, found.flow) == (frame.priority, frame.flow);
        if self.waiters.iter().filter(|found| is_alike(found)).count() >= MOST_OF_FLOW {
            let place = self.waiters.iter().position(is_alike).unwrap();
            self.waiters.remove(place);
            self.count(frame.priority, Why::Crowded);
        }
        if !self.has_room(frame.octets.len()) {
            self.drop_late(frame.arrived);
        }
        while !self.has_room(frame.octets.len()) {
            let least = (0..self.waiters.len()).min_by_key(|place| (self.waiters[*place].priority, *place));
            match least.filter(|place| self.waiters[*place].priority <= frame.priority) {
                Some(place) => {
                    let found = self.waiters.remove(place);
                    self.count(found.priority, Why::Full);
                }
                None => return self.count(frame.priority, Why::Full),
            }
        }
        self.waiters.push(frame);
    }

    fn pop(&mut self, now: Instant) -> Option<InboundFrame> {
        self.drop_late(now);
        (!self.waiters.is_empty()).then(|| self.waiters.remove(0))
    }
}

/// Whatever comes, a queue does what its rules say, and nothing is lost without being counted.
#[test]
fn a_lane_is_as_its_rules_say() {
    let (mut seeded, mut reasons) = (Seeded(7), HashMap::new());
    for round in 0..60 {
        let (mut queue, mut slow) = (SourceQueue::default(), Slow::default());
        let (mut pushed, mut popped, mut now) = (0, 0, Instant::START);
        // If little leaves, one sender crowds itself, and many with long frames fill the queue.
        let (senders, longest, pushes) = [(5, 3000, 5), (1, 300, 9), (2000, 12_000, 9)][round % 3];
        for _ in 0..2000 {
            now += Duration::from_nanos(seeded.below(600_000) as u64);
            if seeded.below(10) < pushes {
                let (priority, sender) = (Priority::ALL[seeded.below(5)], made_up(seeded.below(senders)));
                let frame = InboundFrame { octets: vec![0; seeded.below(longest)], ..of(priority, sender, now, 0) };
                queue.push(frame.clone());
                slow.push(frame);
                pushed += 1;
            } else {
                let found = queue.pop(now);
                popped += u64::from(found.is_some());
                assert_eq!(found, slow.pop(now));
            }
            assert_eq!((queue.frames, &queue.dropped), (slow.waiters.len(), &slow.dropped));
        }
        while let Some(found) = queue.pop(now) {
            assert_eq!(Some(found), slow.pop(now));
            popped += 1;
        }
        assert_eq!(pushed, popped + queue.dropped.values().sum::<u64>());
        assert_eq!((queue.frames, queue.octets), (0, 0));
        assert!(queue.queues.iter().all(|queue| queue.flows.is_empty() && queue.last.is_none()));
        queue.dropped.into_iter().for_each(|(what, number)| *reasons.entry(what).or_insert(0) += number);
    }
    for why in [Why::Late, Why::Crowded, Why::Full] {
        assert!(reasons.iter().any(|(what, number)| what.why == why && *number > 100), "{reasons:?}");
    }
}

/// Dropping the oldest of one sender takes no longer if thousands of others wait before and behind it.
#[test]
fn dropping_takes_no_longer_where_many_wait() {
    let time = |others: usize| {
        let mut queue = SourceQueue::default();
        (0..others).for_each(|number| queue.push(data(made_up(number), Instant::START, 0)));
        let pushes = 4000;
        let waiters: Vec<_> = (0..pushes).map(|_| data(STATION, Instant::START, 0)).collect();
        let begun = crate::os::clock::now();
        for frame in waiters {
            queue.push(frame);
        }
        crate::os::clock::now().since(begun) / pushes
    };
    let (few, many) = (0..9).map(|_| (time(10), time(8000))).min_by_key(|(_, many)| *many).unwrap();
    assert!(many < 20 * few.max(Duration::from_nanos(100)), "{few:?} and {many:?}");
}

/// Frames of a station that is held, and for it, wait until it is released, and keep their order. All others go on.
#[test]
fn a_station_that_is_held_keeps_its_order_and_nobody_else_waits() {
    let mut waiting = InboundQueue::new(2);
    let to_station =
        |mark| InboundFrame { flow: (STRANGER, STATION), ..of(Priority::Data, STRANGER, Instant::START, mark) };
    let push_all = |waiting: &mut InboundQueue, first: u8| {
        waiting.push(Source::Air(0), of(Priority::Data, STATION, Instant::START, first));
        waiting.push(Source::Wire(0), to_station(first + 1));
        waiting.push(Source::Air(0), of(Priority::Data, STRANGER, Instant::START, first + 2));
        waiting.push(Source::Air(1), of(Priority::Data, STATION, Instant::START, first + 3));
        waiting.push(Source::Wire(1), to_station(first + 4));
        waiting.push(Source::AirForAll, of(Priority::Probe, STATION, Instant::START, first + 5));
    };
    waiting.held.hold(0, STATION, Holding::OwnAndWired);
    push_all(&mut waiting, 0);
    let of_others = |found: Vec<(Source, u8)>| {
        let mut marks: Vec<u8> = found.into_iter().map(|(_, mark)| mark).collect();
        marks.sort_unstable();
        marks
    };
    assert_eq!(of_others(marks(&mut waiting, Instant::START)), [2, 3, 4, 5]);
    assert_eq!((waiting.is_empty(), waiting.len()), (true, 2));
    push_all(&mut waiting, 10);
    assert_eq!(of_others(marks(&mut waiting, Instant::START)), [12, 13, 14, 15]);
    waiting.held.release(0, STATION);
    waiting.push(Source::Air(0), of(Priority::Data, STATION, Instant::START, 20));
    assert!(!waiting.is_empty());
    let found = marks(&mut waiting, Instant::START);
    let of = |source| found.iter().filter(|(of, _)| *of == source).map(|(_, mark)| *mark).collect::<Vec<_>>();
    assert_eq!((of(Source::Air(0)), of(Source::Wire(0))), (vec![0, 10, 20], vec![1, 11]));
    assert_eq!(waiting.len(), 0);
}

/// One that is held again before all went goes on where it was.
#[test]
fn a_station_that_is_held_again_keeps_its_order() {
    let mut waiting = InboundQueue::new(1);
    waiting.held.hold(0, STATION, Holding::OwnAndWired);
    (0..4).for_each(|mark| waiting.push(AIR, of(Priority::Notice, STATION, Instant::START, mark)));
    assert!(waiting.pop(Instant::START).is_none());
    waiting.held.release(0, STATION);
    assert!(waiting.pop(Instant::START).is_some());
    waiting.held.hold(0, STATION, Holding::OwnAndWired);
    waiting.push(AIR, of(Priority::Notice, STATION, Instant::START, 4));
    assert!(waiting.pop(Instant::START).is_none());
    waiting.held.release(0, STATION);
    assert_eq!(marks(&mut waiting, Instant::START), [1, 2, 3, 4].map(|mark| (AIR, mark)));
}

/// It wakes as it ends falling asleep, and waits for beacons. What comes behind its wake stays behind that, if the
/// program takes only one frame before the beacons come.
#[test]
fn a_station_that_is_held_again_and_released_at_once_keeps_its_order() {
    let mut waiting = InboundQueue::new(1);
    let to_station = |mark| InboundFrame { flow: (STRANGER, STATION), ..data(STRANGER, Instant::START, mark) };
    waiting.held.hold(0, STATION, Holding::OwnAndWired);
    for frame in [of(Priority::Notice, STATION, Instant::START, 1), data(STATION, Instant::START, 3)] {
        waiting.keep(Source::Wire(0), to_station(frame.octets[0] + 1));
        waiting.keep(AIR, frame);
    }
    waiting.held.hold(0, OTHER, Holding::Own);
    waiting.keep(AIR, data(OTHER, Instant::START, 5));
    waiting.held.release(0, STATION);
    assert_eq!(waiting.pop(Instant::START).unwrap().1.octets[0], 2);
    let (source, wake) = waiting.pop(Instant::START).unwrap();
    waiting.held.hold(0, STATION, Holding::Own);
    waiting.keep(source, wake);
    assert_eq!(waiting.pop(Instant::START).unwrap().1.octets[0], 4);
    waiting.held.release(0, OTHER);
    waiting.held.release(0, STATION);
    assert_eq!(marks(&mut waiting, Instant::START), [(AIR, 1), (AIR, 3), (AIR, 5)]);
    waiting.held.hold(0, STATION, Holding::Own);
    waiting.keep(AIR, data(STATION, Instant::START, 6));
    waiting.held.release(0, STATION);
    assert_eq!(marks(&mut waiting, Instant::START), [(AIR, 6)]);
}

/// What the wire brings for a station whose own frames wait goes on.
#[test]
fn a_station_of_which_only_its_own_frames_are_held_gets_its_units() {
    let mut waiting = InboundQueue::new(1);
    waiting.held.hold(0, STATION, Holding::Own);
    waiting.keep(AIR, of(Priority::Notice, STATION, Instant::START, 1));
    waiting.push(AIR, of(Priority::Data, STATION, Instant::START, 2));
    let to_station = InboundFrame { flow: (STRANGER, STATION), ..of(Priority::Data, STRANGER, Instant::START, 3) };
    waiting.push(Source::Wire(0), to_station.clone());
    assert_eq!(marks(&mut waiting, Instant::START), [(Source::Wire(0), 3)]);
    waiting.held.hold(0, STATION, Holding::OwnAndWired);
    waiting.held.hold(0, STATION, Holding::Own);
    waiting.push(Source::Wire(0), to_station);
    assert_eq!((marks(&mut waiting, Instant::START), waiting.len()), (vec![], 3));
    waiting.held.release(0, STATION);
    assert_eq!(marks(&mut waiting, Instant::START), [(AIR, 1), (AIR, 2), (Source::Wire(0), 3)]);
}

/// Of a network no more octets wait with all stations that are held than in a queue: what is worth least goes first,
/// and of that the oldest.
#[test]
fn what_waits_with_all_stations_that_are_held_is_bounded() {
    let mut waiting = InboundQueue::new(2);
    let long = |priority, station, mark| InboundFrame {
        octets: vec![mark; 4096],
        ..of(priority, station, Instant::START, mark)
    };
    for number in 0..10u8 {
        let station = made_up(usize::from(number));
        waiting.held.hold(0, station, Holding::OwnAndWired);
        (0..100).for_each(|_| waiting.keep(AIR, long(Priority::Data, station, number)));
        waiting.keep(AIR, long(Priority::Notice, station, number));
    }
    let most = MOST_OCTETS / 4096;
    assert_eq!((waiting.len(), dropped(&waiting)), (most, vec![(AIR, Priority::Data, Why::Held, 1010 - most as u64)]));
    waiting.held.hold(1, STATION, Holding::Own);
    waiting.keep(Source::Air(1), long(Priority::Data, STATION, 1));
    (0..10).for_each(|number| waiting.held.release(0, made_up(number)));
    waiting.held.release(1, STATION);
    let found = marks(&mut waiting, Instant::START);
    let of_number = |number| found.iter().filter(|(source, mark)| (*source, *mark) == (AIR, number)).count();
    assert_eq!((0..10).map(of_number).collect::<Vec<_>>(), [1, 1, 1, 1, 3, 101, 101, 101, 101, 101]);
    assert!(found.contains(&(Source::Air(1), 1)));
    waiting.held.hold(0, STATION, Holding::Own);
    waiting.keep(AIR, long(Priority::Data, STATION, 1));
    assert_eq!(waiting.len(), 1);
}

/// Few notices wait with a station, however often it dozes and wakes meanwhile: the last ones, as those hold. So the
/// stations of a network, however many, make notices fill no memory.
#[test]
fn of_notices_few_wait_with_a_station_that_is_held() {
    let mut waiting = InboundQueue::new(1);
    let stations: Vec<Address> = (0..200).map(made_up).collect();
    for station in &stations {
        waiting.held.hold(0, *station, Holding::Own);
        for number in 0..300u16 {
            // A unit as long as one can be, which says another mode each time.
            let control = [0x08, if number % 2 == 0 { 0x01 } else { 0x11 }];
            let body = vec![number as u8; 2304];
            let unit = Unit { control, transmitter: *station, sequence: number << 4, body, ..Unit::default() };
            waiting.keep(AIR, InboundFrame::of_air(Frame::of(&unit.octets()).unwrap(), true, Instant::START));
        }
    }
    assert_eq!(dropped(&waiting), [(AIR, Priority::Notice, Why::Held, 200 * 296)]);
    stations.iter().for_each(|station| waiting.held.release(0, *station));
    let found = std::iter::from_fn(|| waiting.pop(Instant::START)).map(|(_, frame)| frame.octets);
    let found: Vec<Vec<u8>> = found.collect();
    assert!(found.iter().map(Vec::len).sum::<usize>() <= MOST_OCTETS);
    let last: Vec<u8> = found[..4].iter().map(|octets| octets[octets.len() - 1]).collect();
    assert_eq!((found.len(), last), (800, (296..300u16).map(|number| number as u8).collect()));
}

/// If notices alone fill the room of a network, the oldest of them go, whichever stations they are of.
#[test]
fn the_oldest_notice_of_a_network_goes_if_no_more_can_wait() {
    let mut waiting = InboundQueue::new(1);
    let most = MOST_OCTETS / 4096;
    for number in 0..most + 10 {
        let notice = of(Priority::Notice, made_up(number), Instant::START, 0);
        waiting.held.hold(0, made_up(number), Holding::Own);
        waiting.keep(AIR, InboundFrame { octets: vec![0; 4096], ..notice });
    }
    assert_eq!(dropped(&waiting), [(AIR, Priority::Notice, Why::Held, 10)]);
    waiting.keep(AIR, data(made_up(0), Instant::START, 0));
    assert_eq!(dropped(&waiting)[0], (AIR, Priority::Data, Why::Held, 1));
    (0..most + 10).for_each(|number| waiting.held.release(0, made_up(number)));
    let senders = std::iter::from_fn(|| waiting.pop(Instant::START)).map(|(_, frame)| frame.flow.0);
    assert_eq!(senders.collect::<Vec<_>>(), (10..most + 10).map(made_up).collect::<Vec<_>>());
}

#[test]
fn what_waits_with_a_station_that_is_held_is_bounded_and_counted() {
    let mut waiting = InboundQueue::new(1);
    waiting.held.hold(0, STATION, Holding::OwnAndWired);
    for number in 0..300u16 {
        assert_eq!(waiting.has_dropped(), number > 256);
        waiting.push(AIR, of(Priority::Data, STATION, Instant::START, number as u8));
        assert!(waiting.pop(Instant::START).is_none());
    }
    assert_eq!((waiting.len(), dropped(&waiting)), (256, vec![(AIR, Priority::Data, Why::Held, 44)]));
    assert!(waiting.has_dropped());
    assert_eq!(waiting.rest(), Some("256 frames still waited for the program".to_owned()));
    waiting.held.release(0, STATION);
    assert_eq!((marks(&mut waiting, Instant::START).len(), waiting.rest()), (256, None));
}

/// That a station was sent away is told the program, however many frames the station sends, and whether it is held.
#[test]
fn a_station_does_not_push_out_that_it_was_sent_away() {
    for is_held in [false, true] {
        let mut waiting = InboundQueue::new(1);
        let departure = crate::stations::own_frames::departure(OURS, STATION);
        let push = |waiting: &mut InboundQueue, octets: &[u8]| {
            let frame = InboundFrame::of_air(Frame::of(octets).unwrap(), false, Instant::START);
            if is_held {
                waiting.keep(AIR, frame);
            } else {
                waiting.push(AIR, frame);
            }
        };
        if is_held {
            waiting.held.hold(0, STATION, Holding::Own);
        }
        push(&mut waiting, &departure);
        let null = crate::stations::own_frames::mode_of_station(OURS, STATION, false);
        let disassociation = Unit { control: [0xa0, 0], ..Unit::default() }.octets();
        for _ in 0..MOST_FRAMES {
            push(&mut waiting, &null);
            push(&mut waiting, &disassociation);
        }
        waiting.held.release(0, STATION);
        assert_eq!(waiting.pop(Instant::START).map(|(_, frame)| frame.octets), Some(departure), "{is_held}");
        assert_eq!(dropped(&waiting).len(), 1);
    }
}
