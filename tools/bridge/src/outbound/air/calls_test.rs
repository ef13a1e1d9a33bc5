//! Any calls, without a socket or a clock: the same ones have the same answers, and frames go in their order.
use std::collections::BTreeMap;

use super::*;
use crate::formats::frames::Address;
use crate::formats::radiotap::{Outcome, SENDING_LEN};
use crate::os::clock::{Instant, MILLISECOND, SECOND};
use crate::outbound::air::handing_back::Errand;
use crate::outbound::air::sleeping::Mark;
use crate::stations::own_frames::association_request;
use crate::testing::samples::{network, Seeded, Unit, OTHER, OURS, STATION, STRANGER};

const CALLS: usize = if cfg!(debug_assertions) { 50_000 } else { 500_000 };
const BSSIDS: [Address; 2] = [OURS, OTHER];
const RECEIVERS: [Address; 3] = [STATION, STRANGER, Address::BROADCAST];
const RATES: [u8; 6] = [0x82, 0x84, 12, 24, 48, 108];

/// A transmitter that is called, and what the radio has of it.
struct Caller {
    air: Transmitter,
    seeded: Seeded,
    now: Instant,
    sequence: u16,
    on_air: VecDeque<Vec<u8>>,
    /// The marks that aren't answered, and the number of the last one.
    marks: VecDeque<Mark>,
    last_mark: Mark,
    handed_back: usize,
    /// Whether the radio's socket has room.
    has_room: bool,
}

impl Caller {
    fn new(seed: u64) -> Caller {
        let networks = BSSIDS.map(|bssid| Network { rates: RATES.to_vec(), ..network(bssid) });
        let air = Transmitter::new(&networks);
        let (on_air, marks, now) = (VecDeque::new(), VecDeque::new(), Instant::START);
        let (sequence, last_mark, handed_back, has_room) = (0, 0, 0, true);
        Caller { air, seeded: Seeded(seed), now, sequence, on_air, marks, last_mark, handed_back, has_room }
    }

    fn frame(&mut self, control: u8, body: Vec<u8>) -> (Place, Vec<u8>) {
        let (place, receiver) = (self.seeded.below(2), RECEIVERS[self.seeded.below(3)]);
        self.sequence = (self.sequence + 1) % 4096;
        let (transmitter, sequence) = (BSSIDS[place], self.sequence << 4);
        (place, Unit { control: [control, 0], receiver, transmitter, sequence, body }.octets())
    }

    fn send(&mut self) {
        let length = self.seeded.below(1400);
        let (control, body) = match self.seeded.below(8) {
            0 => (0x10, vec![0, 0, 0, 0, 1, 0xc0]),
            1 => (0x50, vec![0; 40]),
            _ => (0x08, vec![0; length]),
        };
        let (place, octets) = self.frame(control, body);
        self.air.send(place, octets, self.now);
    }

    /// Three units come for a station, and have their turn if they may.
    fn send_units(&mut self, place: Place, receiver: Address) {
        for _ in 0..3 {
            self.sequence = (self.sequence + 1) % 4096;
            let (transmitter, sequence) = (BSSIDS[place], self.sequence << 4);
            let unit = Unit { control: [0x08, 0], receiver, transmitter, sequence, ..Unit::default() };
            self.air.send(place, unit.octets(), self.now);
        }
        self.air.choose(usize::MAX, self.now);
    }

    fn hear(&mut self) {
        let (place, transmitter) = (self.seeded.below(2), RECEIVERS[self.seeded.below(2)]);
        let network = Network { rates: RATES.to_vec(), ..network(BSSIDS[place]) };
        self.air.heard(place, Frame::of(&association_request(&network, transmitter)).unwrap());
    }

    /// The radio tells of a frame, seldom of one that isn't the first.
    fn report(&mut self) {
        let from = if self.seeded.below(8) == 0 { self.seeded.below(self.on_air.len()) } else { 0 };
        if let Some(packet) = self.on_air.remove(from) {
            let (is_acknowledged, retries) = (self.seeded.below(6) > 0, self.seeded.below(4) as u8);
            self.tell(&packet, is_acknowledged, retries);
        }
    }

    fn tell(&mut self, packet: &[u8], is_acknowledged: bool, retries: u8) {
        let frame = &packet[SENDING_LEN..];
        let place = usize::from(frame[15] == OTHER.octets()[5]);
        let outcome = Outcome { is_acknowledged, retries, rate: Some(packet[8]) };
        self.air.reported(place, frame, outcome, self.now);
    }

    /// A station dozes, wakes, leaves or joins, or the program answers a mark.
    fn move_station(&mut self) {
        let (place, station) = (self.seeded.below(2), RECEIVERS[self.seeded.below(2)]);
        let (mark, now) = (self.last_mark + 1, self.now);
        let moved = match self.seeded.below(16) {
            0 => {
                self.air.leaves(place, station, Some(mark), now);
                true
            }
            1 => {
                self.air.joins(place, station, now);
                false
            }
            2..=5 if self.air.is_asleep(place, station) => {
                self.air.wakes(place, station, mark, now);
                true
            }
            2..=5 => {
                self.air.dozes(place, station, mark, now);
                true
            }
            15 if self.air.is_asleep(place, station) => {
                self.air.polls(place, station, mark, now);
                true
            }
            _ => {
                let answered = self.marks.pop_front();
                answered.into_iter().for_each(|mark| assert!(self.air.answered(mark, now)));
                false
            }
        };
        if moved {
            self.marks.push_back(mark);
            self.last_mark = mark;
        }
        while let Some(errand) = self.air.next_errand() {
            self.handed_back += usize::from(matches!(errand, Errand::HandBack { .. }));
        }
    }

    /// What time brings, and what is known of the socket.
    fn pass(&mut self) {
        let is_empty = self.seeded.below(2) == 0;
        self.air.expire(self.now);
        if self.air.wants_look(self.now) {
            self.air.looked(is_empty, self.now);
        }
        if self.air.is_doubtful(self.now) {
            self.air.resolve(is_empty);
        }
        if self.seeded.below(4) == 0 {
            self.air.reports_read();
        }
        self.air.set_look(self.now);
    }

    /// A seeded call; answers what goes on the air after it.
    fn call(&mut self) -> Vec<Vec<u8>> {
        self.now += Duration::from_nanos(self.seeded.below(1_000_000) as u64);
        match self.seeded.below(17) {
            16 => self.move_station(),
            0..=6 => self.send(),
            7 => self.hear(),
            8..=13 => self.report(),
            14 => self.pass(),
            _ if self.air.is_down() => self.air.came_up(20 * MILLISECOND, self.now),
            _ if self.seeded.below(50) == 0 => self.air.went_down(),
            _ => {}
        }
        if !self.air.choose(8, self.now) {
            return Vec::new();
        }
        if self.seeded.below(50) == 0 {
            self.air.refused(self.now);
        }
        let changes = self.seeded.below(if self.has_room { 40 } else { 8 }) == 0;
        self.has_room ^= changes;
        if self.has_room {
            self.give()
        } else {
            Vec::new()
        }
    }

    /// The radio is given what had its turn.
    fn give(&mut self) -> Vec<Vec<u8>> {
        let gone: Vec<Vec<u8>> = self.air.awaiting_room().map(<[u8]>::to_vec).collect();
        self.air.gave(gone.len());
        self.on_air.extend(gone.iter().cloned());
        gone
    }

    /// All stations are awake, doze while there is no room, and are awake again; then units for them come. From now on
    /// the radio has room, and tells of all that it has at once, until nothing waits or for three seconds.
    fn finish(&mut self) {
        for (place, station) in [0, 1].into_iter().flat_map(|place| [STATION, STRANGER].map(|to| (place, to))) {
            self.air.joins(place, station, self.now);
            self.send_units(place, station);
            self.air.dozes(place, station, self.last_mark + 1, self.now);
            self.air.joins(place, station, self.now);
            self.send_units(place, station);
        }
        if self.air.is_down() {
            self.air.came_up(20 * MILLISECOND, self.now);
        }
        let end = self.now + 3 * SECOND;
        while !self.air.is_empty() && self.now < end {
            while let Some(packet) = self.on_air.pop_front() {
                self.tell(&packet, true, 0);
            }
            self.now += MILLISECOND;
            self.air.expire(self.now);
            self.air.choose(usize::MAX, self.now);
            self.give();
        }
    }
}

/// Maps hash by seeds of their own in each transmitter: nothing depends on that.
#[test]
fn the_same_calls_have_the_same_answers() {
    let (mut one, mut other, mut gone) = (Caller::new(31), Caller::new(31), 0);
    for _ in 0..CALLS {
        let packets = one.call();
        gone += packets.len();
        assert_eq!(packets, other.call());
        assert_eq!((one.air.due(), one.air.has_next()), (other.air.due(), other.air.has_next()));
    }
    assert_eq!(one.air.accounts(), other.air.accounts());
    assert!(gone > CALLS / 8 && one.handed_back > CALLS / 100, "{gone} {}", one.handed_back);
}

/// Units for one receiver go in the order in which they came. One goes once more at most, and before newer ones.
#[test]
fn units_for_one_receiver_keep_their_order() {
    let (mut caller, mut last, mut again) = (Caller::new(37), BTreeMap::new(), 0);
    for _ in 0..CALLS {
        for packet in caller.call() {
            let frame = &packet[SENDING_LEN..];
            if frame[0] == 0x08 {
                let number = u16::from_le_bytes([frame[22], frame[23]]) >> 4;
                let before = last.insert(frame[4..16].to_vec(), number);
                let ahead = before.map_or(1, |before| number.wrapping_sub(before) % 4096);
                let is_again = frame[1] & 0x08 != 0;
                assert!(if is_again { ahead == 0 } else { (1..2048).contains(&ahead) }, "{ahead} {is_again}");
                again += usize::from(is_again);
            }
        }
    }
    assert!(again > CALLS / 500, "{again}");
}

/// What the library holds for stations is what waits for them and what the radio has, so that nothing is held for ever.
#[test]
fn the_library_holds_what_waits_and_what_the_radio_has() {
    let (mut caller, mut most) = (Caller::new(41), 0);
    for _ in 0..CALLS {
        caller.call();
        for place in 0..2 {
            let held = [STATION, STRANGER].map(|address| {
                let station = Receiver::Station(address);
                let with_radio = caller.air.in_flight.of(place, address).filter(|(_, sent)| sent.receiver == station);
                caller.air.queue.scheduler.waiting(place, station) + with_radio.count()
            });
            most = most.max(held[0]);
            assert_eq!(caller.air.queue.downlink.held(place), held[0] + held[1]);
        }
    }
    assert!(most > 16, "{most}");
}

/// Whatever was called before: a radio that tells of all that it has is given all that waits.
#[test]
fn what_waits_goes_in_the_end() {
    for seed in 0..CALLS as u64 / 500 {
        let mut caller = Caller::new(seed);
        (0..500).for_each(|_| {
            caller.call();
        });
        caller.finish();
        assert!(caller.air.is_empty(), "{seed}");
    }
}
