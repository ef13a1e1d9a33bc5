//! The way to the air beside the queues of the crate `downlink`, as the proved library keeps them and as a model does:
//! the same calls, and what all decide. The way to the air decides by such a library too. So what is compared here is
//! what it hands in, and whether it does what the library says. Here the bridge ends, so that the radio is given all
//! that waits; `running_test.rs` compares them while it runs.
//!
//! Where the way to the air has rules of its own (`docs/DECISIONS.md`, "The queues of the way to the air") the calls
//! are such that both come to the same:
//!
//! 1. The receiver of a network whose turn it is isn't compared: the model says whose it is, and all others are held.
//! 2. What became of a frame is told before the next one goes, so the bridge holds no receiver. As a frame goes,
//!    `used` tells of its first try. Once it is told of, `used` tells what all its tries took beyond that.
//! 3. Time nearly stands still, or goes on by half a second: units are in time, or late in any case (`lateness`).
//! 4. What became of a unit is told before its station's doze is settled, and before it wakes or leaves. Units go back
//!    once the doze is settled.
//! 5. A station that wakes or leaves is settled at once, so nothing comes as kept.
//! 6. No more frames come than may wait while a station falls asleep or leaves: the bridge has taken those out by then.
//! 7. Nothing is for those who aren't associated, and there are no beacons.
use super::*;
use crate::formats::frames::Address;
use crate::formats::radiotap::SENDING_LEN;
use crate::os::clock::SECOND;
use crate::outbound::air::account::Unsent;
use crate::outbound::air::frame::MOST_LIFETIME;
use crate::outbound::air::handing_back::Errand;
use crate::outbound::air::proved_queues::{Answer, Change, Fate};
use crate::stations::own_frames::association_request;
use crate::testing::samples::{at, network, Seeded, Unit};

#[path = "downlink_model_test.rs"]
mod model;
#[path = "proved_queues_test.rs"]
mod proved_queues_tests;
#[path = "running_test.rs"]
mod running;

use model::Model;
use proved_queues_tests::Beside;

const CALLS: usize = if cfg!(debug_assertions) { 100_000 } else { 1_000_000 };
const CALLS_OF_A_RUN: usize = 2000;

const NETWORKS: usize = 3;
/// The groups' receiver is the first one.
const STATIONS: usize = 3;
const MOST: [usize; 1 + STATIONS] = [256, 64, 64, 64];
const RATES: [u8; 6] = [0x82, 0x84, 12, 24, 48, 108];
const LIFETIME_OF_WORD: Duration = Duration::from_secs(2);
const LIFETIME_OF_GROUP_UNIT: Duration = Duration::from_millis(100);
const HALF_A_SECOND: Duration = Duration::from_millis(500);
/// For so long time nearly stands still.
const MOST_STILL: Duration = Duration::from_millis(40);

fn bssid(place: Place) -> Address {
    Address::of([2, 0, 0, 0, 1, place as u8])
}

fn address_of(place: Place, receiver: usize) -> Address {
    match receiver {
        0 => Address::BROADCAST,
        _ => Address::of([2, 0xaa, 0, 0, place as u8, receiver as u8]),
    }
}

fn receiver_of(place: Place, receiver: usize) -> Receiver {
    match receiver {
        0 => Receiver::Groups,
        _ => Receiver::Station(address_of(place, receiver)),
    }
}

/// How a station is.
#[derive(Debug, Clone, Copy, PartialEq, Eq)]
enum Mode {
    Awake,
    Dozes,
    Gone,
}

/// Both, with what became of frames in each.
struct Pair {
    air: Transmitter,
    beside: Beside,
    seeded: Seeded,
    now: Instant,
    /// Since when time nearly stands still.
    still_since: Instant,
    ticket: u64,
    mark: Mark,
    modes: [[Mode; 1 + STATIONS]; NETWORKS],
    /// How many frames of each network had each fate beside.
    fates: [[u64; Fate::ALL.len()]; NETWORKS],
    /// The tickets that went back in each, in their order.
    back: Vec<u64>,
    back_beside: Vec<u64>,
}

impl Pair {
    /// The bridge ends.
    fn new(seed: u64) -> Pair {
        let mut pair = Pair::running(seed);
        pair.air.end();
        pair
    }

    fn running(seed: u64) -> Pair {
        let mut seeded = Seeded(seed);
        let weights: Vec<u8> = (0..NETWORKS).map(|_| 1 + seeded.below(16) as u8).collect();
        let of_weight = |(place, weight): (usize, &u8)| Network {
            rates: RATES.to_vec(),
            weight: *weight,
            quota: 100_000,
            ..network(bssid(place))
        };
        let networks: Vec<Network> = weights.iter().enumerate().map(of_weight).collect();
        let mosts: Vec<(u8, Vec<usize>)> = weights.iter().map(|weight| (*weight, MOST.to_vec())).collect();
        let mut pair = Pair {
            air: Transmitter::new(&networks),
            beside: Beside::new(&mosts),
            seeded,
            now: at(SECOND),
            still_since: at(SECOND),
            ticket: 0,
            mark: 0,
            modes: [[Mode::Gone; 1 + STATIONS]; NETWORKS],
            fates: [[0; Fate::ALL.len()]; NETWORKS],
            back: Vec::new(),
            back_beside: Vec::new(),
        };
        (0..NETWORKS).for_each(|place| (0..=STATIONS).for_each(|receiver| pair.join(place, receiver)));
        pair
    }

    fn nanos(&self) -> u64 {
        self.now.as_nanos()
    }

    /// What was answered beside is counted.
    fn count(&mut self, answer: Option<Answer>) -> Option<Answer> {
        if let Some(Answer { network, ticket, fate, .. }) = answer {
            self.fates[network][fate as usize] += 1;
            if fate == Fate::HandedBack {
                self.back_beside.push(ticket);
            }
        }
        answer
    }

    fn change(&mut self, place: Place, receiver: usize, change: Change) {
        assert!(self.beside.change((place, receiver), change));
    }

    fn join(&mut self, place: Place, receiver: usize) {
        if receiver > 0 {
            let (station, network) = (address_of(place, receiver), network(bssid(place)));
            let request = association_request(&Network { rates: RATES.to_vec(), ..network }, station);
            self.air.joins(place, station, self.now);
            self.air.restore(place, Frame::of(&request).unwrap(), self.now);
        }
        self.change(place, receiver, Change::Joins);
        self.modes[place][receiver] = Mode::Awake;
    }

    /// A frame of this kind with its ticket.
    fn octets(&mut self, place: Place, receiver: usize, control: u8) -> Vec<u8> {
        self.ticket += 1;
        let head: &[u8] = if control == DATA { &[0xaa, 0xaa, 3, 0, 0, 0, 8, 0] } else { &[] };
        let more = vec![0; self.seeded.below(200)];
        let body = [head, &self.ticket.to_be_bytes(), &more].concat();
        let sequence = (self.ticket % 4096) as u16 * 16;
        let (receiver, transmitter) = (address_of(place, receiver), bssid(place));
        Unit { control: [control, 0], receiver, transmitter, sequence, body }.octets()
    }

    /// A frame comes. Most units for a station that dozes are answers to a poll, and the others go back.
    fn come(&mut self, place: Place, receiver: usize) {
        let mode = self.modes[place][receiver];
        let is_unit = receiver == 0 || self.seeded.below(8) > 0;
        if mode == Mode::Gone {
            return;
        }
        let octets = self.octets(place, receiver, if is_unit { DATA } else { ACTION });
        let until = match (receiver, is_unit) {
            (0, _) => self.now + LIFETIME_OF_GROUP_UNIT,
            (_, true) => self.now + MOST_LIFETIME,
            (_, false) => self.now + LIFETIME_OF_WORD,
        };
        if is_unit && mode == Mode::Dozes && self.seeded.below(4) > 0 {
            self.change(place, receiver, Change::Polls { until: self.nanos() });
            self.mark += 1;
            self.air.polls(place, address_of(place, receiver), self.mark, self.now);
            assert!(self.air.answered(self.mark, self.now));
        }
        self.air.send(place, octets, self.now);
        self.come_beside(place, receiver, is_unit, until);
        self.return_all(place, receiver);
    }

    fn come_beside(&mut self, place: Place, receiver: usize, is_unit: bool, until: Instant) {
        let (until, now) = (until.as_nanos(), self.nanos());
        let dropped = self.beside.comes((place, receiver), self.ticket, is_unit, until, now);
        self.count(dropped.unwrap());
    }

    fn waiting(&self, place: Place, receiver: usize) -> usize {
        self.air.queue.scheduler.waiting(place, receiver_of(place, receiver))
    }

    /// How many frames more may wait for a receiver.
    fn room(&self, place: Place, receiver: usize) -> usize {
        MOST[receiver].saturating_sub(self.waiting(place, receiver))
    }

    /// The others of all networks are held, or aren't any more.
    fn hold_others(&mut self, kept: (Place, usize), is_held: bool) {
        for place in 0..NETWORKS {
            for receiver in (0..=STATIONS).filter(|receiver| (place, *receiver) != kept) {
                if self.waiting(place, receiver) > 0 {
                    let receiver = receiver_of(place, receiver);
                    match is_held {
                        true => self.air.queue.hold(place, receiver),
                        false => self.air.queue.release(place, receiver),
                    }
                }
            }
        }
    }

    /// All answers until a frame goes, or none may.
    fn next_beside(&mut self) -> Vec<Answer> {
        let mut answers = Vec::new();
        loop {
            let next = self.beside.next(self.now.as_nanos());
            answers.extend(self.count(next));
            if next.map_or(true, |answer| answer.fate.is_sending()) {
                return answers;
            }
        }
    }

    /// The next frame goes, and it is told what became of it.
    fn next(&mut self) {
        let answers = self.next_beside();
        let mut sent = None;
        for group in answers.chunk_by_receiver() {
            let (last, used) = (group[group.len() - 1], self.used(group[0].network));
            let whose = (last.network, last.receiver);
            assert_eq!(self.air.queue.first().map(|(place, ..)| place), Some(last.network));
            self.hold_others(whose, true);
            let goes = self.air.choose(1, self.now);
            self.hold_others(whose, false);
            assert_eq!(goes, last.fate.is_sending(), "{group:?}");
            if goes {
                let packet = self.air.awaiting_room().next().unwrap().to_vec();
                self.air.gave(1);
                let frame = packet[SENDING_LEN..].to_vec();
                assert_eq!(ticket_of(&frame), last.ticket);
                assert_eq!(frame[1] & 0x08 != 0, last.fate == Fate::GoesAgain);
                self.charge(last.network, used, takes(&packet, packet[RATE_AT], 1));
                sent = Some((last, packet));
            }
        }
        self.take_errands();
        if let Some((answer, packet)) = sent {
            self.told(answer, &packet);
        } else {
            assert!(!self.air.has_next());
        }
    }

    /// How long a network's frames were sent.
    fn used(&self, place: Place) -> Duration {
        self.air.accounts()[place].used
    }

    /// A network is charged beside for what a frame of it took, and was charged for just that since.
    fn charge(&mut self, place: Place, before: Duration, took: Duration) {
        assert_eq!(self.used(place) - before, took);
        assert!(self.beside.used(place, microseconds(took)));
    }

    /// How the radio sent a packet: mostly at the rate that it was asked for, and sometimes more often than it was.
    fn outcome(&mut self, packet: &[u8], is_acknowledged: bool) -> Outcome {
        let rate = match self.seeded.below(8) {
            0 => None,
            1 => Some(NO_RATE),
            2..=3 => Some(BAND[self.seeded.below(BAND.len())]),
            _ => Some(packet[RATE_AT]),
        };
        Outcome { is_acknowledged, retries: [0, 1, 2, 3, u8::MAX][self.seeded.below(5)], rate }
    }

    /// The radio tells of a frame. Its station may fall asleep before that, wake again or leave.
    fn told(&mut self, answer: Answer, packet: &[u8]) {
        let Answer { network: place, receiver, ticket, .. } = answer;
        let dozes = receiver > 0 && self.modes[place][receiver] == Mode::Awake && self.seeded.below(16) == 0;
        if dozes {
            self.fall_asleep(place, receiver);
        }
        let is_unit = packet[SENDING_LEN] == DATA;
        let may_be_lost = receiver > 0 && is_unit;
        let is_acknowledged = !may_be_lost || self.seeded.below(4) > 0;
        let (outcome, used) = (self.outcome(packet, is_acknowledged), self.used(place));
        self.air.reported(place, &packet[SENDING_LEN..], outcome, self.now);
        self.charge(place, used, takes_more(packet, outcome));
        let told = self.beside.told((place, receiver), ticket, is_acknowledged);
        assert!(self.count(told).is_some());
        if dozes {
            self.settle(place, receiver);
        }
        self.take_errands();
    }

    /// A station says that it dozes, and units for it come behind that.
    fn fall_asleep(&mut self, place: Place, receiver: usize) {
        let more = self.seeded.below(3).min(self.room(place, receiver));
        self.mark += 1;
        self.air.dozes(place, address_of(place, receiver), self.mark, self.now);
        self.change(place, receiver, Change::Dozes);
        self.units_come(place, receiver, more);
    }

    /// So many units come, none of which goes.
    fn units_come(&mut self, place: Place, receiver: usize, number: usize) {
        for _ in 0..number {
            let octets = self.octets(place, receiver, DATA);
            self.air.send(place, octets, self.now);
            self.come_beside(place, receiver, true, self.now + MOST_LIFETIME);
        }
    }

    /// All is answered that came before it said so: its units go back.
    fn settle(&mut self, place: Place, receiver: usize) {
        assert!(self.air.answered(self.mark, self.now));
        self.return_all(place, receiver);
        self.change(place, receiver, Change::Settles);
        self.modes[place][receiver] = Mode::Dozes;
    }

    fn return_all(&mut self, place: Place, receiver: usize) {
        while let Some(returned) = self.beside.returns((place, receiver)) {
            self.count(Some(returned));
        }
    }

    fn take_errands(&mut self) {
        while let Some(errand) = self.air.next_errand() {
            if let Errand::HandBack { frame, .. } = errand {
                self.back.push(u64::from_be_bytes(frame[14..22].try_into().unwrap()));
            }
        }
    }

    /// A station that is awake dozes, one that dozes wakes, and one that left joins; some leave.
    fn move_station(&mut self, place: Place, receiver: usize) {
        let station = address_of(place, receiver);
        match self.modes[place][receiver] {
            Mode::Gone => self.join(place, receiver),
            _ if self.seeded.below(4) == 0 => self.leave(place, receiver),
            Mode::Awake => {
                self.fall_asleep(place, receiver);
                self.settle(place, receiver);
            }
            Mode::Dozes => {
                self.mark += 1;
                self.air.wakes(place, station, self.mark, self.now);
                assert!(self.air.answered(self.mark, self.now));
                self.change(place, receiver, Change::Wakes);
                self.modes[place][receiver] = Mode::Awake;
            }
        }
    }

    /// A station leaves, and units come for it before the program has answered that.
    fn leave(&mut self, place: Place, receiver: usize) {
        let more = self.seeded.below(3).min(self.room(place, receiver));
        self.mark += 1;
        self.air.leaves(place, address_of(place, receiver), Some(self.mark), self.now);
        self.change(place, receiver, Change::Leaves);
        self.units_come(place, receiver, more);
        assert!(self.air.answered(self.mark, self.now));
        self.return_all(place, receiver);
        self.modes[place][receiver] = Mode::Gone;
    }

    fn pass_time(&mut self) {
        self.now += Duration::from_nanos(self.seeded.below(20_000) as u64);
        if self.now.since(self.still_since) > MOST_STILL || self.seeded.below(1500) == 0 {
            self.now += HALF_A_SECOND;
            self.still_since = self.now;
        }
    }

    /// A seeded call of both.
    fn call(&mut self, comes: usize) {
        self.pass_time();
        let (place, receiver) = (self.seeded.below(NETWORKS), self.seeded.below(1 + STATIONS));
        match self.seeded.below(100) {
            0..=1 if receiver > 0 => self.move_station(place, receiver),
            number if number < comes => self.come(place, receiver),
            _ => self.next(),
        }
        self.take_errands();
        self.agree();
    }

    /// Both have done the same so far.
    fn agree(&mut self) {
        assert_eq!(self.air.has_next(), self.beside.has_next());
        self.agree_on_fates();
    }

    fn agree_on_fates(&mut self) {
        for (account, fates) in self.air.accounts().iter().zip(&self.fates) {
            let unsent = |why| account.unsent.get(&why).copied().unwrap_or(0);
            assert_eq!(unsent(Unsent::Late), fates[Fate::Late as usize]);
            assert_eq!(unsent(Unsent::Crowded), fates[Fate::Crowded as usize]);
            assert_eq!(unsent(Unsent::Left), fates[Fate::Left as usize]);
        }
        for (unacknowledged, fates) in self.air.unacknowledged_by_network().iter().zip(&self.fates) {
            assert_eq!(unacknowledged.again, fates[Fate::WaitsAgain as usize]);
            assert_eq!(unacknowledged.lost, fates[Fate::Lost as usize]);
        }
        assert_eq!(self.back, self.back_beside);
        self.back.clear();
        self.back_beside.clear();
    }
}

const DATA: u8 = 0x08;
const ACTION: u8 = 0xd0;
/// Where the header of a packet says at which rate it goes, and how often it is tried again at most.
const RATE_AT: usize = 8;
const RETRIES_AT: usize = 12;
/// No rate of the band.
const NO_RATE: u8 = 0;

/// The ticket of a frame: behind the header, and in data behind that of LLC.
fn ticket_of(frame: &[u8]) -> u64 {
    let from = if frame[0] == DATA { 32 } else { 24 };
    u64::from_be_bytes(frame[from..from + 8].try_into().unwrap())
}

/// What so many tries of a packet take at a rate.
fn takes(packet: &[u8], rate: u8, tries: u32) -> Duration {
    let frame = &packet[SENDING_LEN..];
    let is_acknowledged = !Frame::of(frame).unwrap().receiver().is_group();
    Size { octets: frame.len(), rate, is_acknowledged }.cost().tries(tries)
}

/// What a packet took that went so, beyond its first try at the rate that it was asked for.
fn takes_more(packet: &[u8], outcome: Outcome) -> Duration {
    let asked = packet[RATE_AT];
    let rate = outcome.rate.filter(|rate| BAND.contains(rate)).unwrap_or(asked);
    let tries = 1 + u32::from(outcome.retries.min(packet[RETRIES_AT]));
    takes(packet, rate, tries).saturating_sub(takes(packet, asked, 1))
}

/// The answers of one receiver after another.
trait ChunkByReceiver {
    fn chunk_by_receiver(&self) -> Vec<Vec<Answer>>;
}

impl ChunkByReceiver for Vec<Answer> {
    fn chunk_by_receiver(&self) -> Vec<Vec<Answer>> {
        let mut chunks: Vec<Vec<Answer>> = Vec::new();
        for answer in self {
            let whose = |answer: &Answer| (answer.network, answer.receiver);
            match chunks.last_mut().filter(|chunk| whose(&chunk[0]) == whose(answer)) {
                Some(chunk) => chunk.push(*answer),
                None => chunks.push(vec![*answer]),
            }
        }
        chunks
    }
}

/// Any calls that both have rules for: they decide the same.
#[test]
fn the_way_to_the_air_decides_as_the_crate_does() {
    let mut fates = [0; Fate::ALL.len()];
    for run in 0..CALLS / CALLS_OF_A_RUN {
        let mut pair = Pair::new(run as u64);
        let comes = 30 + pair.seeded.below(60);
        (0..CALLS_OF_A_RUN).for_each(|_| pair.call(comes));
        for of_network in pair.fates {
            (0..Fate::ALL.len()).for_each(|fate| fates[fate] += of_network[fate]);
        }
    }
    // In both a frame that is given up is late: the library gives one up whenever the bridge says so.
    for fate in Fate::ALL.into_iter().filter(|fate| *fate != Fate::GivenUp) {
        assert!(fates[fate as usize] > CALLS as u64 / 2000, "{fate:?} {fates:?}");
    }
}
