use super::*;
use crate::formats::frames::{Address, BEACON};
use crate::formats::radiotap::{captured, Outcome};
use crate::inbound::frame::LONGEST;
use crate::os::clock::{Instant, MILLISECOND, SECOND};
use crate::os::interfaces::Interfaces;
use crate::outbound::air::account::Unsent;
use crate::outbound::air::air_time::Size;
use crate::outbound::air::dequeue::{FEW, LOOK_EVERY};
use crate::outbound::air::downlink::MOST_FOR_STATION;
use crate::outbound::air::frame::{MOST_LIFETIME, PROBE_RESPONSE};
use crate::outbound::air::in_flight::MOST_OUT;
use crate::outbound::air::queue::MOST_OCTETS;
use crate::outbound::counts::Counts;
use crate::outbound::monitor::{self, MonitorSender};
use crate::stations::own_frames::association_request;
use crate::testing::samples::{at, network, Recorder, Unit, NANOSECOND, OTHER, OURS, STATION, STRANGER};

#[path = "holding_test.rs"]
mod holding;

#[path = "dozing_test.rs"]
mod dozing;
#[path = "dropping_test.rs"]
mod dropping;
#[path = "medium_test.rs"]
mod medium;
#[path = "sharing_test.rs"]
mod sharing;
#[path = "strangers_test.rs"]
mod strangers;

const RATES: [u8; 12] = [0x82, 0x84, 0x8b, 0x96, 12, 18, 24, 36, 48, 72, 96, 108];
const OTHERS_RATES: [u8; 2] = [0x8b, 0x96];
/// The header, LLC and so many octets.
const LONG: usize = 1412;

/// A frame as it was given to the radio.
#[derive(Debug, Clone, PartialEq, Eq)]
struct Seen {
    rate: u8,
    retries: u8,
    frame: Vec<u8>,
}

impl Seen {
    fn number(&self) -> u8 {
        self.frame[22] >> 4 | self.frame[23] << 4
    }

    fn is_again(&self) -> bool {
        self.frame[1] & 0x08 != 0
    }
}

/// The way to the air and the interface, with a clock that is set by hand.
struct Driver {
    air: Transmitter,
    interfaces: Interfaces<Recorder>,
    monitor: MonitorSender,
    now: Instant,
    on_air: VecDeque<Seen>,
    /// The number of the last frame that was made for it.
    next: u16,
}

fn driver(weights: [u8; 2]) -> Driver {
    let networks = [
        Network { rates: RATES.to_vec(), weight: weights[0], ..network(OURS) },
        Network { rates: OTHERS_RATES.to_vec(), weight: weights[1], ..network(OTHER) },
    ];
    driver_of(&networks)
}

/// With a station of the first network, which is sent to at 54 Mb/s.
fn driver_at_54() -> Driver {
    let mut driver = driver([1, 1]);
    driver.at_54();
    driver
}

fn driver_of(networks: &[Network]) -> Driver {
    Driver {
        air: Transmitter::new(networks),
        interfaces: Interfaces::new(Recorder::default(), Recorder::default(), vec![]),
        monitor: MonitorSender::default(),
        now: at(SECOND),
        on_air: VecDeque::new(),
        next: 0,
    }
}

fn seen(packets: &mut Vec<Vec<u8>>) -> Vec<Seen> {
    let read = |packet: Vec<u8>| Seen {
        rate: packet[8],
        retries: packet[12],
        frame: captured(&packet).unwrap().frame.to_vec(),
    };
    packets.drain(..).map(read).collect()
}

impl Driver {
    fn send(&mut self, place: Place, octets: Vec<u8>) {
        self.air.send(place, octets, self.now);
    }

    /// Frames of the first network come: what goes on the air now.
    fn give(&mut self, frames: impl IntoIterator<Item = Vec<u8>>) -> Vec<Seen> {
        frames.into_iter().for_each(|octets| self.send(0, octets));
        self.flush()
    }

    /// What goes on the air now.
    fn flush(&mut self) -> Vec<Seen> {
        self.monitor.flush_beacons(&mut self.air, &mut self.interfaces);
        self.flush_others();
        seen(&mut self.interfaces.monitor.port.sent)
    }

    /// What is no beacon goes on the air now.
    fn flush_others(&mut self) {
        self.monitor.flush(&mut self.air, &mut self.interfaces, self.now, Instant::NEVER);
    }

    /// What was waited for in vain until then isn't any more.
    fn expire(&mut self, now: Instant) {
        monitor::expire(&mut self.air, &self.interfaces, now);
    }

    /// So much time goes by.
    fn pass(&mut self, time: Duration) {
        self.now += time;
        self.expire(self.now);
    }

    /// The radio's socket has room for all.
    fn has_room_again(&mut self) {
        self.interfaces.monitor.port.room = None;
        self.interfaces.monitor.unblock();
    }

    fn has_room(&self) -> bool {
        monitor::has_room(&self.air, &self.interfaces)
    }

    fn is_idle(&self) -> bool {
        monitor::is_idle(&self.air, &self.interfaces)
    }

    fn refused(&self) -> Counts {
        let mut counts = Counts::new();
        self.monitor.refused.add_to(&mut counts);
        counts
    }

    fn beacons(&mut self) -> Vec<Seen> {
        seen(&mut self.interfaces.beacons.port.sent)
    }

    /// The radio tells of a frame, at once.
    fn reported(&mut self, place: Place, seen: &Seen, retries: u8, is_acknowledged: bool) {
        let outcome = Outcome { is_acknowledged, retries, rate: Some(seen.rate) };
        self.air.reported(place, &seen.frame, outcome, self.now);
    }

    /// What goes on the air now and then, where each frame takes its time and is acknowledged.
    fn run(&mut self, frames: usize) -> Vec<Seen> {
        let mut all = Vec::new();
        let first = self.flush();
        self.on_air.extend(first);
        while let Some(next) = self.on_air.pop_front() {
            let is_group = next.frame[4] & 1 != 0;
            let size = Size { octets: next.frame.len(), rate: next.rate, is_acknowledged: !is_group };
            self.now += size.cost().tries(1);
            let place = usize::from(next.frame[15] == OTHER.octets()[5]);
            self.reported(place, &next, 0, true);
            all.push(next);
            if all.len() == frames {
                break;
            }
            let more = self.flush();
            self.on_air.extend(more);
        }
        all
    }

    /// A station asks to join the first network, or the second, and is told that it is associated.
    fn ask(&mut self, place: Place, station: Address) -> Vec<Seen> {
        let bssid = medium::BSSIDS[place];
        self.air.heard(place, Frame::of(&request(bssid, station, &RATES)).unwrap());
        self.send(place, response(bssid, station, 0));
        self.flush()
    }

    /// And acknowledges that.
    fn join(&mut self, place: Place, station: Address) {
        let sent = self.ask(place, station);
        self.reported(place, &sent[0], 0, true);
    }

    /// A station of the first network, which is sent to at 54 Mb/s.
    fn at_54(&mut self) {
        self.join(0, STATION);
        (0..8).for_each(|number| self.deliver(0, unit(OURS, STATION, number)));
    }

    /// A frame goes, and is acknowledged.
    fn deliver(&mut self, place: Place, octets: Vec<u8>) {
        self.send(place, octets);
        let sent = self.flush();
        self.reported(place, &sent[0], 0, true);
    }

    fn unsent(&self, place: Place, why: Unsent) -> u64 {
        self.air.queue.accounts[place].unsent.get(&why).copied().unwrap_or(0)
    }
}

fn of_network(control: u8, bssid: Address, receiver: Address, number: u16, body: Vec<u8>) -> Vec<u8> {
    Unit { control: [control, 0], receiver, transmitter: bssid, sequence: number << 4, body }.octets()
}

fn unit(bssid: Address, station: Address, number: u16) -> Vec<u8> {
    of_network(0x08, bssid, station, number, b"unit".to_vec())
}

fn long(bssid: Address, station: Address, number: u16) -> Vec<u8> {
    of_network(0x08, bssid, station, number, vec![0; LONG])
}

fn response(bssid: Address, station: Address, status: u8) -> Vec<u8> {
    of_network(0x10, bssid, station, 1, vec![0, 0, status, 0, 1, 0xc0])
}

fn deauthentication(number: u16) -> Vec<u8> {
    of_network(0xc0, OURS, STATION, number, vec![8, 0])
}

fn numbers<'a>(sent: impl IntoIterator<Item = &'a Seen>) -> Vec<u8> {
    sent.into_iter().map(Seen::number).collect()
}

/// The association request of a station that has these rates.
fn request(bssid: Address, station: Address, rates: &[u8]) -> Vec<u8> {
    association_request(&Network { rates: rates.to_vec(), ..network(bssid) }, station)
}

#[test]
fn a_station_that_joined_is_sent_to_at_its_fastest_rate_soon() {
    let mut driver = driver_at_54();
    let sent = driver.give([unit(OURS, STATION, 9)]);
    assert_eq!((sent[0].rate, sent[0].frame.clone()), (108, unit(OURS, STATION, 9)));
}

/// Of one that joined before the bridge began the rates are those of its request.
#[test]
fn a_station_that_is_restored_is_sent_to_at_its_fastest_rate_soon() {
    let mut driver = driver([1, 1]);
    driver.air.restore(0, Frame::of(&request(OURS, STATION, &RATES)).unwrap(), Instant::START);
    (0..8).for_each(|number| driver.deliver(0, unit(OURS, STATION, number)));
    assert_eq!(driver.give([unit(OURS, STATION, 9)])[0].rate, 108);
}

#[test]
fn one_that_was_refused_or_never_asked_is_sent_to_at_the_lowest_basic_rate() {
    let mut driver = driver([1, 1]);
    driver.send(0, response(OURS, STATION, 17));
    (2..6).for_each(|number| driver.send(0, unit(OURS, STATION, number)));
    driver.send(1, unit(OTHER, STATION, 0));
    let rates: Vec<u8> = driver.run(6).iter().map(|seen| seen.rate).collect();
    assert_eq!(rates.iter().filter(|rate| **rate == 2).count(), 5);
    assert_eq!(rates.iter().filter(|rate| **rate == 0x0b).count(), 1);
}

#[test]
fn groups_go_once_and_answers_by_what_their_tries_take() {
    let mut driver = driver_at_54();
    let group = of_network(0x08, OURS, Address::BROADCAST, 1, vec![0; 8]);
    let answer = of_network(0xb0, OURS, STRANGER, 2, vec![0, 0, 2, 0, 0, 0]);
    for (frame, found) in
        [(group, (2, 0)), (answer, (2, 5)), (deauthentication(3), (2, 5)), (long(OURS, STATION, 4), (108, 6))]
    {
        driver.send(0, frame);
        let sent = driver.run(1);
        assert_eq!((sent[0].rate, sent[0].retries), found);
    }
}

#[test]
fn what_is_told_of_strangers_changes_nothing() {
    let mut driver = driver_at_54();
    let stranger = unit(OURS, STRANGER, 1);
    let outcome = Outcome { is_acknowledged: false, retries: 7, rate: Some(2) };
    (0..=stranger.len()).for_each(|cut| driver.air.reported(0, &stranger[..cut], outcome, driver.now));
    assert_eq!((driver.flush(), driver.air.unacknowledged()), (vec![], Unacknowledged::default()));
}

#[test]
fn a_beacon_goes_before_all_that_waits_and_nothing_that_came_behind_it_before_it() {
    let mut driver = driver_at_54();
    let group = of_network(0x08, OURS, Address::BROADCAST, 3, vec![0; 8]);
    driver.send(0, group);
    driver.send(0, of_network(BEACON, OURS, Address::BROADCAST, 4, vec![0; 30]));
    driver.interfaces.beacons.port.room = Some(0);
    assert_eq!((driver.give([unit(OURS, STATION, 5)]), driver.beacons()), (vec![], vec![]));
    driver.interfaces.beacons.port.room = None;
    let sent = driver.flush();
    assert_eq!(numbers(&driver.beacons()), [4]);
    assert_eq!((sent.len(), numbers(&sent).contains(&3)), (2, true));
}

#[test]
fn who_asks_for_all_networks_is_answered_by_one_try_within_20_milliseconds() {
    let mut driver = driver([1, 1]);
    let answer = |number, station| of_network(PROBE_RESPONSE, OURS, station, number, vec![0; 40]);
    let probe = Unit { control: [0x40, 0], body: vec![0, 0], ..Unit::default() }.octets();
    driver.air.heard(0, Frame::of(&probe).unwrap());
    driver.send(0, answer(1, STATION));
    driver.send(0, answer(2, STRANGER));
    let tries: Vec<u8> = driver.run(2).iter().map(|seen| seen.retries).collect();
    assert_eq!(tries, [4, 0]);
    (3..103).for_each(|number| driver.send(0, answer(number, STRANGER)));
    let sent = driver.run(100);
    assert!((14..=20).contains(&sent.len()), "{}", sent.len());
    assert_eq!(driver.unsent(0, Unsent::Late), 100 - sent.len() as u64);
}

/// While one network's station hears 1 Mb/s alone and wants all, another network gets as much of the air as it.
#[test]
fn networks_take_turns_by_time_on_the_air() {
    for (weights, parts) in [([1, 1], [1, 1]), ([2, 1], [2, 1]), ([1, 4], [1, 4])] {
        let mut driver = driver(weights);
        let mut used = [Duration::ZERO; 2];
        for round in 0..4000u16 {
            for place in 0..2 {
                while driver.air.queue.accounts[place].waiting < 4 {
                    let bssid = [OURS, OTHER][place];
                    let body = vec![0; if place == 0 { LONG } else { 200 }];
                    driver.send(place, of_network(0x08, bssid, STRANGER, round, body));
                }
            }
            for seen in driver.run(1) {
                let place = usize::from(seen.frame[15] == OTHER.octets()[5]);
                let size = Size { octets: seen.frame.len(), rate: seen.rate, is_acknowledged: true };
                used[place] += size.cost().tries(1);
            }
        }
        let wanted = (used[0] + used[1]) * parts[0] / (parts[0] + parts[1]);
        assert!(used[0].max(wanted) - used[0].min(wanted) < wanted / 20, "{weights:?} {used:?}");
    }
}

#[test]
fn what_a_network_used_of_the_air_is_counted_with_all_its_tries() {
    let mut driver = driver_at_54();
    let before = driver.air.queue.accounts[0].used;
    let sent = driver.give([long(OURS, STATION, 9)]);
    driver.reported(0, &sent[0], 6, true);
    let size = Size { octets: sent[0].frame.len(), rate: 108, is_acknowledged: true };
    assert_eq!(driver.air.queue.accounts[0].used - before, size.cost().tries(7));
}

/// How many of so many units to a station that hears 24 Mb/s at most went as samples, one every three milliseconds. Of
/// another network the radio has a frame all that time, or none.
fn samples_beside(is_loaded: bool) -> usize {
    let mut driver = driver([1, 1]);
    driver.join(0, STATION);
    let mut samples = 0;
    for number in 0..300 {
        if is_loaded {
            driver.send(1, long(OTHER, STRANGER, number));
        }
        let others = driver.flush();
        driver.send(0, unit(OURS, STATION, number));
        let sent = driver.flush();
        driver.now += 3 * MILLISECOND;
        others.iter().for_each(|seen| driver.reported(1, seen, 0, true));
        for seen in &sent {
            samples += usize::from(number >= 40 && seen.rate > 48);
            let is_heard = seen.rate <= 48;
            driver.reported(0, seen, if is_heard { 0 } else { seen.retries }, is_heard);
        }
        for again in driver.flush() {
            driver.reported(0, &again, 0, true);
        }
    }
    samples
}

/// A rate that wasn't heard before is tried again after sixteen units, whatever the radio has of other networks.
#[test]
fn how_often_a_faster_rate_is_sampled_does_not_hang_on_other_networks() {
    let alone = samples_beside(false);
    assert!((14..=18).contains(&alone), "{alone}");
    assert_eq!(samples_beside(true), alone);
}
