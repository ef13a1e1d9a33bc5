//! What networks get of a simulated air.
use super::medium::Medium;
use super::*;
use crate::outbound::air::dequeue::MOST_TRYING_AT_ONCE;
use crate::outbound::air::rate_control::BAND;
use crate::testing::samples::Seeded;

/// Beside a network whose frames are held for outcomes, while it has some, others get no more than the rule gives them.
#[test]
fn a_network_that_is_held_loses_nothing_to_others() {
    for (seed, latency) in [0, 0, 0, 500, 500, 500].into_iter().enumerate() {
        let mut medium = Medium::new(seed as u64, &[STRANGER, STATION]);
        (medium.losses, medium.latency) = (vec![(STATION, 20)], Duration::from_micros(latency));
        let (end, mut least, mut excess) = (medium.driver.now + SECOND, Duration::MAX, Duration::ZERO);
        while medium.driver.now < end {
            medium.fill(0, STRANGER, 40, LONG);
            medium.fill(1, STATION, FEW, LONG);
            medium.advance(end);
            let ahead = SECOND + medium.used(0) - medium.used(1);
            least = least.min(ahead);
            excess = excess.max(ahead - least);
        }
        assert!(excess < 2 * MOST_TRYING_AT_ONCE, "{seed}: {excess:?} {:?} {:?}", medium.used(0), medium.used(1));
        assert!(medium.used(0) + medium.used(1) > 400 * MILLISECOND);
        let told = medium.clock[0] + medium.clock[1];
        let used = medium.used(0) + medium.used(1);
        assert!(told < used + used / 20 && used < told + told / 20, "{seed}: {used:?} {told:?}");
    }
}

/// The example of `docs/PROMISES.md`: whatever two networks of long units lose, no turn takes longer than is said there.
#[test]
fn no_turn_takes_longer_than_the_example_of_the_promise_says() {
    let page = include_str!("../../../../../docs/PROMISES.md").split_whitespace().collect::<Vec<_>>().join(" ");
    let limit = MOST_TRYING_AT_ONCE;
    let said = format!("{0} + {0} = {1} ms", limit.as_millis(), 2 * limit.as_millis());
    assert!(page.contains(&said), "{said}");
    for rate in BAND {
        let one = Size { octets: LONG + 24, rate, is_acknowledged: true }.cost();
        assert!(one.tries(2) < limit);
    }
    for (seed, percent) in [0, 10, 20, 50, 90, 100].into_iter().enumerate() {
        let mut medium = Medium::new(seed as u64, &[STRANGER, STATION]);
        medium.losses = vec![(STRANGER, percent), (STATION, 100 - percent)];
        let end = medium.driver.now + SECOND;
        while medium.driver.now < end {
            medium.fill(0, STRANGER, 60, LONG);
            medium.fill(1, STATION, 60, LONG);
            medium.advance(end);
        }
        let most = limit + 2 * Duration::from_micros(1);
        assert!((limit / 5..=most).contains(&medium.longest_turn), "{percent}: {:?}", medium.longest_turn);
    }
}

/// A station vanishes while it is sent 1,000 units a second, each time in another part of the beacon interval. A beacon
/// waits for what the radio has by then, and for no more than what is said of that.
#[test]
fn a_beacon_waits_for_what_the_radio_has_as_a_station_vanishes() {
    const INTERVAL: Duration = Duration::from_micros(102_400);
    for seed in 0..20 {
        let mut medium = Medium::new(seed, &[STRANGER, STATION]);
        let start = medium.driver.now;
        let (vanishes, end) = (start + 4 * INTERVAL + seed as u32 * 5 * MILLISECOND, start + 8 * INTERVAL);
        let (mut unit_due, mut beacon_due, mut last, mut longest) = (start, start, start, Duration::ZERO);
        while medium.driver.now < end {
            let now = medium.driver.now;
            if now >= unit_due {
                medium.fill_more(0, STRANGER, 1, LONG);
                unit_due += MILLISECOND;
            }
            if now >= beacon_due {
                medium.driver.send(0, of_network(BEACON, OURS, Address::BROADCAST, 4, vec![0; 90]));
                beacon_due += INTERVAL;
            }
            if now >= vanishes {
                medium.losses = vec![(STRANGER, 100)];
            }
            let told = medium.advance(unit_due.min(beacon_due).min(end));
            if told.map_or(false, |(_, seen)| seen.frame[0] == BEACON) {
                longest = longest.max(medium.driver.now.since(last));
                last = medium.driver.now;
            }
        }
        let waited = longest.saturating_sub(INTERVAL);
        assert!(waited < MOST_TRYING_AT_ONCE, "{seed}: {longest:?}");
    }
}

/// What the radio takes is charged, whatever it was asked for.
#[test]
fn the_rate_and_the_tries_that_the_radio_tells_are_charged() {
    let at_one = |tries| Size { octets: LONG + 24, rate: 2, is_acknowledged: true }.cost().tries(tries);
    let at_54 = |tries| Size { octets: LONG + 24, rate: 108, is_acknowledged: true }.cost().tries(tries);
    for (rate, retries, took) in [
        (Some(2), 0, at_one(1)),
        (Some(2), 2, at_one(3)),
        (None, 2, at_54(3)),
        (Some(0), 0, at_54(1)),
        (Some(108), 255, at_54(7)),
        (Some(2), 255, at_one(7)),
    ] {
        let mut driver = driver_at_54();
        let before = driver.air.queue.accounts[0].used;
        let sent = driver.give([long(OURS, STATION, 9)]);
        assert_eq!((sent[0].rate, sent[0].retries), (108, 6));
        let outcome = Outcome { is_acknowledged: true, retries, rate };
        driver.air.reported(0, &sent[0].frame, outcome, driver.now);
        assert_eq!(driver.air.queue.accounts[0].used - before, took, "{rate:?} {retries}");
    }
}

/// Two stations that the radio sends to at rates of its own.
#[test]
fn networks_get_their_shares_of_a_radio_that_sends_at_other_rates_than_it_is_asked_for() {
    let mut medium = Medium::new(7, &[STRANGER, STATION]);
    medium.own_rates = vec![(STRANGER, 2)];
    let (start, end) = (medium.driver.now + SECOND, medium.driver.now + 4 * SECOND);
    let mut before = medium.clock;
    while medium.driver.now < end {
        medium.fill(0, STRANGER, 40, LONG);
        medium.fill(1, STATION, 40, LONG);
        medium.advance(if medium.driver.now < start { start } else { end });
        if medium.driver.now == start {
            before = medium.clock;
        }
    }
    let got = [0, 1].map(|place| (medium.clock[place] - before[place]).as_micros());
    assert!(got[0].abs_diff(got[1]) < got[1] / 20, "{got:?}");
}

/// Waits before tries are a part of what short and fast frames take of the clock.
#[test]
fn networks_of_short_and_long_units_get_the_same_of_the_clock() {
    const STATIONS: [Address; 3] = [STATION, STRANGER, Address::of([2, 0xcc, 0, 0, 0, 1])];
    for seed in 0..3 {
        let mut medium = Medium::new(seed, &STATIONS);
        let (before, end) = (medium.clock, medium.driver.now + 4 * SECOND);
        while medium.driver.now < end {
            for (place, octets) in [60, 400, 1400].into_iter().enumerate() {
                medium.fill(place, STATIONS[place], 60, octets);
            }
            medium.advance(end);
        }
        let got = [0, 1, 2].map(|place| (medium.clock[place] - before[place]).as_micros());
        let third = got.iter().sum::<u64>() / 3;
        assert!(got.iter().all(|one| one.abs_diff(third) < third / 20), "{got:?}");
        assert!(3 * third > 3_900_000, "{got:?}");
    }
}

/// A guest that is sent eight units at a time vanishes, beside an office that is sent 200 a second. What the radio has
/// of the guest then goes before all else, a beacon too: of eight units it took 200 ms until nobody acknowledged them.
#[test]
fn a_station_that_vanishes_keeps_neither_beacons_nor_others_waiting_for_long() {
    for seed in 0..10 {
        let mut vanishing = Vanishing::new(seed);
        vanishing.run();
        let Vanishing { worst, silent, office, .. } = vanishing;
        assert!(worst < 150 * MILLISECOND && silent < 160 * MILLISECOND, "{seed}: {worst:?} {silent:?}");
        assert_eq!(office, 400, "{seed}");
    }
}

/// That case, with what is measured of it.
struct Vanishing {
    medium: Medium,
    vanishes: Instant,
    end: Instant,
    next_guest: Instant,
    next_office: Instant,
    next_beacon: Instant,
    /// When the office's units came that weren't told of yet, by their numbers.
    since: std::collections::BTreeMap<u16, Instant>,
    last_beacon: Instant,
    /// The longest time that a unit of the office waited and took, and that without a beacon.
    worst: Duration,
    silent: Duration,
    /// How many units of the office were told of.
    office: usize,
}

impl Vanishing {
    fn new(seed: u64) -> Vanishing {
        let (medium, mut seeded) = (Medium::new(seed, &[STRANGER, STATION]), Seeded(seed));
        let start = medium.driver.now;
        let mut after = |most: usize| start + Duration::from_micros(seeded.below(most) as u64);
        Vanishing {
            medium,
            next_guest: after(8000),
            next_office: after(5000),
            next_beacon: after(100_000),
            vanishes: after(8000) + SECOND,
            end: start + 2 * SECOND,
            since: Default::default(),
            last_beacon: start,
            worst: Duration::ZERO,
            silent: Duration::ZERO,
            office: 0,
        }
    }

    /// Until all units of the office were told of, and for a second after the last one at most.
    fn run(&mut self) {
        let most = self.end + SECOND;
        while self.medium.driver.now < self.end || self.medium.driver.now < most && !self.since.is_empty() {
            let now = self.medium.driver.now;
            if now >= self.vanishes {
                self.medium.losses = vec![(STRANGER, 100)];
            }
            self.come(now);
            let next = self.next_guest.min(self.next_office).min(self.next_beacon);
            let next = if now < self.vanishes { next.min(self.vanishes) } else { next };
            if let Some((place, seen)) = self.medium.advance(next) {
                self.told(place, &seen);
            }
        }
    }

    /// What comes by now.
    fn come(&mut self, now: Instant) {
        while self.next_guest <= now {
            self.medium.fill_more(0, STRANGER, 8, LONG);
            self.next_guest += 8 * MILLISECOND;
        }
        while self.next_office <= now {
            if now < self.end {
                self.medium.fill_more(1, STATION, 1, LONG);
                self.since.insert(self.medium.driver.next % 4096, now);
            }
            self.next_office += 5 * MILLISECOND;
        }
        while self.next_beacon <= now {
            let beacon = of_network(BEACON, OURS, Address::BROADCAST, 0, vec![0; 60]);
            self.medium.driver.send(0, beacon);
            self.next_beacon += Duration::from_micros(102_400);
        }
    }

    fn told(&mut self, place: Place, seen: &Seen) {
        let (now, number) = (self.medium.driver.now, Frame::of(&seen.frame).unwrap().sequence_control());
        if seen.frame[0] == BEACON {
            self.silent = self.silent.max(now.since(self.last_beacon));
            self.last_beacon = now;
        } else if let Some(since) = number.and_then(|number| self.since.remove(&(number >> 4))).filter(|_| place == 1) {
            self.worst = self.worst.max(now.since(since));
            self.office += 1;
        }
    }
}

/// That the radio has few frames of a network at once leaves the air no pause, though what it tells is read late.
#[test]
fn a_network_alone_uses_all_of_the_air() {
    let mut medium = Medium::new(3, &[STATION]);
    medium.latency = Duration::from_micros(500);
    let (before, begin) = (medium.clock[0], medium.driver.now);
    while medium.driver.now < begin + SECOND {
        medium.fill(0, STATION, 60, LONG);
        medium.advance(begin + SECOND);
    }
    let used = medium.clock[0] - before;
    assert!(used > 990 * MILLISECOND, "{used:?}");
}
