//! A simulated air: a radio of one queue sends what it is given, a try after the other. Each try takes DIFS, as many
//! slots as are drawn, and the time of `tx_time`. What became of frames is told as Linux tells it, and is read as the
//! bridge reads it: acknowledged ones once many are unread, or frames wait for them or behind such as are out for long.
use super::*;
use crate::testing::samples::Seeded;

pub(super) const THIRD: Address = Address::of([2, 0, 0, 0, 1, 3]);
/// The networks of a medium, by place.
pub(super) const BSSIDS: [Address; 3] = [OURS, OTHER, THIRD];
const LEAST_WINDOW: [usize; 2] = [15, 31];
const MOST_WINDOW: usize = 1023;
/// How often the bridge reads at a waking what was acknowledged.
const IN_A_ROW: usize = 4;

/// A frame that is on the air, and when this try of it ends.
struct Try {
    seen: Seen,
    number: u8,
    ends: Instant,
}

/// A frame of which the radio told, with how it went.
pub(super) struct Done {
    pub(super) place: Place,
    pub(super) seen: Seen,
    pub(super) at: Instant,
    outcome: Outcome,
    /// When the bridge can read of it.
    shown: Instant,
}

/// The air of one radio, with the transmitter that gives it frames.
pub(super) struct Medium {
    pub(super) driver: Driver,
    radio: VecDeque<Seen>,
    on_air: Option<Try>,
    seeded: Seeded,
    /// How many percent of the tries to a station are lost.
    pub(super) losses: Vec<(Address, usize)>,
    /// At which rate the radio sends to a station, if it doesn't do as it is asked.
    pub(super) own_rates: Vec<(Address, u8)>,
    /// How long the clock went on by each network's tries, what is waited before each included.
    pub(super) clock: [Duration; BSSIDS.len()],
    /// How long the air was used by the last turn of each network, with what was told since, and by the longest one.
    turn: [Duration; BSSIDS.len()],
    pub(super) longest_turn: Duration,
    unread: VecDeque<Done>,
    /// How long it takes until the bridge can read of a frame.
    pub(super) latency: Duration,
    sent_before: u64,
}

impl Medium {
    /// Networks whose stations all join, and are sent to at 54 Mb/s.
    pub(super) fn new(seed: u64, stations: &[Address]) -> Medium {
        let of = |bssid: &Address| Network { rates: RATES.to_vec(), ..network(*bssid) };
        let networks: Vec<Network> = BSSIDS[..stations.len()].iter().map(of).collect();
        let mut driver = driver_of(&networks);
        for (place, station) in stations.iter().enumerate() {
            driver.join(place, *station);
            (0..8).for_each(|number| driver.deliver(place, unit(BSSIDS[place], *station, number)));
        }
        let sent_before = driver.air.sent;
        Medium {
            driver,
            radio: VecDeque::new(),
            on_air: None,
            seeded: Seeded(seed),
            losses: Vec::new(),
            own_rates: Vec::new(),
            clock: [Duration::ZERO; BSSIDS.len()],
            turn: [Duration::ZERO; BSSIDS.len()],
            longest_turn: Duration::ZERO,
            unread: VecDeque::new(),
            latency: Duration::ZERO,
            sent_before,
        }
    }

    /// Goes on to the next moment at which something happens, or to this one if that is before. Answers what the
    /// radio told of then.
    pub(super) fn advance(&mut self, until: Instant) -> Option<(Place, Seen)> {
        self.wake();
        let ends = self.on_air.as_ref().map_or(Instant::NEVER, |on_air| on_air.ends);
        let due = self.driver.air.due().unwrap_or(Instant::NEVER).max(self.driver.now);
        let shown = self.next_waking().unwrap_or(Instant::NEVER).max(self.driver.now);
        self.driver.now = until.min(ends).min(due).min(shown);
        let done = if self.driver.now == ends { self.end_try() } else { None };
        let told = done.as_ref().map(|done| (done.place, done.seen.clone()));
        self.unread.extend(done);
        self.wake();
        told
    }

    /// When the bridge is woken by what the radio told of a frame: of an acknowledged one only if it waits for that.
    fn next_waking(&self) -> Option<Instant> {
        let awaits = self.driver.air.awaits_outcomes();
        self.unread.iter().find(|done| awaits || !done.outcome.is_acknowledged).map(|done| done.shown)
    }

    /// What the bridge does at a waking.
    fn wake(&mut self) {
        if self.next_waking().map_or(false, |shown| shown <= self.driver.now) {
            self.read();
        }
        self.driver.expire(self.driver.now);
        self.give();
        for _ in 0..IN_A_ROW {
            if !self.driver.air.wants_outcomes(self.driver.air.sent - self.sent_before) {
                break;
            }
            self.read_outcomes();
            self.give();
        }
    }

    fn read_outcomes(&mut self) {
        self.read();
        self.sent_before = self.driver.air.sent;
        self.driver.air.reports_read();
    }

    fn read(&mut self) {
        while self.unread.front().map_or(false, |done| done.shown <= self.driver.now) {
            if let Some(Done { place, seen, at, outcome, .. }) = self.unread.pop_front() {
                let before = self.used(place);
                self.driver.air.reported(place, &seen.frame, outcome, at);
                self.turn[place] += self.used(place) - before;
                self.longest_turn = self.longest_turn.max(self.turn[place]);
            }
        }
    }

    /// The radio is given what may go.
    fn give(&mut self) {
        let has_any = self.on_air.is_some() || !self.radio.is_empty();
        self.driver.interfaces.monitor.port.unsent = usize::from(has_any);
        if self.driver.air.is_doubtful(self.driver.now) {
            self.read_outcomes();
        }
        let given = self.driver.flush();
        given.iter().for_each(|seen| self.turn[place_of(seen)] = size_of(seen).cost().tries(1));
        self.radio.extend(given);
        self.radio.extend(self.driver.beacons());
        if self.on_air.is_none() {
            if let Some(seen) = self.radio.pop_front() {
                self.begin_try(seen, 0);
            }
        }
    }

    fn begin_try(&mut self, mut seen: Seen, number: u8) {
        let receiver = Frame::of(&seen.frame).unwrap().receiver();
        let own = self.own_rates.iter().find(|(station, _)| *station == receiver);
        seen.rate = own.map_or(seen.rate, |(_, rate)| *rate);
        let least = LEAST_WINDOW[usize::from(tx_time::is_spread(seen.rate))];
        let window = (((least + 1) << number.min(6)) - 1).min(MOST_WINDOW);
        let slots = self.seeded.below(window + 1) as u64;
        let waits = Duration::from_nanos(tx_time::DIFS + slots * tx_time::SLOT);
        let takes = waits + Duration::from_nanos(size_of(&seen).on_air());
        if seen.frame[0] != BEACON {
            self.clock[place_of(&seen)] += takes;
        }
        self.on_air = Some(Try { ends: self.driver.now + takes, number, seen });
    }

    /// The try on the air ends: the frame is tried again, or is done.
    fn end_try(&mut self) -> Option<Done> {
        let Try { seen, number, .. } = self.on_air.take()?;
        let receiver = Frame::of(&seen.frame)?.receiver();
        let percent = self.losses.iter().find(|(station, _)| *station == receiver).map_or(0, |(_, percent)| *percent);
        let is_lost = self.seeded.below(100) < percent;
        if is_lost && number < seen.retries {
            self.begin_try(seen, number + 1);
            return None;
        }
        let outcome = Outcome { is_acknowledged: !is_lost, retries: number, rate: Some(seen.rate) };
        let (at, shown) = (self.driver.now, self.driver.now + self.latency);
        Some(Done { place: place_of(&seen), seen, at, outcome, shown })
    }

    /// How long the air was used by a network, as it is reckoned.
    pub(super) fn used(&self, place: Place) -> Duration {
        self.driver.air.queue.accounts[place].used
    }

    /// Of a network so many frames wait for a station, each of so many octets behind its header.
    pub(super) fn fill(&mut self, place: Place, station: Address, most: usize, octets: usize) {
        while self.driver.air.queue.accounts[place].waiting < most {
            self.fill_more(place, station, 1, octets);
        }
    }

    /// So many more frames come.
    pub(super) fn fill_more(&mut self, place: Place, station: Address, number: usize, octets: usize) {
        for _ in 0..number {
            self.driver.next += 1;
            let frame = of_network(0x08, BSSIDS[place], station, self.driver.next % 4096, vec![0; octets]);
            self.driver.send(place, frame);
        }
    }
}

pub(super) fn size_of(seen: &Seen) -> Size {
    Size { octets: seen.frame.len(), rate: seen.rate, is_acknowledged: seen.frame[4] & 1 == 0 }
}

pub(super) fn place_of(seen: &Seen) -> Place {
    usize::from(seen.frame[15]) - 1
}
