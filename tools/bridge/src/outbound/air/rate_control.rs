//! The rule of rates: at which rate the next unit to one station is sent, by what became of those before.
//!
//! It is Minstrel's rule, as Linux has it (`net/mac80211/rc80211_minstrel_ht.c`), without a clock of its own, and for a
//! radio that can be asked for one rate a frame. Of each rate the share of tries is kept that was acknowledged, newer
//! ones counting more; units go at the rate that brings the most octets through, share by time on the air; now and then
//! one goes at a faster rate, as a sample, with two tries. A unit that nobody acknowledged goes once more at the
//! slowest rate of OFDM, a sample at the best one, the first of many units after a silence at the slowest of all. It
//! lets the next one go at the slowest rate of all, until an acknowledgement comes, and what was known of the rates
//! above the middle is forgotten, so that a station that went away is found within a few units. If rates are untried,
//! each unit samples the middle one of them: a faster rate is not expected to be heard if a slower one isn't.
//!
//! Nothing is sent, heard or timed here: what to do is asked, and what came of it is told.

use crate::formats::radiotap::MOST_RETRIES;
use crate::os::clock::{Duration, Instant};

/// In a rate of an element: stations have to have it (IEEE Std 802.11-2016, 9.4.2.3).
const BASIC: u8 = 0x80;
/// The rates of the 2.4 GHz band, in units of 500 kb/s, slowest first.
pub const BAND: [u8; 12] = [2, 4, 11, 12, 18, 22, 24, 36, 48, 72, 96, 108];
/// Those of DSSS and HR/DSSS; the others are of OFDM.
const SPREAD: [u8; 4] = [2, 4, 11, 22];
/// The length of a unit by which rates are compared, in bits.
const BITS: f64 = 8.0 * 1200.0;
/// The weight of one try in a share.
const WEIGHT: f64 = 1.0 / 8.0;
/// If so large a share of tries is acknowledged, a unit that all of its tries lose is one in millions.
const SURE_SHARE: f64 = 0.9;
/// The weight of one try in the share of all tries: more of the past is in it, so that a row of luck is no good air.
const WEIGHT_OF_ALL: f64 = 1.0 / 32.0;
/// A share below this is none: the rate is sampled, and not used.
const LEAST_SHARE: f64 = 0.05;
/// How often a sample is sent again if no acknowledgement comes, and a unit to a station that seems to be gone.
const SAMPLE_RETRIES: u8 = 1;
const GONE_RETRIES: u8 = 1;
/// After so many units in a row without an acknowledgement a station seems to be gone.
const GONE: u32 = 4;
/// If all rates were tried, a unit is a sample after so many others, or after this time. A sample keeps the units
/// behind it waiting, and so costs turns if the network is busy: there it comes less often.
const UNITS_PER_SAMPLE: u32 = 16;
const UNITS_PER_SAMPLE_BUSY: u32 = 64;
const SAMPLE_EVERY: Duration = Duration::from_millis(500);

#[derive(Debug, Clone, Copy, PartialEq, Eq)]
pub struct Choice {
    /// In units of 500 kb/s.
    pub rate: u8,
    /// How often it is sent again if no acknowledgement comes.
    pub retries: u8,
    /// Whether it is sent so to learn of the rate: if it isn't acknowledged, it has to be sent again.
    pub is_sample: bool,
}

#[derive(Debug, Clone, Copy, PartialEq)]
enum Known {
    /// Nothing: it is worth a sample at once.
    Untried,
    /// The share of its tries that was acknowledged, newer ones counting more.
    Share(f64),
}

impl Known {
    /// The share; 0 if nothing is known.
    fn share(self) -> f64 {
        match self {
            Known::Untried => 0.0,
            Known::Share(share) => share,
        }
    }

    /// What is known after one more unit: of so many tries, the last of which was acknowledged, or none.
    fn after(self, tries: u8, is_acknowledged: bool) -> Known {
        let fails = i32::from(tries) - i32::from(is_acknowledged);
        Known::Share(match self {
            _ if !is_acknowledged => 0.0,
            Known::Share(share) if share >= LEAST_SHARE => with_more(share, WEIGHT, fails, true),
            _ => 1.0 / f64::from(tries.max(1)),
        })
    }
}

/// A share after so many tries that were lost, and one more that wasn't, if there is one: each has this weight.
fn with_more(share: f64, weight: f64, lost: i32, is_acknowledged: bool) -> f64 {
    let share = share * (1.0 - weight).powi(lost);
    if is_acknowledged {
        share * (1.0 - weight) + weight
    } else {
        share
    }
}

/// A rate that the station and the network have.
#[derive(Debug, Clone, Copy)]
struct Rate {
    rate: u8,
    known: Known,
    /// Bits that it brings through in a microsecond on the air if all tries are acknowledged.
    most: f64,
}

impl Rate {
    fn untried(rate: u8) -> Rate {
        Rate { rate, known: Known::Untried, most: most_throughput(rate) }
    }

    /// Bits that it brings through in a microsecond on the air, by its share of acknowledged tries.
    fn throughput(&self) -> f64 {
        self.known.share() * self.most
    }
}

/// Bits that a rate brings through in a microsecond if all tries are acknowledged: preamble, unit, SIFS and
/// acknowledgement (16.3.4, 18.5.3), and DIFS before.
fn most_throughput(rate: u8) -> f64 {
    const SIFS_AND_DIFS: f64 = 60.0;
    const ACK_BITS: f64 = 8.0 * 14.0;
    let megabits = f64::from(rate) / 2.0;
    let preamble = if SPREAD.contains(&rate) { 192.0 } else { 26.0 };
    BITS / (SIFS_AND_DIFS + 2.0 * preamble + (BITS + ACK_BITS) / megabits)
}

/// The rates of one station, slowest first.
#[derive(Debug, Clone)]
pub struct RateControl {
    rates: Vec<Rate>,
    /// The one that brings the most through; the slowest if none brings anything.
    best: usize,
    /// The share of tries at whatever rate that was acknowledged, samples not counted.
    of_all: f64,
    /// Units in a row that nobody acknowledged, samples not counted.
    failures: u32,
    /// Units since the last sample, and when that was.
    since_sample: u32,
    sampled: Instant,
    /// The rate that was sampled last, of those that all were tried.
    turn: usize,
}

impl RateControl {
    /// The rates that a station's elements and a network's have both, whether basic or not; `None` if they have none
    /// of the band's. The slowest is taken for good until a unit shows otherwise.
    pub fn common(station: &[u8], network: &[u8]) -> Option<RateControl> {
        let has = |octets: &[u8], rate: u8| octets.iter().any(|octet| octet & !BASIC == rate);
        let common = BAND.iter().copied().filter(|rate| has(station, *rate) && has(network, *rate));
        let mut rates: Vec<Rate> = common.map(Rate::untried).collect();
        rates.first_mut()?.known = Known::Share(1.0);
        Some(RateControl {
            rates,
            best: 0,
            of_all: 1.0,
            failures: 0,
            since_sample: 0,
            sampled: Instant::START,
            turn: 0,
        })
    }

    /// How the next unit is to be sent, at this time since any fixed moment, if the radio is busy or isn't.
    pub fn next(&mut self, now: Instant, is_busy: bool) -> Choice {
        match self.sample(now, is_busy) {
            Some(place) => {
                self.since_sample = 0;
                self.sampled = now;
                Choice { rate: self.rates[place].rate, retries: SAMPLE_RETRIES, is_sample: true }
            }
            None => {
                self.since_sample = self.since_sample.saturating_add(1);
                self.plainly()
            }
        }
    }

    /// How a unit is to be sent that others wait for, since it isn't known what the station hears by now: as a sample
    /// only where rates are untried. If it is no sample and is lost, it goes once more at the slowest rate (`plainly`).
    pub fn first(&mut self, now: Instant, is_busy: bool) -> Choice {
        if self.rates[self.best..].iter().any(|rate| rate.known == Known::Untried) {
            self.next(now, is_busy)
        } else {
            self.plainly()
        }
    }

    /// How a unit is to be sent that is no sample.
    pub fn plainly(&self) -> Choice {
        let place = if self.failures == 0 { self.best } else { 0 };
        self.at(place)
    }

    /// How a unit is sent once more that was lost at this rate: a sample at the best one. Of others the first in a row
    /// that is lost at a rate of OFDM goes at the slowest of these: more tries fit there than at 1 Mb/s.
    pub fn once_more(&self, lost_at: u8) -> Choice {
        let is_first = self.failures == 1 && !SPREAD.contains(&lost_at);
        let slowest = self.rates.iter().position(|rate| !SPREAD.contains(&rate.rate) && rate.rate < lost_at);
        match slowest.filter(|_| is_first) {
            Some(place) => self.at(place),
            None => self.plainly(),
        }
    }

    /// At the rate of this place, tried less if the station seems to be gone.
    fn at(&self, place: usize) -> Choice {
        let retries = if self.failures < GONE { MOST_RETRIES } else { GONE_RETRIES };
        Choice { rate: self.rates[place].rate, retries, is_sample: false }
    }

    /// Whether the last unit was lost, so that the next one waits until it is known what becomes of this one.
    pub fn is_in_doubt(&self) -> bool {
        self.failures > 0
    }

    /// Whether units come through as good as surely: what became of one needn't be known before the next one goes.
    pub fn are_sure(&self) -> bool {
        self.failures == 0 && self.of_all >= SURE_SHARE && self.rates[self.best].known.share() >= SURE_SHARE
    }

    /// What became of a unit that was sent at a rate: so many tries, the last of which was acknowledged, or none.
    pub fn reported(&mut self, rate: u8, tries: u8, is_acknowledged: bool, is_sample: bool) {
        let place = match self.rates.iter().position(|known| known.rate == rate) {
            Some(place) => place,
            None => return,
        };
        let before = self.rates[place].known;
        self.rates[place].known = before.after(tries, is_acknowledged);
        if !is_sample {
            let lost = i32::from(tries) - i32::from(is_acknowledged);
            self.of_all = with_more(self.of_all, WEIGHT_OF_ALL, lost, is_acknowledged);
        }
        match (is_acknowledged, is_sample) {
            (true, _) => {
                self.failures = 0;
                if before.share() < LEAST_SHARE {
                    self.hope_above(place);
                }
            }
            (false, true) => self.give_up_above(place),
            (false, false) => {
                self.failures = self.failures.saturating_add(1);
                self.forget_above(place);
            }
        }
        if self.rates[place].known != before || !is_acknowledged {
            self.best = self.find_best();
        }
    }

    /// The rate that brings the most through; the slowest if none brings anything.
    fn find_best(&self) -> usize {
        let (mut best, mut most) = (0, 0.0);
        for (place, rate) in self.rates.iter().enumerate() {
            let throughput = rate.throughput();
            if throughput > most {
                (best, most) = (place, throughput);
            }
        }
        best
    }

    /// The rate to be sampled, if it is time for it.
    fn sample(&mut self, now: Instant, is_busy: bool) -> Option<usize> {
        if self.failures > 0 {
            return None;
        }
        let best = self.best;
        let throughput = self.rates[best].throughput();
        let candidates = (best + 1..self.rates.len()).filter(|place| self.rates[*place].most > throughput);
        let mut untried = candidates.clone().filter(|place| self.rates[*place].known == Known::Untried);
        match untried.clone().count() {
            0 => {}
            number => return untried.nth(number / 2),
        }
        let units = if is_busy { UNITS_PER_SAMPLE_BUSY } else { UNITS_PER_SAMPLE };
        let is_time = self.since_sample >= units || self.since_sample > 0 && now >= self.sampled + SAMPLE_EVERY;
        let next = candidates.clone().find(|place| *place > self.turn).or_else(|| candidates.clone().next());
        let next = next.filter(|_| is_time)?;
        self.turn = next;
        Some(next)
    }

    /// A rate that brought nothing was heard: those above it that brought nothing may be, too.
    fn hope_above(&mut self, place: usize) {
        for rate in self.rates[place + 1..].iter_mut().filter(|rate| rate.known.share() < LEAST_SHARE) {
            rate.known = Known::Untried;
        }
    }

    /// A sample wasn't heard: what is untried above it won't be either.
    fn give_up_above(&mut self, place: usize) {
        for rate in self.rates[place + 1..].iter_mut().filter(|rate| rate.known == Known::Untried) {
            rate.known = Known::Share(0.0);
        }
    }

    /// A unit was lost at this rate: nothing is known any more of the rates from the middle on, but for this one and
    /// those above it, which are given up.
    fn forget_above(&mut self, place: usize) {
        for (at, rate) in self.rates.iter_mut().enumerate().skip(place / 2 + 1) {
            rate.known = if at < place { Known::Untried } else { Known::Share(0.0) };
        }
    }
}

#[cfg(test)]
#[path = "rate_control_test.rs"]
mod tests;
