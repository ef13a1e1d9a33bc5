//! What a frame takes of the air of the 2.4 GHz band: what shares of the air are reckoned by.
//!
//! A frame is sent for its preamble and its octets, and for SIFS and the acknowledgement if one is awaited (the crate
//! `tx_time`). A try takes DIFS and half of its contention window besides, which doubles with each try (IEEE Std
//! 802.11-2016, 10.3.3). What a radio really draws isn't told: the mean is reckoned.

use tx_time::{is_spread, of_acknowledgement, of_frame, DIFS, SLOT};

use crate::os::clock::{nanos, Duration};

/// The contention window of the first try, at a rate of OFDM and at one of DSSS; and the largest one.
const LEAST_WINDOW: [u64; 2] = [15, 31];
const MOST_WINDOW: u64 = 1023;
/// From so many tries on each has the largest window.
const WIDENED: usize = 8;
/// How many nanoseconds are waited before so many tries in all, from these first windows on.
const WAITS: [[u64; WIDENED]; 2] = [waits(LEAST_WINDOW[0]), waits(LEAST_WINDOW[1])];

/// A frame as the air sees it.
#[derive(Debug, Clone, Copy, PartialEq, Eq)]
pub struct Size {
    /// Its octets, without the frame check sequence.
    pub octets: usize,
    /// In units of 500 kb/s.
    pub rate: u8,
    /// Whether its receiver acknowledges it.
    pub is_acknowledged: bool,
}

impl Size {
    /// How long one try of it is on the air with its acknowledgement, in nanoseconds.
    pub fn on_air(self) -> u64 {
        let acknowledgement = if self.is_acknowledged { of_acknowledgement(self.rate) } else { 0 };
        of_frame(self.rate, self.octets) + acknowledgement
    }

    /// What it takes of the air, reckoned once for all that is asked of it.
    pub fn cost(self) -> Cost {
        Cost { once: self.on_air(), is_spread: is_spread(self.rate) }
    }
}

/// What a frame takes of the air.
#[derive(Debug, Clone, Copy, PartialEq, Eq)]
pub struct Cost {
    /// How long one try is sent, in nanoseconds.
    once: u64,
    is_spread: bool,
}

impl Cost {
    /// How long so many tries take in all, on the average of what is drawn.
    pub fn tries(self, number: u32) -> Duration {
        Duration::from_nanos(self.nanos_of(u64::from(number)))
    }

    fn nanos_of(self, tries: u64) -> u64 {
        let waits = &WAITS[usize::from(self.is_spread)];
        let last = WIDENED as u64 - 1;
        let waited = waits[tries.min(last) as usize] + tries.saturating_sub(last) * wait(MOST_WINDOW);
        tries * self.once + waited
    }

    /// How many tries fit into a time, of so many at most, and `least` if fewer do.
    pub fn tries_within(self, time: Duration, least: u8, most: u8) -> u8 {
        let (time, mut number) = (nanos(time), 0);
        while number < most && self.nanos_of(u64::from(number) + 1) <= time {
            number += 1;
        }
        number.max(least)
    }
}

/// How many nanoseconds are waited before a try, on the average: DIFS, and half of its contention window.
const fn wait(window: u64) -> u64 {
    DIFS + window * SLOT / 2
}

/// The contention window of the try after one of this window.
const fn wider(window: u64) -> u64 {
    let window = 2 * window + 1;
    if window < MOST_WINDOW {
        window
    } else {
        MOST_WINDOW
    }
}

/// How many nanoseconds are waited before none, one and more tries in all, if the first has this window.
const fn waits(mut window: u64) -> [u64; WIDENED] {
    let (mut waits, mut tries) = ([0; WIDENED], 1);
    while tries < WIDENED {
        waits[tries] = waits[tries - 1] + wait(window);
        window = wider(window);
        tries += 1;
    }
    waits
}

#[cfg(test)]
mod tests {
    use super::*;
    use crate::os::clock::MILLISECOND;

    fn size(octets: usize, rate: u8) -> Size {
        Size { octets, rate, is_acknowledged: true }
    }

    fn cost(octets: usize, rate: u8) -> Cost {
        size(octets, rate).cost()
    }

    #[test]
    fn a_try_takes_its_backoff_and_its_acknowledgement_too() {
        // At 54 Mb/s: DIFS, 7.5 slots, 26 microseconds and 54 symbols, SIFS and the acknowledgement.
        assert_eq!(nanos(cost(1436, 108).tries(1)), 50_000 + 150_000 + 242_000 + 44_000);
        let for_all = Size { is_acknowledged: false, ..size(1436, 2) };
        assert_eq!(nanos(for_all.cost().tries(1)), 50_000 + 310_000 + 192_000 + 11_520_000);
        assert_eq!(cost(1436, 108).tries(0), Duration::ZERO);
        // The window doubles: 31 and 63 slots.
        assert_eq!(nanos(cost(1436, 108).tries(3)), 3 * (50_000 + 286_000) + 150_000 + 310_000 + 630_000);
    }

    /// Try by try: the window doubles until it is the largest.
    #[test]
    fn any_number_of_tries_takes_what_each_of_them_takes() {
        for (rate, first) in [(108, LEAST_WINDOW[0]), (2, LEAST_WINDOW[1])] {
            let (cost, mut window, mut time) = (cost(100, rate), first, 0);
            for number in 0..40 {
                assert_eq!(nanos(cost.tries(number)), time, "{number}");
                let least = Duration::from_nanos(time);
                assert_eq!(cost.tries_within(least, 0, u8::MAX), number as u8);
                time += cost.once + DIFS + SLOT * window / 2;
                window = (2 * window + 1).min(MOST_WINDOW);
            }
        }
    }

    #[test]
    fn seven_tries_of_a_long_unit_fit_25_milliseconds_at_54_megabits_and_two_at_one() {
        let most = 25 * MILLISECOND + MILLISECOND / 5;
        assert_eq!(cost(1436, 108).tries_within(most, 2, 11), 7);
        assert_eq!(cost(1436, 2).tries_within(most, 2, 11), 2);
        assert_eq!(cost(2400, 2).tries_within(most, 2, 11), 2);
        assert_eq!(cost(80, 2).tries_within(most, 2, 11), 5);
        assert_eq!(cost(80, 2).tries_within(most, 2, 4), 4);
        assert!(cost(1436, 108).tries(7) < 23 * MILLISECOND && cost(1436, 2).tries(2) < 26 * MILLISECOND);
    }

    #[test]
    fn each_rate_and_length_takes_a_time() {
        for rate in 0..=u8::MAX {
            for octets in [0, 10, 1500, 4096] {
                assert!(cost(octets, rate).tries(1) > Duration::from_nanos(DIFS));
                assert!(cost(octets, rate).tries_within(Duration::ZERO, 2, 11) == 2);
            }
        }
    }
}
