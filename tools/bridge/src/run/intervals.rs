//! When beacon intervals begin, and how late beacons were.

use crate::os::clock::{nanos, Duration, Instant, MILLISECOND};

const TIME_UNIT: Duration = Duration::from_micros(1024);

/// Up to how many milliseconds late beacons are counted together.
pub const LATE_UP_TO: [u32; 8] = [1, 2, 5, 10, 20, 50, 100, 200];

/// How late beacons were given to the radio.
#[derive(Debug, Clone, Default, PartialEq, Eq)]
pub struct BeaconDelays {
    /// How many were given to it.
    pub sent: u64,
    /// How late the latest was.
    pub worst: Duration,
    /// How many beacon intervals were never made.
    pub missed: u64,
    /// How late all of them were together.
    pub total: Duration,
    /// How many were at most as late as each of `LATE_UP_TO` says.
    pub up_to: [u64; LATE_UP_TO.len()],
}

impl BeaconDelays {
    /// One was given to the radio so late.
    pub fn count(&mut self, late: Duration) {
        self.sent += 1;
        self.worst = self.worst.max(late);
        self.total += late;
        for (number, milliseconds) in self.up_to.iter_mut().zip(LATE_UP_TO) {
            *number += u64::from(late <= MILLISECOND * milliseconds);
        }
    }

    pub fn mean(&self) -> Duration {
        Duration::from_nanos(nanos(self.total) / self.sent.max(1))
    }
}

/// The beginnings of beacon intervals of so many time units, from the start on. One that is late begins at once, and
/// the next at the next multiple from the start: those that were missed are never made.
#[derive(Debug, Clone, PartialEq, Eq)]
pub(super) struct Ticks {
    start: Instant,
    pub length: Duration,
    /// When the next begins, and when the last one that began was due.
    pub due: Instant,
    pub last_due: Instant,
    /// How many were never made.
    pub missed: u64,
}

impl Ticks {
    /// The first begins at the start.
    pub fn new(start: Instant, interval: u16) -> Ticks {
        Ticks { start, length: TIME_UNIT * u32::from(interval.max(1)), due: start, last_due: start, missed: 0 }
    }

    /// Whether one begins now; then it has begun.
    pub fn begins(&mut self, now: Instant) -> bool {
        if now < self.due {
            return false;
        }
        self.last_due = self.due;
        let length = nanos(self.length);
        self.missed += nanos(now.since(self.due)) / length;
        let begun = nanos(now.since(self.start)) / length + 1;
        self.due = self.start + Duration::from_nanos(begun * length);
        true
    }
}

#[cfg(test)]
mod tests {
    use super::*;
    use crate::testing::samples::{at, NANOSECOND};

    const LENGTH: Duration = Duration::from_micros(102_400);

    #[test]
    fn intervals_begin_in_time() {
        let mut ticks = Ticks::new(Instant::from_nanos(1000), 100);
        let moment = NANOSECOND;
        let after = [Duration::ZERO, moment, LENGTH - moment, LENGTH, LENGTH + moment];
        let found = after.map(|after| ticks.begins(Instant::from_nanos(1000) + after));
        assert_eq!(found, [true, false, false, true, false]);
    }

    #[test]
    fn a_late_interval_begins_at_once_and_missed_ones_never() {
        let mut ticks = Ticks::new(Instant::START, 100);
        assert!(ticks.begins(Instant::START));
        assert!(ticks.begins(at(LENGTH * 7 / 2)));
        assert_eq!((ticks.due, ticks.last_due, ticks.missed), (at(LENGTH * 4), at(LENGTH), 2));
        assert!(!ticks.begins(at(LENGTH * 4 - NANOSECOND)));
        assert!(ticks.begins(at(LENGTH * 4)));
        assert!(ticks.begins(at(LENGTH * 6)));
        assert_eq!((ticks.due, ticks.last_due, ticks.missed), (at(LENGTH * 7), at(LENGTH * 5), 3));
    }

    #[test]
    fn lateness_is_counted() {
        let mut late = BeaconDelays::default();
        assert_eq!(late.mean(), Duration::ZERO);
        [3, 5, 1].into_iter().for_each(|nanos| late.count(Duration::from_nanos(nanos)));
        assert_eq!((late.sent, late.worst, late.mean()), (3, Duration::from_nanos(5), Duration::from_nanos(3)));
        assert_eq!((late.total, late.up_to), (Duration::from_nanos(9), [3; 8]));
    }

    /// Each bound has those that were at most so late, and none has one that was later than all of them.
    #[test]
    fn lateness_is_counted_by_bounds() {
        let mut late = BeaconDelays::default();
        [MILLISECOND, MILLISECOND + NANOSECOND, 30 * MILLISECOND, 200 * MILLISECOND, 201 * MILLISECOND]
            .into_iter()
            .for_each(|moment| late.count(moment));
        assert_eq!((late.sent, late.up_to), (5, [1, 2, 2, 2, 2, 3, 3, 4]));
    }
}
