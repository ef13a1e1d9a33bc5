//! How many of something go in a second: units of a station that go back to the program, or updates of a wire.
use crate::os::clock::{nanos, Duration, Instant};

/// A second is looked at in so many parts. What went back in the part in which it began counts whole.
const PARTS: usize = 8;
const PART: Duration = Duration::from_millis(1000 / PARTS as u64);

/// How many units of a station went back in the parts of the last second.
#[derive(Debug, Clone, Copy, Default)]
pub struct Pace {
    /// The part of all time in which a unit went back last.
    last: u64,
    /// Those that went back in that part and in the ones before it, each if its number leaves the remainder.
    units: [u32; PARTS + 1],
}

impl Pace {
    /// Whether one more may go back, of so many in any second.
    pub fn takes(&mut self, quota: u32, now: Instant) -> bool {
        let part = nanos(now.since(Instant::START)) / nanos(PART);
        let parts = self.units.len() as u64;
        for passed in (self.last + 1..=part).rev().take(self.units.len()) {
            self.units[(passed % parts) as usize] = 0;
        }
        self.last = part;
        let has_room = self.units.iter().map(|units| u64::from(*units)).sum::<u64>() < u64::from(quota);
        self.units[(part % parts) as usize] += u32::from(has_room);
        has_room
    }

    /// Whether none was to go back in the last second.
    pub fn is_idle(&self, now: Instant) -> bool {
        nanos(now.since(Instant::START)) / nanos(PART) > self.last + PARTS as u64
    }
}

#[cfg(test)]
mod tests {
    use super::*;
    use crate::os::clock::{MILLISECOND, SECOND};
    use crate::testing::samples::{at, Seeded};

    /// Whenever a second begins: no more go back in it than may, and nearly as many do if all the time more would.
    #[test]
    fn no_second_has_more_than_may_go_back() {
        let mut seeded = Seeded(11);
        for quota in [1, 7, 256] {
            let (mut pace, mut now, mut went) = (Pace::default(), at(10 * SECOND), Vec::new());
            for _ in 0..20_000 {
                now += Duration::from_micros(seeded.below(4000) as u64);
                let tried = if seeded.below(50) == 0 { 200 } else { 1 };
                went.extend((0..tried).filter(|_| pace.takes(quota, now)).map(|_| now));
            }
            for (first, begin) in went.iter().enumerate() {
                let within = went[first..].iter().take_while(|moment| **moment < *begin + SECOND).count();
                assert!(within <= quota as usize, "{within} of {quota}");
            }
            let seconds = now.since(at(10 * SECOND)).as_secs() as usize;
            assert!(went.len() >= seconds * quota as usize * 8 / 10, "{} in {seconds} s", went.len());
        }
    }

    #[test]
    fn it_is_idle_a_second_after_the_last_one() {
        let mut pace = Pace::default();
        assert!(pace.takes(1, at(2 * SECOND)) && !pace.takes(1, at(3 * SECOND - MILLISECOND)));
        assert!(!pace.is_idle(at(4 * SECOND - MILLISECOND)) && pace.is_idle(at(4 * SECOND)));
        assert!(pace.takes(1, at(3 * SECOND + PART)) && !pace.takes(0, at(9 * SECOND)));
    }
}
