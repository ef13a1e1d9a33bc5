//! If many frames come in a second, the bridge lets some gather before it reads them: each waking of the bridge and
//! of the program then serves several. If few come, each is read as it comes.

use crate::os::clock::{nanos, Duration, Instant, MILLISECOND};

/// How long frames gather at most.
const LONGEST: Duration = MILLISECOND;
/// How long the frames are counted by which it is known whether many come, and how many these are.
const COUNTED: Duration = Duration::from_millis(4);
const MANY: u64 = 16;

/// How many frames came of late.
#[derive(Debug, Default)]
pub struct Batching {
    /// Since when they are counted, and how many came since.
    since: Instant,
    frames: usize,
    pub are_many: bool,
}

impl Batching {
    pub fn count(&mut self, frames: usize) {
        self.frames += frames;
    }

    /// Until when frames may gather that came after this time, or `None` where each is read as it comes.
    pub fn until(&mut self, now: Instant) -> Option<Instant> {
        if now >= self.since + COUNTED {
            // Frames that came over a longer time were fewer in each part of it.
            let counted = nanos(now.since(self.since)) / nanos(COUNTED);
            self.are_many = self.frames as u64 >= MANY * counted;
            (self.since, self.frames) = (now, 0);
        }
        self.are_many.then_some(now + LONGEST)
    }
}

#[cfg(test)]
mod tests {
    use super::*;
    use crate::testing::samples::{at, NANOSECOND};

    /// Whether frames gather while one comes each so many nanoseconds, asked at each of them.
    fn gathers(every: Duration) -> bool {
        let mut batching = Batching::default();
        let mut found = false;
        for number in 1..100 {
            batching.count(1);
            found = batching.until(at(number * every)).is_some();
        }
        found
    }

    #[test]
    fn frames_gather_where_many_come() {
        assert!(gathers(MILLISECOND / 8));
        assert!(!gathers(MILLISECOND));
        assert!(!gathers(20 * MILLISECOND));
    }

    #[test]
    fn they_gather_no_more_once_few_come() {
        let mut batching = Batching::default();
        batching.count(100);
        assert_eq!(batching.until(at(COUNTED)), Some(at(COUNTED + LONGEST)));
        assert_eq!(batching.until(at(2 * COUNTED - NANOSECOND)), Some(at(2 * COUNTED - NANOSECOND + LONGEST)));
        batching.count(1);
        assert_eq!(batching.until(at(2 * COUNTED)), None);
    }

    #[test]
    fn a_burst_after_a_long_time_is_not_many() {
        let mut batching = Batching::default();
        batching.count(100);
        assert_eq!(batching.until(at(100 * COUNTED)), None);
    }
}
