//! When the program is given a frame by which a station wakes. It answers with all units that it keeps for the station,
//! and until it has written these it reads nothing, no beginning of a beacon interval either. It writes what it answers
//! once it has answered all that it has read: a beacon too, if the frame stood behind the beginning of its interval.
//!
//! The rules, of any order of calls:
//!
//! 1. Such a frame *fits* if the program is done with its answer, and with those to the wakes before it, before
//!    the next interval begins, and if the beacons of this one have come and the radio has sent them. Or it makes
//!    beacons late by very little. One that doesn't fit waits, and with it what comes of its station.
//! 2. Once the beacons of an interval are sent, those that wait are tried again, in their order, and once in each
//!    interval. Beacons that don't come or aren't sent are awaited for a bounded time (`beacon_timing`).
//! 3. One whose answer takes longer than an interval fits behind the beacons, if it is the first wake of its
//!    interval.
//! 4. Of those that have waited since an earlier interval the first one is *overdue*: it is given in any case. So one
//!    goes at least in each interval, also one that fits behind the beacons of none.
//! 5. How long the program takes for a unit is learned from its answers: a slower one counts at once, and faster ones
//!    little by little.
//!
//! Nothing is timed here: calls bring the time.
use std::collections::VecDeque;

use crate::os::clock::{Duration, Instant, MILLISECOND};
use crate::outbound::air::Mark;
use crate::stations::station::Member;

/// How long the program is taken to need for a unit, at least, until it was seen to need longer, and at most.
const LEAST_OF_UNIT: Duration = Duration::from_micros(30);
const MOST_OF_UNIT: Duration = MILLISECOND;
/// So late a beacon may be for an answer.
const SLACK: Duration = Duration::from_micros(500);
/// Answers of fewer units tell nothing of how long one takes.
const MANY: u32 = 64;
/// The weight of what was known, as parts of all, beside a faster answer.
const KNOWN: u32 = 7;

/// A beacon interval: when it began, when the next one does, and whether beacons of it have still to come or to be
/// sent.
#[derive(Debug, Clone, Copy, PartialEq, Eq)]
pub(super) struct Interval {
    pub(super) begun: Instant,
    pub(super) next: Instant,
    pub(super) awaits_beacons: bool,
}

/// A wake that the program hasn't answered yet.
#[derive(Debug)]
struct Given {
    mark: Mark,
    at: Instant,
    units: u32,
}

/// What the program still has to answer of wakes, and which stations wait for the next interval.
#[derive(Debug)]
pub(super) struct WakeTiming {
    of_unit: Duration,
    given: VecDeque<Given>,
    /// When it answered the last one, and when the last one of units was given.
    answered: Instant,
    last_given: Instant,
    /// Who waits, and since which interval.
    waiting: Vec<(Member, Instant)>,
    /// In which interval those that waited were tried again last, and which of them is overdue.
    tried: Instant,
    overdue: Option<Member>,
}

impl WakeTiming {
    /// Nothing was given yet.
    pub(super) fn new() -> WakeTiming {
        WakeTiming {
            of_unit: LEAST_OF_UNIT,
            given: VecDeque::new(),
            answered: Instant::START,
            last_given: Instant::START,
            waiting: Vec::new(),
            tried: Instant::START,
            overdue: None,
        }
    }

    /// Whether a frame by which this station wakes, for which so many units may be kept, is given to the program now.
    pub(super) fn fits(&self, station: Member, units: u32, interval: Interval, now: Instant) -> bool {
        let unanswered: u32 = self.given.iter().map(|given| given.units).sum();
        let takes = self.of_unit * units.saturating_add(unanswered);
        let Interval { begun, next, awaits_beacons } = interval;
        let fits_none = self.of_unit * units > next.since(begun);
        let is_over = now + takes <= next + SLACK || fits_none && self.last_given < begun;
        units == 0 || self.overdue == Some(station) || is_over && (takes <= SLACK || !awaits_beacons)
    }

    /// A station waits from this interval on.
    pub(super) fn wait(&mut self, station: Member, interval: Interval) {
        self.waiting.push((station, interval.begun));
    }

    /// Whether stations wait that weren't tried again in this interval.
    pub(super) fn has_untried(&self, interval: Interval) -> bool {
        !self.waiting.is_empty() && interval.begun != self.tried
    }

    /// The stations that are tried again in this interval, in their order, once its beacons are sent.
    pub(super) fn take_due(&mut self, interval: Interval) -> Vec<Member> {
        let Interval { begun, awaits_beacons, .. } = interval;
        if awaits_beacons || begun == self.tried {
            return Vec::new();
        }
        self.tried = begun;
        let first = self.waiting.first();
        self.overdue = first.filter(|(_, since)| *since < begun).map(|(station, _)| *station);
        self.take_waiting()
    }

    /// The stations that wait, in their order.
    pub(super) fn take_waiting(&mut self) -> Vec<Member> {
        std::mem::take(&mut self.waiting).into_iter().map(|(station, _)| station).collect()
    }

    /// The program was given a frame by which this station wakes, for which so many units may be kept.
    pub(super) fn give(&mut self, station: Member, mark: Mark, units: u32, now: Instant) {
        if self.overdue == Some(station) {
            self.overdue = None;
        }
        if units > 0 {
            self.given.push_back(Given { mark, at: now, units });
            self.last_given = now;
        }
    }

    /// The program has answered all before this mark.
    pub(super) fn take_answer(&mut self, mark: Mark, now: Instant) {
        let Given { at, units, .. } = match self.given.front() {
            Some(given) if given.mark == mark => self.given.pop_front().expect("it is the first one"),
            _ => return,
        };
        if units >= MANY {
            let of_unit = now.since(at.max(self.answered)) / units;
            let known = (self.of_unit * KNOWN + of_unit) / (KNOWN + 1);
            self.of_unit = of_unit.max(known).clamp(LEAST_OF_UNIT, MOST_OF_UNIT);
        }
        self.answered = now;
    }
}

#[cfg(test)]
mod tests {
    use super::*;
    use crate::os::clock::SECOND;
    use crate::testing::samples::{at, STATION, STRANGER};

    const LENGTH: Duration = Duration::from_micros(102_400);
    const FIRST: Member = (0, STATION);
    const SECOND_ONE: Member = (1, STRANGER);

    fn interval(number: u32) -> Interval {
        let (begun, next) = (at(SECOND + LENGTH * number), at(SECOND + LENGTH * (number + 1)));
        Interval { begun, next, awaits_beacons: false }
    }

    #[test]
    fn a_wake_fits_where_its_answer_is_over_before_the_next_interval() {
        let (timing, Interval { begun, next, .. }) = (WakeTiming::new(), interval(0));
        for (units, at_latest) in [(1000, next - LEAST_OF_UNIT * 1000), (64, next - LEAST_OF_UNIT * 64)] {
            assert!([begun, at_latest + SLACK].into_iter().all(|time| timing.fits(FIRST, units, interval(0), time)));
            assert!(!timing.fits(FIRST, units, interval(0), at_latest + SLACK + MILLISECOND));
        }
        assert!(timing.fits(FIRST, 0, interval(0), next + SECOND) && timing.fits(FIRST, 10, interval(0), next));
        assert!(!timing.fits(FIRST, 64, interval(0), next));
    }

    /// What isn't answered yet counts. Each station that waits is tried again in the next interval.
    #[test]
    fn wakes_share_an_interval() {
        let (mut timing, Interval { begun, .. }) = (WakeTiming::new(), interval(0));
        (0..3).for_each(|mark| timing.give(FIRST, mark, 1000, begun));
        assert!(!timing.fits(FIRST, 1000, interval(0), begun) && timing.fits(FIRST, 300, interval(0), begun));
        timing.wait(FIRST, interval(0));
        timing.wait(SECOND_ONE, interval(0));
        timing.take_answer(0, begun + MILLISECOND * 20);
        assert!(!timing.fits(FIRST, 1000, interval(0), begun + MILLISECOND * 20));
        timing.take_answer(1, begun + MILLISECOND * 40);
        assert!(timing.fits(FIRST, 1000, interval(0), begun + MILLISECOND * 40));
        assert_eq!(timing.take_due(interval(1)), [FIRST, SECOND_ONE]);
        assert_eq!(timing.take_due(interval(1)), []);
    }

    /// The answers take as long as nearly all of an interval, and beacons come 2 ms behind its beginning.
    #[test]
    fn one_that_fits_behind_no_beacons_is_given_after_an_interval() {
        for units in [3364, 3400, 3413] {
            let mut timing = WakeTiming::new();
            let late = interval(0).begun + MILLISECOND * 50;
            for station in [FIRST, SECOND_ONE] {
                assert!(!timing.fits(station, units, interval(0), late));
                timing.wait(station, interval(0));
            }
            let behind = |number: u32| interval(number).begun + MILLISECOND * 2;
            let awaiting = Interval { awaits_beacons: true, ..interval(1) };
            assert_eq!(timing.take_due(awaiting), []);
            assert_eq!(timing.take_due(interval(1)), [FIRST, SECOND_ONE]);
            assert!(timing.fits(FIRST, units, interval(1), behind(1)));
            timing.give(FIRST, 1, units, behind(1));
            assert!(!timing.fits(FIRST, units, interval(1), behind(1)));
            assert!(!timing.fits(SECOND_ONE, units, interval(1), behind(1)));
            timing.wait(SECOND_ONE, interval(1));
            assert_eq!(timing.take_due(interval(1)), []);
            timing.take_answer(1, behind(2));
            assert_eq!(timing.take_due(interval(2)), [SECOND_ONE]);
            assert!(timing.fits(SECOND_ONE, units, interval(2), behind(2)));
            timing.give(SECOND_ONE, 2, units, behind(2));
        }
    }

    /// It waits for the beacons of its own interval first, and has waited for no whole one then.
    #[test]
    fn one_that_waits_since_this_interval_is_not_overdue() {
        let mut timing = WakeTiming::new();
        timing.wait(FIRST, interval(1));
        assert_eq!(timing.take_due(interval(1)), [FIRST]);
        assert!(!timing.fits(FIRST, 3400, interval(1), interval(1).begun + MILLISECOND * 2));
        timing.wait(FIRST, interval(1));
        assert!(!timing.has_untried(interval(1)) && timing.has_untried(interval(2)));
        assert_eq!((timing.take_due(interval(2)), timing.has_untried(interval(3))), (vec![FIRST], false));
        assert!(timing.fits(FIRST, 3400, interval(2), interval(2).begun + MILLISECOND * 2));
    }

    /// The program writes a beacon once it has answered what stands behind the beginning of the interval.
    #[test]
    fn only_a_short_answer_fits_before_the_beacons() {
        let (mut timing, begun) = (WakeTiming::new(), interval(0).begun);
        let awaiting = Interval { awaits_beacons: true, ..interval(0) };
        assert!(timing.fits(FIRST, 0, awaiting, begun) && timing.fits(FIRST, 16, awaiting, begun));
        assert!(!timing.fits(FIRST, 17, awaiting, begun) && !timing.fits(FIRST, 100_000, awaiting, begun));
        timing.give(FIRST, 1, 10, begun);
        assert!(!timing.fits(FIRST, 10, awaiting, begun) && timing.fits(FIRST, 10, interval(0), begun));
    }

    #[test]
    fn one_that_fits_into_no_interval_is_the_first_of_its_interval() {
        let (mut timing, begun) = (WakeTiming::new(), interval(0).begun);
        let units = 100_000;
        assert!(timing.fits(FIRST, units, interval(0), begun));
        timing.give(FIRST, 1, 5, begun);
        assert!(!timing.fits(FIRST, units, interval(0), begun));
        assert!(timing.fits(FIRST, units, interval(1), interval(1).begun));
    }

    #[test]
    fn how_long_a_unit_takes_is_learned() {
        let (mut timing, mut now) = (WakeTiming::new(), interval(0).begun);
        let mut answer = |timing: &mut WakeTiming, units: u32, takes: Duration| {
            timing.give(FIRST, 7, units, now);
            now += takes * units;
            timing.take_answer(6, now);
            timing.take_answer(7, now);
            timing.of_unit
        };
        assert_eq!(answer(&mut timing, 1000, LEAST_OF_UNIT / 3), LEAST_OF_UNIT);
        assert_eq!(answer(&mut timing, MANY - 1, MILLISECOND), LEAST_OF_UNIT);
        assert_eq!(answer(&mut timing, MANY, LEAST_OF_UNIT * 4), LEAST_OF_UNIT * 4);
        let faster = answer(&mut timing, MANY, LEAST_OF_UNIT);
        assert!(faster < LEAST_OF_UNIT * 4 && faster > LEAST_OF_UNIT * 3, "{faster:?}");
        (0..100).for_each(|_| assert!(answer(&mut timing, MANY, LEAST_OF_UNIT) >= LEAST_OF_UNIT));
        assert_eq!(answer(&mut timing, MANY, SECOND), MOST_OF_UNIT);
    }

    /// Of two that were given at once the second one's time begins where the first one's ended.
    #[test]
    fn answers_one_after_another_are_no_slower() {
        let (mut timing, now) = (WakeTiming::new(), interval(0).begun);
        (1..4).for_each(|mark| timing.give(FIRST, mark, 1000, now));
        for mark in 1..4u32 {
            timing.take_answer(u64::from(mark), now + LEAST_OF_UNIT * 1000 * mark);
            assert_eq!(timing.of_unit, LEAST_OF_UNIT);
        }
    }
}
