//! When beacon intervals begin, which beacons of the last one are still due, and what that leaves time for: beacons go
//! before all that waits, and before silent stations are looked at.
use std::ops::Range;

use super::intervals::{BeaconDelays, Ticks};
use super::wake_timing::Interval;
use crate::os::clock::{Duration, Instant, MILLISECOND};
use crate::stations::keep_alive;

/// How long what is to be sent waits at most for a beacon that is due.
const TO_BEACON_ANSWER: Duration = Duration::from_millis(2);
/// So long before a beacon interval begins stations are asked no more whether they are there: those that are asked at a
/// time are on the air for 16 ms if nobody acknowledges. If intervals are short it is half of one.
const BEFORE_BEACON: Duration = Duration::from_millis(20);
/// How long stations aren't asked for want of a beacon that is due, and wakes wait for it to come and to be sent.
const TO_ALL_BEACONS: Duration = Duration::from_millis(50);
/// So long before a beacon interval begins frames gather no more: a wait may end some 50 µs late.
const BEFORE_TICK: Duration = Duration::from_micros(200);

/// The beginnings of beacon intervals, and what came of the last one.
#[derive(Debug)]
pub(super) struct BeaconTiming {
    pub(super) ticks: Ticks,
    /// When the last beginning of an interval was said, whether a beacon came since, and of how many networks none did.
    said: Instant,
    pub(super) is_answered: bool,
    awaited: usize,
    /// Since when beacons are awaited without a break, be it of intervals before.
    awaited_since: Instant,
    /// When stations are looked at next that are silent.
    look_due: Instant,
    delays: BeaconDelays,
}

impl BeaconTiming {
    /// The first interval of so many time units begins at once.
    pub(super) fn new(start: Instant, interval: u16) -> BeaconTiming {
        BeaconTiming {
            ticks: Ticks::new(start, interval),
            said: start,
            is_answered: false,
            awaited: 0,
            awaited_since: start,
            look_due: start,
            delays: BeaconDelays::default(),
        }
    }

    /// The interval that began last.
    pub(super) fn interval(&self, time: Instant) -> Interval {
        let awaits_beacons = self.awaits_until().map_or(false, |until| time < until);
        Interval { begun: self.said, next: self.ticks.due, awaits_beacons }
    }

    /// Until when wakes wait for beacons at most, if these are due.
    pub(super) fn awaits_until(&self) -> Option<Instant> {
        (self.awaited > 0).then_some(self.awaited_since + TO_ALL_BEACONS)
    }

    /// Until when wakes wait at most for the radio to send the beacons of the last interval.
    pub(super) fn sent_by(&self) -> Instant {
        self.said + TO_ALL_BEACONS.min(self.ticks.length / 2)
    }

    pub(super) fn is_due(&self, time: Instant) -> bool {
        time >= self.ticks.due
    }

    /// An interval begins at this time, if one is to: of so many networks beacons are due then.
    pub(super) fn begin(&mut self, time: Instant, networks: usize) -> bool {
        let begins = self.ticks.begins(time);
        if begins {
            if self.awaited == 0 {
                self.awaited_since = time;
            }
            (self.said, self.is_answered, self.awaited) = (time, false, networks);
        }
        begins
    }

    /// When the next interval begins. One that is late is looked for each millisecond.
    pub(super) fn next(&self, time: Instant) -> Instant {
        if self.is_due(time) {
            time + MILLISECOND
        } else {
            self.ticks.due
        }
    }

    /// Until when frames may gather, which is never if a beacon is awaited.
    pub(super) fn gathers_until(&self) -> Option<Instant> {
        self.is_answered.then(|| self.ticks.due - BEFORE_TICK)
    }

    /// A beacon came of the program. Behind the last one that is due stations are looked at that are silent.
    pub(super) fn take_beacon(&mut self) {
        self.is_answered = true;
        self.awaited = self.awaited.saturating_sub(1);
        if self.awaited == 0 {
            self.look_due = Instant::START;
        }
    }

    /// A beacon is given to the radio at this time.
    pub(super) fn count_beacon(&mut self, time: Instant) {
        self.delays.count(time.since(self.ticks.last_due));
    }

    /// How late beacons were, and how many intervals were never made.
    pub(super) fn delays(&mut self) -> &BeaconDelays {
        self.delays.missed = self.ticks.missed;
        &self.delays
    }

    /// When stations are looked at next that are silent, if it isn't soon before a beacon then.
    pub(super) fn next_look(&self, time: Instant) -> Option<Instant> {
        Some(self.looks_from().max(time)).filter(|look| self.is_before_beacon(*look))
    }

    /// Whether stations are looked at now that are silent; then they aren't for a while.
    pub(super) fn looks(&mut self, time: Instant) -> bool {
        let looks = time >= self.looks_from() && self.is_before_beacon(time);
        if looks {
            self.look_due = time + keep_alive::EVERY;
        }
        looks
    }

    /// Stations are looked at again at once, if no beacon is due.
    pub(super) fn looks_again(&mut self, time: Instant) {
        self.look_due = time;
    }

    /// From when on silent stations may be looked at.
    fn looks_from(&self) -> Instant {
        match self.awaited {
            0 => self.look_due,
            _ => self.look_due.max(self.said + TO_ALL_BEACONS),
        }
    }

    /// Whether at this time no beacon is due, nor soon after.
    fn is_before_beacon(&self, time: Instant) -> bool {
        time + BEFORE_BEACON.min(self.ticks.length / 2) <= self.ticks.due
    }

    /// Since when a beacon is due that the program hasn't answered yet.
    fn beacon_due_since(&self, time: Instant) -> Option<Instant> {
        match self.is_answered {
            false => Some(self.said),
            true => Some(self.ticks.due).filter(|due| *due <= time),
        }
    }

    /// From when on what waits may be sent, and until when, before one looks for a beacon again, which goes before it.
    /// A beacon that is due is waited for, but a program that doesn't answer holds nothing up for long.
    pub(super) fn sends_while(&self, time: Instant) -> Range<Instant> {
        match self.beacon_due_since(time).map(|since| since + TO_BEACON_ANSWER) {
            Some(until) => until..time.max(until) + TO_BEACON_ANSWER,
            None => time..self.ticks.due,
        }
    }
}

#[cfg(test)]
mod tests {
    use super::*;
    use crate::testing::samples::at;

    /// If intervals are short and each one begins before all beacons of the last one have come, they aren't awaited
    /// for ever.
    #[test]
    fn beacons_are_awaited_for_a_bounded_time_in_a_row() {
        let length = Duration::from_micros(20 * 1024);
        let mut timing = BeaconTiming::new(at(Duration::ZERO), 20);
        let mut awaited = Vec::new();
        for number in 0..4 {
            let time = at(length * number);
            assert!(timing.begin(time, 2));
            timing.take_beacon();
            awaited.push(timing.interval(time).awaits_beacons);
        }
        assert_eq!(awaited, [true, true, true, false]);
        timing.take_beacon();
        assert_eq!(timing.awaits_until(), None);
        let time = at(length * 4);
        assert!(timing.begin(time, 2) && timing.interval(time).awaits_beacons);
        assert_eq!(timing.awaits_until(), Some(time + TO_ALL_BEACONS));
    }
}
