//! Whether the radio goes on sending: it shows each frame that it has sent, so of the beacons that it was given it
//! shows some. Not all are looked at: about one a second is drawn, and each one if none came for a while (`filter`).

use crate::os::clock::{Duration, Instant};

/// For so long no beacon has to be shown before that is told, and for three beacon intervals if these last longer.
const LEAST: Duration = Duration::from_secs(5);
const INTERVALS: u32 = 3;
/// After so long without one, each beacon that is shown is looked at.
const TO_DOUBT: Duration = Duration::from_millis(2500);

#[derive(Debug, Clone, Copy, PartialEq, Eq)]
pub enum Told {
    /// It shows no beacon as sent any more.
    Unsent,
    /// It shows them again, after this long.
    Sending(Duration),
}

/// The beacons that were given to the radio since it showed one.
#[derive(Debug, Clone, Copy)]
struct Unseen {
    /// When the first was given.
    since: Instant,
    /// How many were given while each is looked at.
    looked_at: usize,
}

/// What is known of the radio by its beacons.
#[derive(Debug)]
pub struct BeaconWatch {
    limit: Duration,
    /// How many beacons are given to the radio in an interval.
    networks: usize,
    /// Whether each beacon that is shown is looked at, also if there is no doubt.
    looks_at_each: bool,
    unseen: Option<Unseen>,
    /// Since when it has shown none, if that was told.
    pub unsent_since: Option<Instant>,
    /// After how long it showed one again, if that wasn't told yet.
    again_after: Option<Duration>,
}

impl BeaconWatch {
    /// So many networks have beacon intervals of this length, and mostly each beacon that is shown is looked at, or
    /// some.
    pub fn new(interval: Duration, networks: usize, looks_at_each: bool) -> BeaconWatch {
        let limit = LEAST.max(interval.saturating_mul(INTERVALS));
        BeaconWatch { limit, networks, looks_at_each, unseen: None, unsent_since: None, again_after: None }
    }

    pub fn given(&mut self, now: Instant) {
        let is_looked_at = self.looks_at_each || self.wants_each(now);
        self.unseen.get_or_insert(Unseen { since: now, looked_at: 0 }).looked_at += usize::from(is_looked_at);
    }

    /// The bridge itself was so much too late: it gave and read nothing meanwhile. That is no silence of the radio.
    pub fn was_late(&mut self, late: Duration, now: Instant) {
        if let Some(unseen) = &mut self.unseen {
            unseen.since = (unseen.since + late).min(now);
        }
    }

    /// The radio has shown a beacon as sent.
    pub fn shown(&mut self, now: Instant) {
        self.unseen = None;
        if let Some(since) = self.unsent_since.take() {
            self.again_after = Some(now.since(since));
        }
    }

    /// Whether each beacon that is shown is looked at from now on.
    pub fn wants_each(&self, now: Instant) -> bool {
        self.unsent_since.is_some() || self.unseen.map_or(false, |unseen| now >= unseen.since + TO_DOUBT)
    }

    /// When `look` or `wants_each` finds something else, unless a beacon is shown before that.
    pub fn due(&self, now: Instant) -> Option<Instant> {
        let unseen = self.unseen.filter(|_| self.unsent_since.is_none())?;
        Some(unseen.since + if now < unseen.since + TO_DOUBT { TO_DOUBT } else { self.limit }).filter(|due| now < *due)
    }

    /// What is to be told, if it wasn't yet. That the radio sends none takes beacons of two intervals at least that
    /// were looked at: what became of those of the first was learned then. A program that makes none is no fault of the
    /// radio's.
    pub fn look(&mut self, now: Instant) -> Option<Told> {
        if let Some(after) = self.again_after.take() {
            return Some(Told::Sending(after));
        }
        let unseen = self.unseen.filter(|_| self.unsent_since.is_none())?;
        let silent = now.since(unseen.since);
        let is_unsent = silent >= self.limit && unseen.looked_at > self.networks;
        self.unsent_since = is_unsent.then_some(unseen.since);
        is_unsent.then_some(Told::Unsent)
    }
}

#[cfg(test)]
mod tests {
    use super::*;
    use crate::os::clock::{MILLISECOND, SECOND};
    use crate::testing::samples::{at, NANOSECOND};

    const INTERVAL: Duration = Duration::from_micros(102_400);

    /// Gives a beacon each interval in this time, and shows these; what is told, with the interval.
    fn run(
        watch: &mut BeaconWatch,
        intervals: std::ops::Range<u32>,
        length: Duration,
        is_shown: impl Fn(u32) -> bool,
    ) -> Vec<(u32, Told)> {
        let mut found = Vec::new();
        for number in intervals {
            let now = at(number * length);
            watch.given(now);
            found.extend(watch.look(now).map(|told| (number, told)));
            if is_shown(number) {
                watch.shown(now + MILLISECOND);
                found.extend(watch.look(now + MILLISECOND).map(|told| (number, told)));
            }
        }
        found
    }

    #[test]
    fn a_radio_that_shows_one_in_ten_sends() {
        let mut watch = BeaconWatch::new(INTERVAL, 1, false);
        assert_eq!(run(&mut watch, 0..1000, INTERVAL, |number| number % 10 == 9), []);
        assert!(!watch.wants_each(at(1000 * INTERVAL)) && watch.unsent_since.is_none());
    }

    #[test]
    fn a_radio_that_stops_is_told_after_five_seconds_and_once() {
        let mut watch = BeaconWatch::new(INTERVAL, 1, false);
        let found = run(&mut watch, 0..200, INTERVAL, |number| number < 10);
        assert_eq!(found, [(59, Told::Unsent)]);
        assert_eq!(watch.unsent_since, Some(at(10 * INTERVAL)));
        assert!(watch.wants_each(at(200 * INTERVAL)) && watch.due(at(200 * INTERVAL)).is_none());
    }

    #[test]
    fn one_that_sends_again_is_told_at_once() {
        let mut watch = BeaconWatch::new(INTERVAL, 1, false);
        let found = run(&mut watch, 0..200, INTERVAL, |number| !(10..100).contains(&number));
        let again = Told::Sending(90 * INTERVAL + MILLISECOND);
        assert_eq!(found, [(59, Told::Unsent), (100, again)]);
        assert!(!watch.wants_each(at(200 * INTERVAL)) && watch.unsent_since.is_none());
    }

    /// As a bridge that is stopped and goes on: what the radio shows of the first beacons behind that isn't drawn yet.
    #[test]
    fn a_bridge_that_was_late_itself_finds_no_silence() {
        for (late, wanted) in [(Duration::ZERO, true), (5 * SECOND, false)] {
            let mut watch = BeaconWatch::new(INTERVAL, 1, false);
            assert_eq!(run(&mut watch, 0..10, INTERVAL, |number| number == 7), []);
            let on = at(9 * INTERVAL + 5 * SECOND);
            watch.was_late(late, on);
            watch.given(on);
            let found = [on, on + MILLISECOND].map(|now| watch.look(now));
            watch.given(on + INTERVAL);
            let found = found.into_iter().chain([watch.look(on + INTERVAL)]).flatten().next();
            assert_eq!((found.is_some(), watch.unsent_since.is_some()), (wanted, wanted));
            // A radio that goes on showing none is told all the same.
            let found = run(&mut watch, 70..140, INTERVAL, |_| false);
            assert_eq!(found.iter().filter(|(_, told)| *told == Told::Unsent).count(), usize::from(!wanted));
        }
    }

    #[test]
    fn where_beacons_are_rare_three_intervals_are_waited_for() {
        let (length, mut watch) = (4 * SECOND, BeaconWatch::new(4 * SECOND, 1, true));
        assert_eq!(run(&mut watch, 1..5, length, |number| number == 1), []);
        assert_eq!(run(&mut watch, 5..6, length, |_| false), [(5, Told::Unsent)]);
    }

    /// Also if it makes those of one interval from time to time, of which none is drawn.
    #[test]
    fn a_program_that_makes_no_beacons_is_no_radio_that_sends_none() {
        let mut watch = BeaconWatch::new(INTERVAL, 16, false);
        let give = |watch: &mut BeaconWatch, now| (0..16).for_each(|_| watch.given(now));
        give(&mut watch, at(SECOND));
        assert_eq!((watch.look(at(60 * SECOND)), watch.due(at(60 * SECOND))), (None, None));
        give(&mut watch, at(60 * SECOND));
        assert_eq!(watch.look(at(70 * SECOND)), None);
        give(&mut watch, at(70 * SECOND));
        assert_eq!(watch.look(at(70 * SECOND)), Some(Told::Unsent));
    }

    #[test]
    fn each_beacon_is_looked_at_before_it_is_told_that_none_came() {
        let mut watch = BeaconWatch::new(INTERVAL, 1, false);
        watch.given(at(SECOND));
        assert_eq!(watch.due(at(SECOND)), Some(at(7 * SECOND / 2)));
        assert!(!watch.wants_each(at(7 * SECOND / 2 - NANOSECOND)) && watch.wants_each(at(7 * SECOND / 2)));
        assert_eq!(watch.due(at(7 * SECOND / 2)), Some(at(6 * SECOND)));
        assert_eq!(watch.due(at(6 * SECOND)), None);
    }
}
