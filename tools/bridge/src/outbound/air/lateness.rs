//! When late data for a station is dropped: a rule as CoDel's (RFC 8289), with the limits that Linux has for slow
//! stations (`sta_update_codel_params` of `net/mac80211/sta_info.c`).
//!
//! `air` says of a unit that it is late if it could have gone for 50 ms. Late units go all the same, until
//! those of their station have been late for 300 ms; from then on they are dropped. Once none of a station was late for
//! as long, late ones go again. So nothing is lost if others take the air for a while, and no queue stays long. What
//! is known of a station is forgotten some time after its last late unit. Nothing is sent or timed here.
use std::collections::BTreeMap;

use crate::formats::frames::Address;
use crate::os::clock::{Duration, Instant};
use crate::outbound::air::scheduler::Place;

/// For how long units of a station are late before late ones are dropped, and in time before that begins anew.
const LASTING: Duration = Duration::from_millis(300);

/// A station whose units were late.
#[derive(Debug)]
struct Late {
    since: Instant,
    in_time_since: Option<Instant>,
    looked: Instant,
}

impl Late {
    /// Whether none was late for so long, or waited, that this is forgotten.
    fn is_over(&self, now: Instant) -> bool {
        now >= self.in_time_since.unwrap_or(self.looked) + LASTING
    }
}

/// The stations whose units were late some time ago.
#[derive(Debug, Default)]
pub struct Lateness {
    links: BTreeMap<(Place, Address), Late>,
    /// When those were taken out that can be forgotten: seldom enough that a call's work doesn't grow with the others.
    swept: Instant,
}

impl Lateness {
    /// The first unit that waits for a station is late at this time, or it isn't. Whether it is dropped.
    pub fn look(&mut self, place: Place, station: Address, is_late: bool, now: Instant) -> bool {
        if !is_late && self.links.is_empty() {
            return false;
        }
        match self.links.get_mut(&(place, station)).filter(|late| !late.is_over(now)) {
            Some(late) => {
                late.looked = now;
                late.in_time_since = if is_late { None } else { late.in_time_since.or(Some(now)) };
                is_late && now >= late.since + LASTING
            }
            None if is_late => {
                if now >= self.swept + LASTING {
                    self.swept = now;
                    self.links.retain(|_, late| !late.is_over(now));
                }
                self.links.insert((place, station), Late { since: now, in_time_since: None, looked: now });
                false
            }
            None => false,
        }
    }
}

#[cfg(test)]
mod tests {
    use super::*;
    use crate::os::clock::MILLISECOND;
    use crate::testing::samples::{at, OTHER, STATION};

    /// Looks at units of one station at these times, in milliseconds: which were dropped.
    fn dropped(lateness: &mut Lateness, looks: &[(u32, bool)]) -> Vec<u32> {
        let mut look = |(millis, is_late): &(u32, bool)| lateness.look(0, STATION, *is_late, at(*millis * MILLISECOND));
        looks.iter().filter(|seen| look(seen)).map(|(at, _)| *at).collect()
    }

    #[test]
    fn late_units_go_for_a_while_and_are_dropped_then() {
        let looks = [(0, false), (100, true), (200, true), (399, true), (400, true), (405, false), (410, true)];
        assert_eq!(dropped(&mut Lateness::default(), &looks), [400, 410]);
    }

    #[test]
    fn after_units_in_time_for_as_long_late_ones_go_again() {
        let late = [(0, true), (150, true), (300, true)];
        for (looks, found) in [
            ([(301, false), (500, false), (600, true)], vec![600]),
            ([(301, false), (500, false), (601, true)], vec![]),
            ([(301, false), (500, true), (700, true)], vec![500, 700]),
        ] {
            let mut lateness = Lateness::default();
            assert_eq!(dropped(&mut lateness, &late), [300]);
            assert_eq!(dropped(&mut lateness, &looks), found, "{looks:?}");
        }
    }

    #[test]
    fn where_none_waited_for_as_long_late_ones_go_again() {
        let mut lateness = Lateness::default();
        let looks = [(0, true), (150, true), (300, true), (599, true), (899, true)];
        assert_eq!(dropped(&mut lateness, &looks), [300, 599]);
    }

    #[test]
    fn each_station_of_each_network_is_looked_at_by_itself_and_those_in_time_are_forgotten() {
        let mut lateness = Lateness::default();
        for number in 0..100 {
            lateness.look(0, Address::of([2, 0, 0, 0, 0, number]), true, Instant::from_nanos(u64::from(number)));
        }
        assert_eq!(lateness.links.len(), 100);
        assert!(!lateness.look(1, STATION, true, at(LASTING + Duration::from_nanos(99))));
        assert!(!lateness.look(0, STATION, true, at(LASTING + Duration::from_nanos(99))));
        assert!(!lateness.look(0, OTHER, false, at(LASTING + Duration::from_nanos(99))));
        assert_eq!(lateness.links.len(), 2);
    }
}
