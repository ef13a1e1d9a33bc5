//! What tells those who aren't associated that they have to join first. Whoever sends frames of made-up addresses
//! causes as many of these notices as it likes. So they go behind the answers that newcomers wait for, and few of them
//! go.
//!
//! The rules, of any order of calls:
//!
//! 1. For an address one notice of a network waits: a newer one takes its place.
//! 2. Of a network `MOST_WAITING` wait. One more drops the oldest.
//! 3. Each network has an equal part of `A_SECOND`, and of `MOST_SAVED` that go at once if none of it went for a while.
//!    It has at least three a second, and one. What others send changes nothing of that.
//! 4. Of a network the newest goes.
//!
//! Nothing is sent or timed here.
use std::collections::VecDeque;

use crate::formats::frames::Address;
use crate::os::clock::{Duration, Instant, SECOND};
use crate::outbound::air::frame::OutboundFrame;
use crate::outbound::air::scheduler::Place;

/// How many wait of a network.
pub const MOST_WAITING: usize = 64;
/// How many go in a second of all networks together: they take about 6 % of the air at 1 Mb/s.
const A_SECOND: u32 = 50;
/// And of each at least.
const LEAST_A_SECOND: u32 = 3;
/// How many more go at once, of all networks together, if none went for a while.
pub const MOST_SAVED: u32 = 8;
/// When one looks again, since a network that may send one didn't.
const LOOK_EVERY: Duration = Duration::from_millis(20);

/// How often one of a network goes, beside so many in all.
pub fn every(networks: usize) -> Duration {
    let networks = u32::try_from(networks).unwrap_or(u32::MAX);
    (SECOND / A_SECOND).saturating_mul(networks).min(SECOND / LEAST_A_SECOND)
}

/// How many more of a network go at once, beside so many in all.
pub fn saved(networks: usize) -> u32 {
    let networks = u32::try_from(networks).unwrap_or(u32::MAX);
    (MOST_SAVED / networks.max(1)).max(1)
}

/// Those of one network.
#[derive(Debug)]
struct OfNetwork {
    /// The oldest first.
    waiting: VecDeque<OutboundFrame>,
    /// Until when those take that went, each as long as `every` says.
    taken: Instant,
    /// When one looks again, since it might not send one.
    look_due: Instant,
}

#[derive(Debug)]
pub struct Notices {
    networks: Vec<OfNetwork>,
    waiting: usize,
    every: Duration,
    saved: u32,
}

impl Notices {
    /// None waits of so many networks.
    pub fn new(networks: usize) -> Notices {
        let of_network =
            || OfNetwork { waiting: VecDeque::new(), taken: Instant::START, look_due: Instant::START };
        Notices {
            networks: (0..networks).map(|_| of_network()).collect(),
            waiting: 0,
            every: every(networks),
            saved: saved(networks),
        }
    }

    pub fn is_empty(&self) -> bool {
        self.waiting == 0
    }

    /// A notice waits. Answers the one that is dropped for it, if there is one.
    pub fn push(&mut self, place: Place, notice: OutboundFrame) -> Option<OutboundFrame> {
        let mut dropped = self.take_of(place, notice.address);
        if self.networks[place].waiting.len() >= MOST_WAITING {
            dropped = self.take_oldest(place);
        }
        self.networks[place].waiting.push_back(notice);
        self.waiting += 1;
        dropped
    }

    /// Takes out the one that waits for an address.
    pub fn take_of(&mut self, place: Place, address: Address) -> Option<OutboundFrame> {
        let found = self.networks[place].waiting.iter().position(|notice| notice.address == address)?;
        self.waiting -= 1;
        self.networks[place].waiting.remove(found)
    }

    fn take_oldest(&mut self, place: Place) -> Option<OutboundFrame> {
        let oldest = self.networks[place].waiting.pop_front()?;
        self.waiting -= 1;
        Some(oldest)
    }

    /// Takes out one that waited longer than it is worth.
    pub fn take_late(&mut self, now: Instant) -> Option<(Place, OutboundFrame)> {
        let is_late = |notice: &OutboundFrame| now > notice.since + notice.kind.lifetime();
        let late = |network: &OfNetwork| network.waiting.front().map_or(false, is_late);
        let place = self.networks.iter().position(late)?;
        Some((place, self.take_oldest(place)?))
    }

    /// Takes out one that goes now, of the networks that may send one.
    pub fn next(&mut self, now: Instant, may_send: impl Fn(Place) -> bool) -> Option<(Place, OutboundFrame)> {
        if self.is_empty() {
            return None;
        }
        let goes = |place: &Place| self.goes_from(*place).map_or(false, |from| from <= now) && may_send(*place);
        let place = (0..self.networks.len()).find(goes)?;
        let OfNetwork { waiting, taken, .. } = &mut self.networks[place];
        let notice = waiting.pop_back()?;
        *taken = (*taken).max(now) + self.every;
        self.waiting -= 1;
        Some((place, notice))
    }

    /// From when on the next of a network may go, if one waits.
    fn goes_from(&self, place: Place) -> Option<Instant> {
        let OfNetwork { waiting, taken, .. } = &self.networks[place];
        (!waiting.is_empty()).then(|| *taken - self.saved * self.every)
    }

    /// When `next` may have one of a network, if not sooner.
    fn due_of(&self, place: Place) -> Option<Instant> {
        Some(self.goes_from(place)?.max(self.networks[place].look_due))
    }

    /// When `next` may have one, if not sooner.
    pub fn due(&self) -> Option<Instant> {
        if self.is_empty() {
            return None;
        }
        (0..self.networks.len()).filter_map(|place| self.due_of(place)).min()
    }

    /// The time is this: if one might go and doesn't, one looks again soon.
    pub fn expire(&mut self, now: Instant) {
        if self.is_empty() {
            return;
        }
        for place in 0..self.networks.len() {
            if self.due_of(place).map_or(false, |due| due <= now) {
                self.networks[place].look_due = now + LOOK_EVERY;
            }
        }
    }
}

#[cfg(test)]
mod tests {
    use std::rc::Rc;

    use super::*;
    use crate::os::clock::MILLISECOND;
    use crate::outbound::air::frame::FrameKind;
    use crate::testing::samples::{at, made_up};

    fn notice(number: usize, since: Instant) -> OutboundFrame {
        OutboundFrame { octets: Rc::new(vec![0; 26]), address: made_up(number), kind: FrameKind::Notice, since }
    }

    /// The networks and numbers of those that go until this time, which is looked at each millisecond.
    fn gone(notices: &mut Notices, from: Instant, until: Instant) -> Vec<(Place, u8)> {
        let mut found = Vec::new();
        let mut now = from;
        while now < until {
            while let Some((place, notice)) = notices.next(now, |_| true) {
                found.push((place, notice.address.octets()[5]));
            }
            now += MILLISECOND;
        }
        found
    }

    #[test]
    fn fifty_go_in_a_second_and_few_more_at_once() {
        let mut notices = Notices::new(1);
        let mut found = 0;
        for second in 10..15 {
            for millisecond in 0..1000 {
                let now = at(second * SECOND + millisecond * MILLISECOND);
                notices.push(0, notice(millisecond as usize, now));
                found += gone(&mut notices, now, now + MILLISECOND).len();
            }
        }
        assert_eq!((found, notices.waiting), (5 * 50 + MOST_SAVED as usize, MOST_WAITING));
    }

    #[test]
    fn the_newest_of_a_network_goes_first() {
        let mut notices = Notices::new(3);
        (0..6).for_each(|number| assert!(notices.push(0, notice(number, at(SECOND))).is_none()));
        (0..2).for_each(|number| assert!(notices.push(2, notice(number, at(SECOND))).is_none()));
        let found = gone(&mut notices, at(SECOND), at(2 * SECOND));
        let of = |place| found.iter().filter(move |(of, _)| *of == place).map(|(_, number)| *number);
        assert_eq!((of(0).collect::<Vec<_>>(), of(2).collect::<Vec<_>>()), (vec![5, 4, 3, 2, 1, 0], vec![1, 0]));
        assert!(notices.is_empty() && notices.due().is_none());
    }

    /// How many of each network went in some seconds, while the first one has as many as it likes.
    fn gone_beside_a_flood(networks: usize, seconds: u32) -> Vec<usize> {
        let mut notices = Notices::new(networks);
        let mut found = vec![0; networks];
        for millisecond in 0..1000 * seconds {
            let now = at(10 * SECOND + millisecond * MILLISECOND);
            (0..3).for_each(|more| drop(notices.push(0, notice((3 * millisecond + more) as usize, now))));
            (1..networks).for_each(|place| drop(notices.push(place, notice(millisecond as usize, now))));
            gone(&mut notices, now, now + MILLISECOND).iter().for_each(|(place, _)| found[*place] += 1);
        }
        found
    }

    /// What one network is asked changes nothing of what others may send.
    #[test]
    fn each_network_has_its_part_of_fifty_a_second_beside_a_flood_of_another() {
        for (networks, a_second, saved) in [(1, 50, 8), (2, 25, 4), (3, 16, 2), (16, 3, 1)] {
            let most = 10 * a_second + saved..=10 * (a_second + 1) + saved;
            let found = gone_beside_a_flood(networks, 10);
            assert!(found.iter().all(|of_network| most.contains(of_network)), "{networks} {found:?}");
        }
    }

    /// A network that sent none for long has its own saved ones at once, whatever others sent meanwhile.
    #[test]
    fn what_a_network_saved_is_its_own() {
        let mut notices = Notices::new(2);
        for millisecond in 0..2000 {
            let now = at(10 * SECOND + millisecond * MILLISECOND);
            drop(notices.push(0, notice(millisecond as usize, now)));
            gone(&mut notices, now, now + MILLISECOND);
        }
        (0..8).for_each(|number| drop(notices.push(1, notice(number, at(12 * SECOND)))));
        let found = gone(&mut notices, at(12 * SECOND), at(12 * SECOND) + MILLISECOND);
        assert_eq!(found.iter().filter(|(place, _)| *place == 1).count(), 1 + saved(2) as usize);
    }

    #[test]
    fn one_waits_for_an_address_and_a_full_network_drops_its_oldest() {
        let mut notices = Notices::new(2);
        let dropped = |found: Option<OutboundFrame>| found.map(|notice| notice.address);
        assert_eq!(dropped(notices.push(1, notice(1, at(SECOND)))), None);
        assert_eq!(dropped(notices.push(0, notice(1, at(SECOND)))), None);
        assert_eq!(dropped(notices.push(1, notice(1, at(SECOND)))), Some(made_up(1)));
        (2..=MOST_WAITING).for_each(|number| assert!(notices.push(1, notice(number, at(SECOND))).is_none()));
        assert_eq!(dropped(notices.push(1, notice(200, at(SECOND)))), Some(made_up(1)));
        assert_eq!((notices.waiting, dropped(notices.take_of(1, made_up(2)))), (1 + MOST_WAITING, Some(made_up(2))));
        assert_eq!((notices.waiting, dropped(notices.take_of(1, made_up(2)))), (MOST_WAITING, None));
    }

    #[test]
    fn those_that_waited_too_long_are_taken_out_and_none_is_looked_for_without_end() {
        let mut notices = Notices::new(2);
        notices.push(1, notice(1, at(SECOND)));
        assert!(notices.next(at(SECOND), |place| place == 0).is_none());
        notices.expire(at(SECOND));
        assert_eq!(notices.due(), Some(at(SECOND + LOOK_EVERY)));
        assert!(notices.take_late(at(3 * SECOND)).is_none());
        let (place, late) = notices.take_late(at(3 * SECOND + LOOK_EVERY)).unwrap();
        assert_eq!((place, late.address, notices.is_empty()), (1, made_up(1), true));
    }
}
