//! What waits in a radio: in which order its frames go, and which of them it drops.
//!
//! A frame that is tried again goes before all that wait: retries are not interleaved with other frames of the same
//! radio. Fair queues let beacons go between tries, as a radio does that has a queue for them.

use std::collections::{BTreeMap, VecDeque};
use std::mem;
use std::str::FromStr;

use crate::exchange::Exchange;
use crate::frame::{Address, Kind};

/// The most frames that wait in a line that has a bound.
pub const MOST_WAITING: usize = 64;

/// How a radio keeps what waits.
#[derive(Clone, Copy, Debug, Default, PartialEq, Eq)]
pub enum Discipline {
    /// All frames go in the order in which they came, however many wait.
    #[default]
    Unbounded,
    /// All frames go in the order in which they came. If `MOST_WAITING` frames of data wait, one more is dropped;
    /// beacons and management have no bound.
    One,
    /// Beacons go first, between two tries of another frame too; then management, then data. Data has a line for each transmitter's address and receiver, and
    /// the line that has used least air goes next. In each line the oldest is dropped if more than `MOST_WAITING`
    /// wait.
    Fair,
}

impl FromStr for Discipline {
    type Err = String;

    fn from_str(word: &str) -> Result<Discipline, String> {
        match word {
            "unbounded" => Ok(Discipline::Unbounded),
            "one" => Ok(Discipline::One),
            "fair" => Ok(Discipline::Fair),
            _ => Err(format!("no radio queues by the word {word}")),
        }
    }
}

/// What waits in one radio.
#[derive(Debug, Default)]
pub struct Queue {
    discipline: Discipline,
    /// What is tried again; of several, of which all but the last gave way to a beacon, the last goes first.
    again: Vec<Exchange>,
    /// What waits if all frames go in one order.
    ordered: VecDeque<Exchange>,
    fair: Fair,
}

impl Queue {
    pub fn new(discipline: Discipline) -> Queue {
        Queue { discipline, ..Queue::default() }
    }

    pub fn is_empty(&self) -> bool {
        self.again.is_empty() && self.ordered.is_empty() && self.fair.is_empty()
    }

    /// Puts a frame behind those of its line; gives the one that is dropped for want of room, which may be this one.
    pub fn put(&mut self, exchange: Exchange) -> Option<Exchange> {
        match self.discipline {
            Discipline::Fair => return self.fair.put(exchange),
            Discipline::One if exchange.kind.is_data() && self.waiting_data() >= MOST_WAITING => return Some(exchange),
            Discipline::One | Discipline::Unbounded => self.ordered.push_back(exchange),
        }
        None
    }

    /// Takes the frame whose turn it is, or None if nothing waits.
    pub fn take(&mut self) -> Option<Exchange> {
        let beacon = self.fair.beacons.pop_front();
        beacon.or_else(|| self.again.pop()).or_else(|| self.ordered.pop_front()).or_else(|| self.fair.take())
    }

    /// The frame that was taken last is tried again, before all that wait but beacons of fair queues.
    pub fn put_again(&mut self, exchange: Exchange) {
        self.again.push(exchange);
    }

    /// A frame that was taken has used so many nanoseconds of air, for which its line stands back.
    pub fn charge(&mut self, exchange: &Exchange, nanoseconds: u64) {
        self.fair.charge(exchange, nanoseconds);
    }

    /// From now on it keeps what waits by another discipline; gives what is dropped for want of room then.
    pub fn change(&mut self, discipline: Discipline) -> Vec<Exchange> {
        let mut before = mem::replace(self, Queue::new(discipline));
        self.again = mem::take(&mut before.again);
        std::iter::from_fn(|| before.take()).filter_map(|exchange| self.put(exchange)).collect()
    }

    fn waiting_data(&self) -> usize {
        self.ordered.iter().filter(|exchange| exchange.kind.is_data()).count()
    }
}

/// A line of data, and the nanoseconds of air that are reckoned as used by it.
#[derive(Debug, Default)]
struct Line {
    used: u64,
    frames: VecDeque<Exchange>,
}

/// Whom a line is from, and whom it is for.
type Ends = (Option<Address>, Option<Address>);

fn ends_of(exchange: &Exchange) -> Ends {
    (exchange.transmitter, exchange.receiver)
}

/// Queues that share the air of one radio.
#[derive(Debug, Default)]
struct Fair {
    beacons: VecDeque<Exchange>,
    management: VecDeque<Exchange>,
    lines: BTreeMap<Ends, Line>,
    /// What the line had used that went last: a line in which nothing waited begins there, so it earns nothing by that.
    reached: u64,
}

impl Fair {
    fn is_empty(&self) -> bool {
        self.beacons.is_empty() && self.management.is_empty() && self.lines.values().all(|line| line.frames.is_empty())
    }

    fn put(&mut self, exchange: Exchange) -> Option<Exchange> {
        let frames = match exchange.kind {
            Kind::Beacon => &mut self.beacons,
            kind if kind.is_data() => {
                let line = self.lines.entry(ends_of(&exchange)).or_default();
                if line.frames.is_empty() {
                    line.used = line.used.max(self.reached);
                }
                &mut line.frames
            }
            _ => &mut self.management,
        };
        frames.push_back(exchange);
        if frames.len() > MOST_WAITING {
            return frames.pop_front();
        }
        None
    }

    /// Takes what goes next but for beacons, which go before what is tried again too.
    fn take(&mut self) -> Option<Exchange> {
        let Fair { management, lines, reached, .. } = self;
        management.pop_front().or_else(|| {
            let line = lines.values_mut().filter(|line| !line.frames.is_empty()).min_by_key(|line| line.used)?;
            *reached = line.used;
            line.frames.pop_front()
        })
    }

    fn charge(&mut self, exchange: &Exchange, nanoseconds: u64) {
        if let Some(line) = self.lines.get_mut(&ends_of(exchange)).filter(|_| exchange.kind.is_data()) {
            line.used += nanoseconds;
        }
    }
}

#[cfg(test)]
mod tests {
    use super::*;
    use crate::hwsim::{Attempt, Sent};
    use crate::rate::Rate;
    use crate::rules::Radio;

    const BEACON: u8 = 0x80;
    const PROBE_RESPONSE: u8 = 0x50;
    const DATA: u8 = 0x08;

    /// A frame of a kind to a receiver, which its number tells from others.
    fn frame(kind: u8, to: u8, number: u64) -> Exchange {
        let mut frame = vec![kind, 0, 0, 0];
        frame.extend_from_slice(&[2, 0, 0, 0, 2, to, 2, 0, 0, 0, 1, 1]);
        let attempts = vec![Attempt { rate: Rate::slowest(), count: 1 }];
        Exchange::new(Sent { from: Radio(0), frame, attempts, frequency: 2437, cookie: number, flags: 1 })
    }

    fn number(exchange: Exchange) -> u64 {
        exchange.sent.cookie
    }

    fn drained(queue: &mut Queue) -> Vec<u64> {
        std::iter::from_fn(|| queue.take()).map(number).collect()
    }

    #[test]
    fn without_bound_all_go_in_their_order() {
        let mut queue = Queue::default();
        for place in 0..1000 {
            let kind = if place % 3 == 0 { PROBE_RESPONSE } else { DATA };
            assert!(queue.put(frame(kind, 1, place)).is_none());
        }
        assert_eq!(drained(&mut queue), (0..1000).collect::<Vec<_>>());
        assert!(queue.is_empty());
    }

    #[test]
    fn one_queue_drops_the_newest_data_and_nothing_else() {
        let mut queue = Queue::new(Discipline::One);
        for place in 0..64 {
            assert!(queue.put(frame(DATA, place as u8, place)).is_none());
        }
        assert_eq!(queue.put(frame(DATA, 1, 64)).map(number), Some(64));
        assert!(queue.put(frame(BEACON, 1, 65)).is_none());
        assert!(queue.put(frame(PROBE_RESPONSE, 1, 66)).is_none());
        assert_eq!(queue.take().map(number), Some(0));
        assert!(queue.put(frame(DATA, 1, 67)).is_none());
        assert_eq!(queue.put(frame(DATA, 1, 68)).map(number), Some(68));
        assert_eq!(drained(&mut queue), (1..64).chain([65, 66, 67]).collect::<Vec<_>>());
    }

    #[test]
    fn fair_queues_send_beacons_then_management_then_data() {
        let mut queue = Queue::new(Discipline::Fair);
        let kinds = [DATA, PROBE_RESPONSE, BEACON, DATA, PROBE_RESPONSE, BEACON];
        for (place, kind) in (0..).zip(kinds) {
            assert!(queue.put(frame(kind, 1, place)).is_none());
        }
        assert_eq!(drained(&mut queue), [2, 5, 1, 4, 0, 3]);
    }

    #[test]
    fn fair_queues_give_each_line_the_same_air() {
        let mut queue = Queue::new(Discipline::Fair);
        for place in 0..60 {
            queue.put(frame(DATA, 1, place));
            queue.put(frame(DATA, 2, 100 + place));
        }
        let mut used = [0, 0];
        for _ in 0..44 {
            let exchange = queue.take().unwrap();
            let place = usize::from(exchange.sent.cookie >= 100);
            let cost = [1000, 10_000][place];
            used[place] += cost;
            queue.charge(&exchange, cost);
        }
        assert_eq!(used, [40_000, 40_000]);
    }

    #[test]
    fn a_line_in_which_nothing_waited_earned_nothing_by_it() {
        let mut queue = Queue::new(Discipline::Fair);
        for place in 0..60 {
            queue.put(frame(DATA, 1, place));
        }
        for _ in 0..30 {
            let exchange = queue.take().unwrap();
            queue.charge(&exchange, 1000);
        }
        for place in 0..60 {
            queue.put(frame(DATA, 2, 100 + place));
        }
        let order: Vec<_> = (0..20)
            .map(|_| {
                let exchange = queue.take().unwrap();
                queue.charge(&exchange, 1000);
                number(exchange) >= 100
            })
            .collect();
        assert!((9..=11).contains(&order.iter().filter(|is_second| **is_second).count()), "{order:?}");
    }

    #[test]
    fn fair_queues_drop_the_oldest_of_the_line_that_is_full() {
        let mut queue = Queue::new(Discipline::Fair);
        queue.put(frame(DATA, 2, 1000));
        for place in 0..64 {
            assert!(queue.put(frame(DATA, 1, place)).is_none());
        }
        assert_eq!(queue.put(frame(DATA, 1, 64)).map(number), Some(0));
        assert_eq!(queue.put(frame(DATA, 1, 65)).map(number), Some(1));
        let left = drained(&mut queue);
        assert_eq!(left.len(), 65);
        assert!(left.contains(&1000));
    }

    #[test]
    fn what_is_tried_again_goes_before_all_but_beacons_of_fair_queues() {
        let orders = [[0, 1, 2, 3], [0, 1, 2, 3], [1, 0, 3, 2]];
        for (discipline, order) in [Discipline::Unbounded, Discipline::One, Discipline::Fair].into_iter().zip(orders) {
            let mut queue = Queue::new(discipline);
            queue.put(frame(DATA, 1, 0));
            let exchange = queue.take().unwrap();
            queue.charge(&exchange, 1_000_000);
            queue.put(frame(BEACON, 1, 1));
            queue.put(frame(DATA, 2, 2));
            queue.put(frame(PROBE_RESPONSE, 2, 3));
            queue.put_again(exchange);
            assert_eq!(drained(&mut queue), order, "{discipline:?}");
        }
    }

    #[test]
    fn of_several_that_are_tried_again_the_last_goes_first_and_none_is_lost() {
        let mut queue = Queue::new(Discipline::Fair);
        for place in 0..2 {
            queue.put_again(frame(DATA, 1, place));
        }
        assert_eq!(drained(&mut queue), [1, 0]);
    }

    #[test]
    fn what_waits_is_kept_where_the_discipline_changes() {
        let mut queue = Queue::default();
        for place in 0..70 {
            queue.put(frame(DATA, 1, place));
        }
        let first = queue.take().unwrap();
        queue.put_again(first);
        let dropped: Vec<_> = queue.change(Discipline::Fair).into_iter().map(number).collect();
        assert_eq!(dropped, (1..6).collect::<Vec<_>>());
        assert_eq!(drained(&mut queue), std::iter::once(0).chain(6..70).collect::<Vec<_>>());
    }

    #[test]
    fn disciplines_are_read_by_their_words() {
        assert_eq!("unbounded".parse(), Ok(Discipline::Unbounded));
        assert_eq!("one".parse(), Ok(Discipline::One));
        assert_eq!("fair".parse(), Ok(Discipline::Fair));
        assert!("two".parse::<Discipline>().is_err());
    }
}
