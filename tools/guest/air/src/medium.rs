//! The medium: who sends next, how long a try takes, who hears it, and whether it is acknowledged.
//!
//! A machine of states without a clock: it is told what the time is and answers what happened. One frame is on the air
//! at a time. Radios that have something to send take turns, a try each; before each try comes DIFS and a number of
//! slots that is drawn from a window which doubles with each try (IEEE Std 802.11-2016, 10.3.4.3), so there are no
//! collisions. A try that is heard by the radio that it is for is acknowledged; if the frame or the acknowledgement
//! is lost it is sent again, with Retry set, at the rates and as often as its sender asked. In which order the frames of
//! one radio go is the module `queues`; what each used is the module `airtime`; what a radio that dozes hears is the
//! module `sleepers`.

use std::collections::hash_map::DefaultHasher;
use std::collections::{BTreeMap, HashMap};
use std::hash::{Hash, Hasher};
use std::rc::Rc;

use tx_time::{DIFS, SLOT};

use crate::airtime::{Airtime, Airtimes, Flow};
use crate::exchange::Exchange;
use crate::frame::{Address, Kind};
use crate::hwsim::{Attempt, Sent};
use crate::owners::Owners;
use crate::queues::{Discipline, Queue};
use crate::rate::Rate;
use crate::rules::{Lost, Radio, Rules, Try};
use crate::sleepers::Sleepers;

const LEAST_WINDOW: [u64; 2] = [15, 31];
const MOST_WINDOW: u64 = 1023;

/// What happened on the air.
#[derive(Debug, PartialEq, Eq)]
pub enum Effect {
    /// A radio heard a frame.
    Delivered { to: Radio, frame: Rc<Vec<u8>>, rate: Rate, frequency: u32 },
    /// A frame is done with.
    Done { sent: Sent, tried: Vec<Attempt>, acknowledged: bool },
}

/// Numbers drawn from a seed: those of a pair of radios don't depend on what others send.
#[derive(Debug)]
struct Draws {
    seed: u64,
    drawn: HashMap<(Radio, Radio), u64>,
}

impl Draws {
    /// A number that any 64 bits are equally likely for.
    fn number(&mut self, from: Radio, to: Radio) -> u64 {
        let drawn = self.drawn.entry((from, to)).or_insert(0);
        *drawn += 1;
        let mut hasher = DefaultHasher::new();
        (self.seed, from, to, *drawn).hash(&mut hasher);
        hasher.finish()
    }

    /// Whether something of this share happens.
    fn happens(&mut self, share: f64, from: Radio, to: Radio) -> bool {
        const BITS: u32 = 53;
        share > 0.0 && ((self.number(from, to) >> (64 - BITS)) as f64) < share * (1u64 << BITS) as f64
    }
}

/// What was sent to whom, at which rate.
#[derive(Clone, Copy, Debug, PartialEq, Eq, PartialOrd, Ord)]
pub struct Way {
    pub from: Radio,
    /// None if it is for a group, or for an address that no radio has.
    pub to: Option<Radio>,
    pub kind: Kind,
    pub rate: Rate,
}

/// How often it was tried, heard by the one that it is for, and acknowledged.
#[derive(Clone, Copy, Debug, Default, PartialEq, Eq)]
pub struct Count {
    pub tries: u64,
    pub heard: u64,
    pub acknowledged: u64,
}

/// A try that is on the air.
#[derive(Debug)]
struct OnAir {
    exchange: Exchange,
    rate: Rate,
    /// Nanoseconds of DIFS and slots before it.
    spaces: u64,
    /// Nanoseconds of the frame and, if one is wanted, of its acknowledgement.
    sending: u64,
    ends: u64,
}

/// The medium of some radios.
#[derive(Debug)]
pub struct Medium {
    pub rules: Rules,
    pub sleepers: Sleepers,
    radios: u16,
    draws: Draws,
    /// Who acknowledges what comes to an address.
    owners: Owners,
    queues: BTreeMap<Radio, Queue>,
    on_air: Option<OnAir>,
    last: Radio,
    counts: BTreeMap<Way, Count>,
    airtimes: Airtimes,
}

impl Medium {
    /// A medium on which nothing is lost, of the radios from 0 on.
    pub fn new(radios: u16, seed: u64) -> Medium {
        Medium {
            rules: Rules::default(),
            sleepers: Sleepers::default(),
            radios,
            draws: Draws { seed, drawn: HashMap::new() },
            owners: Owners::default(),
            queues: BTreeMap::new(),
            on_air: None,
            last: Radio(0),
            counts: BTreeMap::new(),
            airtimes: Airtimes::default(),
        }
    }

    /// From now on this radio acknowledges what comes to the address.
    pub fn give_address(&mut self, radio: Radio, address: Address) {
        self.owners.give(radio, address);
    }

    /// It doesn't any more, if this was said as often as that it does.
    pub fn take_address(&mut self, radio: Radio, address: Address) {
        self.owners.take(radio, address);
        self.sleepers.forget(radio, address);
    }

    /// From now on a radio keeps what waits by this discipline; what it drops for that is done with.
    pub fn queue_by(&mut self, radio: Radio, discipline: Discipline) -> Vec<Effect> {
        let dropped = self.queues.entry(radio).or_default().change(discipline);
        dropped.into_iter().map(|exchange| self.drop_frame(exchange)).collect()
    }

    /// A radio has something to send, at this time in nanoseconds; what it drops for that is done with.
    pub fn take(&mut self, sent: Sent, now: u64) -> Option<Effect> {
        let dropped = self.queues.entry(sent.from).or_default().put(Exchange::new(sent));
        if self.on_air.is_none() {
            self.begin(now);
        }
        dropped.map(|exchange| self.drop_frame(exchange))
    }

    /// When something happens next, in nanoseconds; None if nothing is on the air.
    pub fn due(&self) -> Option<u64> {
        self.on_air.as_ref().map(|on_air| on_air.ends)
    }

    /// What has happened by this time, in order.
    pub fn advance(&mut self, now: u64) -> Vec<Effect> {
        let mut effects = Vec::new();
        while self.due().map_or(false, |due| due <= now) {
            if let Some(on_air) = self.on_air.take() {
                let ended = on_air.ends;
                self.end(on_air, &mut effects);
                self.begin(ended);
            }
        }
        effects
    }

    /// What was sent since the counts were cleared.
    pub fn counts(&self) -> impl Iterator<Item = (&Way, &Count)> {
        self.counts.iter()
    }

    /// How long was sent since the counts were cleared, by addresses.
    pub fn airtimes(&self) -> impl Iterator<Item = (&Flow, &Airtime)> {
        self.airtimes.iter()
    }

    pub fn clear_counts(&mut self) {
        self.counts.clear();
        self.airtimes.clear();
    }

    /// A frame for which its radio has no room is reported as one that was never tried, and not acknowledged.
    fn drop_frame(&mut self, exchange: Exchange) -> Effect {
        self.airtimes.of(&exchange).dropped += 1;
        Effect::Done { sent: exchange.sent, tried: exchange.tried, acknowledged: false }
    }

    /// Lets the next radio begin a try, after the one whose turn it was.
    fn begin(&mut self, at: u64) {
        let waiting = |(_, queue): &(&Radio, &Queue)| !queue.is_empty();
        let next = self.queues.range(Radio(self.last.0.saturating_add(1))..).find(waiting);
        let found = next.or_else(|| self.queues.iter().find(waiting)).map(|(radio, _)| *radio);
        let taken = found.and_then(|radio| self.queues.get_mut(&radio)).and_then(Queue::take);
        self.on_air = taken.map(|exchange| {
            let rate = exchange.next_rate().unwrap_or_else(Rate::slowest);
            let answered = if exchange.wants_acknowledgement() { rate.acknowledgement() } else { 0 };
            let least = LEAST_WINDOW[usize::from(rate.is_spread())];
            let window = ((least + 1) << exchange.tries.min(6)).min(MOST_WINDOW + 1);
            let slots = self.draws.number(exchange.sent.from, exchange.sent.from) % window;
            let spaces = DIFS + slots * SLOT;
            let sending = rate.airtime(exchange.frame.len()) + answered;
            OnAir { exchange, rate, spaces, sending, ends: at + spaces + sending }
        });
    }

    /// Ends the try that was on the air.
    fn end(&mut self, on_air: OnAir, effects: &mut Vec<Effect>) {
        let OnAir { mut exchange, rate, spaces, sending, ends } = on_air;
        let from = exchange.sent.from;
        self.last = from;
        exchange.count_try(rate);
        if let Some(address) = exchange.transmitter {
            self.owners.learn(from, address, exchange.kind, ends);
        }
        let to = exchange.receiver.and_then(|address| self.owners.of(address, ends));
        let was_heard = self.deliver(&exchange, from, rate, to, effects);
        let kind = exchange.kind;
        let acknowledged = was_heard
            && exchange.wants_acknowledgement()
            && to.map_or(false, |to| {
                let share = self.rules.share(Lost::Acknowledgements, Try { from, to, rate, kind });
                !self.draws.happens(share, to, from)
            });
        if exchange.transmitter.map_or(false, |address| self.owners.of(address, ends) == Some(from)) {
            self.sleepers.sent(from, &exchange.frame, acknowledged);
        }
        let count = self.counts.entry(Way { from, to, kind, rate }).or_default();
        count.tries += 1;
        count.heard += u64::from(was_heard);
        count.acknowledged += u64::from(acknowledged);
        self.airtimes.of(&exchange).count_try(sending, spaces);
        let queue = self.queues.entry(from).or_default();
        queue.charge(&exchange, sending + spaces);
        if acknowledged || !exchange.wants_acknowledgement() || exchange.next_rate().is_none() {
            effects.push(Effect::Done { sent: exchange.sent, tried: exchange.tried, acknowledged });
        } else {
            exchange.set_retry();
            queue.put_again(exchange);
        }
    }

    /// Hands a try to all who hear it; answers whether the one that it is for did.
    fn deliver(
        &mut self,
        exchange: &Exchange,
        from: Radio,
        rate: Rate,
        to: Option<Radio>,
        effects: &mut Vec<Effect>,
    ) -> bool {
        let mut was_heard = false;
        for radio in (0..self.radios).map(Radio).filter(|radio| *radio != from) {
            let share = self.rules.share(Lost::Frames, Try { from, to: radio, rate, kind: exchange.kind });
            if self.draws.happens(share, from, radio) || !self.sleepers.hears(radio, &exchange.frame) {
                continue;
            }
            self.sleepers.heard(radio, &exchange.frame);
            was_heard |= to == Some(radio);
            let (frame, frequency) = (Rc::clone(&exchange.frame), exchange.sent.frequency);
            effects.push(Effect::Delivered { to: radio, frame, rate, frequency });
        }
        was_heard
    }
}

#[cfg(test)]
mod tests {
    use super::*;

    const STATION: Address = [2, 0, 0, 0, 2, 0];
    const FOREVER: u64 = u64::MAX / 2;
    const SECOND: u64 = 1_000_000_000;

    fn rate(word: &str) -> Rate {
        word.parse().unwrap()
    }

    fn data(from: u16, to: Address, attempts: &[(&str, u8)]) -> Sent {
        let mut frame = vec![0x08, 0x02, 0, 0];
        frame.extend_from_slice(&to);
        frame.resize(100, 0);
        let attempts = attempts.iter().map(|(word, count)| Attempt { rate: rate(word), count: *count }).collect();
        Sent { from: Radio(from), frame, attempts, frequency: 2437, cookie: 1, flags: 1 }
    }

    fn medium(rules: &[&str]) -> Medium {
        let mut medium = Medium::new(3, 56);
        medium.give_address(Radio(2), STATION);
        rules.iter().for_each(|rule| medium.rules.add(rule.parse().unwrap()));
        medium
    }

    fn done(effects: &[Effect]) -> Vec<(Vec<(String, u8)>, bool)> {
        let tried = |tried: &[Attempt]| tried.iter().map(|attempt| (attempt.rate.to_string(), attempt.count)).collect();
        effects
            .iter()
            .filter_map(|effect| match effect {
                Effect::Done { tried: list, acknowledged, .. } => Some((tried(list), *acknowledged)),
                Effect::Delivered { .. } => None,
            })
            .collect()
    }

    fn heard(effects: &[Effect], radio: u16) -> Vec<bool> {
        effects
            .iter()
            .filter_map(|effect| match effect {
                Effect::Delivered { to, frame, .. } if *to == Radio(radio) => Some(frame[1] & 0x08 != 0),
                _ => None,
            })
            .collect()
    }

    #[test]
    fn a_frame_that_is_not_lost_is_heard_once_by_all_others_and_acknowledged() {
        let mut medium = medium(&[]);
        medium.take(data(0, STATION, &[("54", 4)]), 0);
        let effects = medium.advance(FOREVER);
        assert_eq!(done(&effects), [(vec![("54".to_owned(), 1)], true)]);
        assert_eq!((heard(&effects, 0), heard(&effects, 1), heard(&effects, 2)), (vec![], vec![false], vec![false]));
        assert_eq!(medium.due(), None);
    }

    #[test]
    fn a_rate_that_is_too_fast_brings_nothing_and_the_next_in_the_list_is_tried() {
        let mut medium = medium(&["frames 100% to 2 above 6"]);
        medium.take(data(0, STATION, &[("54", 2), ("24", 1), ("6", 3)]), 0);
        let effects = medium.advance(FOREVER);
        let tried = [("54", 2), ("24", 1), ("6", 1)].map(|(rate, count)| (rate.to_owned(), count)).to_vec();
        assert_eq!(done(&effects), [(tried, true)]);
        assert_eq!(heard(&effects, 2), [true]);
        assert_eq!(heard(&effects, 1), [false, true, true, true]);
    }

    #[test]
    fn a_lost_acknowledgement_brings_the_frame_again_with_retry() {
        let mut medium = medium(&["acknowledgements 100% from 0 to 2"]);
        medium.take(data(0, STATION, &[("54", 3)]), 0);
        let effects = medium.advance(FOREVER);
        assert_eq!(done(&effects), [(vec![("54".to_owned(), 3)], false)]);
        assert_eq!(heard(&effects, 2), [false, true, true]);
    }

    #[test]
    fn a_group_is_sent_to_once_and_an_address_of_nobody_as_often_as_asked() {
        for (to, tries) in [([0xff; 6], 1), ([2, 0, 0, 0, 9, 9], 5)] {
            let mut medium = medium(&[]);
            medium.take(data(0, to, &[("1", 5)]), 0);
            assert_eq!(done(&medium.advance(FOREVER)), [(vec![("1".to_owned(), tries)], false)]);
        }
    }

    #[test]
    fn radios_take_turns_and_each_keeps_its_order() {
        let mut medium = medium(&["frames 100% from 0 to 2"]);
        medium.take(data(0, STATION, &[("6", 2)]), 0);
        medium.take(data(0, STATION, &[("9", 2)]), 0);
        medium.take(data(1, STATION, &[("12", 1)]), 0);
        let order: Vec<_> = done(&medium.advance(FOREVER)).into_iter().map(|(tried, _)| tried[0].0.clone()).collect();
        assert_eq!(order, ["12", "6", "9"]);
    }

    #[test]
    fn a_try_takes_its_time_and_nothing_happens_before() {
        let mut medium = medium(&[]);
        medium.take(data(0, STATION, &[("1", 1)]), 1000);
        let least = 1000 + DIFS + rate("1").airtime(100) + rate("1").acknowledgement();
        let due = medium.due().unwrap();
        assert!((least..=least + 31 * SLOT).contains(&due));
        assert!(medium.advance(due - 1).is_empty());
        assert!(!medium.advance(due).is_empty());
    }

    #[test]
    fn shares_are_met_and_come_again_with_the_seed() {
        let run = || {
            let mut medium = medium(&["frames 20%"]);
            (0..5000).for_each(|_| drop(medium.take(data(0, STATION, &[("54", 1)]), 0)));
            done(&medium.advance(FOREVER)).into_iter().map(|(_, acknowledged)| acknowledged).collect::<Vec<_>>()
        };
        let first = run();
        let lost = first.iter().filter(|acknowledged| !**acknowledged).count();
        assert!((900..1100).contains(&lost), "{lost}");
        assert_eq!(first, run());
    }

    #[test]
    fn what_was_sent_is_counted() {
        let mut medium = medium(&["acknowledgements 100%"]);
        medium.take(data(0, STATION, &[("54", 3)]), 0);
        medium.advance(FOREVER);
        let way = Way { from: Radio(0), to: Some(Radio(2)), kind: Kind::Data, rate: rate("54") };
        let found: Vec<_> = medium.counts().map(|(way, count)| (*way, *count)).collect();
        assert_eq!(found, [(way, Count { tries: 3, heard: 3, acknowledged: 0 })]);
        medium.clear_counts();
        assert_eq!(medium.counts().count(), 0);
    }

    /// A frame of data of a network to a receiver at a rate, of 100 octets.
    fn data_of(network: u8, to: Address, word: &str) -> Sent {
        let mut sent = data(0, to, &[(word, 1)]);
        sent.frame[10..16].copy_from_slice(&[2, 0, 0, 0, 1, network]);
        sent
    }

    #[test]
    fn air_time_is_counted_by_addresses() {
        let mut medium = medium(&["acknowledgements 100%"]);
        let mut sent = data_of(1, STATION, "54");
        sent.attempts[0].count = 3;
        medium.take(sent, 0);
        medium.take(data_of(2, [0xff; 6], "1"), 0);
        let ended = medium.advance(FOREVER);
        assert_eq!(done(&ended).len(), 2);
        let found: Vec<_> = medium.airtimes().map(|(flow, airtime)| (*flow, *airtime)).collect();
        let flow = |network, to| Flow { from: Some([2, 0, 0, 0, 1, network]), to: Some(to), kind: Kind::Data };
        assert_eq!(found.iter().map(|(flow, _)| *flow).collect::<Vec<_>>(), [flow(1, STATION), flow(2, [0xff; 6])]);
        let sending = 3 * (rate("54").airtime(100) + rate("54").acknowledgement());
        assert_eq!((found[0].1.tries, found[0].1.sending), (3, sending));
        assert_eq!((found[1].1.tries, found[1].1.sending), (1, rate("1").airtime(100)));
        assert!(found[0].1.spaces >= 3 * DIFS && (found[0].1.spaces - 3 * DIFS) % SLOT == 0);
        medium.clear_counts();
        assert_eq!(medium.airtimes().count(), 0);
    }

    #[test]
    fn what_was_counted_is_all_the_time_that_passed() {
        let mut medium = medium(&["frames 50%"]);
        (0..100).for_each(|place| drop(medium.take(data_of(place % 3, STATION, "11"), 0)));
        let mut last = 0;
        while let Some(due) = medium.due() {
            last = due;
            medium.advance(due);
        }
        let sum: u64 = medium.airtimes().map(|(_, airtime)| airtime.sending + airtime.spaces).sum();
        assert_eq!(sum, last);
    }

    #[test]
    fn a_frame_without_room_is_reported_as_never_tried() {
        let mut medium = medium(&[]);
        assert!(medium.queue_by(Radio(0), Discipline::One).is_empty());
        let dropped: Vec<_> = (0..70).filter_map(|_| medium.take(data(0, STATION, &[("54", 4)]), 0)).collect();
        assert_eq!(done(&dropped), vec![(vec![], false); 5]);
        assert_eq!(done(&medium.advance(FOREVER)).len(), 65);
        assert_eq!(medium.airtimes().map(|(_, airtime)| airtime.dropped).sum::<u64>(), 5);
    }

    #[test]
    fn without_a_word_a_radio_drops_nothing() {
        let mut medium = medium(&[]);
        assert!((0..500).all(|_| medium.take(data(0, STATION, &[("54", 4)]), 0).is_none()));
        assert_eq!(done(&medium.advance(FOREVER)).len(), 500);
    }

    #[test]
    fn fair_queues_divide_the_air_evenly_whatever_the_rates_and_tries() {
        let slow: Address = [2, 0, 0, 0, 2, 1];
        let mut medium = medium(&["frames 50% to 1"]);
        medium.give_address(Radio(1), slow);
        medium.queue_by(Radio(0), Discipline::Fair);
        let mut now = 0;
        while now < 2_000_000_000 {
            medium.take(data_of(1, STATION, "54"), now);
            let mut sent = data_of(2, slow, "1");
            sent.attempts[0].count = 7;
            medium.take(sent, now);
            now += 100_000;
            medium.advance(now);
        }
        let used: Vec<_> = medium.airtimes().map(|(_, airtime)| (airtime.sending + airtime.spaces) as f64).collect();
        assert_eq!(used.len(), 2);
        assert!((used[0] / used[1] - 1.0).abs() < 0.02, "{used:?}");
    }

    #[test]
    fn retries_are_not_interleaved_with_other_frames_of_the_radio() {
        for discipline in [Discipline::Unbounded, Discipline::One, Discipline::Fair] {
            let mut medium = medium(&["frames 100% to 2"]);
            medium.queue_by(Radio(0), discipline);
            medium.take(data(0, STATION, &[("6", 3)]), 0);
            let first = medium.due().unwrap();
            medium.take(data_of(2, [0xff; 6], "9"), 0);
            medium.take(data(1, [0xff; 6], &[("12", 1)]), 0);
            medium.advance(first);
            let order: Vec<_> =
                done(&medium.advance(FOREVER)).into_iter().map(|(tried, _)| tried[0].0.clone()).collect();
            assert_eq!(order, ["12", "6", "9"], "{discipline:?}");
        }
    }

    #[test]
    fn an_address_that_was_taken_away_is_nobodys() {
        let mut medium = medium(&[]);
        medium.give_address(Radio(2), STATION);
        for (radio, tries) in [(1, 1), (2, 1), (2, 2)] {
            medium.take_address(Radio(radio), STATION);
            medium.take(data(0, STATION, &[("54", 2)]), 0);
            assert_eq!(done(&medium.advance(FOREVER)), [(vec![("54".to_owned(), tries)], tries == 1)]);
        }
    }

    /// A beacon of a network, by a radio.
    fn beacon(from: u16, network: Address) -> Sent {
        let mut sent = data(from, [0xff; 6], &[("1", 1)]);
        sent.frame[..2].copy_from_slice(&[0x80, 0]);
        sent.frame[10..16].copy_from_slice(&network);
        sent
    }

    /// Whether what a station sends to an address at this time is acknowledged, and by whom, if somebody has it.
    fn asked(medium: &mut Medium, address: Address, now: u64) -> (bool, Option<Radio>) {
        medium.clear_counts();
        medium.take(data(2, address, &[("54", 1)]), now);
        medium.advance(FOREVER);
        let (way, count) = medium.counts().next().unwrap();
        (count.acknowledged == 1, way.to)
    }

    #[test]
    fn a_radio_acknowledges_for_the_address_of_which_it_sends_beacons() {
        const NETWORK: Address = [2, 0, 0, 0, 1, 1];
        let mut medium = medium(&[]);
        assert_eq!(asked(&mut medium, NETWORK, 0), (false, None));
        for radio in [0, 1] {
            medium.take(beacon(radio, NETWORK), 0);
            medium.advance(FOREVER);
            assert_eq!(asked(&mut medium, NETWORK, SECOND), (true, Some(Radio(radio))));
        }
    }

    /// A frame of a station's own for a network, which says whether it dozes.
    fn says(from: u16, dozes: bool) -> Sent {
        let mut sent = data(from, [2, 0, 0, 0, 1, 1], &[("54", 1)]);
        sent.frame[..2].copy_from_slice(&[0x48, if dozes { 0x11 } else { 0x01 }]);
        sent.frame[10..16].copy_from_slice(&STATION);
        sent
    }

    /// A medium with deaf sleepers, on which a radio that has the address of a network carries its beacons.
    fn sleeping() -> Medium {
        let mut medium = medium(&[]);
        medium.give_address(Radio(0), [2, 0, 0, 0, 1, 1]);
        medium.sleepers.set_ears(crate::sleepers::Ears::Deaf);
        medium
    }

    /// How often a frame to the station was tried, and whether the station acknowledged it.
    fn reaches(medium: &mut Medium) -> (u8, bool) {
        medium.take(data(0, STATION, &[("54", 4)]), 0);
        let done = done(&medium.advance(FOREVER));
        (done[0].0[0].1, done[0].1)
    }

    #[test]
    fn a_radio_that_dozes_acknowledges_nothing_until_it_wakes() {
        let mut medium = sleeping();
        for (dozes, reached) in [(false, (1, true)), (true, (4, false)), (false, (1, true))] {
            medium.take(says(2, dozes), 0);
            medium.advance(FOREVER);
            assert_eq!(reaches(&mut medium), reached);
        }
    }

    #[test]
    fn a_frame_in_the_name_of_another_lets_neither_radio_doze() {
        let mut medium = sleeping();
        medium.take(says(1, true), 0);
        medium.advance(FOREVER);
        medium.take(data(0, STATION, &[("54", 4)]), 0);
        let effects = medium.advance(FOREVER);
        assert_eq!((heard(&effects, 1), heard(&effects, 2)), (vec![false], vec![false]));
    }

    #[test]
    fn a_radio_dozes_by_the_acknowledgement_that_it_hears() {
        let mut medium = sleeping();
        medium.rules.add("acknowledgements 100% from 2 to 0".parse().unwrap());
        medium.take(says(2, true), 0);
        medium.advance(FOREVER);
        assert_eq!(reaches(&mut medium), (1, true));
    }

    #[test]
    fn a_beacon_that_a_sleeper_loses_changes_nothing_for_it() {
        let mut medium = sleeping();
        medium.take(says(2, true), 0);
        medium.rules.add("frames 100% of beacon to 2".parse().unwrap());
        let mut with_groups = beacon(0, [2, 0, 0, 0, 1, 1]);
        with_groups.frame.truncate(36);
        with_groups.frame.extend_from_slice(&[5, 4, 0, 1, 1, 0]);
        medium.take(with_groups.clone(), 0);
        medium.advance(FOREVER);
        assert_eq!(reaches(&mut medium), (4, false));
        medium.rules.clear();
        medium.take(with_groups, 0);
        medium.advance(FOREVER);
        assert_eq!(reaches(&mut medium), (1, true));
    }

    #[test]
    fn an_address_without_beacons_is_forgotten() {
        const NETWORKS: [Address; 2] = [[2, 0, 0, 0, 1, 1], [2, 0, 0, 0, 1, 2]];
        let mut medium = medium(&[]);
        medium.take(beacon(0, NETWORKS[0]), 0);
        for second in 0..10 {
            medium.take(beacon(0, NETWORKS[1]), second * SECOND);
            medium.advance(FOREVER);
        }
        assert_eq!(asked(&mut medium, NETWORKS[0], 10 * SECOND), (false, None));
        assert_eq!(asked(&mut medium, NETWORKS[1], 10 * SECOND), (true, Some(Radio(0))));
    }
}
