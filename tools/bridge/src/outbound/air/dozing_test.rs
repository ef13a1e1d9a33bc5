//! Stations doze, wake and leave: what goes, what goes back to the program, and what is dropped.
use super::*;
use crate::formats::ethernet::wired_form;
use crate::outbound::air::falling_asleep::{TO_ALL_OUTCOMES, TO_OUTCOME};
use crate::outbound::air::frame::MOST_UNDRAINED;
use crate::outbound::air::handing_back::Errand;

#[path = "going_back_test.rs"]
mod going_back;
#[path = "polling_test.rs"]
mod polling;

/// A unit of 1,400 octets with a wired form that has its number, or a short one.
fn numbered(number: u16, octets: usize) -> Vec<u8> {
    let mut body = vec![0xaa, 0xaa, 3, 0, 0, 0, 8, 0];
    body.extend(number.to_be_bytes());
    body.resize(octets, 0);
    of_network(0x08, OURS, STATION, number, body)
}

const LONG_UNIT: usize = 1408;
const SHORT_UNIT: usize = 60;

/// The numbers of the units that go back, and whether the station goes on behind them.
fn errands(driver: &mut Driver) -> (Vec<u16>, bool) {
    let (mut numbers, mut goes_on) = (Vec::new(), false);
    while let Some(errand) = driver.air.next_errand() {
        assert!(!goes_on, "nothing goes back behind that");
        match errand {
            Errand::HandBack { place: 0, frame } => numbers.push(u16::from_be_bytes([frame[14], frame[15]])),
            Errand::GoOn { place: 0, station } if station == STATION => goes_on = true,
            other => panic!("{other:?}"),
        }
    }
    (numbers, goes_on)
}

/// The station dozes, and the answer to its poll waits.
fn with_poll_answer() -> Driver {
    let mut driver = driver_at_54();
    driver.sleeps();
    driver.polls();
    driver.send(0, numbered(30, SHORT_UNIT));
    driver
}

fn of_station(sent: &[Seen]) -> Vec<u8> {
    numbers(sent.iter().filter(|seen| seen.frame[4..10] == *STATION.octets()))
}

impl Driver {
    /// The station dozes, and the program has answered that.
    fn sleeps(&mut self) {
        self.air.dozes(0, STATION, 1, self.now);
        assert!(self.air.answered(1, self.now));
        assert_eq!(errands(self), (vec![], true));
    }

    /// The station dozes, and the program has answered all that it was given before.
    fn dozes(&mut self) {
        self.air.dozes(0, STATION, 5, self.now);
        assert!(self.air.answered(5, self.now));
    }

    /// The station polls, and the program has answered all that it was given before.
    fn polls(&mut self) {
        self.air.polls(0, STATION, 7, self.now);
        assert!(self.air.answered(7, self.now));
    }

    /// The station dozes and wakes, and the program sends so many units that it had kept.
    fn wakes_with(&mut self, kept: u16, octets: usize) {
        self.sleeps();
        self.air.wakes(0, STATION, 2, self.now);
        (0..kept).for_each(|number| self.send(0, numbered(number, octets)));
        self.air.answered(2, self.now);
    }

    /// Nobody acknowledges these, each after the time that its tries take.
    fn lose(&mut self, sent: &[Seen]) {
        for seen in sent {
            self.now += MILLISECOND;
            self.reported(0, seen, seen.retries, false);
        }
    }

    fn handed_back(&self) -> (u64, u64) {
        let back = self.air.accounts()[0].handed_back;
        (back.units, back.out_of_order)
    }
}

/// What waits, what the radio has and what the program answered before go back in their order. Nothing is sent to one
/// that dozes, and its rate is as before.
#[test]
fn units_of_a_station_that_dozes_go_back_in_their_order() {
    let mut driver = driver_at_54();
    let sent = driver.give((100..140).map(|number| numbered(number, LONG_UNIT)));
    assert!(sent.len() > 4 && sent.len() < 40, "{}", sent.len());
    driver.reported(0, &sent[0], 0, true);
    driver.air.dozes(0, STATION, 5, driver.now);
    (140..143).for_each(|number| driver.send(0, numbered(number, LONG_UNIT)));
    driver.reported(0, &sent[1], 0, true);
    driver.lose(&sent[2..]);
    assert_eq!((driver.flush(), driver.air.sleepers.has_next()), (vec![], false));
    assert!(!driver.air.answered(4, driver.now) && driver.air.sleepers.answered(5, driver.now));
    assert_eq!(errands(&mut driver), ((102..143).collect(), true));
    assert_eq!(driver.flush(), []);
    assert_eq!((driver.handed_back(), driver.air.unacknowledged()), ((41, 0), Unacknowledged::default()));
    assert!(driver.air.is_empty() && driver.air.due().is_none());
    driver.air.wakes(0, STATION, 6, driver.now);
    assert_eq!(driver.give([numbered(102, LONG_UNIT)])[0].rate, 108);
}

/// A station may say that it dozes before the answer comes by which it joins: from then on no unit goes to it.
#[test]
fn a_station_that_joins_dozing_gets_no_units() {
    let mut driver = driver([1, 1]);
    driver.air.heard(0, Frame::of(&request(OURS, STATION, &RATES)).unwrap());
    driver.air.dozes(0, STATION, 5, driver.now);
    assert_eq!(driver.give([response(OURS, STATION, 0)]).len(), 1);
    assert_eq!(driver.give([numbered(100, SHORT_UNIT)]), []);
    assert!(driver.air.answered(5, driver.now));
    assert_eq!(errands(&mut driver), (vec![100], true));
    driver.polls();
    assert_eq!(numbers(&driver.give([numbered(101, SHORT_UNIT)])), [101]);
}

/// A unit that was lost before, and waits to be sent once more, is the first one.
#[test]
fn a_unit_that_was_to_be_sent_once_more_goes_back_first() {
    let mut driver = driver_at_54();
    let sent = driver.give([numbered(100, SHORT_UNIT)]);
    driver.lose(&sent);
    driver.send(0, numbered(101, SHORT_UNIT));
    driver.dozes();
    assert_eq!(errands(&mut driver), (vec![100, 101], true));
}

/// Frames that had their turn, and for which the socket has no room, go back too.
#[test]
fn units_before_a_socket_without_room_go_back() {
    let mut driver = driver_at_54();
    driver.interfaces.monitor.port.room = Some(2);
    (100..105).for_each(|number| driver.send(0, numbered(number, SHORT_UNIT)));
    let sent = driver.give([deauthentication(105)]);
    driver.air.dozes(0, STATION, 5, driver.now);
    driver.lose(&sent);
    driver.air.answered(5, driver.now);
    assert_eq!((sent.len(), errands(&mut driver)), (2, ((100..105).collect(), true)));
    driver.has_room_again();
    assert_eq!(numbers(&driver.flush()), [105]);
}

/// A unit that was to be known of before the next one went goes back with that, and holds nothing any more.
#[test]
fn a_station_whose_unit_went_back_before_it_was_sent_is_held_no_more() {
    let mut driver = driver_at_54();
    let first = driver.give([numbered(99, SHORT_UNIT)]);
    driver.reported(0, &first[0], 1, true);
    driver.interfaces.monitor.port.room = Some(0);
    (100..102).for_each(|number| driver.send(0, numbered(number, SHORT_UNIT)));
    assert_eq!((driver.flush(), driver.air.awaiting_room().count()), (vec![], 1));
    driver.dozes();
    assert_eq!(errands(&mut driver), (vec![100, 101], true));
    driver.has_room_again();
    driver.air.wakes(0, STATION, 6, driver.now);
    assert_eq!(of_station(&driver.give([numbered(100, SHORT_UNIT)])), [100]);
}

/// However long they had waited for room.
#[test]
fn units_that_waited_long_for_room_go_back() {
    let mut driver = driver_at_54();
    driver.interfaces.monitor.port.room = Some(0);
    driver.give((100..103).map(|number| numbered(number, SHORT_UNIT)));
    driver.pass(MOST_OUT);
    driver.dozes();
    assert_eq!((errands(&mut driver), driver.air.awaiting_room().count()), ((vec![100, 101, 102], true), 0));
}

/// Outcomes are waited for as long as they come, and not for ever. One that comes later goes back out of order.
#[test]
fn outcomes_are_waited_for_while_they_come() {
    let mut driver = driver_at_54();
    let sent = driver.give((100..105).map(|number| numbered(number, SHORT_UNIT)));
    driver.interfaces.monitor.port.unsent = 100;
    driver.dozes();
    let began = driver.now;
    for seen in &sent[..4] {
        assert!(driver.air.awaits_outcomes() && driver.air.wants_outcomes(1));
        driver.pass(TO_OUTCOME - MILLISECOND);
        let is_early = driver.now < began + TO_ALL_OUTCOMES;
        assert_eq!(driver.air.sleepers.has_next(), !is_early);
        if is_early {
            driver.reported(0, seen, 6, false);
            assert_eq!(driver.air.due(), Some((driver.now + TO_OUTCOME).min(began + TO_ALL_OUTCOMES)));
        }
    }
    assert_eq!(errands(&mut driver), (vec![100, 101, 102], true));
    driver.reported(0, &sent[3], 6, false);
    driver.reported(0, &sent[4], 6, true);
    assert_eq!((errands(&mut driver), driver.handed_back()), ((vec![103], false), (4, 1)));
}

/// A radio that never told anything isn't waited for.
#[test]
fn a_radio_that_tells_nothing_is_not_waited_for() {
    let mut driver = driver([1, 1]);
    driver.ask(0, STATION);
    for _ in 0..200 {
        driver.give([long(OURS, STATION, 7)]);
        driver.pass(300 * MILLISECOND);
    }
    assert_eq!(driver.give((100..103).map(|number| numbered(number, LONG_UNIT))).len(), 1);
    driver.dozes();
    let (back, goes_on) = errands(&mut driver);
    assert!(goes_on && back.ends_with(&[101, 102]), "{back:?}");
}

#[test]
fn management_frames_go_to_a_station_that_dozes() {
    let mut driver = driver_at_54();
    driver.interfaces.monitor.port.room = Some(0);
    driver.send(0, deauthentication(100));
    driver.give([numbered(101, SHORT_UNIT)]);
    driver.air.dozes(0, STATION, 5, driver.now);
    driver.send(0, deauthentication(102));
    driver.has_room_again();
    assert_eq!(numbers(&driver.run(usize::MAX)), [100, 102]);
}

/// Another network's frame goes in its turn.
#[test]
fn the_answer_to_a_poll_goes_before_all_else_of_its_network() {
    let mut driver = driver_at_54();
    driver.join(0, STRANGER);
    driver.sleeps();
    driver.interfaces.monitor.port.room = Some(0);
    (10..15).for_each(|number| driver.send(0, unit(OURS, STRANGER, number)));
    driver.send(1, unit(OTHER, STRANGER, 20));
    driver.send(0, of_network(0x08, OURS, Address::BROADCAST, 21, vec![0; 8]));
    driver.polls();
    driver.send(0, numbered(30, SHORT_UNIT));
    driver.has_room_again();
    let sent = driver.run(usize::MAX);
    let of_ours: Vec<u8> = numbers(sent.iter().filter(|seen| seen.frame[15] == 1));
    assert_eq!(of_ours[0], 30, "{of_ours:?}");
}

/// As long as its station listens, it is sent again under its own number. Then it goes back, though others may be kept.
#[test]
fn the_answer_to_a_poll_is_sent_once_more_and_then_goes_back() {
    let mut driver = with_poll_answer();
    let sent = driver.flush();
    driver.lose(&sent);
    let again = driver.flush();
    assert_eq!((again.len(), again[0].number(), again[0].is_again()), (1, 30, true));
    driver.lose(&again);
    assert_eq!((driver.flush(), errands(&mut driver)), (vec![], (vec![30], false)));
    assert_eq!((driver.handed_back(), driver.air.unacknowledged().lost), ((1, 0), 0));
}

/// One that waits too long goes back, and isn't dropped.
#[test]
fn the_answer_to_a_poll_goes_back_where_it_had_no_turn() {
    let mut driver = with_poll_answer();
    driver.now += MOST_LIFETIME + MILLISECOND;
    assert_eq!((driver.flush(), errands(&mut driver)), (vec![], (vec![30], false)));
    assert_eq!(driver.unsent(0, Unsent::Late), 0);
}

/// All that was kept goes, in its order, and what comes behind it too.
#[test]
fn a_station_that_wakes_gets_all_that_was_kept() {
    for (kept, octets) in [(256, SHORT_UNIT), (1000, LONG_UNIT), (1000, 2304)] {
        let mut driver = driver_at_54();
        driver.wakes_with(kept, octets);
        (kept..kept + 40).for_each(|number| driver.send(0, numbered(number, octets)));
        let sent = driver.run(usize::MAX);
        let found: Vec<u16> = sent.iter().map(|seen| u16::from_be_bytes([seen.frame[32], seen.frame[33]])).collect();
        assert!(found.iter().copied().eq(0..kept + 40), "{} of {kept}", found.len());
        assert!(driver.air.is_empty() && driver.air.accounts()[0].waiting == 0 && driver.air.accounts()[0].octets == 0);
        assert_eq!(driver.air.queue.downlink.held(0), driver.air.in_flight());
    }
}

/// 1,400 octets take 12 ms at 1 Mb/s, and so 200 of them longer than any unit waits that wasn't kept.
#[test]
fn what_was_kept_is_worth_sending_while_it_drains() {
    let mut driver = driver([1, 1]);
    driver.air.heard(0, Frame::of(&request(OURS, STATION, &[0x82])).unwrap());
    driver.deliver(0, response(OURS, STATION, 0));
    driver.wakes_with(200, LONG_UNIT);
    (200..210).for_each(|number| driver.send(0, numbered(number, LONG_UNIT)));
    let began = driver.now;
    let sent = driver.run(usize::MAX);
    assert_eq!((sent.len(), driver.unsent(0, Unsent::Late)), (210, 0));
    assert!(driver.now > began + MOST_UNDRAINED);
}

/// It costs its network some two seconds of the air.
#[test]
fn what_was_kept_for_a_station_that_is_gone_is_dropped() {
    let mut driver = driver_at_54();
    driver.wakes_with(1000, LONG_UNIT);
    let began = driver.now;
    while !driver.air.is_empty() && driver.now < began + 10 * SECOND {
        let sent = driver.flush();
        driver.pass(MILLISECOND);
        for seen in sent {
            let size = Size { octets: seen.frame.len(), rate: seen.rate, is_acknowledged: true };
            driver.now += size.cost().tries(u32::from(seen.retries) + 1);
            driver.reported(0, &seen, seen.retries, false);
        }
    }
    assert!(driver.now < began + MOST_UNDRAINED + SECOND / 2, "{:?}", driver.now.since(began));
    assert!(driver.unsent(0, Unsent::Late) > 800);
}

/// A unit that was kept and isn't sent yet goes back with the others, when its station dozes again.
#[test]
fn what_was_kept_goes_back_where_its_station_dozes_again() {
    let mut driver = driver_at_54();
    driver.wakes_with(90, SHORT_UNIT);
    (90..95).for_each(|number| driver.send(0, numbered(number, SHORT_UNIT)));
    driver.air.dozes(0, STATION, 3, driver.now);
    driver.air.answered(3, driver.now);
    assert_eq!(errands(&mut driver), ((0..95).collect(), true));
}

/// Of one station as many units a second go back as its network keeps. What is beyond is lost, and counted.
#[test]
fn no_more_go_back_in_a_second_than_the_network_keeps() {
    let mut driver = driver_at_54();
    for mark in 0..10 {
        driver.air.dozes(0, STATION, 2 * mark, driver.now);
        (0..30).for_each(|number| driver.send(0, numbered(number, SHORT_UNIT)));
        driver.air.answered(2 * mark, driver.now);
        let (numbers, goes_on) = errands(&mut driver);
        assert_eq!((numbers.len(), goes_on), ([30, 30, 30, 10, 0, 0, 0, 0, 0, 0][mark as usize], true));
        driver.air.wakes(0, STATION, 2 * mark + 1, driver.now);
        driver.air.answered(2 * mark + 1, driver.now);
    }
    assert_eq!((driver.unsent(0, Unsent::OverQuota), driver.handed_back()), (200, (100, 0)));
}

#[test]
fn a_unit_without_a_wired_form_is_counted() {
    let mut driver = driver_at_54();
    let formless = of_network(0x08, OURS, STATION, 100, vec![0; 2]);
    assert_eq!(wired_form(&formless), None);
    driver.air.dozes(0, STATION, 5, driver.now);
    driver.send(0, formless);
    driver.send(0, numbered(101, SHORT_UNIT));
    driver.air.answered(5, driver.now);
    assert_eq!((errands(&mut driver), driver.unsent(0, Unsent::NoWiredForm)), ((vec![101], true), 1));
}

/// What waits is dropped, and so is what the program answered before. What it answers later goes.
#[test]
fn units_for_a_station_that_left_are_dropped() {
    let mut driver = driver_at_54();
    (100..130).for_each(|number| driver.send(0, numbered(number, SHORT_UNIT)));
    driver.air.leaves(0, STATION, Some(9), driver.now);
    driver.send(0, numbered(130, SHORT_UNIT));
    driver.air.answered(9, driver.now);
    driver.send(0, of_network(0xb0, OURS, STATION, 200, vec![0, 0, 2, 0, 0, 0]));
    let sent = driver.run(usize::MAX);
    assert_eq!((numbers(&sent), driver.unsent(0, Unsent::Left)), (vec![200], 31));
    (10..20).for_each(|number| driver.send(0, numbered(number, SHORT_UNIT)));
    driver.air.leaves(0, STATION, None, driver.now);
    assert_eq!((numbers(&driver.give([numbered(20, SHORT_UNIT)])), driver.unsent(0, Unsent::Left)), (vec![20], 41));
}

/// The units of one that left while it fell asleep don't go back.
#[test]
fn units_of_a_station_that_left_do_not_go_back() {
    let mut driver = driver_at_54();
    driver.air.dozes(0, STATION, 5, driver.now);
    (100..103).for_each(|number| driver.send(0, numbered(number, SHORT_UNIT)));
    driver.air.leaves(0, STATION, None, driver.now);
    assert_eq!((errands(&mut driver), driver.unsent(0, Unsent::Left)), ((vec![], true), 3));
    driver.air.joins(0, STATION, driver.now);
    assert!(driver.air.answered(5, driver.now));
    assert_eq!(of_station(&driver.give([numbered(110, SHORT_UNIT)])), [110]);
}

fn beacon_with(dtim_count: u8, bitmap_control: u8) -> Vec<u8> {
    let body = [&[0; 12][..], &[5, 4, dtim_count, 2, bitmap_control, 0]].concat();
    of_network(BEACON, OURS, Address::BROADCAST, 100, body)
}

fn group_unit(number: u16, has_more: bool) -> Vec<u8> {
    let mut unit = of_network(0x08, OURS, Address::BROADCAST, number, vec![0; 300]);
    unit[1] |= if has_more { 0x22 } else { 0x02 };
    unit
}

/// Units for the group that follow a beacon go before all else of their network. Beside another network they have their
/// network's turns.
#[test]
fn units_for_the_group_follow_their_beacon() {
    for others in [0, 60] {
        let mut driver = driver_at_54();
        driver.join(1, STRANGER);
        driver.send(0, group_unit(90, false));
        (0..60).for_each(|number| driver.send(0, long(OURS, STATION, number)));
        driver.run(5);
        driver.send(0, beacon_with(0, 1));
        (101..105).for_each(|number| driver.send(0, group_unit(number, number < 104)));
        driver.send(0, group_unit(105, false));
        (0..others).for_each(|number| driver.send(1, long(OTHER, STRANGER, number)));
        let with_radio = driver.on_air.len();
        let sent = driver.run(usize::MAX).split_off(with_radio);
        let of_ours: Vec<u8> = numbers(sent.iter().filter(|seen| seen.frame[15] == 1));
        assert_eq!(of_ours[..4], [101, 102, 103, 104], "{of_ours:?}");
        assert!(of_ours[4] != 105 && of_ours.contains(&105), "{of_ours:?}");
        let first_ours: usize = sent.iter().take_while(|seen| seen.frame[15] != 1).count();
        assert!(first_ours <= 1, "{first_ours}");
    }
}

/// Only what a beacon tells of follows it.
#[test]
fn other_units_for_the_group_have_their_turn() {
    for beacon in [beacon_with(1, 1), beacon_with(0, 0)] {
        let mut driver = driver_at_54();
        driver.send(0, group_unit(90, false));
        driver.run(1);
        (0..10).for_each(|number| driver.send(0, unit(OURS, STATION, number)));
        driver.send(0, beacon);
        driver.send(0, group_unit(101, false));
        let sent = driver.run(5);
        assert!(!numbers(&sent).contains(&101), "{:?}", numbers(&sent));
    }
}
