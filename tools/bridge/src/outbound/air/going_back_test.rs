//! What goes back to the program if its station leaves meanwhile, polls, or comes and goes very often.
use super::*;

/// A management frame for the station, of so many octets.
fn action(number: u16, octets: usize) -> Vec<u8> {
    of_network(0xd0, OURS, STATION, number, vec![0; octets])
}

/// The units that nobody acknowledged before their station left don't go back, and are counted.
#[test]
fn lost_units_of_a_station_that_left_as_it_fell_asleep_are_counted() {
    let mut driver = driver_at_54();
    let sent = driver.give((100..104).map(|number| numbered(number, SHORT_UNIT)));
    driver.air.dozes(0, STATION, 5, driver.now);
    driver.reported(0, &sent[0], 0, true);
    driver.lose(&sent[1..3]);
    driver.air.leaves(0, STATION, None, driver.now);
    assert_eq!((errands(&mut driver), driver.unsent(0, Unsent::Left)), ((vec![], true), 2));
    assert_eq!(driver.handed_back(), (0, 0));
}

/// So are those that the program wasn't given yet, though their station had fallen asleep before.
#[test]
fn units_that_are_about_to_go_back_do_not_where_their_station_left() {
    let mut driver = driver_at_54();
    driver.join(0, STRANGER);
    driver.interfaces.monitor.port.room = Some(0);
    (100..104).for_each(|number| driver.send(0, numbered(number, SHORT_UNIT)));
    driver.send(0, unit(OURS, STRANGER, 7));
    for (station, mark) in [(STATION, 5), (STRANGER, 6)] {
        driver.air.dozes(0, station, mark, driver.now);
        driver.air.answered(mark, driver.now);
    }
    assert!(matches!(driver.air.next_errand(), Some(Errand::HandBack { .. })));
    driver.air.leaves(0, STATION, None, driver.now);
    assert_eq!(driver.air.next_errand(), Some(Errand::GoOn { place: 0, station: STATION }));
    assert!(matches!(driver.air.next_errand(), Some(Errand::HandBack { .. })));
    assert_eq!((driver.unsent(0, Unsent::Left), driver.handed_back().0), (3, 2));
}

/// A unit that the radio had when its station left isn't sent once more, and holds up nothing.
#[test]
fn a_lost_unit_of_a_station_that_left_is_not_sent_once_more() {
    let mut driver = driver_at_54();
    let sent = driver.give([numbered(100, SHORT_UNIT)]);
    driver.air.leaves(0, STATION, Some(9), driver.now);
    driver.air.answered(9, driver.now);
    driver.lose(&sent);
    assert_eq!(numbers(&driver.give([of_network(0xb0, OURS, STATION, 200, vec![0, 0, 2, 0, 0, 0])])), [200]);
    assert_eq!(driver.air.unacknowledged(), Unacknowledged { again: 0, lost: 1 });
}

/// It goes back like one that waits for its first turn, and isn't dropped.
#[test]
fn the_answer_to_a_poll_that_waits_to_be_sent_once_more_goes_back() {
    let mut driver = with_poll_answer();
    let sent = driver.flush();
    driver.interfaces.monitor.port.room = Some(0);
    driver.lose(&sent);
    driver.now += MOST_LIFETIME + MILLISECOND;
    assert_eq!((driver.flush(), errands(&mut driver)), (vec![], (vec![30], false)));
    assert_eq!(driver.unsent(0, Unsent::Late), 0);
}

/// One that the interface refuses was on no air.
#[test]
fn the_answer_to_a_poll_that_is_refused_goes_back() {
    let mut driver = with_poll_answer();
    assert!(driver.air.choose(1, driver.now));
    driver.air.refused(driver.now);
    assert_eq!((errands(&mut driver), driver.unsent(0, Unsent::Refused)), ((vec![30], false), 0));
}

/// So does one that waited for an interface that was down, however long.
#[test]
fn the_answer_to_a_poll_that_waited_for_the_interface_goes_back() {
    let mut driver = with_poll_answer();
    assert!(driver.air.choose(1, driver.now));
    driver.air.went_down();
    driver.pass(MOST_OUT);
    driver.air.came_up(MOST_OUT, driver.now);
    assert_eq!((errands(&mut driver), driver.unsent(0, Unsent::Late)), ((vec![30], false), 0));
}

/// A poll brings one unit, and a further poll before that ends its right. One that is answered too late brings none.
#[test]
fn a_unit_that_answers_no_poll_goes_back() {
    let mut driver = driver_at_54();
    driver.sleeps();
    assert_eq!((driver.give([numbered(30, SHORT_UNIT)]), errands(&mut driver)), (vec![], (vec![30], false)));
    [(); 2].map(|()| driver.polls());
    let sent = driver.give([numbered(31, SHORT_UNIT), numbered(32, SHORT_UNIT)]);
    assert_eq!((numbers(&sent), errands(&mut driver)), (vec![31], (vec![32], false)));
    driver.reported(0, &sent[0], 0, true);
    driver.polls();
    driver.now += MOST_LIFETIME + MILLISECOND;
    assert_eq!((driver.give([numbered(33, SHORT_UNIT)]), errands(&mut driver)), (vec![], (vec![33], false)));
    assert_eq!(driver.handed_back(), (3, 0));
}

/// Where its network may have no more it is the oldest of those for whom most wait: it goes back and isn't dropped.
#[test]
fn the_answer_to_a_poll_that_has_no_room_goes_back() {
    let mut driver = driver_at_54();
    driver.sleeps();
    driver.interfaces.monitor.port.room = Some(0);
    driver.polls();
    driver.send(0, numbered(30, MOST_OCTETS / 5 * 2));
    (31..33).for_each(|number| driver.send(0, action(number, MOST_OCTETS / 5 * 2)));
    assert_eq!((errands(&mut driver), driver.unsent(0, Unsent::Full)), ((vec![30], false), 0));
    assert_eq!((driver.air.accounts()[0].waiting, driver.handed_back()), (2, (1, 0)));
}

/// Also to a station of which no rates are known: its request was forgotten.
#[test]
fn the_answer_to_a_poll_of_a_station_without_rates_goes_back() {
    let mut driver = driver([1, 1]);
    driver.sleeps();
    driver.polls();
    let sent = driver.give([numbered(30, SHORT_UNIT)]);
    driver.lose(&sent);
    let again = driver.flush();
    assert_eq!((again.len(), again[0].is_again()), (1, true));
    driver.lose(&again);
    assert_eq!((driver.flush(), errands(&mut driver)), (vec![], (vec![30], false)));
}

/// What the program answered before it knew that the station dozes answers no poll.
#[test]
fn a_poll_before_all_is_answered_brings_nothing() {
    let mut driver = driver_at_54();
    driver.air.dozes(0, STATION, 5, driver.now);
    driver.air.polls(0, STATION, 6, driver.now);
    assert!(driver.air.answered(5, driver.now) && driver.air.answered(6, driver.now));
    assert_eq!(errands(&mut driver), (vec![], true));
    assert_eq!((driver.give([numbered(30, SHORT_UNIT)]), errands(&mut driver)), (vec![], (vec![30], false)));
}

/// Only what goes back behind others of its station is told as out of order.
#[test]
fn the_answer_to_a_poll_goes_back_behind_what_is_kept() {
    let mut driver = driver_at_54();
    driver.sleeps();
    for (given, number, wanted) in [(1, 30, (1, 0)), (0, 31, (2, 0)), (2, 32, (3, 1)), (0, 33, (4, 2))] {
        (0..given).for_each(|_| driver.air.sleepers.was_given(0, STATION));
        driver.send(0, numbered(number, SHORT_UNIT));
        driver.now += MOST_LIFETIME + MILLISECOND;
        assert_eq!((driver.flush(), errands(&mut driver)), (vec![], (vec![number], false)));
        assert_eq!(driver.handed_back(), wanted, "{number}");
    }
}

/// At once, also where a question of the bridge takes its room.
#[test]
fn the_answer_to_a_poll_whose_room_the_bridge_takes_goes_back_at_once() {
    let mut driver = driver_at_54();
    driver.sleeps();
    driver.interfaces.monitor.port.room = Some(0);
    driver.polls();
    driver.send(0, numbered(30, MOST_OCTETS / 5 * 2));
    driver.send(0, action(31, MOST_OCTETS / 5 * 2));
    driver.air.send_own(0, of_network(0x48, OURS, STRANGER, 32, vec![0; MOST_OCTETS / 5 * 2]), 3, driver.now);
    assert_eq!((errands(&mut driver), driver.unsent(0, Unsent::Full)), ((vec![30], false), 0));
}

/// What the radio had of a station that falls asleep goes back if the interface goes down before it is told of.
#[test]
fn what_the_radio_had_of_a_station_that_falls_asleep_goes_back_after_a_reset() {
    let mut driver = driver_at_54();
    driver.give((100..103).map(|number| numbered(number, SHORT_UNIT)));
    driver.air.dozes(0, STATION, 5, driver.now);
    driver.air.went_down();
    driver.pass(20 * MILLISECOND);
    driver.air.came_up(20 * MILLISECOND, driver.now);
    assert!(driver.air.answered(5, driver.now));
    assert_eq!(errands(&mut driver), (vec![100, 101, 102], true));
}
