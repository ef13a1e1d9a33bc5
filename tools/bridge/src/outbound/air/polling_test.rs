//! Polls of stations that doze: which are ignored, until the answer to an earlier one succeeded or failed.
use super::*;

impl Driver {
    fn ignores_polls(&self) -> bool {
        self.air.ignores_polls(0, STATION)
    }
}

/// The station dozes, and the answer to its poll is out.
fn with_answer_out() -> (Driver, Seen) {
    let mut driver = with_poll_answer();
    let mut sent = driver.flush();
    assert_eq!((numbers(&sent), driver.ignores_polls()), (vec![30], true));
    (driver, sent.remove(0))
}

/// Until the program has answered the mark behind it. One that has nothing for the station answers with nothing else.
#[test]
fn a_poll_is_ignored_while_the_program_has_an_earlier_one() {
    let mut driver = driver_at_54();
    driver.sleeps();
    assert!(!driver.ignores_polls());
    driver.air.polls(0, STATION, 7, driver.now);
    driver.pass(10 * SECOND);
    assert!(driver.ignores_polls());
    assert!(driver.air.answered(7, driver.now) && !driver.ignores_polls());
}

#[test]
fn a_poll_is_ignored_while_the_answer_waits() {
    let mut driver = driver_at_54();
    driver.sleeps();
    driver.interfaces.monitor.port.room = Some(0);
    driver.air.polls(0, STATION, 7, driver.now);
    driver.send(0, numbered(30, SHORT_UNIT));
    assert!(driver.air.answered(7, driver.now) && driver.ignores_polls());
    driver.flush();
    assert!(driver.ignores_polls());
}

#[test]
fn a_poll_is_ignored_until_the_answer_was_acknowledged() {
    let (mut driver, sent) = with_answer_out();
    driver.reported(0, &sent, 0, true);
    assert!(!driver.ignores_polls());
    driver.polls();
    assert_eq!(numbers(&driver.give([numbered(31, SHORT_UNIT)])), [31]);
}

#[test]
fn a_poll_is_ignored_until_the_answer_was_lost_twice() {
    let (mut driver, sent) = with_answer_out();
    driver.interfaces.monitor.port.room = Some(0);
    driver.lose(&[sent]);
    assert!(driver.ignores_polls(), "it waits to go once more");
    driver.has_room_again();
    let again = driver.flush();
    assert!(again[0].is_again() && driver.ignores_polls());
    driver.lose(&again);
    assert_eq!((driver.ignores_polls(), errands(&mut driver)), (false, (vec![30], false)));
}

/// Where the radio tells nothing of the answer polls are ignored for 200 ms, and no longer.
#[test]
fn no_poll_is_ignored_for_ever() {
    let (mut driver, _) = with_answer_out();
    driver.pass(MOST_OUT - MILLISECOND);
    assert!(driver.ignores_polls());
    driver.pass(MILLISECOND);
    assert!(!driver.ignores_polls());
}

/// Nor where the interface goes down and stays so.
#[test]
fn no_poll_is_ignored_for_ever_while_the_interface_is_down() {
    let (mut driver, _) = with_answer_out();
    driver.air.went_down();
    driver.pass(MOST_OUT);
    driver.air.came_up(MOST_OUT, driver.now);
    driver.pass(MOST_LIFETIME);
    driver.flush();
    driver.pass(MOST_OUT);
    assert!(!driver.ignores_polls());
}

/// A radio that tells nothing shows by its socket that it has the answer no more.
#[test]
fn a_poll_is_ignored_until_a_radio_that_tells_nothing_has_sent_the_answer() {
    let mut driver = driver([1, 1]);
    driver.ask(0, STATION);
    for number in 0..200 {
        driver.give([long(OURS, STATION, number)]);
        driver.pass(300 * MILLISECOND);
    }
    driver.dozes();
    assert!(errands(&mut driver).1);
    driver.polls();
    assert_eq!(numbers(&driver.give([numbered(30, SHORT_UNIT)])), [30]);
    assert!(!driver.air.tells_outcomes() && driver.ignores_polls());
    driver.interfaces.monitor.port.unsent = 1;
    monitor::look(&mut driver.air, &driver.interfaces, driver.now);
    assert!(driver.ignores_polls());
    driver.interfaces.monitor.port.unsent = 0;
    monitor::look(&mut driver.air, &driver.interfaces, driver.now);
    assert!(!driver.ignores_polls());
}

/// A unit that went before the station dozed counts too; a management frame doesn't.
#[test]
fn a_poll_is_ignored_while_a_unit_is_out_that_went_before_the_doze() {
    let mut driver = driver_at_54();
    let sent = driver.give([numbered(100, SHORT_UNIT)]);
    assert_eq!(driver.give([of_network(0xd0, OURS, STATION, 101, vec![0; 10])]).len(), 1);
    driver.air.dozes(0, STATION, 5, driver.now);
    assert!(driver.air.answered(5, driver.now));
    driver.pass(TO_ALL_OUTCOMES);
    assert_eq!((errands(&mut driver), driver.ignores_polls()), ((vec![], true), true));
    driver.reported(0, &sent[0], 0, true);
    assert!(!driver.ignores_polls());
}

#[test]
fn polls_of_others_are_not_ignored() {
    let (mut driver, _) = with_answer_out();
    driver.join(0, STRANGER);
    assert!(!driver.air.ignores_polls(0, STRANGER) && !driver.air.ignores_polls(1, STATION));
    driver.air.dozes(0, STRANGER, 8, driver.now);
    assert!(driver.air.answered(8, driver.now));
    assert!(driver.air.next_errand().is_some());
    driver.air.polls(0, STRANGER, 9, driver.now);
    let sent = driver.give([unit(OURS, STRANGER, 40)]);
    assert_eq!((numbers(&sent), driver.air.ignores_polls(0, STRANGER)), (vec![40], true));
    assert!(driver.air.answered(9, driver.now));
    driver.reported(0, &sent[0], 0, true);
    assert!(!driver.air.ignores_polls(0, STRANGER) && driver.ignores_polls());
}

/// What was out when it woke is still the answer to a poll in its next doze.
#[test]
fn a_poll_in_the_next_doze_is_ignored_while_the_answer_is_out() {
    let (mut driver, sent) = with_answer_out();
    driver.air.wakes(0, STATION, 2, driver.now);
    driver.air.dozes(0, STATION, 3, driver.now);
    assert!(driver.air.answered(2, driver.now) && driver.air.answered(3, driver.now));
    driver.pass(TO_ALL_OUTCOMES);
    assert!(driver.ignores_polls());
    driver.reported(0, &sent, 0, true);
    assert!(!driver.ignores_polls());
}

/// A station that dozes since before this bridge began has no answer on its way.
#[test]
fn after_a_restart_the_first_poll_counts() {
    let mut driver = driver_at_54();
    driver.air.has_dozed(0, STATION, driver.now);
    assert!(!driver.ignores_polls());
    driver.polls();
    assert_eq!(numbers(&driver.give([numbered(30, SHORT_UNIT)])), [30]);
    assert!(driver.ignores_polls());
}
