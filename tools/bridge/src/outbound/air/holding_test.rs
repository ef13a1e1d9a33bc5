//! What is held, and until when.
use super::medium::{place_of, size_of};
use super::*;

#[test]
fn a_lost_unit_is_sent_once_more_with_retry_and_later_ones_wait() {
    let mut driver = driver_at_54();
    let first = driver.give([unit(OURS, STATION, 9)]);
    driver.reported(0, &first[0], 6, false);
    let second = driver.give([unit(OURS, STATION, 10)]);
    assert_eq!((second.len(), second[0].rate, second[0].is_again(), second[0].number()), (1, 12, true, 9));
    driver.reported(0, &second[0], 0, true);
    let third = driver.flush();
    assert_eq!((third.len(), third[0].is_again(), third[0].number()), (1, false, 10));
    assert_eq!(driver.air.unacknowledged(), Unacknowledged { again: 1, lost: 0 });
}

/// Of a station that loses tries the radio has one frame, so that each may be sent once more, unless many wait.
#[test]
fn a_station_that_loses_some_is_given_one_frame_at_a_time_while_few_wait() {
    for (waiting, given) in [(FEW, 1), (FEW + 2, 2)] {
        let mut driver = driver_at_54();
        let first = driver.give([unit(OURS, STATION, 8)]);
        driver.reported(0, &first[0], 1, true);
        let sent = driver.give((9..9 + waiting as u16).map(|number| unit(OURS, STATION, number)));
        assert_eq!(sent.len(), given);
        driver.reported(0, &sent[0], 6, false);
        let next = driver.flush();
        let again = next.first().map(|seen| (seen.number(), seen.is_again()));
        assert_eq!(again, (given == 1).then_some((9, true)));
    }
}

#[test]
fn a_unit_behind_which_others_went_is_not_sent_out_of_order() {
    let mut driver = driver_at_54();
    let sent = driver.give((9..12).map(|number| unit(OURS, STATION, number)));
    assert_eq!(numbers(&sent), [9, 10, 11]);
    sent[..2].iter().for_each(|seen| driver.reported(0, seen, 6, false));
    assert_eq!(driver.flush(), []);
    driver.reported(0, &sent[2], 6, false);
    let again = driver.flush();
    assert_eq!((again.len(), again[0].number(), again[0].is_again()), (1, 11, true));
    assert_eq!(driver.air.unacknowledged(), Unacknowledged { again: 1, lost: 2 });
}

#[test]
fn a_unit_that_is_lost_twice_is_given_up_and_the_next_goes() {
    let mut driver = driver_at_54();
    driver.send(0, unit(OURS, STATION, 9));
    for _ in 0..2 {
        let sent = driver.flush();
        driver.reported(0, &sent[0], 1, false);
    }
    assert_eq!(numbers(&driver.give((10..12).map(|number| unit(OURS, STATION, number)))), [10]);
    assert_eq!(driver.air.unacknowledged(), Unacknowledged { again: 1, lost: 1 });
}

/// Each network has its own count, which the radio's other networks don't change.
#[test]
fn units_that_nobody_acknowledges_count_for_their_network() {
    let mut driver = driver_at_54();
    driver.join(1, STATION);
    for (number, place, bssid, acknowledges) in [(9, 0, OURS, true), (10, 1, OTHER, false), (11, 1, OTHER, false)] {
        driver.send(place, unit(bssid, STATION, number));
        let sent = driver.flush();
        driver.reported(place, &sent[0], 1, acknowledges);
        driver.flush().iter().for_each(|again| driver.reported(place, again, 1, acknowledges));
    }
    let wanted = [Unacknowledged::default(), Unacknowledged { again: 2, lost: 2 }];
    assert_eq!((driver.air.unacknowledged_by_network(), driver.air.unacknowledged()), (&wanted[..], wanted[1]));
}

/// Which rates a station hears isn't known any more after a silence: until it acknowledges the first of many units, the
/// others wait.
#[test]
fn after_a_silence_the_first_of_many_units_goes_alone() {
    for (silence, alone) in [(100, false), (101, true)] {
        let mut driver = driver_at_54();
        driver.pass(silence * MILLISECOND);
        let first = driver.give((9..69).map(|number| unit(OURS, STATION, number)));
        assert_eq!((first.len() == 1, first[0].number(), first[0].rate), (alone, 9, 108));
        driver.reported(0, &first[0], 0, true);
        assert!(driver.flush().len() > 4);
    }
}

/// A station moves while nothing is sent to it: of 60 units that come then each is heard, in their order.
#[test]
fn a_station_that_hears_1_megabit_alone_after_a_silence_loses_no_unit() {
    let mut driver = driver_at_54();
    driver.pass(500 * MILLISECOND);
    let mut on_air = VecDeque::from(driver.give((9..69).map(|number| unit(OURS, STATION, number))));
    let mut heard = Vec::new();
    while let Some(next) = on_air.pop_front() {
        let is_heard = next.rate == 2;
        driver.pass(MILLISECOND);
        driver.reported(0, &next, if is_heard { 0 } else { next.retries }, is_heard);
        heard.extend(is_heard.then(|| next.number()));
        on_air.extend(driver.flush());
    }
    assert_eq!(heard, (9..69).collect::<Vec<u8>>());
    assert_eq!(driver.air.unacknowledged().lost, 0);
}

#[test]
fn while_a_sample_is_on_the_air_frames_wait_in_order_and_not_for_ever() {
    let mut driver = driver([1, 1]);
    driver.join(0, STATION);
    driver.send(0, unit(OURS, STATION, 2));
    assert_eq!(numbers(&driver.give([deauthentication(3)])), [2]);
    assert!(driver.air.awaits_outcomes());
    let due = driver.air.due().unwrap();
    assert_eq!(due, driver.now + MOST_OUT);
    driver.expire(due - NANOSECOND);
    assert_eq!(driver.flush(), []);
    driver.now = due;
    driver.expire(due);
    assert_eq!(numbers(&driver.flush()), [3]);
}

#[test]
fn a_radio_that_tells_nothing_is_given_all_at_the_lowest_rate_as_it_sends() {
    let mut driver = driver([1, 1]);
    driver.ask(0, STRANGER);
    for number in 0..200 {
        driver.give([long(OURS, STRANGER, number)]);
        driver.pass(300 * MILLISECOND);
    }
    (0..3).for_each(|number| driver.send(0, long(OURS, STRANGER, number)));
    driver.interfaces.monitor.port.unsent = 5000;
    assert_eq!(driver.flush().len(), 1);
    driver.pass(10 * MILLISECOND);
    assert_eq!(driver.flush(), []);
    driver.interfaces.monitor.port.unsent = 0;
    driver.pass(LOOK_EVERY);
    let sent = driver.flush();
    assert_eq!((sent.len(), sent[0].rate), (1, 2));
    driver.reported(0, &sent[0], 0, true);
    driver.send(0, long(OURS, STRANGER, 3));
    driver.run(2);
    assert!(driver.flush()[0].rate > 2);
}

/// Who isn't looked for any more asks its socket nothing: that would cost a call each millisecond.
#[test]
fn the_socket_is_looked_at_only_while_the_radio_has_as_much_as_it_may_have() {
    let mut driver = driver_at_54();
    let sent = driver.give((0..40).map(deauthentication));
    assert!(driver.air.wants_look(driver.now + MOST_OUT));
    driver.reported(0, &sent[0], 0, true);
    assert!(!driver.air.wants_look(driver.now + MOST_OUT));
    driver.flush();
    assert!(driver.air.wants_look(driver.now + MOST_OUT));
}

/// What left the radio after its outcomes were read holds its station until they are read again, which is at once.
#[test]
fn outcomes_are_read_again_once_a_frame_has_left_the_radio() {
    let mut driver = driver_at_54();
    driver.give([long(OURS, STATION, 9)]);
    driver.air.reports_read();
    assert!(!driver.air.wants_outcomes(0) && !driver.air.wants_outcomes(1) && driver.air.wants_outcomes(32));
    driver.now += 2 * MILLISECOND;
    driver.send(0, long(OURS, STRANGER, 10));
    assert!(!driver.air.wants_outcomes(0) && driver.air.wants_outcomes(1));
    driver.flush();
    assert!(driver.air.in_flight.is_unknown(0, STATION) && driver.air.wants_outcomes(0));
    driver.air.reports_read();
    assert!(!driver.air.wants_outcomes(0));
}

#[test]
fn the_radio_has_no_more_at_once_than_it_sends_in_eight_milliseconds() {
    let mut driver = driver_at_54();
    (0..60).for_each(|number| driver.send(0, long(OURS, STATION, number)));
    driver.run(usize::MAX);
    (0..40).for_each(|number| driver.send(0, long(OURS, STATION, number)));
    (0..9).for_each(|number| driver.send(1, long(OTHER, STRANGER, number)));
    let takes = |sent: &[Seen]| -> Duration { sent.iter().map(|seen| size_of(seen).cost().tries(1)).sum() };
    let sent = driver.flush();
    assert!((5 * MILLISECOND..=8 * MILLISECOND).contains(&takes(&sent)), "{:?}", takes(&sent));
    assert!(!driver.has_room() && driver.air.awaits_outcomes() && !driver.is_idle());
    for seen in &sent {
        driver.now += size_of(seen).cost().tries(1);
        driver.reported(place_of(seen), seen, 0, true);
    }
    let more = driver.flush();
    assert!((5 * MILLISECOND..=8 * MILLISECOND).contains(&takes(&more)), "{:?}", takes(&more));
    driver.air.end();
    assert_eq!(driver.flush().len(), 49 - sent.len() - more.len());
}

/// If nobody acknowledges what the radio has of a network, that takes 50 ms at most: 23 for a unit with all tries, and
/// nearly 4 for each behind it.
#[test]
fn the_radio_has_no_more_of_a_network_than_it_gives_up_within_50_milliseconds() {
    let mut driver = driver_at_54();
    let sent = driver.give((10..30).map(|number| long(OURS, STATION, number)));
    assert_eq!(sent.iter().map(|seen| seen.retries).collect::<Vec<_>>(), [6, 3, 3, 3, 3, 3, 3, 3]);
    assert!(!driver.has_room() && driver.air.awaits_outcomes());
    driver.reported(0, &sent[0], 0, true);
    assert_eq!(driver.flush().iter().map(|seen| seen.retries).collect::<Vec<_>>(), [3; 6]);
}

/// A station that loses more has all tries of each, and so fewer at once.
#[test]
fn to_a_station_that_loses_tries_the_radio_has_few_units_with_all_of_their_tries() {
    let mut driver = driver_at_54();
    let first = driver.give([long(OURS, STATION, 9)]);
    driver.reported(0, &first[0], 1, true);
    let sent = driver.give((10..40).map(|number| long(OURS, STATION, number)));
    assert_eq!(sent.iter().map(|seen| (seen.rate, seen.retries)).collect::<Vec<_>>(), [(108, 6), (108, 6)]);
}

/// What one network's station doesn't acknowledge holds up its own frames alone, while it is other networks' turn.
#[test]
fn a_station_whose_frame_is_out_too_long_is_given_nothing_more() {
    let mut driver = driver([1, 1]);
    driver.join(1, STRANGER);
    driver.at_54();
    let first = driver.give([long(OURS, STATION, 9)]);
    driver.now += 2 * MILLISECOND;
    driver.interfaces.monitor.port.unsent = 1500;
    driver.send(0, long(OURS, STATION, 10));
    driver.send(1, unit(OTHER, STRANGER, 7));
    assert_eq!(numbers(&driver.flush()), [7]);
    driver.reported(0, &first[0], 6, false);
    let again = driver.flush();
    assert_eq!((again.len(), again[0].number(), again[0].is_again()), (1, 9, true));
}

/// Frames need not wait for what is told of others that the radio has no more. Of such that are missing among those
/// that it told of one knows nothing, whatever its socket says.
#[test]
fn a_frame_that_left_the_radio_keeps_none_waiting_until_outcomes_were_looked_at() {
    let mut driver = driver_at_54();
    let first = driver.give([long(OURS, STATION, 9)]);
    driver.now += 2 * MILLISECOND;
    driver.send(0, long(OURS, STATION, 10));
    assert!(!driver.air.in_flight.is_unknown(0, STATION));
    let second = driver.flush();
    assert_eq!(numbers(&second), [10]);
    assert!(driver.air.in_flight.is_unknown(0, STATION));
    driver.reported(0, &second[0], 0, true);
    driver.air.reports_read();
    assert!(!driver.air.in_flight.is_unknown(0, STATION));
    driver.now += 2 * MILLISECOND;
    assert_eq!(driver.give([long(OURS, STATION, 11)]), []);
    driver.reported(0, &first[0], 0, true);
    assert_eq!(numbers(&driver.flush()), [11]);
}

/// What the bridge asks a station by itself keeps nothing back once it is known what became of it.
#[test]
fn behind_a_question_of_the_bridge_frames_go_once_it_is_told_of() {
    let mut driver = driver_at_54();
    driver.air.send_own(0, crate::stations::own_frames::null(OURS, STATION, 2057), 3, driver.now);
    let asked = driver.flush();
    assert_eq!((asked.len(), asked[0].rate, asked[0].retries), (1, 2, 3));
    driver.interfaces.monitor.port.unsent = 100;
    driver.now += 20 * MILLISECOND;
    assert_eq!(driver.give([of_network(0xb0, OURS, STATION, 9, vec![0, 0, 2, 0, 0, 0])]), []);
    driver.reported(0, &asked[0], 0, true);
    assert_eq!(numbers(&driver.flush()), [9]);
}

#[test]
fn frames_of_which_the_radio_never_tells_leave_it_room() {
    let mut driver = driver_at_54();
    let sent = driver.give((0..40).map(deauthentication)).len();
    driver.interfaces.monitor.port.unsent = 100;
    driver.pass(MOST_OUT - NANOSECOND);
    assert_eq!(driver.flush(), []);
    driver.pass(NANOSECOND);
    assert_eq!(driver.flush().len(), sent);
    driver.interfaces.monitor.port.unsent = 0;
    let mut more = Vec::new();
    for _ in 0..20 {
        driver.pass(LOOK_EVERY);
        driver.air.reports_read();
        more.extend(driver.flush());
    }
    assert_eq!(more.len(), sent);
}

/// The socket may be empty before one reads what became of the frames that it had.
#[test]
fn what_is_told_after_the_socket_was_seen_empty_is_learned() {
    let mut driver = driver_at_54();
    let sent = driver.give((10..30).map(|number| long(OURS, STATION, number)));
    assert!(!driver.has_room());
    let before = driver.air.queue.accounts[0].used;
    for _ in 0..5 {
        driver.pass(10 * MILLISECOND);
        driver.air.reports_read();
    }
    let last = sent.last().unwrap();
    driver.reported(0, &sent[0], 2, true);
    sent[1..sent.len() - 1].iter().for_each(|seen| driver.reported(0, seen, 0, true));
    driver.reported(0, last, last.retries, false);
    let cost = size_of(last).cost();
    let more = cost.tries(3) - cost.tries(1) + cost.tries(1 + u32::from(last.retries)) - cost.tries(1);
    assert_eq!(driver.air.queue.accounts[0].used - before, more);
    let again = driver.flush();
    assert_eq!((again[0].number(), again[0].is_again()), (last.number(), true));
}

#[test]
fn what_waited_for_a_station_before_it_joined_goes_before_what_comes_behind() {
    let mut driver = driver([1, 1]);
    driver.give([long(OURS, Address::of([2, 9, 9, 9, 9, 9]), 100)]);
    driver.send(0, of_network(0xb0, OURS, STATION, 1, vec![0, 0, 2, 0, 0, 0]));
    driver.send(0, response(OURS, STATION, 0));
    (3..6).for_each(|number| driver.send(0, unit(OURS, STATION, number)));
    let mut sent = driver.run(usize::MAX);
    sent.extend(driver.run(usize::MAX));
    driver.reported(0, &Seen { rate: 2, retries: 0, frame: long(OURS, Address::of([2, 9, 9, 9, 9, 9]), 100) }, 0, true);
    sent.extend(driver.run(usize::MAX));
    assert_eq!(numbers(&sent), [1, 1, 3, 4, 5]);
    assert_eq!(sent[0].frame[0], 0xb0);
}
