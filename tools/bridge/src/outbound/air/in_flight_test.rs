use super::*;
use crate::testing::samples::{at, NANOSECOND, OTHER, STATION};

impl Sending for () {
    fn longest(&self) -> Duration {
        MILLISECOND
    }
}

impl Sending for char {
    fn longest(&self) -> Duration {
        MILLISECOND
    }
}

fn name(number: u16) -> FrameName {
    FrameName { place: 0, receiver: STATION, number: Some(number) }
}

fn in_flight() -> InFlight<()> {
    InFlight::new()
}

/// The radio takes so many times the reckoned millisecond for each of a hundred frames.
fn of_pace(times: u32) -> InFlight<()> {
    let mut in_flight = in_flight();
    for number in 0..100 {
        in_flight.give(name(number), (), MILLISECOND, at(times * MILLISECOND * u32::from(number)));
        in_flight.reported(name(number), at(times * MILLISECOND * u32::from(number + 1)), |_| MILLISECOND);
    }
    in_flight
}

fn fitting(mut in_flight: InFlight<()>) -> usize {
    while in_flight.has_room(MILLISECOND, Instant::START) {
        in_flight.give(name(in_flight.len() as u16), (), MILLISECOND, Instant::START);
    }
    in_flight.len()
}

#[test]
fn the_radio_has_what_it_sends_in_eight_milliseconds() {
    assert_eq!(fitting(in_flight()), 8);
    assert_eq!(fitting(of_pace(1)), 8);
    assert_eq!(fitting(of_pace(4)), 2);
    assert_eq!(fitting(of_pace(0)), 32);
    let mut busy = in_flight();
    busy.give(name(1), (), BUSY, Instant::START);
    assert!(!busy.is_busy(0));
    busy.give(FrameName { place: 1, ..name(2) }, (), 8 * MILLISECOND, Instant::START);
    assert_eq!([0, 1].map(|place| busy.is_busy(place)), [false, true]);
    assert_eq!([0, 1].map(|place| busy.is_filled_by(place, MILLISECOND)), [false, true]);
    busy.give(name(3), (), Duration::from_nanos(1), Instant::START);
    assert!(busy.is_busy(0));
}

#[test]
fn one_frame_it_always_has() {
    assert_eq!(fitting(of_pace(50)), 1);
    let mut in_flight = in_flight();
    assert!(in_flight.has_room(Duration::from_secs(4), Instant::START));
    in_flight.give(name(1), (), 7 * MILLISECOND, Instant::START);
    assert!(in_flight.has_room(MILLISECOND, Instant::START));
    assert!(!in_flight.has_room(MILLISECOND + Duration::from_nanos(PACE_UNIT), Instant::START));
}

#[test]
fn nothing_is_given_while_an_old_frame_waits_for_newer_ones() {
    let mut in_flight = in_flight();
    in_flight.give(name(1), (), MILLISECOND, Instant::START);
    for millisecond in 1..=16 {
        assert!(in_flight.has_room(MILLISECOND, at(millisecond * MILLISECOND)));
        in_flight.give(name(1 + millisecond as u16), (), MILLISECOND, at(millisecond * MILLISECOND));
        in_flight.reported(name(1 + millisecond as u16), at((millisecond + 1) * MILLISECOND), |_| MILLISECOND);
    }
    assert!(!in_flight.has_room(MILLISECOND, at(17 * MILLISECOND)));
    in_flight.reported(name(1), at(18 * MILLISECOND), |_| MILLISECOND);
    assert!(in_flight.has_room(MILLISECOND, at(18 * MILLISECOND)));
}

#[test]
fn a_frame_is_told_of_once() {
    let mut in_flight = InFlight::new();
    in_flight.give(name(1), 'a', Duration::from_nanos(300), Instant::START);
    in_flight.give(name(2), 'b', Duration::from_nanos(300), Instant::START);
    assert_eq!(in_flight.reported(name(2), Instant::from_nanos(5), |_| Duration::from_nanos(700)), Some('b'));
    assert_eq!(in_flight.reported(name(2), Instant::from_nanos(5), |_| Duration::from_nanos(700)), None);
    let others = FrameName { place: 1, ..name(1) };
    assert_eq!(in_flight.reported(others, Instant::from_nanos(5), |_| Duration::from_nanos(700)), None);
    assert_eq!(in_flight.reported(name(1), Instant::from_nanos(5), |_| Duration::from_nanos(200)), Some('a'));
    assert_eq!((in_flight.len(), in_flight.reckoned), (0, Duration::ZERO));
}

/// A flight of a frame for one station and, behind it, one for another.
fn of_two() -> InFlight<()> {
    let mut in_flight = in_flight();
    in_flight.give(name(1), (), MILLISECOND, Instant::START);
    in_flight.give(FrameName { receiver: OTHER, ..name(2) }, (), MILLISECOND, Instant::START);
    in_flight
}

#[test]
fn a_frame_is_overdue_after_twice_the_time_of_all_before_it() {
    let mut in_flight = of_two();
    assert!(!in_flight.is_overdue(0, STATION, at(2 * MILLISECOND)));
    assert!(in_flight.is_overdue(0, STATION, at(2 * MILLISECOND + NANOSECOND)));
    in_flight.forget(name(1));
    assert!(!in_flight.is_overdue(0, OTHER, at(4 * MILLISECOND)));
    assert!(in_flight.is_overdue(0, OTHER, at(4 * MILLISECOND + NANOSECOND)));
    assert!(!in_flight.is_overdue(1, OTHER, at(MOST_OUT)));
}

/// A radio that serves by turns lets newer frames for others go first: by that alone none is overdue.
#[test]
fn a_frame_is_awaited_for_longer_where_newer_ones_for_others_went_before_it() {
    let mut in_flight = in_flight();
    let other = |number| FrameName { receiver: OTHER, ..name(number) };
    in_flight.give(name(0), (), MILLISECOND, Instant::START);
    (1..4).for_each(|number| in_flight.give(other(number), (), MILLISECOND, Instant::START));
    assert!(in_flight.is_overdue(0, STATION, at(2 * MILLISECOND + NANOSECOND)));
    in_flight.reported(other(1), at(MILLISECOND), |_| MILLISECOND);
    in_flight.reported(other(2), at(2 * MILLISECOND), |_| MILLISECOND);
    assert!(!in_flight.is_overdue(0, STATION, at(6 * MILLISECOND)));
    assert!(in_flight.is_overdue(0, STATION, at(6 * MILLISECOND + NANOSECOND)));
    assert_eq!(in_flight.overdue(), Some(at(2 * MILLISECOND)));
    // one for the same receiver, or one that went in its turn, changes nothing
    in_flight.give(name(4), (), MILLISECOND, at(2 * MILLISECOND));
    in_flight.reported(name(4), at(3 * MILLISECOND), |_| MILLISECOND);
    assert!(in_flight.is_overdue(0, STATION, at(6 * MILLISECOND + NANOSECOND)));
}

/// Nobody has looked yet what became of frames that the radio must have sent: a newer one doesn't wait for these.
#[test]
fn a_frame_is_overdue_though_what_became_of_older_ones_is_unread() {
    let mut in_flight = in_flight();
    (0..8).for_each(|number| in_flight.give(name(number), (), MILLISECOND, at(2 * MILLISECOND * u32::from(number))));
    (0..7).for_each(|number| assert!(in_flight.forget(name(number)).is_some()));
    let due = 16 * MILLISECOND;
    assert!(!in_flight.is_overdue(0, STATION, at(due)) && in_flight.is_overdue(0, STATION, at(due + NANOSECOND)));
    assert!(in_flight.is_doubtful(at(due + NANOSECOND)));
    in_flight.settle();
    assert!(!in_flight.is_doubtful(at(MOST_OUT)) && in_flight.has_room(20 * MILLISECOND, at(due)));
    in_flight.give(name(8), (), MILLISECOND, at(20 * MILLISECOND));
    assert!(!in_flight.is_doubtful(at(22 * MILLISECOND)) && in_flight.is_doubtful(at(22 * MILLISECOND + NANOSECOND)));
}

#[test]
fn what_became_of_a_frame_is_unknown_though_an_older_one_is_missing() {
    let mut in_flight = in_flight();
    in_flight.give(name(1), (), MILLISECOND, Instant::START);
    in_flight.settle();
    in_flight.reports_read();
    in_flight.give(FrameName { receiver: OTHER, ..name(2) }, (), MILLISECOND, Instant::START);
    assert!(!in_flight.is_unknown(0, OTHER));
    in_flight.settle();
    assert!(in_flight.is_unknown(0, OTHER) && !in_flight.is_unknown(0, STATION));
    in_flight.reports_read();
    assert!(!in_flight.is_unknown(0, OTHER));
}

#[test]
fn a_frame_behind_one_that_takes_long_has_its_time_once_that_was_told_of() {
    let (mut in_flight, late) = (of_two(), 20 * MILLISECOND);
    in_flight.give(name(3), (), MILLISECOND, Instant::START);
    assert!(in_flight.is_overdue(0, STATION, at(late)) && !in_flight.is_overdue(0, OTHER, at(late)));
    in_flight.reported(name(1), at(late), |_| late);
    let due = late + 2 * MILLISECOND;
    assert!(!in_flight.is_overdue(0, OTHER, at(due)) && in_flight.is_overdue(0, OTHER, at(due + NANOSECOND)));
}

#[test]
fn what_is_never_told_of_is_taken_out() {
    let mut in_flight = in_flight();
    assert_eq!(in_flight.due(), None);
    in_flight.give(name(1), (), Duration::from_nanos(5), Instant::START);
    in_flight.give(name(2), (), Duration::from_nanos(5), Instant::from_nanos(1));
    assert_eq!(in_flight.due(), Some(at(MOST_OUT)));
    assert_eq!(in_flight.expire(at(MOST_OUT - NANOSECOND)), []);
    assert_eq!(in_flight.expire(at(MOST_OUT)), [(name(1), ())]);
    assert_eq!((in_flight.clear(), in_flight.reckoned), (vec![(name(2), ())], Duration::ZERO));
    in_flight.give(name(3), (), Duration::from_nanos(5), Instant::from_nanos(1));
    in_flight.forget(name(3));
    assert_eq!((in_flight.len(), in_flight.reckoned, in_flight.overdue()), (0, Duration::ZERO, None));
}
