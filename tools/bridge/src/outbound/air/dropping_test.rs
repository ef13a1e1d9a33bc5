//! What is dropped, and counted.
use super::*;
use crate::testing::samples::made_up;

/// A station that is gone is not fed: it costs what was given, and what waits for it is bounded.
#[test]
fn no_more_frames_wait_for_a_station_than_there_is_room_for_and_the_oldest_are_dropped() {
    let mut driver = driver([1, 1]);
    driver.join(0, STATION);
    (0..200).for_each(|number| {
        driver.send(0, unit(OURS, STATION, number));
        driver.flush_others();
    });
    assert_eq!(numbers(&driver.flush()), [0]);
    assert_eq!(driver.air.queue.accounts[0].waiting, MOST_FOR_STATION);
    assert_eq!(driver.unsent(0, Unsent::Crowded), 199 - MOST_FOR_STATION as u64);
    driver.now += MILLISECOND;
    let sample = Seen { rate: 22, retries: 1, frame: unit(OURS, STATION, 0) };
    driver.reported(0, &sample, 0, true);
    assert_eq!(numbers(&driver.flush()), [200 - MOST_FOR_STATION as u8]);
}

#[test]
fn of_beacons_that_find_no_room_the_last_ones_are_kept() {
    let mut driver = driver([1, 1]);
    driver.interfaces.beacons.port.room = Some(0);
    (0..50).for_each(|number| drop(driver.give([of_network(BEACON, OURS, Address::BROADCAST, number, vec![])])));
    driver.interfaces.beacons.port.room = None;
    driver.flush();
    assert_eq!(numbers(&driver.beacons()), [48, 49]);
    assert_eq!((driver.unsent(0, Unsent::Full), driver.unsent(1, Unsent::Full)), (48, 0));
}

/// However many beacons another network sends.
#[test]
fn each_network_has_room_for_two_beacons() {
    let mut driver = driver([1, 1]);
    driver.interfaces.beacons.port.room = Some(0);
    let beacon = |bssid, number| of_network(BEACON, bssid, Address::BROADCAST, number, vec![]);
    driver.send(0, beacon(OURS, 1));
    (10..60).for_each(|number| driver.send(1, beacon(OTHER, number)));
    driver.send(0, beacon(OURS, 2));
    driver.interfaces.beacons.port.room = None;
    driver.flush();
    assert_eq!(numbers(&driver.beacons()), [1, 58, 59, 2]);
    assert_eq!((driver.unsent(0, Unsent::Full), driver.unsent(1, Unsent::Full)), (0, 48));
}

#[test]
fn a_refused_frame_is_counted_and_the_next_is_sent() {
    let mut driver = driver([1, 1]);
    driver.interfaces.monitor.port.longest = Some(60);
    for number in 1..5 {
        let body = vec![0; if number % 4 == 1 || number == 4 { 4 } else { 60 }];
        driver.send(0, of_network(0x08, OURS, STATION, number, body));
    }
    assert_eq!(numbers(&driver.run(usize::MAX)), [1, 4]);
    assert_eq!(driver.refused()["refused by mon0: Message too long"], 2);
    assert_eq!(driver.unsent(0, Unsent::Refused), 2);
}

/// While the interface is down, beacons are refused and counted. Else nothing is lost of what isn't late yet once it is
/// up again.
#[test]
fn what_waits_for_an_interface_that_is_down_goes_once_it_is_up_unless_it_is_late() {
    for (down, lost) in [(LONGEST / 2, 0), (LONGEST * 2, 2)] {
        let mut driver = driver([1, 1]);
        driver.interfaces.monitor.port.is_down = true;
        driver.interfaces.beacons.port.is_down = true;
        driver.send(0, deauthentication(3));
        driver.send(1, unit(OTHER, STATION, 4));
        assert_eq!((driver.flush(), driver.air.is_down(), driver.air.awaiting_room.len()), (vec![], true, 2));
        driver.send(0, of_network(BEACON, OURS, Address::BROADCAST, 5, Vec::new()));
        driver.send(1, of_network(0xc0, OTHER, STATION, 6, vec![8, 0]));
        assert_eq!((driver.flush(), driver.beacons(), driver.has_room()), (vec![], vec![], false));
        driver.now += down;
        driver.interfaces.monitor.port.is_down = false;
        driver.interfaces.beacons.port.is_down = false;
        driver.air.came_up(down, driver.now);
        driver.send(0, of_network(BEACON, OURS, Address::BROADCAST, 7, Vec::new()));
        let sent = driver.run(3);
        assert_eq!(numbers(&sent), if lost > 0 { vec![6] } else { vec![3, 4, 6] });
        assert_eq!(numbers(&driver.beacons()), [7]);
        assert_eq!(driver.unsent(0, Unsent::Late) + driver.unsent(1, Unsent::Late), lost);
        assert_eq!(driver.refused()["refused by mon0: Network is down"], 1);
        assert!(!driver.air.is_down() && driver.air.awaiting_room.is_empty() && driver.air.queue.scheduler.is_empty());
    }
}

#[test]
fn what_waits_for_room_goes_later_and_late_units_are_dropped() {
    let mut driver = driver([1, 1]);
    driver.interfaces.monitor.port.room = Some(1);
    let first = driver.give([unit(OURS, STATION, 1)]);
    assert_eq!(numbers(&first), [1]);
    driver.reported(0, &first[0], 0, true);
    driver.send(0, unit(OURS, STATION, 2));
    driver.send(1, of_network(0xc0, OTHER, STRANGER, 3, vec![4, 0]));
    assert_eq!(driver.flush(), []);
    assert!(driver.interfaces.monitor.is_blocked() && !driver.has_room());
    driver.send(0, unit(OURS, STATION, 4));
    driver.now += MOST_LIFETIME + NANOSECOND;
    driver.send(0, unit(OURS, STATION, 5));
    driver.has_room_again();
    let sent = driver.run(usize::MAX);
    let numbers = numbers(&sent);
    assert!(numbers.contains(&3) && numbers.contains(&5) && !numbers.contains(&4), "{numbers:?}");
    assert_eq!(driver.unsent(0, Unsent::Late), 1);
}

/// While others take the air for less than 300 ms nothing is lost; then what could have gone for 50 ms is dropped.
#[test]
fn units_that_are_late_for_a_while_go_all_the_same() {
    let mut driver = driver_at_54();
    let mut goes_after = |wait: u32| {
        driver.send(0, unit(OURS, STATION, 1));
        driver.now += wait * MILLISECOND;
        let sent = driver.flush();
        sent.iter().for_each(|seen| driver.reported(0, seen, 0, true));
        !sent.is_empty()
    };
    let going = (0..8).map(|_| goes_after(60)).collect::<Vec<_>>();
    assert_eq!(going, [true, true, true, true, true, false, false, false]);
    assert!((0..31).all(|_| goes_after(10)) && goes_after(60));
    assert_eq!(driver.unsent(0, Unsent::Late), 3);
}

#[test]
fn what_waits_of_a_network_is_bounded_and_the_longest_queue_loses_its_oldest() {
    let mut driver = driver([1, 1]);
    driver.interfaces.monitor.port.room = Some(0);
    driver.send(0, of_network(0x08, OURS, STATION, 0, vec![0; 4000]));
    for number in 0..4000u16 {
        let station = made_up(usize::from(number % 40));
        driver.send(0, of_network(0x08, OURS, station, number, vec![0; 4000]));
        driver.send(1, of_network(0x08, OTHER, station, number, vec![0; 10]));
    }
    let Account { waiting, octets, .. } = driver.air.queue.accounts[0].clone();
    assert!(octets <= MOST_OCTETS && waiting == MOST_OCTETS / 4024, "{waiting} {octets}");
    assert_eq!(driver.unsent(0, Unsent::Full) + driver.unsent(0, Unsent::Crowded) + waiting as u64, 4001);
    assert_eq!(driver.unsent(1, Unsent::Full), 0);
    assert_eq!(driver.air.queue.scheduler.waiting(0, Receiver::Station(STATION)), 1);
}

/// The radio has none of its frames any more once its interface was down: the last unit of a station goes once more,
/// and the others are counted.
#[test]
fn what_the_radio_had_as_its_interface_went_down_goes_once_more_or_is_counted() {
    for down in [LONGEST / 2, MOST_OUT, 2 * MOST_OUT] {
        let mut driver = driver_at_54();
        assert_eq!(numbers(&driver.give((9..12).map(|number| unit(OURS, STATION, number)))), [9, 10, 11]);
        driver.send(1, of_network(0xc0, OTHER, STRANGER, 3, vec![8, 0]));
        assert_eq!(numbers(&driver.flush()), [3]);
        driver.air.went_down();
        driver.pass(down);
        driver.air.came_up(down, driver.now);
        let again: Vec<_> = driver.flush().iter().map(|seen| (seen.number(), seen.is_again())).collect();
        assert_eq!((again, driver.air.in_flight()), (vec![(11, true)], 1), "{down:?}");
        assert_eq!(driver.air.unacknowledged(), Unacknowledged { again: 1, lost: 0 });
        let unsent = [0, 1].map(|place| driver.air.accounts()[place].unsent.values().sum::<u64>());
        assert_eq!(unsent, [2, 1], "{down:?}");
    }
}

/// The bridge and its library should have the same frames. If one stands in the bridge's list alone, the others of its
/// network and those of other networks go all the same.
#[test]
fn a_frame_that_the_library_does_not_have_is_dropped_and_counted() {
    for wait in [Duration::ZERO, 2 * MOST_LIFETIME] {
        let mut driver = driver_at_54();
        // Who was sent nothing yet has its turn before one that was.
        driver.send(0, unit(OURS, STRANGER, 9));
        assert!(driver.air.queue.downlink.gives_up(0, Receiver::Station(STRANGER)).is_some());
        driver.now += wait;
        driver.send(0, unit(OURS, STATION, 10));
        driver.send(1, unit(OTHER, STRANGER, 11));
        let mut sent = numbers(&driver.run(usize::MAX));
        sent.sort_unstable();
        assert_eq!(sent, [10, 11]);
        assert_eq!(driver.air.accounts()[0].unsent.values().sum::<u64>(), 1);
        assert!(driver.air.is_empty() && driver.air.accounts()[0].octets == 0);
    }
}
