use super::*;
use crate::control::log::Level;
use crate::formats::ethernet::update;
use crate::os::clock::{Instant, SECOND};
use crate::stations::news::News;
use crate::stations::own_frames::{association_request, mode_of_station};
use crate::testing::samples::{self, at, frame_of, network, OTHER, OURS, STATION, STRANGER};

/// A frame of a network, with a sequence number.
fn of_network(control: u8, receiver: Address, number: u16, body: &[u8]) -> Vec<u8> {
    let head = [&[control, 0, 0, 0][..], receiver.octets(), OURS.octets(), OURS.octets()].concat();
    [&head[..], &(number << 4).to_le_bytes(), body].concat()
}

fn beacon(number: u16) -> Vec<u8> {
    of_network(0x80, Address::BROADCAST, number, &[&[0; 12][..], &[5, 4, 0, 1, 0, 0]].concat())
}

/// Our network with a station that is associated.
fn joined() -> Stations {
    let networks = [network(OTHER), Network { max_known: 2, ..network(OURS) }];
    let mut stations = Stations::new(&networks, Some(5 * SECOND));
    stations.answered(OURS, &of_network(0xb0, STATION, 1, &[0, 0, 2, 0, 0, 0]), Instant::START);
    stations.answered(OURS, &of_network(0x10, STATION, 2, &[1, 0, 0, 0, 1, 0xc0]), Instant::START);
    stations
}

/// What is done behind a beacon of our network.
fn behind_beacon(stations: &mut Stations, number: u16, now: Instant) -> Vec<Errand> {
    assert_eq!(stations.answered(OURS, &beacon(number), now), []);
    stations.look(now)
}

#[test]
fn who_is_silent_is_asked_and_forgotten() {
    let mut stations = joined();
    assert_eq!(behind_beacon(&mut stations, 3, at(4 * SECOND)), []);
    for number in 4..7 {
        let frame = null(OURS, STATION, number + 2048);
        let wanted = [Errand::Send { place: 1, frame, retries: 3 }];
        assert_eq!(behind_beacon(&mut stations, number, at(u32::from(number + 1) * SECOND)), wanted);
    }
    let frame = disassociation(OURS, STATION, INACTIVITY, 2055);
    let wanted = [Errand::Send { place: 1, frame, retries: 0 }, Errand::Say(departure(OURS, STATION))];
    assert_eq!(behind_beacon(&mut stations, 7, at(8 * SECOND)), wanted);
    stations.fed(&departure(OURS, STATION), at(8 * SECOND));
    assert_eq!(behind_beacon(&mut stations, 8, at(30 * SECOND)), []);
    assert_eq!(stations.table.station(&(1, STATION)), None);
}

/// Who stays is known without a word. Whoever doesn't is told to join again, and the program that those have left
/// whom it knows.
#[test]
fn who_is_restored_is_known_and_others_are_told() {
    let request = association_request(&network(OURS), STATION);
    let kept = KeptStation { address: STATION, aid: 4, listen: 1, dozes: false, has_dozed: false, request };
    let mut stations = Stations::new(&[network(OTHER), network(OURS)], None);
    let restored = Restored {
        stay: vec![((1, STATION), kept.clone())],
        again: vec![(0, STRANGER)],
        leave: vec![(0, STRANGER), (1, STRANGER)],
        swallowed: 5,
    };
    let frame = deauthentication(OTHER, STRANGER, LEAVING, 2048);
    let wanted = [
        Errand::Say(departure(OTHER, STRANGER)),
        Errand::Say(departure(OURS, STRANGER)),
        Errand::Send { place: 0, frame, retries: 3 },
    ];
    assert_eq!(stations.restore(&restored, Instant::START), wanted);
    assert_eq!((stations.kept(0), stations.kept(1)), (vec![], vec![kept]));
    assert_eq!(stations.table.take_news(), []);
    // Who is told to join again isn't left for the next bridge.
    stations.dismiss(&[1]);
    assert_eq!(stations.kept(1), []);
}

#[test]
fn who_acknowledges_stays() {
    let mut stations = joined();
    assert_eq!(behind_beacon(&mut stations, 3, at(5 * SECOND)).len(), 1);
    let outcome = Outcome { is_acknowledged: true, retries: 2, rate: Some(2) };
    stations.reported(&null(OURS, STATION, 9), outcome, at(5 * SECOND));
    (6..10).for_each(|second| assert_eq!(behind_beacon(&mut stations, 4, at(second * SECOND)), []));
    assert_eq!(stations.table.station(&(1, STATION)).unwrap().to.rate, None);
}

#[test]
fn who_dozes_is_asked_by_a_unit_that_the_program_keeps() {
    let mut stations = joined();
    stations.fed(&mode_of_station(OURS, STATION, true), Instant::START);
    let wanted = [Errand::Ask { place: 1, frame: test_command(OURS, STATION) }];
    assert_eq!(stations.look(at(5 * SECOND)), wanted);
}

#[test]
fn who_does_not_associate_is_given_up_where_its_network_is_nearly_full() {
    let mut stations = joined();
    stations.answered(OURS, &of_network(0xb0, STRANGER, 3, &[0, 0, 2, 0, 0, 0]), at(SECOND));
    assert_eq!(behind_beacon(&mut stations, 4, at(3 * SECOND)), []);
    let frame = deauthentication(OURS, STRANGER, INACTIVITY, 2053);
    let wanted = [Errand::Send { place: 1, frame, retries: 0 }, Errand::Say(departure(OURS, STRANGER))];
    assert_eq!(behind_beacon(&mut stations, 5, at(4 * SECOND)), wanted);
}

#[test]
fn who_is_kicked_goes_at_once() {
    let mut stations = joined();
    let errands = stations.kick(OURS, STATION, Instant::START).unwrap();
    let frame = disassociation(OURS, STATION, INACTIVITY, 2050);
    let wanted = [Errand::Send { place: 1, frame, retries: 3 }, Errand::Say(departure(OURS, STATION))];
    assert_eq!(errands, wanted);
    for (bssid, station, says) in
        [(OURS, STATION, "has no station"), (OURS, STRANGER, "has no station"), (STRANGER, STATION, "no network")]
    {
        assert!(stations.kick(bssid, station, Instant::START).unwrap_err().contains(says));
    }
    stations.answered(OURS, &of_network(0xb0, STRANGER, 9, &[0, 0, 2, 0, 0, 0]), Instant::START);
    let frame = deauthentication(OURS, STRANGER, INACTIVITY, 2057);
    let wanted = Errand::Send { place: 1, frame, retries: 3 };
    assert_eq!(stations.kick(OURS, STRANGER, Instant::START).unwrap()[0], wanted);
}

/// Who joins another network of this radio has moved from the first one, which still knows it. Who isn't associated
/// there has joined.
#[test]
fn who_joins_another_network_has_moved() {
    let mut stations = joined();
    let happened = |stations: &mut Stations| -> Vec<(usize, Happened)> {
        stations.take_events().into_iter().map(|(place, _, happened)| (place, happened)).collect()
    };
    let joins = News::Joins { aid: 1, listen: 0 };
    assert_eq!(happened(&mut stations), [(1, Happened::Station { station: STATION, news: joins })]);
    let of_other = |control, body: &[u8]| samples::of_network(OTHER, STATION, control, body);
    stations.answered(OTHER, &of_other(0xb0, &[0, 0, 2, 0, 0, 0]), Instant::START);
    stations.answered(OTHER, &of_other(0x10, &[1, 0, 0, 0, 7, 0xc0]), Instant::START);
    assert_eq!(happened(&mut stations), [(0, Happened::Moved { station: STATION, from: OURS, aid: 7, listen: 0 })]);
    stations.kick(OURS, STATION, Instant::START).unwrap();
    let kicked = Happened::Station { station: STATION, news: News::Forgotten(Forgotten::Kicked) };
    assert_eq!(happened(&mut stations), [(1, kicked)]);
    stations.answered(OTHER, &of_other(0x10, &[1, 0, 0, 0, 7, 0xc0]), Instant::START);
    let joins = News::Joins { aid: 7, listen: 0 };
    assert_eq!(happened(&mut stations), [(0, Happened::Station { station: STATION, news: joins })]);
}

/// Each network counts its own, however often, and also what the log and the events leave out.
#[test]
fn who_comes_and_goes_is_counted() {
    let mut stations = joined();
    let joins_again = |stations: &mut Stations| {
        stations.answered(OURS, &of_network(0x10, STATION, 2, &[1, 0, 0, 0, 1, 0xc0]), at(SECOND));
    };
    stations.kick(OURS, STATION, at(SECOND)).unwrap();
    stations.fed(&departure(OURS, STATION), at(SECOND));
    (0..99).for_each(|_| joins_again(&mut stations));
    stations.fed(&frame_of([0xa0, 0], OURS, STATION, OURS, &[8, 0]), at(SECOND));
    joins_again(&mut stations);
    assert!(stations.take_events().len() < 60);
    let joined = samples::of_network(OTHER, STATION, 0x10, &[1, 0, 0, 0, 7, 0xc0]);
    stations.answered(OTHER, &joined, at(SECOND));
    let claim = update(STATION);
    assert_eq!(stations.wired(1, &claim, true, at(3 * SECOND)), Some(Errand::Say(departure(OURS, STATION))));
    let ours = Tally { joins: 101, said: 1, kicked: 1, moved_out: 1, ..Tally::default() };
    assert_eq!(stations.tallies, [Tally { joins: 1, moved_in: 1, ..Tally::default() }, ours]);
}

/// Who is silent, and who makes room in a network that is nearly full.
#[test]
fn who_is_forgotten_is_counted_by_why() {
    let mut stations = joined();
    stations.answered(OURS, &of_network(0xb0, STRANGER, 3, &[0, 0, 2, 0, 0, 0]), Instant::START);
    (4..10).for_each(|number| {
        behind_beacon(&mut stations, number, at(u32::from(number) * SECOND));
    });
    assert_eq!(stations.tallies[1], Tally { joins: 1, silent: 1, unassociated: 1, ..Tally::default() });
}

/// As many events as lines of the log: what is left out there is one event with their number.
#[test]
fn a_flood_of_a_network_is_one_event_more() {
    let mut stations = joined();
    stations.take_events();
    let refused = of_network(0xb0, STRANGER, 3, &[0, 0, 2, 0, 13, 0]);
    (0..60).for_each(|_| drop(stations.answered(OURS, &refused, at(SECOND))));
    assert_eq!(stations.take_events().len(), 50);
    stations.look(at(3 * SECOND));
    let happened: Vec<Happened> = stations.take_events().into_iter().map(|(_, _, happened)| happened).collect();
    assert_eq!(happened, [Happened::LeftOut { count: 10 }]);
}

#[test]
fn all_are_told_behind_the_next_beacon() {
    let mut stations = joined();
    stations.dismiss(&[0, 1]);
    let frame = deauthentication(OURS, Address::BROADCAST, LEAVING, 2051);
    assert_eq!(stations.answered(OURS, &beacon(3), Instant::START), [Errand::Send { place: 1, frame, retries: 0 }]);
    assert!(stations.dismisses());
    assert_eq!(stations.answered(OURS, &beacon(4), Instant::START), []);
    assert_eq!(stations.answered(OTHER, &beacon(3), Instant::START).len(), 1);
    assert!(!stations.dismisses());
}

#[test]
fn what_happened_is_a_sentence() {
    for (news, wanted) in [
        (News::Joins { aid: 3, listen: 5 }, "joins 02:00:00:00:01:01: association identifier 3, listen interval 5"),
        (News::Leaves { reason: 3 }, "leaves 02:00:00:00:01:01: reason 3"),
        (
            News::Refused { status: 17, is_association: true },
            "was refused by 02:00:00:00:01:01: association, status 17",
        ),
        (News::SentAway { reason: 7 }, "was sent away by 02:00:00:00:01:01: reason 7"),
        (News::Forgotten(Forgotten::Silent(61 * SECOND)), "was forgotten by 02:00:00:00:01:01: silent for 61 seconds"),
        (
            News::Forgotten(Forgotten::Unassociated(3 * SECOND)),
            "was forgotten by 02:00:00:00:01:01, which is nearly full: authenticated for 3 seconds and not \
             associated",
        ),
        (News::Forgotten(Forgotten::Kicked), "was forgotten by 02:00:00:00:01:01: kicked"),
    ] {
        assert_eq!(sentence(STATION, OURS, news).1, format!("02:aa:00:00:00:01 {wanted}"));
    }
    let long = sentence(STATION, OURS, News::DozesTooLong { beacons: 6, listen: 5 });
    assert_eq!(long.0, Level::Notice);
    assert!(long.1.contains("dozes too long") && long.1.ends_with("its listen interval is 5"), "{}", long.1);
}

/// What was to be said to the program may have been dropped: then the station goes on, and a person can send it away
/// again.
#[test]
fn who_was_kicked_and_is_still_there_can_be_kicked_again() {
    let mut stations = Stations::new(&[network(OTHER), network(OURS)], None);
    stations.answered(OURS, &of_network(0xb0, STATION, 1, &[0, 0, 2, 0, 0, 0]), Instant::START);
    stations.answered(OURS, &of_network(0x10, STATION, 2, &[1, 0, 0, 0, 1, 0xc0]), Instant::START);
    let first = stations.kick(OURS, STATION, at(SECOND)).unwrap();
    stations.fed(&samples::data(), at(2 * SECOND));
    assert_eq!(stations.look(at(1000 * SECOND)), []);
    assert!(stations.kick(OURS, STATION, at(2 * SECOND)).is_err());
    stations.take_events();
    assert_eq!(stations.kick(OURS, STATION, at(1001 * SECOND)), Ok(first));
    // That it was forgotten is told once.
    assert_eq!(stations.take_events(), []);
    stations.fed(&departure(OURS, STATION), at(1002 * SECOND));
    assert!(stations.kick(OURS, STATION, at(1003 * SECOND)).is_err());
}
