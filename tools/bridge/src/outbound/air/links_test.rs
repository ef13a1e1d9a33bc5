use super::*;
use crate::formats::frames::PROBE_REQUEST;
use crate::outbound::air::station_requests::{requested_rates, MOST_JOINING, MOST_PROBING};
use crate::testing::samples::{frame_of, made_up, network, OTHER, OURS, STATION, STRANGER};

const RATES: [u8; 12] = [0x82, 0x84, 0x8b, 0x96, 12, 18, 24, 36, 48, 72, 96, 108];

fn frame(control: u8, to: Address, from: Address, body: &[u8]) -> Vec<u8> {
    frame_of([control, 0], to, from, OURS, body)
}

fn request(control: u8, from: Address) -> Vec<u8> {
    let fixed = if control == 0 { 4 } else { 10 };
    let elements = [&[0, 1, b'a', 1, 8][..], &RATES[..8], &[50, 4], &RATES[8..]].concat();
    frame(control, OURS, from, &[vec![0; fixed], elements].concat())
}

fn links() -> Links {
    let network = Network { rates: RATES.to_vec(), ..network(OURS) };
    Links::new(&[network.clone(), Network { bssid: OTHER, ..network }])
}

fn join(links: &mut Links, place: Place, from: Address) {
    links.hear(place, Frame::of(&request(0, from)).unwrap());
    links.join(place, from);
}

#[test]
fn a_request_is_read_at_each_length_without_harm() {
    let whole = request(0x20, STATION);
    for cut in 10..=whole.len() {
        let found = requested_rates(Frame::of(&whole[..cut]).unwrap());
        assert_eq!(found == Some(RATES.to_vec()), cut == whole.len(), "{cut}");
    }
}

/// Of stations that nothing was sent to the one of the lowest address is forgotten, by whatever seeds maps hash.
#[test]
fn which_station_is_forgotten_is_no_matter_of_chance() {
    let mut links = links();
    (0..=MOST_STATIONS).rev().for_each(|number| join(&mut links, 0, made_up(number)));
    let known = (0..=MOST_STATIONS).map(|number| links.knows(0, made_up(number)));
    assert_eq!(known.filter(|is_known| !is_known).count(), 1);
    assert!(!links.knows(0, made_up(1)) && links.knows(0, made_up(0)));
}

/// A flood in one network pushes out that network's own.
#[test]
fn no_more_stations_of_a_network_are_known_than_there_is_room_for() {
    let mut links = links();
    join(&mut links, 1, STATION);
    (0..=MOST_STATIONS).for_each(|number| {
        join(&mut links, 0, made_up(number));
        let unit = Rc::new(frame(0x08, made_up(number), OURS, &[]));
        links.choose(0, made_up(number), &unit, Beside { is_busy: false, others_wait: false }, Instant::START);
    });
    assert_eq!(links.networks[0].links.len(), MOST_STATIONS);
    assert!(!links.knows(0, made_up(0)) && links.knows(0, made_up(1)));
    assert!(links.knows(1, STATION) && !links.knows(0, STATION));
}

#[test]
fn requests_that_await_an_answer_are_bounded_by_network() {
    let mut links = links();
    links.hear(1, Frame::of(&request(0, STATION)).unwrap());
    (0..=MOST_JOINING).for_each(|number| links.hear(0, Frame::of(&request(0, made_up(number))).unwrap()));
    for (place, from, is_known) in [(0, made_up(0), false), (0, made_up(1), true), (1, STATION, true)] {
        links.join(place, from);
        assert_eq!(links.knows(place, from), is_known);
    }
}

#[test]
fn who_asked_for_a_network_alone_is_answered_once() {
    let mut links = links();
    let probe = frame(PROBE_REQUEST, OURS, STATION, &[0, 0]);
    (0..2).for_each(|_| links.hear(0, Frame::of(&probe).unwrap()));
    assert!(!links.answers(1, STATION));
    assert!(links.answers(0, STATION) && !links.answers(0, STATION));
    (0..=MOST_PROBING).for_each(|number| {
        links.hear(0, Frame::of(&frame(PROBE_REQUEST, OURS, made_up(number), &[])).unwrap());
    });
    assert!(!links.answers(0, made_up(0)) && links.answers(0, made_up(1)));
}

#[test]
fn what_is_told_of_strangers_changes_nothing() {
    let mut links = links();
    join(&mut links, 0, STATION);
    let outcome = Outcome { is_acknowledged: false, retries: 7, rate: Some(2) };
    let stranger = frame(0x08, STRANGER, OURS, &[]);
    for cut in 0..=stranger.len() {
        let told = Reported { outcome, listens: true, goes_again: false };
        assert_eq!(links.reported(0, STRANGER, &stranger[..cut], told, Instant::from_nanos(1)), Next::Nothing);
    }
    assert_eq!((links.unacknowledged.as_slice(), links.due()), (&[Unacknowledged::default(); 2][..], None));
}
