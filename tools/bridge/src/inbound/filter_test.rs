use super::*;
use crate::inbound::judging::{Judge, Judged, LeftOut};
use crate::testing::samples::{data, radiotap, Seeded, Unit, OTHER, OURS, STRANGER};

/// What the kernel does with a filter: how many octets of the packet go on.
fn kept(filter: &[sock_filter], packet: &[u8]) -> u32 {
    kept_of(filter, packet, 0)
}

/// The same if the kernel draws this number.
fn kept_of(filter: &[sock_filter], packet: &[u8], drawn: u32) -> u32 {
    let (mut a, mut x, mut place) = (0u32, 0u32, 0);
    loop {
        let step = filter[place];
        place += 1;
        let load = |from: u32, length: usize| {
            let from = from as usize;
            packet
                .get(from..from.checked_add(length)?)
                .map(|found| found.iter().fold(0, |sum, octet| sum << 8 | u32::from(*octet)))
        };
        let loaded = match step.code {
            LOAD_LENGTH => Some(packet.len() as u32),
            LOAD_FOUR if step.k == NUMBER_DRAWN_AT => Some(drawn),
            LOAD_OCTET => load(step.k, 1),
            LOAD_OCTET_AT_X => load(x.wrapping_add(step.k), 1),
            LOAD_TWO_AT_X => load(x.wrapping_add(step.k), 2),
            LOAD_FOUR_AT_X => load(x.wrapping_add(step.k), 4),
            AND => Some(a & step.k),
            ADD => Some(a.wrapping_add(step.k)),
            ADD_X => Some(a.wrapping_add(x)),
            SHIFT_LEFT => Some(a << step.k),
            FROM_X => Some(x),
            _ => Some(a),
        };
        match loaded {
            Some(found) => a = found,
            None => return 0,
        }
        let is_true = match step.code {
            INTO_X => {
                x = a;
                continue;
            }
            RETURN => return step.k,
            IF_EQUAL => a == step.k,
            IF_AT_LEAST => a >= step.k,
            IF_AT_LEAST_X => a >= x,
            IF_ANY_BIT => a & step.k != 0,
            _ => continue,
        };
        place += usize::from(if is_true { step.jt } else { step.jf });
    }
}

fn heard(frame: &[u8]) -> Vec<u8> {
    radiotap(frame, 1 << 1, &[0])
}

fn shown(frame: &[u8]) -> Vec<u8> {
    radiotap(frame, 1 << 1 | 1 << 15, &[0, 0, 0, 0])
}

#[test]
fn what_this_radio_sent_comes_as_long_as_it_is_asked_for() {
    let unit = Unit { transmitter: OURS, receiver: STRANGER, ..Unit::default() }.octets();
    let beacon =
        Unit { control: [BEACON, 0], transmitter: OURS, receiver: Address::BROADCAST, ..Unit::default() }.octets();
    for (asked, of_unit, of_beacon) in
        [(Shown::All, ALL, ALL), (Shown::Outcomes, OUTCOME_LEN, OUTCOME_LEN), (Shown::Failures, OUTCOME_LEN, NONE)]
    {
        let filter = monitor_filter(&[OURS], asked, Drawn::Each);
        assert_eq!((kept(&filter, &shown(&unit)), kept(&filter, &shown(&beacon))), (of_unit, of_beacon), "{asked:?}");
    }
}

/// A frame that was sent comes by one of the two sockets, whatever its header names; by that which wakes nobody
/// if it was acknowledged and the header is as mac80211 writes it.
#[test]
fn outcomes_come_by_one_socket_or_the_other() {
    let (waking, quiet) = (monitor_filter(&[OURS], Shown::Failures, Drawn::Each), acknowledged_filter(Drawn::Below(0)));
    let unit = Unit { transmitter: OURS, receiver: STRANGER, ..Unit::default() }.octets();
    let both = |packet: &[u8]| (kept(&waking, packet), kept(&quiet, packet));
    let sent = |present: u32, fields: &[u8]| both(&radiotap(&unit, present, fields));
    let (wakes, is_quiet) = ((OUTCOME_LEN, NONE), (NONE, OUTCOME_LEN));
    assert_eq!(sent(1 << 2 | 1 << 15 | 1 << 17, &[108, 0, 0, 0, 0]), is_quiet);
    assert_eq!(sent(1 << 2 | 1 << 15 | 1 << 17, &[108, 0, 1, 0, 10]), wakes);
    assert_eq!(sent(1 << 15 | 1 << 17 | 1 << 19, &[0, 0, 3, 7, 0, 7]), is_quiet);
    assert_eq!(sent(1 << 15 | 1 << 17 | 1 << 19, &[1, 0, 3, 7, 0, 7]), wakes);
    assert_eq!(sent(1 << 1 | 1 << 15, &[0, 0, 0, 0]), wakes);
    assert_eq!(sent(1 << 3 | 1 << 15, &[0; 6]), wakes);
    assert_eq!(sent(1 << 15 | 1 << 31, &[0; 8]), wakes);
    let group = Unit { transmitter: OURS, receiver: Address::BROADCAST, ..Unit::default() };
    assert_eq!(both(&radiotap(&group.octets(), 1 << 15, &[0, 0])), is_quiet);
    let beacon = Unit { control: [BEACON, 0], ..group }.octets();
    assert_eq!(both(&radiotap(&beacon, 1 << 15, &[0, 0])), (NONE, NONE));
    for packet in [&heard(&data())[..], &[], &[0; 7], &[0, 0, 8, 0, 0, 0x80, 0, 0], &shown(&unit)[..14]] {
        assert_eq!(kept(&quiet, packet), NONE, "{packet:?}");
        assert_ne!(kept(&waking, packet), NONE, "{packet:?}");
    }
    assert_eq!(kept(&nothing_filter(), &heard(&data())), NONE);
}

/// By the socket that wakes nobody, whatever the header names.
#[test]
fn of_beacons_that_were_sent_about_one_a_second_comes() {
    const INTERVAL: Duration = Duration::from_micros(102_400);
    let beacon = Unit { control: [BEACON, 0], transmitter: OURS, receiver: Address::BROADCAST, ..Unit::default() };
    let packets = [shown(&beacon.octets()), radiotap(&beacon.octets(), 1 << 15, &[1, 0])];
    for (networks, interval, wanted) in
        [(1, INTERVAL, 103), (16, INTERVAL, 7), (1, SECOND, 1000), (16, 20 * SECOND, 1000)]
    {
        let filter = acknowledged_filter(Drawn::one_a_second(networks, interval));
        for packet in &packets {
            let came = (0..1000).filter(|part| kept_of(&filter, packet, part * (u32::MAX / 1000)) == OUTCOME_LEN);
            assert_eq!(came.count(), wanted, "{networks} {interval:?}");
        }
    }
    let unit = Unit { transmitter: OURS, receiver: STRANGER, ..Unit::default() }.octets();
    let filter = acknowledged_filter(Drawn::Below(1));
    assert_eq!(kept_of(&filter, &radiotap(&unit, 1 << 15, &[0, 0]), u32::MAX), OUTCOME_LEN);
    assert_eq!(kept_of(&filter, &heard(&beacon.octets()), 0), NONE);
}

#[test]
fn what_is_cut_goes_on() {
    let filter = monitor_filter(&[OURS], Shown::Outcomes, Drawn::Each);
    let packet = heard(&data());
    (0..18).for_each(|length| assert_eq!(kept(&filter, &packet[..length]), ALL, "{length}"));
    assert_eq!(kept(&filter, &[&[1][..], &packet[1..]].concat()), ALL);
    assert_eq!(kept(&filter, &[0, 0, 0xff, 0xff, 0, 0, 0, 0, 0, 0, 0, 0]), ALL);
    assert_eq!(kept(&filter, &[0, 0, 7, 0, 0, 0, 0, 0, 0, 0, 0, 0, 0, 0, 0, 0, 0, 0, 0, 0]), ALL);
}

/// A frame for all, of this kind and of the network of this address.
fn for_all(first: u8, bssid: Address) -> Vec<u8> {
    let unit = Unit { control: [first, 0], receiver: Address::BROADCAST, transmitter: STRANGER, ..Unit::default() };
    let mut octets = unit.octets();
    octets[16..22].copy_from_slice(bssid.octets());
    octets
}

/// Of sixteen networks too: the last one's steps are as far from the first as they get.
#[test]
fn of_frames_for_all_those_come_that_networks_can_use_and_one_in_a_hundred_of_others() {
    let mut networks: Vec<Address> = (0..15).map(|number| Address::of([2, 0, 0, 0, 9, number])).collect();
    networks.push(OURS);
    let filter = monitor_filter(&networks, Shown::Outcomes, Drawn::ONE_IN_HUNDRED);
    let drawn = |frame: &[u8]| {
        let packet = heard(frame);
        (0..1000).filter(|part| kept_of(&filter, &packet, part * (u32::MAX / 1000)) == ALL).count()
    };
    for (frame, wanted) in [
        (for_all(PROBE_REQUEST, Address::BROADCAST), 1000),
        (for_all(PROBE_REQUEST, STRANGER), 1000),
        (for_all(BEACON, OURS), 1000),
        (for_all(0xc0, networks[0]), 1000),
        (for_all(BEACON, STRANGER), 11),
        (for_all(0x08, STRANGER), 11),
        (for_all(0xd0, Address::BROADCAST), 11),
    ] {
        assert_eq!(drawn(&frame), wanted, "{frame:?}");
    }
    let each = monitor_filter(&networks, Shown::Outcomes, Drawn::Each);
    assert_eq!(kept_of(&each, &heard(&for_all(BEACON, STRANGER)), u32::MAX), ALL);
    assert_eq!(drawn(&for_all(BEACON, STRANGER)[..19]), 0);
}

/// It keeps out what would be left out for the same reason, and nothing that goes on.
#[test]
fn it_agrees_with_what_is_judged() {
    let networks = [OURS, OTHER];
    let filter = monitor_filter(&networks, Shown::Outcomes, Drawn::Below(0));
    let apart = [monitor_filter(&networks, Shown::Failures, Drawn::Below(0)), acknowledged_filter(Drawn::Each)];
    let mut seeded = Seeded(3);
    let mut out = 0;
    for _ in 0..200_000 {
        let receivers = [OURS, OTHER, Address::BROADCAST, STRANGER, Address::of([2, 0, 0, 0, 1, 9])];
        let control = [seeded.number() as u8 & 0xfc, seeded.number() as u8];
        let receiver = receivers[seeded.below(receivers.len())];
        let mut unit = Unit { control, receiver, ..Unit::default() }.octets();
        unit[16..22].copy_from_slice(receivers[seeded.below(receivers.len())].octets());
        let unit = &unit[..seeded.below(unit.len() + 1)];
        let packet = if seeded.below(8) == 0 { shown(unit) } else { heard(unit) };
        let wanted = match Judge::new([OURS, OTHER]).judge(&packet, false, false) {
            Judged::LeftOut(LeftOut::Controls | LeftOut::Others) | Judged::Neighbours(_) => NONE,
            Judged::Sent(frame, _) if frame.len() < LEAST as usize => ALL,
            Judged::Sent(..) => OUTCOME_LEN,
            _ => ALL,
        };
        assert_eq!(kept(&filter, &packet), wanted, "{packet:?}");
        assert_eq!(kept(&apart[0], &packet).max(kept(&apart[1], &packet)), wanted, "{packet:?}");
        out += u32::from(wanted == NONE);
    }
    assert!(out > 50_000 && out < 195_000, "{out}");
}

#[test]
fn it_is_as_long_as_the_kernel_allows() {
    let networks = vec![OURS; 16];
    assert!(monitor_filter(&networks, Shown::Outcomes, Drawn::Each).len() < 4096);
}
