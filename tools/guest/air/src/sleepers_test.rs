//! Each rule of what a radio that dozes hears.

use super::*;

const RADIO: Radio = Radio(2);
const STATION: Address = [2, 0, 0, 0, 2, 0];
const OTHER_STATION: Address = [2, 0, 0, 0, 2, 1];
const NETWORK: Address = [2, 0, 0, 0, 1, 1];
const OTHER_NETWORK: Address = [2, 0, 0, 0, 1, 2];
const ALL: Address = [0xff; 6];
const AID: u8 = 3;

const DATA: u8 = 0x08;
const NULL: u8 = 0x48;
const TO_NETWORK: u8 = 0x01;
const FROM_NETWORK: u8 = 0x02;
const DOZES: u8 = 0x10;
const MORE: u8 = 0x20;

fn frame(control: u8, flags: u8, to: Address, from: Address) -> Vec<u8> {
    [&[control, flags, 0, 0][..], &to, &from, &[0; 8]].concat()
}

fn poll() -> Vec<u8> {
    [&[0xa4, DOZES, AID, 0xc0][..], &NETWORK, &STATION].concat()
}

/// A beacon of a network, by its TIM: the DTIM's count, the bitmap control and the first octet of the bitmap.
fn beacon(network: Address, tim: [u8; 3]) -> Vec<u8> {
    let [count, control, bits] = tim;
    [&frame(0x80, 0, ALL, network)[..], &[0; 12], &[5, 4, count, 1, control, bits]].concat()
}

const NOTHING_KEPT: [u8; 3] = [0, 0, 0];
const GROUPS: [u8; 3] = [0, 1, 0];
const KEPT: [u8; 3] = [0, 0, 1 << AID];

/// To the station, from its network.
fn unit() -> Vec<u8> {
    frame(DATA, FROM_NETWORK, STATION, NETWORK)
}

fn group_unit(flags: u8) -> Vec<u8> {
    frame(DATA, FROM_NETWORK | flags, ALL, NETWORK)
}

/// Sleepers of which one is the radio, by a Null frame that was acknowledged.
fn dozing() -> Sleepers {
    let mut sleepers = Sleepers::default();
    sleepers.set_ears(Ears::Deaf);
    sleepers.sent(RADIO, &frame(NULL, TO_NETWORK | DOZES, NETWORK, STATION), true);
    sleepers
}

fn hears(sleepers: &Sleepers) -> bool {
    sleepers.hears(RADIO, &unit())
}

/// Has the radio hear a frame, which it has to.
fn hear(sleepers: &mut Sleepers, octets: &[u8]) {
    assert!(sleepers.hears(RADIO, octets));
    sleepers.heard(RADIO, octets);
}

#[test]
fn a_radio_dozes_from_an_acknowledged_frame_that_says_so() {
    for control in [DATA, NULL, 0x88, 0xc8] {
        let says = frame(control, TO_NETWORK | DOZES, NETWORK, STATION);
        let mut sleepers = Sleepers::default();
        sleepers.set_ears(Ears::Deaf);
        sleepers.sent(RADIO, &says, false);
        assert!(hears(&sleepers), "{control:02x} wasn't acknowledged");
        sleepers.sent(RADIO, &says, true);
        assert!(!hears(&sleepers), "{control:02x}");
        assert!(sleepers.hears(Radio(1), &unit()), "another radio");
    }
}

#[test]
fn no_other_frame_lets_a_radio_doze() {
    for (control, flags) in [(DATA, FROM_NETWORK | DOZES), (DATA, DOZES), (0x40, DOZES), (0xd0, DOZES), (0xa4, DOZES)] {
        let mut sleepers = Sleepers::default();
        sleepers.set_ears(Ears::Deaf);
        sleepers.sent(RADIO, &frame(control, flags, NETWORK, STATION), true);
        assert!(hears(&sleepers), "{control:02x} {flags:02x}");
    }
}

#[test]
fn it_wakes_by_a_frame_that_says_so_heard_or_not() {
    for (control, was_acknowledged) in [(DATA, false), (DATA, true), (NULL, false), (NULL, true)] {
        let mut sleepers = dozing();
        sleepers.sent(RADIO, &frame(control, TO_NETWORK, NETWORK, STATION), was_acknowledged);
        assert!(hears(&sleepers));
    }
}

#[test]
fn it_wakes_as_it_joins_or_leaves_and_stays_asleep_by_other_management() {
    for (control, wakes) in [(0x00, true), (0x20, true), (0xa0, true), (0xb0, true), (0xc0, true), (0x40, false)] {
        let mut sleepers = dozing();
        sleepers.sent(RADIO, &frame(control, 0, NETWORK, STATION), false);
        assert_eq!(hears(&sleepers), wakes, "{control:02x}");
    }
}

#[test]
fn it_wakes_as_it_loses_its_address() {
    let mut sleepers = dozing();
    sleepers.forget(RADIO, OTHER_STATION);
    assert!(!hears(&sleepers));
    sleepers.forget(RADIO, STATION);
    assert!(hears(&sleepers));
}

#[test]
fn a_sleeper_hears_beacons_of_its_network_alone() {
    let mut sleepers = dozing();
    hear(&mut sleepers, &beacon(NETWORK, KEPT));
    assert!(!hears(&sleepers), "a bit in a beacon wakes nobody");
    assert!(!sleepers.hears(RADIO, &beacon(OTHER_NETWORK, GROUPS)));
    assert!(!sleepers.hears(RADIO, &group_unit(0)));
    assert!(!sleepers.hears(RADIO, &frame(0x50, 0, STATION, NETWORK)), "a probe response");
}

#[test]
fn a_sleeper_hears_units_for_groups_until_more_data_is_0() {
    let mut sleepers = dozing();
    hear(&mut sleepers, &beacon(NETWORK, GROUPS));
    hear(&mut sleepers, &group_unit(MORE));
    hear(&mut sleepers, &unit());
    hear(&mut sleepers, &group_unit(MORE));
    hear(&mut sleepers, &frame(DATA, FROM_NETWORK, ALL, OTHER_NETWORK));
    hear(&mut sleepers, &group_unit(0));
    assert!(!sleepers.hears(RADIO, &group_unit(0)));
}

#[test]
fn a_beacon_that_tells_of_no_units_for_groups_ends_the_wait_for_them() {
    for (tim, waits) in [(NOTHING_KEPT, false), ([1, 1, 0], false), (GROUPS, true)] {
        let mut sleepers = dozing();
        hear(&mut sleepers, &beacon(NETWORK, GROUPS));
        hear(&mut sleepers, &beacon(NETWORK, tim));
        assert_eq!(hears(&sleepers), waits, "{tim:?}");
    }
}

#[test]
fn a_poll_brings_one_frame() {
    for was_acknowledged in [false, true] {
        let mut sleepers = dozing();
        sleepers.sent(RADIO, &poll(), was_acknowledged);
        hear(&mut sleepers, &frame(DATA, FROM_NETWORK, OTHER_STATION, NETWORK));
        hear(&mut sleepers, &frame(DATA, FROM_NETWORK, STATION, OTHER_NETWORK));
        hear(&mut sleepers, &unit());
        assert!(!hears(&sleepers));
    }
}

#[test]
fn a_beacon_without_the_bit_of_who_polled_ends_its_wait() {
    for (tim, waits) in [(NOTHING_KEPT, false), ([0, 0, 1 << 4], false), (KEPT, true)] {
        let mut sleepers = dozing();
        sleepers.sent(RADIO, &poll(), true);
        hear(&mut sleepers, &beacon(NETWORK, tim));
        assert_eq!(hears(&sleepers), waits, "{tim:?}");
    }
}

#[test]
fn who_says_again_that_it_dozes_goes_on_waiting() {
    let mut sleepers = dozing();
    sleepers.sent(RADIO, &poll(), true);
    sleepers.sent(RADIO, &frame(DATA, TO_NETWORK | DOZES, NETWORK, STATION), true);
    assert!(hears(&sleepers));
}

#[test]
fn a_poll_of_who_is_awake_changes_nothing() {
    let mut sleepers = Sleepers::default();
    sleepers.set_ears(Ears::Deaf);
    sleepers.sent(RADIO, &poll(), true);
    hear(&mut sleepers, &unit());
    hear(&mut sleepers, &unit());
}

#[test]
fn by_the_word_sleepers_hear_all() {
    let mut sleepers = dozing();
    sleepers.set_ears("hear".parse().unwrap());
    assert!(hears(&sleepers));
    sleepers.set_ears("deaf".parse().unwrap());
    assert!(!hears(&sleepers));
    assert!("doze".parse::<Ears>().is_err());
}
