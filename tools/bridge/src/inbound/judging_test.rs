use super::*;
use crate::testing::samples::{data, made_up, radiotap, Unit, OTHER, OURS, STATION, STRANGER};

const OTHER_STATION: Address = Address::of([2, 0xaa, 0, 0, 0, 2]);

fn air() -> Judge {
    Judge::new([OURS, OTHER])
}

/// What is done with a frame that was heard with a plain header.
fn judge(air: &mut Judge, frame: &[u8]) -> Result<Vec<u8>, LeftOut> {
    match air.judge(&radiotap(frame, 1 << 1, &[0]), false, false) {
        Judged::GoesOn(found, _) => Ok(found.octets().to_vec()),
        Judged::LeftOut(reason) => Err(reason),
        Judged::Neighbours(_) => Err(LeftOut::Neighbours),
        Judged::Sent(..) => Err(LeftOut::Sent),
    }
}

fn once(frame: &[u8]) -> Result<Vec<u8>, LeftOut> {
    judge(&mut air(), frame)
}

#[test]
fn frames_to_our_networks_and_to_all_go_on() {
    assert_eq!(once(&data()), Ok(data()));
    let probe = Unit { receiver: Address::BROADCAST, control: [0x40, 0], ..Unit::default() }.octets();
    assert_eq!(once(&probe), Ok(probe));
}

#[test]
fn of_control_frames_polls_alone_go_on() {
    let poll = [&[0xa4, 0, 1, 0xc0][..], OURS.octets(), STATION.octets()].concat();
    assert_eq!(once(&poll), Ok(poll));
    assert_eq!(once(&[&[0xd4, 0, 0, 0][..], OURS.octets()].concat()), Err(LeftOut::Controls));
    assert_eq!(once(&[&[0xb4, 0, 0, 0][..], OURS.octets(), STATION.octets()].concat()), Err(LeftOut::Controls));
}

#[test]
fn others_are_left_out_by_name() {
    let group = Address::of([1, 0, 0x5e, 0, 0, 1]);
    assert_eq!(once(&Unit { receiver: STRANGER, ..Unit::default() }.octets()), Err(LeftOut::Others));
    assert_eq!(once(&Unit { receiver: group, ..Unit::default() }.octets()), Err(LeftOut::Others));
    assert_eq!(once(&Unit { transmitter: OTHER, ..Unit::default() }.octets()), Err(LeftOut::Own));
    assert_eq!(once(&data()[..9]), Err(LeftOut::Short));
    assert_eq!(once(&Unit { body: vec![0; 4073], ..Unit::default() }.octets()), Err(LeftOut::Long));
    assert!(once(&Unit { body: vec![0; 4072], ..Unit::default() }.octets()).is_ok());
    assert_eq!(air().judge(&[0; 3], false, false), Judged::LeftOut(LeftOut::NoRadiotap));
    assert_eq!(air().judge(&radiotap(&data(), 1 << 1, &[0x40]), false, false), Judged::LeftOut(LeftOut::Damaged));
    assert_eq!(air().judge(&radiotap(&data(), 1 << 1, &[0]), false, true), Judged::LeftOut(LeftOut::Long));
}

#[test]
fn what_this_radio_sent_is_told_as_such() {
    assert_eq!(air().judge(&radiotap(&data(), 1 << 1, &[0]), true, false), Judged::LeftOut(LeftOut::Sent));
    let shown = radiotap(&data(), 1 << 1 | 1 << 15, &[0, 0, 0, 0]);
    let outcome = Outcome { is_acknowledged: true, retries: 0, rate: None };
    assert_eq!(air().judge(&shown, false, false), Judged::Sent(&data(), outcome));
}

fn goes_on(air: &mut Judge, unit: Unit) -> bool {
    judge(air, &unit.octets()).is_ok()
}

fn again() -> Unit {
    Unit { control: [0x08, 0x09], ..Unit::default() }
}

#[test]
fn a_retry_of_the_last_goes_on_no_more() {
    let air = &mut air();
    assert!(goes_on(air, Unit::default()));
    assert!(!goes_on(air, again()));
    assert!(!goes_on(air, again()));
}

#[test]
fn the_same_number_without_retry_is_no_repetition() {
    let air = &mut air();
    assert!(goes_on(air, Unit::default()));
    assert!(goes_on(air, Unit::default()));
}

#[test]
fn a_retry_of_what_was_never_heard_goes_on_once() {
    let air = &mut air();
    assert!(goes_on(air, again()));
    assert!(!goes_on(air, again()));
}

#[test]
fn only_the_last_number_counts() {
    let air = &mut air();
    assert!(goes_on(air, Unit { sequence: 0x10, ..Unit::default() }));
    assert!(goes_on(air, Unit { sequence: 0x20, ..Unit::default() }));
    assert!(goes_on(air, Unit { sequence: 0x10, ..again() }));
}

#[test]
fn the_fragment_s_number_is_part_of_it() {
    let air = &mut air();
    assert!(goes_on(air, Unit { sequence: 0x10, ..Unit::default() }));
    assert!(goes_on(air, Unit { sequence: 0x11, ..again() }));
}

#[test]
fn each_sender_to_each_network_has_its_own_numbers() {
    let air = &mut air();
    assert!(goes_on(air, Unit { control: [0xb0, 0], ..Unit::default() }));
    assert!(!goes_on(air, Unit { control: [0xb0, 8], ..Unit::default() }));
    assert!(goes_on(air, Unit { control: [0xb0, 8], transmitter: STRANGER, ..Unit::default() }));
    assert!(goes_on(air, Unit { control: [0xb0, 8], receiver: OTHER, ..Unit::default() }));
}

#[test]
fn a_management_frame_between_two_tries_of_data_lets_no_second_one_pass_nor_data_one_of_management() {
    let air = &mut air();
    let asks = |control| Unit { control: [0xb0, control], sequence: 0x770, ..Unit::default() };
    assert!(goes_on(air, Unit::default()) && goes_on(air, asks(0)));
    assert!(!goes_on(air, again()) && !goes_on(air, asks(8)));
    assert!(!goes_on(air, Unit { control: [0x48, 9], ..Unit::default() }), "Null frames are data");
    assert!(goes_on(air, Unit { sequence: 0x770, ..again() }), "the number of a management frame isn't one of data");
}

#[test]
fn neither_frames_to_all_nor_polls_nor_short_ones_are_repeated() {
    let air = &mut air();
    for _ in 0..2 {
        assert!(goes_on(air, Unit { receiver: Address::BROADCAST, control: [0x40, 8], ..Unit::default() }));
        let poll = [&[0xa4, 8, 1, 0xc0][..], OURS.octets(), STATION.octets(), &[0; 8]].concat();
        assert!(judge(air, &poll).is_ok());
        assert!(judge(air, &data()[..20]).is_ok());
    }
}

#[test]
fn of_many_senders_those_heard_last_are_known() {
    let air = &mut air();
    for number in 0..MOST_SENDERS + 10 {
        goes_on(air, Unit { transmitter: made_up(number), ..Unit::default() });
    }
    assert_eq!(air.last[0].numbers.len(), MOST_SENDERS);
    assert!(!goes_on(air, Unit { transmitter: made_up(MOST_SENDERS + 9), ..again() }));
    assert!(goes_on(air, Unit { transmitter: made_up(0), ..again() }));
}

#[test]
fn senders_to_one_network_push_none_out_of_another() {
    let air = &mut air();
    assert!(goes_on(air, Unit { receiver: OTHER, transmitter: STRANGER, ..Unit::default() }));
    for number in 0..2 * MOST_SENDERS {
        goes_on(air, Unit { transmitter: made_up(number), ..Unit::default() });
    }
    assert!(!goes_on(air, Unit { receiver: OTHER, transmitter: STRANGER, ..again() }));
    assert_eq!(air.last[1].numbers.len(), 1);
}

#[test]
fn the_order_of_senders_does_not_grow_with_their_frames() {
    let air = &mut air();
    goes_on(air, Unit { transmitter: STRANGER, sequence: 0x30, ..Unit::default() });
    for number in 0..20 * MOST_SENDERS {
        goes_on(air, Unit { sequence: number as u16, ..Unit::default() });
    }
    assert_eq!(air.last[0].order.len(), 2);
    for number in 0..20 * MOST_SENDERS {
        let transmitter = if number % 2 == 0 { OTHER_STATION } else { STATION };
        goes_on(air, Unit { transmitter, sequence: number as u16, ..Unit::default() });
    }
    assert!(air.last[0].order.len() <= 4 * MOST_SENDERS);
    assert!(!goes_on(air, Unit { transmitter: STRANGER, sequence: 0x30, ..again() }));
}

#[test]
fn of_a_wire_all_goes_on_but_tags_long_frames_and_what_this_machine_sent() {
    let frame = [&[0xff; 6][..], STRANGER.octets(), &[8, 6], &[0; 28]].concat();
    assert_eq!(judge_wired(&frame, false, false, false), Ok(&frame[..]));
    assert_eq!(judge_wired(&[], false, false, false), Ok(&[][..]));
    assert_eq!(judge_wired(&frame, true, false, false), Err(LeftOut::Sent));
    assert_eq!(judge_wired(&frame, false, true, false), Err(LeftOut::Tagged));
    assert_eq!(judge_wired(&frame, false, false, true), Err(LeftOut::LongForRadio));
    assert_eq!(judge_wired(&[0; MOST_WIRED], false, false, false), Ok(&[0; MOST_WIRED][..]));
    assert_eq!(judge_wired(&[0; MOST_WIRED + 1], false, false, false), Err(LeftOut::LongForRadio));
    for tag in [[0x81, 0, 0, 7], [0x88, 0xa8, 0, 7]] {
        let tagged = [&frame[..12], &tag, &frame[12..]].concat();
        assert_eq!(judge_wired(&tagged, false, false, false), Err(LeftOut::Tagged));
    }
}

/// Linux refuses a packet of more than 2,318 octets at a monitor interface: what the wire may bring just fits.
#[test]
fn the_longest_frame_of_a_wire_makes_the_longest_packet_of_a_radio() {
    assert_eq!(MOST_WIRED, 2284);
    assert_eq!(SENDING_LEN + 24 + 8 + (MOST_WIRED - 14), 2304 + 14);
    assert_eq!(LeftOut::LongForRadio.to_string(), "of more than 2284 octets, too long for a radio");
}
