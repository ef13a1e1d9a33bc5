//! A seeded mutator over what the bridge reads of others: headers of radiotap, frames, and the program's answers. It
//! tries a million inputs, each a good one that was changed in some places, cut, or joined to another.

use crate::apctl::protocol::{Answer, Answers};
use crate::formats::frames::{is_tagged, Address, Frame, BEACON, MOST};
use crate::formats::radiotap::{captured, Outcome, Reception, SENDING_LEN};
use crate::inbound::filter::{monitor_filter, Drawn, Shown};
use crate::inbound::judging::{judge_wired, Judge, Judged};
use crate::network::Network;
use crate::os::clock::{Duration, Instant};
use crate::os::interfaces::Interfaces;
use crate::outbound::air::Transmitter;
use crate::outbound::monitor::{self, MonitorSender};
use crate::stations::{Errand, Stations};
use crate::testing::samples::{data, network, radiotap, Recorder, Seeded, Unit, OTHER, OURS, STATION};

const INPUTS: usize = 1_000_000;

/// Good inputs: packets of a monitor interface.
fn packets() -> Vec<Vec<u8>> {
    let longer = Unit { body: vec![7; 1400], ..Unit::default() }.octets();
    let poll = [&[0xa4, 0, 1, 0xc0][..], OURS.octets(), STATION.octets()].concat();
    let words = [&(1u32 << 31 | 0x802f).to_le_bytes()[..], &(1u32 << 31).to_le_bytes(), &[0; 4], &[0; 40]].concat();
    let two = [&[0, 0, 4 + words.len() as u8, 0][..], &words, &data()].concat();
    vec![
        radiotap(&data(), 1 << 1, &[0]),
        radiotap(&[data(), vec![0; 4]].concat(), 1 << 1, &[0x10]),
        radiotap(&longer, 0x4fff, &[0; 64]),
        radiotap(&poll, 0x402e, &[0, 2, 0, 0, 0x85, 9, 0xa0, 0, 0xce, 1, 0, 0]),
        radiotap(&data(), 1 << 15 | 1 << 17 | 1 << 2, &[2, 0, 1, 0, 7]),
        two,
    ]
}

/// Good inputs: answers of the program.
fn records() -> Vec<Vec<u8>> {
    [
        &b"O\0\0\0\0\0\x02\0\0"[..],
        b"A\x02\0\0\0\x01\x01\x04\0\x80\0\0\0",
        b"W\x02\0\0\0\x01\x02\0\0",
        b"N\0\0\0\0\0\0\x04\0end\n",
    ]
    .map(<[u8]>::to_vec)
    .to_vec()
}

/// A good input, changed.
fn mutated(seeded: &mut Seeded, good: &[Vec<u8>]) -> Vec<u8> {
    let mut octets = good[seeded.below(good.len())].clone();
    for _ in 0..seeded.below(6) {
        let place = seeded.below(octets.len());
        match seeded.below(6) {
            0 => octets.truncate(place),
            1 => octets.insert(place, seeded.number() as u8),
            2 => octets.extend(good[seeded.below(good.len())].clone()),
            3 if !octets.is_empty() => {
                octets.remove(place);
            }
            4 if !octets.is_empty() => octets[place] ^= 1 << seeded.below(8),
            _ if !octets.is_empty() => octets[place] = [0, 1, 0x7f, 0x80, 0xff, b'\n', b' '][seeded.below(7)],
            _ => {}
        }
    }
    octets
}

/// What is judged of a packet has to be a part of it that the program may be given.
#[test]
fn packets_of_a_monitor_interface() {
    let (mut seeded, good) = (Seeded(1), packets());
    let mut air = Judge::new([OURS, OTHER]);
    let mut kinds = [0u32; 3];
    for _ in 0..INPUTS {
        let packet = mutated(&mut seeded, &good);
        if let Some(found) = captured(&packet) {
            assert!(packet.windows(found.frame.len().max(1)).any(|part| part == found.frame) || found.frame.is_empty());
        }
        let is_cut = seeded.below(9) == 0;
        match air.judge(&packet, seeded.below(9) == 0, is_cut) {
            Judged::GoesOn(frame, _) => {
                kinds[0] += 1;
                assert!(frame.octets().len() <= MOST && !is_cut && frame.transmitter() != Some(OURS));
                assert!([OURS, OTHER, Address::BROADCAST].contains(&frame.receiver()));
            }
            Judged::Sent(frame, _) => {
                kinds[1] += 1;
                assert!(frame.len() < packet.len());
            }
            Judged::LeftOut(_) | Judged::Neighbours(_) => kinds[2] += 1,
        }
    }
    assert!(kinds.iter().all(|number| *number > 10_000), "{kinds:?}");
}

/// Frames of any octets, and of a wire.
#[test]
fn frames() {
    let (mut seeded, good) = (Seeded(2), vec![data(), Unit { body: vec![0; 90], ..Unit::default() }.octets()]);
    for _ in 0..INPUTS {
        let octets = mutated(&mut seeded, &good);
        if let Some(frame) = Frame::of(&octets) {
            let _ = (frame.frame_type(), frame.retry(), frame.is_null(), frame.is_ps_poll(), frame.sequence_control());
            assert_eq!(frame.transmitter().is_some(), octets.len() >= 16);
        }
        if let Ok(found) = judge_wired(&octets, false, seeded.below(5) == 0, false) {
            assert!(found == octets && !is_tagged(&octets));
        }
    }
}

/// Answers that are cut anywhere are those of the whole, and one that isn't known ends them alike.
#[test]
fn answers_of_the_program() {
    let (mut seeded, mut known, mut unknown) = (Seeded(3), 0u32, 0u32);
    let good = records();
    for _ in 0..INPUTS {
        let octets = mutated(&mut seeded, &good);
        let whole = read(&octets, octets.len().max(1));
        assert_eq!(whole, read(&octets, 1 + seeded.below(octets.len() + 1)));
        known += whole.0.len() as u32;
        unknown += u32::from(whole.1);
    }
    assert!(known > 200_000 && unknown > 100_000, "{known} {unknown}");
}

/// The answers of octets that come in pieces of this length, and whether one of them isn't known.
fn read(octets: &[u8], length: usize) -> (Vec<Answer>, bool) {
    let mut answers = Answers::default();
    let mut found = Vec::new();
    for piece in octets.chunks(length) {
        answers.take(piece);
        loop {
            match answers.next() {
                Ok(Some(answer)) => found.push(answer),
                Ok(None) => break,
                Err(_) => return (found, true),
            }
        }
    }
    (found, false)
}

/// Whatever is heard, sent and told, what goes on the air is what was sent, perhaps once more, or is counted as not
/// sent, and none waits for ever.
#[test]
fn the_way_to_the_air() {
    let body = [&[0; 4][..], &[1, 4, 0x82, 0x84, 0x0b, 12, 50, 1, 108]].concat();
    let to = |control: u8, receiver: Address, transmitter: Address| {
        Unit { control: [control, 0], receiver, transmitter, body: vec![0; 6], ..Unit::default() }.octets()
    };
    let good = vec![
        Unit { control: [0, 0], body, ..Unit::default() }.octets(),
        to(0x10, STATION, OURS),
        to(0x08, STATION, OURS),
        to(0x08, Address::BROADCAST, OTHER),
        to(0x50, STATION, OTHER),
    ];
    let networks = [Network { rates: vec![0x82, 0x84, 12, 108], ..network(OURS) }, network(OTHER)];
    let (mut seeded, mut time) = (Seeded(5), Instant::START);
    let mut air = Transmitter::new(&networks);
    let mut interfaces = Interfaces::new(Recorder::default(), Recorder::default(), vec![]);
    let mut sender = MonitorSender::default();
    let (mut given, mut again, mut beacons) = (0u64, 0u64, 0u64);
    for _ in 0..INPUTS / 2 {
        let mut octets = mutated(&mut seeded, &good);
        let place = seeded.below(2);
        time += Duration::from_nanos(seeded.below(1 << 21) as u64);
        match seeded.below(4) {
            0 => {
                if let Some(frame) = Frame::of(&octets) {
                    air.heard(place, frame);
                }
            }
            1 => {
                octets.truncate(MOST);
                let is_beacon = octets.first() == Some(&BEACON);
                *(if is_beacon { &mut beacons } else { &mut given }) += 1;
                air.send(place, octets, time);
            }
            _ => {
                let rate = [None, Some(2), Some(12), Some(108)][seeded.below(4)];
                let (is_acknowledged, retries) = (seeded.below(2) == 0, seeded.number() as u8);
                air.reported(place, &octets, Outcome { is_acknowledged, retries, rate }, time);
            }
        }
        monitor::expire(&mut air, &interfaces, time);
        if seeded.below(10) == 0 {
            air.reports_read();
        }
        interfaces.monitor.port.unsent = [0, 100][seeded.below(2)];
        sender.flush_beacons(&mut air, &mut interfaces);
        sender.flush(&mut air, &mut interfaces, time, Instant::NEVER);
        let sent = &mut interfaces.monitor.port.sent;
        again +=
            sent.drain(..).filter(|packet| packet.get(SENDING_LEN + 1).map_or(false, |f| f & 0x08 != 0)).count() as u64;
    }
    air.end();
    interfaces.monitor.port.unsent = 0;
    while let Some(due) = air.due() {
        monitor::expire(&mut air, &interfaces, due);
        sender.flush(&mut air, &mut interfaces, due, Instant::NEVER);
    }
    let unsent: u64 = air.accounts().iter().flat_map(|account| account.unsent.values()).sum();
    assert_eq!(air.sent - beacons + unsent, given + air.unacknowledged().again);
    assert!(again > 1000 && monitor::is_idle(&air, &interfaces), "{again}");
    assert!(air.accounts().iter().all(|account| account.waiting == 0));
}

/// Whatever is heard, answered and told, the bridge sends frames of its networks to stations, and says departures.
#[test]
fn what_the_bridge_does_by_itself() {
    let to = |control: u8, receiver: Address, body: &[u8]| {
        Unit { control: [control, 0], receiver, transmitter: OURS, body: body.to_vec(), ..Unit::default() }.octets()
    };
    let tim = [&[0; 12][..], &[0, 1, 97, 5, 4, 0, 1, 0, 6]].concat();
    let good = vec![
        to(0xb0, STATION, &[0, 0, 2, 0, 0, 0]),
        to(0x10, STATION, &[1, 0, 0, 0, 1, 0xc0]),
        to(0x80, Address::BROADCAST, &tim),
        to(0xc0, STATION, &[7, 0]),
        to(0x08, STATION, &[1; 9]),
        data(),
        Unit { control: [0xc0, 0], body: vec![3, 0], ..Unit::default() }.octets(),
        Unit { control: [0, 0], body: vec![1, 0, 5, 0], ..Unit::default() }.octets(),
    ];
    let (mut seeded, mut time) = (Seeded(6), Instant::START);
    let networks = [network(OTHER), Network { max_known: 2, ..network(OURS) }];
    let mut stations = Stations::quiet(&networks, Some(Duration::from_nanos(1 << 30)));
    let (mut sent, mut said) = (0u32, 0u32);
    for _ in 0..INPUTS / 2 {
        let octets = mutated(&mut seeded, &good);
        time += Duration::from_nanos(seeded.below(1 << 27) as u64);
        match (seeded.below(4), Frame::of(&octets)) {
            (0, Some(frame)) => {
                let reception = captured(&octets).map_or(Reception::default(), |found| found.reception);
                stations.table.heard(frame, reception, time);
            }
            (1, _) => stations.fed(&octets, time),
            (2, _) => {
                let is_acknowledged = seeded.below(2) == 0;
                stations.reported(&octets, Outcome { is_acknowledged, retries: 0, rate: None }, time);
            }
            _ => {
                let answered = stations.answered(OURS, &octets, time);
                let looked = stations.look(time).into_iter().chain(stations.look_who_moved(time));
                for errand in answered.into_iter().chain(looked.collect::<Vec<_>>()) {
                    match errand {
                        Errand::Send { place, frame, .. } => {
                            sent += 1;
                            assert_eq!((place, Address::at(&frame, 10)), (1, Some(OURS)));
                        }
                        Errand::Ask { place, frame } => {
                            sent += 1;
                            assert_eq!((place, frame.len(), Address::at(&frame, 6)), (1, 17, Some(OURS)));
                        }
                        Errand::Say(frame) => {
                            said += 1;
                            assert_eq!((frame[0], frame.len(), Address::at(&frame, 4)), (0xc0, 26, Some(OURS)));
                            stations.fed(&frame, time);
                        }
                    }
                }
            }
        }
    }
    assert!(sent > 1000 && said > 100, "{sent} {said}");
}

/// The filter is made of steps that the kernel takes, for any networks.
#[test]
fn filters() {
    for number in 0..=16 {
        let networks = vec![OURS; number];
        for (shown, neighbours) in [(Shown::All, Drawn::Each), (Shown::Outcomes, Drawn::ONE_IN_HUNDRED)] {
            let filter = monitor_filter(&networks, shown, neighbours);
            for (place, step) in filter.iter().enumerate() {
                let furthest = place + 1 + usize::from(step.jt.max(step.jf));
                assert!(furthest <= filter.len(), "{place}");
            }
        }
    }
}
