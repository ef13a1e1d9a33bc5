use super::*;
use crate::formats::frames::{Address, BEACON};
use crate::inbound::filter::{monitor_filter, Drawn, Shown};
use crate::os::clock::{now, wall_now, SECOND};
use crate::testing::samples::{data, radiotap, tell_not_run, Unit, OURS, STRANGER};

/// Two sockets on the loopback interface, or `None` if the machine gives none, as without root.
fn pair() -> Option<(PacketSocket, PacketSocket)> {
    match (open("lo"), open("lo")) {
        (Ok(hearing), Ok(sending)) => Some((hearing, sending)),
        _ => {
            tell_not_run("no packet socket here, which takes root");
            None
        }
    }
}

fn ethernet(mark: &[u8]) -> Vec<u8> {
    [&[0; 12][..], &[0x88, 0xb5], mark].concat()
}

/// All frames with this mark that come within a while, until so many have come.
fn heard(socket: &mut PacketSocket, mark: &[u8], most: usize) -> Vec<Vec<u8>> {
    let mut batch = Batch::new();
    let mut found = Vec::new();
    let until = now() + 2 * SECOND;
    while found.len() < most && now() < until {
        socket.receive(&mut batch).unwrap();
        for packet in batch.packets().filter(|packet| packet.octets.ends_with(mark)) {
            assert!(!packet.is_outgoing && !packet.is_cut && !packet.had_tag);
            assert!(wall_now().saturating_sub(packet.arrived.unwrap()) < SECOND);
            found.push(packet.octets.to_vec());
        }
    }
    found
}

#[test]
fn many_frames_go_and_come_in_order() {
    if let Some((mut hearing, mut sending)) = pair() {
        let frames: Vec<_> =
            (0..50u8).map(|number| ethernet(&[&[number], &b"bridge's own test"[..]].concat())).collect();
        let slices: Vec<&[u8]> = frames.iter().map(Vec::as_slice).collect();
        let mut sent = 0;
        while sent < frames.len() {
            sent += sending.send(&slices[sent..]).unwrap();
        }
        assert_eq!(heard(&mut hearing, b"bridge's own test", 50), frames);
        assert_eq!(hearing.count_dropped(), 0);
    }
}

#[test]
fn a_frame_that_is_too_long_is_an_error_and_the_first_ones_go() {
    if let Some((mut hearing, mut sending)) = pair() {
        let (good, long) = (ethernet(b"good one"), vec![0; 1 << 17]);
        assert_eq!(sending.send(&[&good, &long, &good]).unwrap(), 1);
        assert!(sending.send(&[&long]).is_err());
        assert_eq!(heard(&mut hearing, b"good one", 1).len(), 1);
    }
}

#[test]
fn a_socket_that_was_closed_is_as_an_interface_that_is_down() {
    if let Some((mut hearing, mut sending)) = pair() {
        hearing.close();
        sending.close();
        let down = |outcome: io::Result<usize>| outcome.unwrap_err().raw_os_error() == Some(libc::ENETDOWN);
        assert!(down(hearing.receive(&mut Batch::new())) && down(sending.send(&[&ethernet(b"closed")])));
        assert_eq!((hearing.count_dropped(), hearing.interface()), (0, "lo"));
        assert!(hearing.descriptor().is_none());
    }
}

#[test]
fn a_longer_packet_is_told_as_cut() {
    if let Some((mut hearing, mut sending)) = pair() {
        let long = [ethernet(b"cut one"), vec![0; 20_000]].concat();
        sending.send(&[&long]).unwrap();
        let mut batch = Batch::new();
        batch.ask_for(1);
        let until = now() + 2 * SECOND;
        let mut is_seen = false;
        while !is_seen && now() < until {
            hearing.receive(&mut batch).unwrap();
            is_seen = batch.packets().any(|packet| packet.is_cut && packet.octets == &long[..packet.octets.len()]);
        }
        assert!(is_seen);
    }
}

/// On the loopback interface the kernel gives whole frames of Ethernet, which here begin as headers of radiotap do.
#[test]
fn the_kernel_takes_the_filter_and_keeps_out_what_it_says() {
    if let Some((mut hearing, mut sending)) = pair() {
        hearing.set_filter(&monitor_filter(&[OURS], Shown::Outcomes, Drawn::Each)).unwrap();
        let wanted = radiotap(&data(), 1 << 1, &[0; 12]);
        let mut other = data();
        other[4..10].copy_from_slice(STRANGER.octets());
        let other = radiotap(&other, 1 << 1, &[0; 12]);
        sending.send(&[&other, &wanted, &other, &wanted]).unwrap();
        assert_eq!(heard(&mut hearing, b"body", 4), [wanted.clone(), wanted]);
    }
}

/// Fifty neighbours send 500 beacons a second, for ten seconds. While there is doubt on which channel the radio hears,
/// all of them come.
#[test]
fn of_neighbours_beacons_the_kernel_lets_one_in_a_hundred_through() {
    const BEACONS: usize = 5000;
    if let Some((mut hearing, mut sending)) = pair() {
        let beacon = |number: usize| {
            let transmitter = Address::of([2, 0xdd, 0, 0, 0, (number % 50) as u8]);
            let unit = Unit { control: [BEACON, 0], receiver: Address::BROADCAST, transmitter, ..Unit::default() };
            radiotap(&[unit.octets(), b"a neighbour's".to_vec()].concat(), 1 << 1, &[0; 12])
        };
        let mut came = |neighbours: Drawn| {
            hearing.set_filter(&monitor_filter(&[OURS], Shown::Outcomes, neighbours)).unwrap();
            let (mut batch, mut number) = (Batch::new(), 0);
            for place in 0..BEACONS {
                while sending.send(&[&beacon(place)]).is_err() {}
                hearing.receive(&mut batch).unwrap();
                number += batch.packets().filter(|packet| packet.octets.ends_with(b"a neighbour's")).count();
            }
            let until = now() + SECOND / 2;
            while now() < until {
                hearing.receive(&mut batch).unwrap();
                number += batch.packets().filter(|packet| packet.octets.ends_with(b"a neighbour's")).count();
            }
            number
        };
        assert_eq!(came(Drawn::Each), BEACONS);
        let few = came(Drawn::ONE_IN_HUNDRED);
        assert!((BEACONS / 250..=BEACONS / 40).contains(&few), "{few}");
    }
}
