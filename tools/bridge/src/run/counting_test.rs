//! What `bench/bridge` counts by callgrind: units of one station, one at a time, each of which has gone before the next
//! one comes. There is no record, and no beacon after the first.
use super::*;
use crate::formats::radiotap::SENDING_LEN;

/// Which way units go, how many of them, and how many octets each has.
const WORDS: [&str; 3] = ["COUNTED_WAY", "COUNTED_UNITS", "COUNTED_OCTETS"];
/// A program of one network with one station. What the station sends goes to the wire, and what the wire brings to the
/// station, as units (RFC 1042).
const RELAYING: &str = r#"
open_networks(1)
number = 0
for kind, octets in events():
    if kind == b"T":
        air(OURS, BEACON)
    elif kind == b"A" and octets[0] == 0xb0:
        air(OURS, ANSWER)
    elif kind == b"A" and octets[0] == 0x00:
        air(OURS, JOINED)
    elif kind == b"A" and octets[0] == 0x08:
        wire(OURS, octets[16:22] + octets[10:16] + octets[30:])
    elif kind == b"W" and octets:
        unit(number % 4096, octets)
        number += 1
    elif kind == b"I":
        tell("network 02:00:00:00:01:01 ssid 6c", "events 7 clock 1 unread 0 lost 0 kept 0",
             "station 02:aa:00:00:00:01 associated aid 1 listen 5 active kept 0", "end")
"#;
/// LLC's header, and the type of IPv4.
const LLC: [u8; 8] = [0xaa, 0xaa, 3, 0, 0, 0, 8, 0];
/// Where the number of retries stands in the header of a frame to be sent.
const RETRIES_AT: usize = 12;

/// Which way units go.
#[derive(Debug, Clone, Copy, PartialEq, Eq)]
enum CountedWay {
    /// From the radio to the wire.
    In,
    /// From the wire to the radio, whose station acknowledges each at the first try.
    Out,
}

/// How often a unit comes anew at most, where the bridge was too late for it: under callgrind a busy machine may stop
/// it for so long.
const TRIES: usize = 5;

/// The station sends a unit: whether that went by the wire.
fn bring_in(stage: &Stage, number: usize, octets: usize) -> bool {
    let body = [&LLC[..], &vec![0x5a; octets]].concat();
    let before = stage.wire.last_sent().0;
    stage.hear(&Unit { sequence: (number % 4096) as u16 * 16, body, ..Unit::default() }.octets());
    wait_until(|| stage.wire.last_sent().0 > before);
    stage.wire.last_sent().0 > before
}

/// The wire brings a unit: whether the radio got that, which shows it as acknowledged then.
fn bring_out(stage: &Stage, octets: usize) -> bool {
    let header = [*STATION.octets(), [2, 0xcc, 0, 0, 0, 1]].concat();
    let before = stage.air.last_sent().0;
    stage.wire.send(&[&header[..], &[8, 0], &vec![0x5a; octets]].concat());
    wait_until(|| stage.air.last_sent().0 > before);
    match stage.air.last_sent() {
        (number, Some(mut shown)) if number > before && shown[SENDING_LEN] == 0x08 => {
            shown[RETRIES_AT] = 0;
            stage.air.send(&shown);
            true
        }
        _ => false,
    }
}

/// So many units go one after another. Nothing here panics while the bridge runs, which it then wouldn't end.
fn count(way: CountedWay, units: usize, octets: usize) {
    let rare = Surroundings { interval: 60_000, shows: false, has_sent: true, is_recorded: false, ..PLAIN };
    let (has_gone, _) = run(RELAYING, rare, |stage| {
        stage.join();
        let mut sent = 0;
        let mut goes = || {
            sent += 1;
            match way {
                CountedWay::In => bring_in(stage, sent, octets),
                CountedWay::Out => bring_out(stage, octets),
            }
        };
        let has_gone = (0..units).all(|_| (0..TRIES).any(|_| goes()));
        pause(100);
        has_gone
    });
    assert!(has_gone, "a unit didn't go, however often it came");
}

#[test]
fn units_go_in_and_out_as_they_are_counted() {
    let asked = WORDS.map(|word| std::env::var(word).ok());
    match asked {
        [Some(way), Some(units), Some(octets)] => {
            let way = if way == "in" { CountedWay::In } else { CountedWay::Out };
            count(way, units.parse().unwrap(), octets.parse().unwrap());
        }
        _ => [CountedWay::In, CountedWay::Out].into_iter().for_each(|way| count(way, 5, 64)),
    }
}
