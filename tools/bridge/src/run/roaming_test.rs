//! A station of a whole bridge moves from one access point of a site to another.
use super::*;
use crate::formats::ethernet::update;
use crate::run::moving::TOLD_WIRE;

/// The wire learns that a station is here, once for each association, and the record has a remark.
#[test]
fn a_wire_learns_that_a_station_is_here() {
    let (status, stage) = run(JOINING, PLAIN, |stage| {
        stage.join();
        ask(stage, "status")
    });
    assert_eq!(stage.wire.sent(), [update(STATION)]);
    let remark = format!("# {TOLD_WIRE} 02:00:00:00:01:01: 02:aa:00:00:00:01 is here");
    assert_eq!(stage.record().iter().filter(|line| **line == remark).count(), 1);
    assert!(status.contains(r#""updates":1"#), "{status}");
}

/// What another access point of the site tells the wire has the station leave here; the program learns it as that it
/// left.
#[test]
fn a_station_that_the_wire_shows_elsewhere_leaves() {
    let (events, stage) = run(JOINING, PLAIN, |stage| {
        stage.join();
        stage.wire.send(&update(STATION));
        pause(200);
        let before = ask(stage, "status");
        assert!(before.contains(r#""state":"associated""#), "{before}");
        pause(1000);
        stage.wire.send(&update(STATION));
        pause(300);
        ask(stage, "events 1")
    });
    assert!(events.contains(r#""why":"moved""#), "{events}");
    let left = line_of(&departure(OURS, STATION));
    assert_eq!(stage.record().iter().filter(|line| **line == left).count(), 1);
}

/// Made-up stations that join again and again put no more than some frames a second on the wire.
#[test]
fn a_wire_learns_no_more_than_some_in_a_second() {
    let again = JOINING.replace("air(OURS, JOINED)", "for _ in range(150): air(OURS, JOINED)");
    assert!(again.contains("range(150)"));
    let ((), stage) = run(&again, PLAIN, |stage| stage.join());
    assert_eq!(stage.wire.sent().len(), 100);
}
