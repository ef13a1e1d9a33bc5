//! Wires come and go.
use super::*;

const IS_DOWN: &str = r#""wire":"wire2","wire_down":"#;
const IS_UP: &str = r#""wire":"wire2","wire_down":null"#;
const LOST_ONE: &str = r#""lost, since wire2 is down":1"#;

/// A frame to the second network.
fn to_other(sequence: u16) -> Vec<u8> {
    Unit { receiver: OTHER, sequence, ..Unit::default() }.octets()
}

fn wait_for(stage: &Stage, wanted: &str) {
    wait_until(|| ask(stage, "status").contains(wanted));
}

/// Hands over the second network's wire anew, which is there then; gives the network's first frame that goes by it.
fn hand_wire(stage: &Stage, near: UnixDatagram, far: &UnixDatagram) -> Vec<u8> {
    hand(&stage.requests, b"wire 1\n", &[near.into()]).unwrap();
    wait_for(stage, IS_UP);
    stage.hear(&to_other(0x20));
    far.set_read_timeout(Some(Duration::from_secs(5))).unwrap();
    let mut came = vec![0; 4096];
    let length = far.recv(&mut came).unwrap();
    came.truncate(length);
    came
}

/// What came by it before is given to the program. What its network sends later is lost and counted.
#[test]
fn a_wire_that_goes_down_ends_alone() {
    let (before, lost) = ([7; 20], r#""lost, since wire2 is down":20"#);
    let (status, stage) = run(TWO, TWO_NETWORKS, |stage| {
        stage.hear(&to_other(0x10));
        wait_until(|| !stage.other_wire.sent().is_empty());
        stage.other_wire.shared.goes_down.store(true, Ordering::SeqCst);
        stage.other_wire.send(&before);
        for sequence in 2..22 {
            pause(20);
            stage.hear(&Unit { sequence: sequence << 4, ..Unit::default() }.octets());
            stage.hear(&to_other(sequence << 4));
        }
        let mut status = String::new();
        wait_until(|| {
            status = ask(stage, "status");
            status.contains(lost) && stage.wire.sent().len() == 20
        });
        status
    });
    assert_eq!(stage.other_wire.sent(), [to_other(0x10)]);
    let wanted: Vec<_> = (2..22).map(|number| Unit { sequence: number << 4, ..Unit::default() }.octets()).collect();
    assert_eq!(stage.wire.sent(), wanted);
    let lines = stage.record();
    assert!(lines.contains(&format!("W 02:00:00:00:01:02 {}", hex::encode(before))), "{lines:?}");
    let ticks = stage.ticks();
    assert_eq!(stage.beacons(), 2 * ticks);
    assert!(ticks >= 5, "{ticks}");
    for wanted in [IS_DOWN, r#""wire":"wire1","wire_down":null"#, lost] {
        assert!(status.contains(wanted), "{status}");
    }
    assert!(!status.contains(IS_UP), "{status}");
}

/// The same socket or another one is handed over. What was lost meanwhile is still counted, and what comes later goes
/// by it both ways.
#[test]
fn a_wire_that_is_back_is_taken_again() {
    let (near, far) = UnixDatagram::pair().unwrap();
    let ((came, status, events), stage) = run(TWO, TWO_NETWORKS, |stage| {
        stage.other_wire.shared.goes_down.store(true, Ordering::SeqCst);
        stage.other_wire.send(&[7; 20]);
        wait_for(stage, r#""wire":"wire2","wire_down":0"#);
        stage.hear(&to_other(0x10));
        wait_for(stage, LOST_ONE);
        let came = hand_wire(stage, near, &far);
        far.send(&[9; 20]).unwrap();
        pause(300);
        (came, ask(stage, "status"), ask(stage, "events 1"))
    });
    assert_eq!(came, to_other(0x20));
    let told = |name| format!(r#""event":"{name}","bssid":"02:00:00:00:01:02","wire":"wire2"}}"#);
    let places = ["wire-down", "wire-up"].map(|name| events.find(&told(name)));
    assert!(places[0].is_some() && places[0] < places[1], "{events}");
    assert!(stage.record().contains(&format!("W 02:00:00:00:01:02 {}", hex::encode([9; 20]))));
    assert!(status.contains(LOST_ONE), "{status}");
}

/// All else goes on without it, and it is taken once it is there.
#[test]
fn a_wire_that_is_missing_at_the_start_is_taken_later() {
    let (near, far) = UnixDatagram::pair().unwrap();
    let ((before, came), stage) = run(TWO, Surroundings { has_other_wire: false, ..TWO_NETWORKS }, |stage| {
        stage.hear(&data());
        stage.hear(&to_other(0x10));
        wait_for(stage, LOST_ONE);
        (ask(stage, "status"), hand_wire(stage, near, &far))
    });
    assert_eq!((came, stage.wire.sent()), (to_other(0x20), vec![data()]));
    assert!(before.contains(IS_DOWN), "{before}");
    assert!(!before.contains(IS_UP), "{before}");
}
