use super::*;
use crate::formats::frames::Address;
use crate::testing::samples::STRANGER;

impl Stage {
    /// The radio hears a beacon of a stranger, and says on which frequency.
    fn hear_on(&self, frequency: u16) {
        let control = [crate::formats::frames::BEACON, 0];
        let beacon = Unit { control, receiver: Address::BROADCAST, transmitter: STRANGER, ..Unit::default() };
        let [low, high] = frequency.to_le_bytes();
        self.air.send(&radiotap(&beacon.octets(), 1 << 3, &[low, high, 0xa0, 0]));
    }

    /// The radio's interface goes to this, and its socket says that it is down.
    fn go(&self, link: Link) {
        *self.air.shared.link.lock().unwrap() = link;
        self.air.shared.goes_down.store(true, Ordering::SeqCst);
        // A packet socket wakes who waits for it.
        self.air.send(&[]);
    }
}

/// Asks until the status says this, for eight seconds at most.
fn ask_until(stage: &Stage, wanted: &str) -> String {
    let until = now() + 8 * SECOND;
    let mut status = ask(stage, "status");
    while !status.contains(wanted) && now() < until {
        pause(20);
        status = ask(stage, "status");
    }
    status
}

/// How many beacons the status says were sent.
fn said_as_sent(stage: &Stage) -> u64 {
    let status = ask(stage, "status");
    let (_, behind) = status.split_once(r#""beacons":{"sent":"#).unwrap();
    behind.split_once(',').unwrap().0.parse().unwrap()
}

/// What the status has to say, and what it said.
fn agree(found: &[(&str, String)]) {
    assert!(found.iter().all(|(wanted, status)| status.contains(wanted)), "{found:?}");
}

#[test]
fn a_monitor_interface_that_is_gone_ends_all() {
    let (outcome, _) = run_on(TWO, TWO_NETWORKS, |stage| stage.go(Link::Gone));
    let (interface, reason) = ("mon0".to_owned(), "Network is down".to_owned());
    assert_eq!(outcome, Err(Fault::InterfaceGone { interface, reason }));
}

/// Beacons go again once it is up. What a station was to get meanwhile is late.
#[test]
fn a_monitor_interface_that_is_down_for_a_while_ends_nothing() {
    let ((found, counts, said), stage) = run(TWO, TWO_NETWORKS, |stage| {
        stage.go(Link::Down);
        let (down, up) = (r#""radio":{"down":0."#, r#""radio":{"down":null"#);
        let is_down = ask_until(stage, down);
        let before = (stage.beacons(), said_as_sent(stage));
        pause(500);
        let behind = (stage.beacons(), said_as_sent(stage));
        *stage.air.shared.link.lock().unwrap() = Link::Up;
        let is_up = ask_until(stage, up);
        stage.hear(&data());
        pause(500);
        let refused = (r#""refused by mon0: Network is down":"#, is_up.clone());
        let found = [(down, is_down), (up, is_up), refused];
        (found, [before.0, behind.0, stage.beacons()], [before.1, behind.1])
    });
    agree(&found);
    assert!(counts[0] == counts[1] && counts[2] > counts[1] + 4, "{counts:?}");
    assert_eq!(said[0], said[1]);
    assert_eq!(stage.wire.sent(), [data()]);
}

/// If it was down for less time than it takes to look, nothing is refused.
#[test]
fn a_monitor_interface_that_was_down_for_a_moment_changes_nothing() {
    let (status, stage) = run(TWO, TWO_NETWORKS, |stage| {
        let before = stage.beacons();
        stage.go(Link::Up);
        wait_until(|| stage.beacons() > before + 6);
        ask(stage, "status")
    });
    assert!(status.contains(r#""radio":{"down":null"#) && !status.contains("refused by"), "{status}");
    assert!(stage.beacons() > 6);
}

#[test]
fn a_radio_that_stops_sending_is_told_and_so_is_one_that_sends_again() {
    let (found, stage) = run(TWO, TWO_NETWORKS, |stage| {
        [(false, r#""unsent":null"#), (true, r#""unsent":5."#), (false, r#""unsent":null"#)].map(
            |(is_silent, wanted)| {
                let before = stage.beacons();
                stage.air.shared.is_silent.store(is_silent, Ordering::SeqCst);
                let status = ask_until(stage, wanted);
                wait_until(|| is_silent || stage.beacons() > before + 4);
                (wanted, status)
            },
        )
    });
    agree(&found);
    assert!(stage.beacons() > 8);
}

#[test]
fn a_radio_that_hears_on_another_frequency_is_told_and_so_is_one_that_is_back() {
    let (found, _) = run(KNOWING, PLAIN, |stage| {
        [
            (2437, r#""channel":6,"radio":{"down":null,"unsent":null,"elsewhere":null,"heard_elsewhere":0}"#),
            (2412, r#""elsewhere":2412,"heard_elsewhere":1}"#),
            (2437, r#""elsewhere":null,"heard_elsewhere":1}"#),
        ]
        .map(|(frequency, wanted)| {
            stage.hear_on(frequency);
            (wanted, ask_until(stage, wanted))
        })
    });
    agree(&found);
}

/// A bridge that is stopped, and goes on after five seconds: that it was late itself is no silence of its radio.
#[test]
fn a_bridge_that_was_stopped_tells_of_no_silence_of_its_radio() {
    let (unsent, _) = run(TWO, TWO_NETWORKS, |stage| {
        let before = stage.beacons();
        wait_until(|| stage.beacons() > before + 4);
        *stage.air.shared.stops_for.lock().unwrap() = Duration::from_millis(5500);
        stage.hear(&data());
        wait_until(|| stage.air.shared.stops_for.lock().unwrap().is_zero());
        // Meanwhile the radio shows nothing; then it shows each beacon again, but for those of the first two intervals.
        stage.air.shared.is_silent.store(true, Ordering::SeqCst);
        pause(5500 + 250);
        stage.air.shared.is_silent.store(false, Ordering::SeqCst);
        let found = ask(stage, "status");
        pause(300);
        (found, ask(stage, "status"))
    });
    for status in [unsent.0, unsent.1] {
        assert!(status.contains(r#""unsent":null"#), "{status}");
    }
}
