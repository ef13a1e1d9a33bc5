//! Stations stay from one bridge to the next.
use super::*;
use crate::stations::own_frames::{authentication, mode_of_station};
use crate::testing::samples::tell_not_run;

/// The beginning of the names of the files of a state.
fn state_named(name: &str) -> &'static str {
    Box::leak(format!("{}/{name}-{}", std::env::temp_dir().display(), std::process::id()).into())
}

fn remove_state(state: &str) {
    [0, 1].iter().for_each(|number| fs::remove_file(format!("{state}.{number}")).unwrap());
}

/// What the next bridge's program answers to what it is told of the station isn't sent, and the record marks it. A
/// third one has what the second left.
#[test]
fn a_station_stays_from_one_bridge_to_the_next() {
    let state = state_named("state");
    let with_state = Surroundings { state: Some(state), ..PLAIN };
    let ((), first) = run(JOINING, with_state, |stage| {
        stage.join();
        pause(200);
    });
    let answers = |stage: &Stage| {
        let sent = stage.air.sent();
        let kinds = sent.iter().filter_map(|frame| frame.get(sending_header(2, 0).len()));
        kinds.filter(|kind| **kind != crate::formats::frames::BEACON).copied().collect::<Vec<u8>>()
    };
    assert_eq!(answers(&first), [0xb0, 0x10]);
    for _ in 0..2 {
        // What is asked for while the program is told of the station is done afterwards.
        let slow = JOINING.replace("sleep(0)", "sleep(0.6)");
        let ((status, tables), stage) = run(&slow, with_state, |stage| {
            stage.requests.write_all(b"tables\n").unwrap();
            wait_until(|| !stage.air.sent().is_empty());
            let mut tables = 0;
            wait_until(|| {
                tables = stage.record().iter().filter(|line| line.contains("# I")).count();
                tables == 2
            });
            (ask(stage, "status"), tables)
        });
        assert_eq!(answers(&stage), b"");
        assert!(status.contains(r#""address":"02:aa:00:00:00:01","state":"associated","aid":1"#), "{status}");
        let wanted = [line_of(&authentication(OURS, STATION)), line_of(&own_request()), "# I".into()];
        let lines = stage.record();
        assert_eq!(lines[0], format!("# {RESTORED_FROM}"));
        assert_eq!((&lines[1..4], &lines[4]), (&wanted[..], &format!("# {RESTORED_TO}")));
        assert_eq!(tables, 2, "{lines:?}");
    }
    remove_state(state);
}

/// A station dozes while the program is behind with what came before, and then all ends. The program is given that, and
/// the next one is told so.
#[test]
fn what_a_station_said_before_the_end_reaches_the_program_and_the_next_one() {
    let state = state_named("mode");
    let asked = "    elif kind == b\"I\":";
    let slow = JOINING.replace(asked, &format!("    elif kind == b\"A\":\n        time.sleep(0.004)\n{asked}"));
    let with_state = Surroundings { state: Some(state), ..PLAIN };
    let dozes = Unit { control: [0x48, 0x11], sequence: 999 << 4, body: vec![], ..Unit::default() }.octets();
    let ((), first) = run(&slow, with_state, |stage| {
        stage.join();
        pause(200);
        (1..60).for_each(|sequence| stage.hear(&Unit { sequence: sequence << 4, ..Unit::default() }.octets()));
        stage.hear(&dozes);
        pause(30);
    });
    let lines = first.record();
    assert_eq!(lines.iter().filter(|line| line.starts_with('A')).last(), Some(&line_of(&dozes)));
    let ((), next) = run(JOINING, with_state, |_| {});
    assert_eq!(next.record()[3], line_of(&mode_of_station(OURS, STATION, true)));
    remove_state(state);
}

/// A state that isn't whole is told, and stations join as ever.
#[test]
fn a_state_that_is_damaged_is_not_used() {
    let state = state_named("bad");
    fs::write(format!("{state}.0"), "state 1 and nothing else\n").unwrap();
    let ((), stage) = run(ONE, Surroundings { state: Some(state), ..PLAIN }, |_| pause(300));
    assert!(!stage.record().iter().any(|line| line.contains("restored")));
    let left = [0, 1].map(|number| fs::read_to_string(format!("{state}.{number}")).unwrap());
    assert!(left.iter().any(|text| text.contains(" last 1 ")), "{left:?}");
    remove_state(state);
}

/// The newer one of two whole states is used, and the next bridge writes over the older one first.
#[test]
fn the_newer_state_stays_until_another_is_whole() {
    let state = state_named("two");
    let text = |written, is_last| State { setting: setting(100), written, is_last, networks: Vec::new() }.text();
    for newer in [0, 1] {
        fs::write(format!("{state}.{newer}"), text(at(9 * SECOND), true)).unwrap();
        fs::write(format!("{state}.{}", 1 - newer), text(at(8 * SECOND), false)).unwrap();
        let mut state_files = StateFiles::new(files_of(state));
        let found = left_state(&mut state_files, &setting(100), at(10 * SECOND)).unwrap();
        assert_eq!((found.written, found.is_last), (at(9 * SECOND), true));
        assert!(left_state(&mut state_files, &setting(101), at(10 * SECOND)).is_none());
        state_files.write(b"begun and not whole", 1, at(10 * SECOND));
        assert_eq!(left_state(&mut state_files, &setting(100), at(10 * SECOND)), Some(found));
    }
    remove_state(state);
}

/// The file names of the state that an earlier bridge left, handed to the test that a process of its own runs.
const LEFT_STATE: &str = "BRIDGE_TEST_LEFT_STATE";

/// Says whether a bridge uses the state that it is handed.
#[test]
#[ignore = "the next test runs it in a process whose machine seems to have slept"]
fn says_whether_it_restores() {
    let state: &str = Box::leak(std::env::var(LEFT_STATE).unwrap().into());
    let ((), stage) = run(JOINING, Surroundings { state: Some(state), ..PLAIN }, |_| {});
    let is_restored = stage.record().iter().any(|line| line.contains(RESTORED_FROM));
    println!("is restored: {is_restored}");
}

/// While the machine is suspended its stations leave. So the age of a state counts the time of suspension: in a
/// namespace of time the clock that goes on meanwhile is ahead by that time, and the other clocks are not.
#[test]
fn a_state_is_older_by_the_time_that_the_machine_slept() {
    let slept_for = |seconds: &str| {
        let mut command = std::process::Command::new("unshare");
        command.args(["--time", "--boottime", seconds]);
        command
    };
    if !slept_for("1").arg("true").status().map_or(false, |status| status.success()) {
        return tell_not_run("no namespace of time here, which takes root");
    }
    let state = state_named("slept");
    run(JOINING, Surroundings { state: Some(state), ..PLAIN }, |stage| {
        stage.join();
        pause(200);
    });
    for (slept, is_restored) in [("20", true), ("120", false)] {
        let child = slept_for(slept)
            .arg(std::env::current_exe().unwrap())
            .args(["--exact", "--ignored", "--nocapture", "run::tests::staying_tests::says_whether_it_restores"])
            .env(LEFT_STATE, state)
            .output()
            .unwrap();
        let said = String::from_utf8_lossy(&child.stdout);
        assert!(said.contains(&format!("is restored: {is_restored}")), "{slept} {said} {child:?}");
    }
    remove_state(state);
}
