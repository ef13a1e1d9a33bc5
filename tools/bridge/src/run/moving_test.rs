//! A station of a whole bridge dozes and wakes, with a program that keeps units as `apctl live` does.
use super::*;
use crate::formats::ethernet::test_command;
use crate::run::moving::{HANDED_BACK_FROM, HANDED_BACK_TO};
use crate::stations::own_frames::mode_of_station;

/// It takes some time for each frame of the wire, so that what it answers comes behind frames that it is given later.
const KEEPING: &str = r#"
open_networks(1)
records, numbers, dozes, kept = 0, itertools.count(2), False, []
stations = ["station 02:aa:00:00:00:01 associated aid 1 listen 5 active kept 0"]
for kind, octets in events():
    records += 1
    if kind == b"T":
        air(OURS, BEACON)
    elif kind == b"A" and octets[0] == 0xb0:
        air(OURS, ANSWER)
    elif kind == b"A" and octets[0] == 0x00:
        air(OURS, JOINED)
    elif kind == b"A" and octets[0] == 0xc0:
        stations.clear()
    elif kind == b"A" and octets[0] & 0x0f == 0x08:
        dozes = octets[1] & 0x10 != 0
        if not dozes:
            for one in kept:
                unit(next(numbers), one)
            kept.clear()
    elif kind == b"A" and octets[0] == 0xa4 and kept:
        time.sleep(0.03)
        unit(next(numbers), kept.pop(0))
    elif kind == b"W" and not octets:
        tell(f"fault L4 record {records}")
    elif kind == b"W":
        time.sleep(0.004)
        kept.append(octets) if dozes else unit(next(numbers), octets)
    elif kind == b"I":
        tell("network 02:00:00:00:01:01 ssid 6c", "events 7 clock 1 unread 0 lost 0 kept 0", *stations, "end")
"#;

fn wired(number: u8) -> Vec<u8> {
    [STATION.octets(), OTHER.octets(), &[8, 0, number][..]].concat()
}

/// The line of the record that tells of this unit of the wire.
fn line_of_wired(number: u8) -> String {
    format!("W 02:00:00:00:01:01 {}", hex::encode(wired(number)))
}

/// The numbers of the units that were sent to the station.
fn units(stage: &Stage) -> Vec<u8> {
    let sent = stage.air.sent();
    let frames = sent.iter().filter_map(|packet| packet.get(sending_header(2, 0).len()..));
    let units = frames.filter(|frame| frame[0] == 0x08 && frame[4..10] == *STATION.octets());
    units.map(|frame| frame[32]).collect()
}

fn join(stage: &Stage) {
    stage.join();
    wait_until(|| ask(stage, "status").contains(r#""state":"associated""#));
}

/// A frame by which the station dozes.
fn doze() -> Vec<u8> {
    mode_of_station(OURS, STATION, true)
}

/// A frame by which it wakes.
fn wake() -> Vec<u8> {
    Unit { control: [0x48, 0x01], sequence: 0x80, ..Unit::default() }.octets()
}

/// A frame by which it polls.
fn poll() -> Vec<u8> {
    [&[0xa4, 0x10, 1, 0xc0][..], OURS.octets(), STATION.octets()].concat()
}

/// Our station joins and dozes, and the program keeps some units for it.
fn doze_with_three_kept(stage: &Stage) {
    join(stage);
    stage.hear(&doze());
    wait_until(|| stage.has_told(&doze()));
    (0..3).for_each(|number| stage.wire.send(&wired(number)));
    wait_until(|| stage.record().contains(&line_of_wired(2)));
    pause(100);
}

/// How many polls the program was given, by the record.
fn polls(stage: &Stage) -> usize {
    stage.record().iter().filter(|line| **line == line_of(&poll())).count()
}

/// The lines of the record between its marks, without what the program is asked and without ticks.
fn handed_back(lines: &[String]) -> Vec<String> {
    let (from, to) = (format!("# {HANDED_BACK_FROM}"), format!("# {HANDED_BACK_TO}"));
    let mut found = Vec::new();
    let mut is_between = false;
    for line in lines {
        is_between = if *line == from || *line == to { *line == from } else { is_between };
        if is_between && line.starts_with('W') {
            found.push(line.clone());
        }
        assert!(!is_between || *line == from || line.starts_with('W'), "{line}");
    }
    assert!(!is_between);
    found
}

/// What the program answers to frames that it was given before the one by which a station dozes comes later than that
/// one was given. It goes back, and what the wire brings waits behind it. Once the station wakes, it gets all in order.
#[test]
fn what_is_answered_after_a_station_dozes_goes_back_and_comes_in_order_when_it_wakes() {
    let ((before, status), stage) = run(KEEPING, PLAIN, |stage| {
        join(stage);
        (0..10).for_each(|number| stage.wire.send(&wired(number)));
        pause(15);
        stage.hear(&doze());
        (10..30).for_each(|number| stage.wire.send(&wired(number)));
        pause(500);
        let before = units(stage);
        stage.hear(&wake());
        wait_until(|| units(stage).len() >= 30);
        (before, ask_for_new_status(stage))
    });
    assert!(before.len() < 10, "{before:?}");
    assert_eq!(units(&stage), (0..30).collect::<Vec<u8>>());
    let lines = stage.record();
    let back = handed_back(&lines);
    let wanted: Vec<String> = (before.len() as u8..).take(back.len()).map(line_of_wired).collect();
    assert!(back.len() > 2 && back == wanted, "{back:?}");
    assert!(status.contains(&format!(r#""handed_back":{},"handed_back_out_of_order":0"#, back.len())), "{status}");
    assert!(status.contains(r#""faults":[]"#), "{status}");
    let given = lines.iter().filter(|line| line.starts_with('W')).count();
    assert_eq!(given, 30 + back.len());
    assert!(lines.iter().all(|line| !line.contains("ff:ff:ff:ff:ff:ff")));
}

/// Whatever else comes of a station that falls asleep waits until that is over: here that it leaves.
#[test]
fn a_station_that_leaves_as_it_falls_asleep_gets_nothing_and_all_goes_on() {
    let (status, stage) = run(KEEPING, PLAIN, |stage| {
        join(stage);
        (0..10).for_each(|number| stage.wire.send(&wired(number)));
        stage.hear(&doze());
        stage.hear(&departure(OURS, STATION));
        wait_until(|| stage.has_told(&departure(OURS, STATION)));
        ask_for_new_status(stage)
    });
    let lines = stage.record();
    let place = |wanted: &str| lines.iter().rposition(|line| line == wanted).unwrap();
    let left = place(&line_of(&departure(OURS, STATION)));
    assert!(left > place(&format!("# {HANDED_BACK_TO}")), "{lines:?}");
    assert!(status.contains(r#""known":0"#), "{status}");
}

/// The program keeps the question, so that the TIM shows it. No wire brought it, and the record says so.
#[test]
fn a_station_that_dozes_is_asked_through_the_program() {
    let question = format!("W 02:00:00:00:01:01 {}", hex::encode(test_command(OURS, STATION)));
    let ((), stage) = run(KEEPING, Surroundings { silence: 1, ..PLAIN }, |stage| {
        join(stage);
        stage.hear(&doze());
        wait_until(|| stage.record().contains(&question));
        stage.hear(&wake());
        wait_until(|| !units(stage).is_empty());
    });
    assert_eq!(handed_back(&stage.record()), [question]);
    let is_null = |packet: &&Vec<u8>| packet.get(sending_header(2, 0).len()) == Some(&0x48);
    assert_eq!(stage.air.sent().iter().filter(is_null).count(), 0);
}

/// A program that takes long for its answer to a wake, and sends the last units that it kept alone.
const SLOW_AT_A_WAKE: &str = r#"
open_networks(1)
records, dozes, kept = 0, False, []
for kind, octets in events():
    records += 1
    if kind == b"T":
        air(OURS, BEACON)
    elif kind == b"A" and octets[0] == 0xb0:
        air(OURS, ANSWER)
    elif kind == b"A" and octets[0] == 0x00:
        air(OURS, JOINED)
    elif kind == b"A" and octets[0] & 0x0f == 0x08:
        dozes = octets[1] & 0x10 != 0
        if not dozes:
            time.sleep(0.04 * (len(kept) > 1000))
            for number, one in enumerate(kept[-4:], 1):
                unit(number, one)
            kept.clear()
    elif kind == b"W" and not octets:
        tell(f"fault L4 record {records}")
    elif kind == b"W":
        kept.append(octets)
    elif kind == b"I":
        tell("network 02:00:00:00:01:01 ssid 6c", "events 7 clock 1 unread 0 lost 0 kept 0",
             "station 02:aa:00:00:00:01 associated aid 1 listen 5 active kept 0", "end")
"#;
const KEEPING_MANY: Surroundings = Surroundings { quota: 2000, ..PLAIN };

/// The number of lines that begin a beacon interval, up to the last line of this text.
fn ticks_before(lines: &[String], line: &str) -> Option<usize> {
    let place = lines.iter().rposition(|found| found == line)?;
    Some(lines[..place].iter().filter(|line| *line == "T").count())
}

/// So many units come by the wire, with a pause of so many milliseconds behind each sixteenth.
fn bring(stage: &Stage, units: u16, milliseconds: u64) {
    for number in 0..units {
        stage.wire.send(&wired(number as u8));
        if number % 16 == 0 {
            pause(milliseconds);
        }
    }
}

/// A station joins and dozes, 1,500 units are kept for it, and a beacon interval has lasted for 60 ms. Answers how many
/// have begun.
fn keep_many(stage: &Stage) -> usize {
    join(stage);
    stage.hear(&doze());
    pause(200);
    bring(stage, 1500, 3);
    let ticks = next_tick(stage);
    pause(60);
    ticks
}

/// Waits until a beacon interval begins, and answers how many have begun.
fn next_tick(stage: &Stage) -> usize {
    let before = stage.ticks();
    wait_until(|| stage.ticks() > before);
    stage.ticks()
}

/// If all ends no other interval begins.
#[test]
fn a_wake_that_waits_for_the_next_beacon_interval_is_given_before_the_end() {
    let ((), stage) = run(SLOW_AT_A_WAKE, KEEPING_MANY, |stage| {
        keep_many(stage);
        stage.hear(&wake());
        pause(10);
    });
    assert!(stage.has_told(&wake()));
}

/// The program would answer the wake for longer than the beacon interval still lasts: it is given the frame in the next
/// one, and behind it what else comes of the station. What the wire brings meanwhile is kept with the rest.
#[test]
fn a_wake_with_much_kept_waits_for_the_next_beacon_interval() {
    let behind = Unit { control: [0x08, 0x01], sequence: 0x90, body: vec![7; 20], ..Unit::default() }.octets();
    let ((ticks, order), stage) = run(SLOW_AT_A_WAKE, KEEPING_MANY, |stage| {
        let ticks = keep_many(stage);
        stage.hear(&wake());
        stage.hear(&behind);
        stage.wire.send(&wired(99));
        wait_until(|| units(stage).len() >= 4);
        let order = units(stage);
        pause(250);
        (ticks, order)
    });
    let lines = stage.record();
    let given = ticks_before(&lines, &line_of(&wake())).unwrap();
    assert!(given == ticks + 1 || given == ticks + 2, "{given} {ticks}");
    assert!(ticks_before(&lines, &line_of(&behind)).unwrap() >= given);
    let place = |line: &str| lines.iter().rposition(|found| found == line).unwrap();
    assert!(place(&line_of(&behind)) > place(&line_of(&wake())));
    assert!(place(&line_of(&wake())) > place(&line_of_wired(99)));
    assert_eq!(order[3], 99, "{order:?}");
}

/// If beacons always come in the second half of their interval, nobody looks at stations that are silent. A wake
/// that waits for the beacons is given all the same.
#[test]
fn a_wake_is_given_behind_beacons_that_always_come_late() {
    let late = "if kind == b\"T\":\n        time.sleep(0.036)\n        air";
    let program = SLOW_AT_A_WAKE.replace("if kind == b\"T\":\n        air", late);
    assert!(program.contains(late));
    let (is_given, stage) = run(&program, Surroundings { interval: 50, ..KEEPING_MANY }, |stage| {
        join(stage);
        stage.hear(&doze());
        pause(300);
        bring(stage, 64, 60);
        pause(200);
        next_tick(stage);
        stage.hear(&wake());
        let mut is_given = false;
        wait_until(|| {
            is_given = stage.has_told(&wake());
            is_given
        });
        is_given
    });
    assert!(is_given);
    assert_eq!(units(&stage), [60, 61, 62, 63]);
}

/// A station that didn't hear the acknowledgement of its poll polls again: the program isn't given that, and the record
/// has no line of it.
#[test]
fn a_poll_that_is_repeated_before_it_is_answered_brings_one_unit() {
    let (status, stage) = run(KEEPING, PLAIN, |stage| {
        doze_with_three_kept(stage);
        (0..3).for_each(|_| stage.hear(&poll()));
        wait_until(|| polls(stage) == 1 && !units(stage).is_empty());
        pause(200);
        assert_eq!((units(stage), polls(stage)), (vec![0], 1));
        stage.hear(&poll());
        wait_until(|| polls(stage) == 2 && units(stage).len() == 2);
        ask_for_new_status(stage)
    });
    assert_eq!(units(&stage), [0, 1]);
    let left_out = r#""the air: PS-Polls, while an earlier one was answered":2"#;
    assert!(status.contains(left_out) && status.contains(r#""faults":[]"#), "{status}");
}

/// The radio tells nothing of the answer. A poll is ignored for 200 ms then, and no longer.
#[test]
fn a_poll_whose_answers_outcome_is_never_told_is_answered_at_last() {
    let ((), stage) = run(KEEPING, PLAIN, |stage| {
        doze_with_three_kept(stage);
        stage.air.shared.is_silent.store(true, Ordering::SeqCst);
        stage.hear(&poll());
        pause(60);
        stage.hear(&poll());
        pause(500);
        assert_eq!(polls(stage), 1);
        stage.air.shared.is_silent.store(false, Ordering::SeqCst);
        stage.hear(&poll());
        wait_until(|| polls(stage) == 2 && !units(stage).is_empty());
    });
    assert_eq!(units(&stage), [1]);
}

/// One that has nothing for the station answers with no unit, and the station may poll again.
#[test]
fn a_poll_for_which_nothing_is_kept_keeps_off_no_other() {
    let ((), stage) = run(KEEPING, PLAIN, |stage| {
        join(stage);
        stage.hear(&doze());
        wait_until(|| stage.has_told(&doze()));
        let poll_until = |is_so: &dyn Fn(&Stage) -> bool| {
            wait_until(|| {
                stage.hear(&poll());
                pause(50);
                is_so(stage)
            });
        };
        poll_until(&|stage| polls(stage) >= 3);
        stage.wire.send(&wired(7));
        wait_until(|| stage.record().contains(&line_of_wired(7)));
        poll_until(&|stage| units(stage) == [7]);
    });
    assert!(polls(&stage) > 3);
    assert_eq!(units(&stage), [7]);
}
