//! Whoever floods or takes nothing keeps no beacon waiting.
use super::*;

/// While one client writes newlines and never reads, another one is answered and beacons go.
#[test]
fn a_client_that_floods_keeps_nobody() {
    let ((written, answer), stage) = run(KNOWING, PLAIN, |stage| {
        let mut flooding = UnixStream::connect(stage.folder.join("socket")).unwrap();
        flooding.set_nonblocking(true).unwrap();
        let (until, mut written) = (now() + SECOND, 0);
        while now() < until {
            written += flooding.write(&[b'\n'; 4096]).unwrap_or(0);
        }
        (written, ask(stage, "status"))
    });
    assert!(written < 1 << 20 && answer.contains(r#""phy":"phy0""#), "{written} {answer}");
    assert!(stage.ticks() >= 8);
}

/// Hears a frame, which goes on to the wire; gives the status some time later.
fn hear_one(stage: &mut Stage) -> String {
    stage.hear(&data());
    pause(400);
    ask(stage, "status")
}

/// What was heard is on the wire, and beacons went.
fn goes_on(stage: &Stage) {
    assert_eq!(stage.wire.sent(), [data()]);
    assert!(stage.air.sent().len() >= 6);
}

/// A record whose disk is full stops by itself, and the status says so; frames and beacons go on.
#[test]
fn a_full_disk_ends_the_recording_alone() {
    let (status, stage) = run(ONE, Surroundings { record: Some("/dev/full"), ..PLAIN }, hear_one);
    let wanted = r#""record":{"octets":0,"fault":"No space left on device"}"#;
    assert!(status.contains(wanted), "{status}");
    goes_on(&stage);
}

/// A pipe that is full, and whose reader doesn't read: its path, and both ends of it.
fn stuck_pipe(name: &str) -> (&'static str, fs::File) {
    let path = format!("{}/{name}-{}", std::env::temp_dir().display(), std::process::id());
    assert!(std::process::Command::new("mkfifo").arg(&path).status().unwrap().success());
    let mut pipe = fs::File::options().read(true).write(true).custom_flags(libc::O_NONBLOCK).open(&path).unwrap();
    while pipe.write(&[b'x'; 4096]).is_ok() {}
    (Box::leak(path.into()), pipe)
}

/// A record that takes nothing makes nobody wait: frames and beacons go on, and the bridge ends.
#[test]
fn a_stuck_record_keeps_no_beacon_waiting() {
    let (path, pipe) = stuck_pipe("record");
    let (status, stage) = run(ONE, Surroundings { record: Some(path), ..PLAIN }, hear_one);
    drop(pipe);
    fs::remove_file(path).unwrap();
    assert!(status.contains(r#""record":{"octets":0,"fault":null}"#), "{status}");
    goes_on(&stage);
}

/// A terminal that is paused makes nobody wait either.
#[test]
fn a_stuck_log_keeps_no_beacon_waiting() {
    let (path, pipe) = stuck_pipe("log");
    log::write_in_background_to(fs::File::options().write(true).open(path).unwrap()).unwrap();
    let (_, stage) = run(ONE, PLAIN, |stage| {
        (0..100_000).for_each(|number| log::write(log::Level::Info, format_args!("{number:99}")));
        hear_one(stage)
    });
    log::write_at_once();
    drop(pipe);
    fs::remove_file(path).unwrap();
    goes_on(&stage);
}

/// Where hundreds of frames wait to be sent, beacons come all the same: between two of them no more frames go than the
/// radio takes in an interval, and those of a receiver that may wait besides. That each goes before all that waits is
/// seen where no clock counts (`sending_test`). Frames of which nobody is left to wait for them are dropped.
#[test]
fn what_waits_to_be_sent_does_not_keep_beacons() {
    let many = ONE.replace("wire(OURS, octets)", "[air(OURS, ANSWER) for _ in range(80)]");
    let ((), stage) = run(&many, Surroundings { takes: Duration::from_millis(1), ..PLAIN }, |stage| {
        (1..=8).for_each(|sequence| stage.hear(&Unit { sequence: sequence << 4, ..Unit::default() }.octets()));
        pause(1500);
    });
    let beacon = [&sending_header(2, 0)[..], &hex::decode(BEACON).unwrap()].concat();
    let between: Vec<usize> = stage.air.sent().split(|frame| *frame == beacon).map(<[_]>::len).collect();
    assert!((1..640).contains(&between.iter().sum::<usize>()), "{between:?}");
    assert!(between.len() > 10 && between.iter().all(|frames| *frames <= 102 + 64), "{between:?}");
}

#[test]
fn what_floods_does_not_keep_beacons_and_is_counted() {
    let slow = ONE.replace("wire(OURS", "time.sleep(0.01); wire(OURS");
    let (status, stage) = run(&slow, PLAIN, |stage| {
        (0..1000).for_each(|_| stage.hear(&data()));
        pause(1500);
        ask(stage, "status")
    });
    let dropped = "the air for 02:00:00:00:01:01: frames of data before 32 younger ones of the same sender";
    assert!(status.contains(dropped), "{status}");
    let (ticks, frames) = (stage.ticks(), stage.record().len());
    assert!(ticks > 1, "{ticks}");
    assert!(frames - ticks < 500, "{frames}");
}
