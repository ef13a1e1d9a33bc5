use std::io::{BufRead, BufReader};
use std::os::unix::io::OwnedFd;
use std::path::PathBuf;

use super::*;
use crate::os::clock::SECOND;
use crate::testing::samples::{at, NANOSECOND, OURS, STATION};

struct Stage {
    path: PathBuf,
    poller: Poller,
    clients: Clients,
}

impl Stage {
    fn new(name: &str) -> Stage {
        let path = std::env::temp_dir().join(format!("clients-{}-{name}", std::process::id()));
        let _ = std::fs::remove_file(&path);
        let clients = Clients::new(UnixListener::bind(&path).unwrap()).unwrap();
        Stage { path, poller: Poller::new().unwrap(), clients }
    }

    /// Root connects.
    fn connect(&mut self, now: Instant) -> UnixStream {
        self.connect_as(ROOT, now)
    }

    fn connect_as(&mut self, user: u32, now: Instant) -> UnixStream {
        let (near, far) = UnixStream::pair().unwrap();
        self.clients.enter(near, user, &self.poller, now);
        far
    }

    fn waiting(&self) -> Vec<(usize, Instant)> {
        self.clients.waiting_for_status()
    }

    fn users(&self) -> Vec<u32> {
        self.clients.clients.iter().flatten().map(|client| client.user).collect()
    }

    fn answer(&mut self, place: usize, text: &str) {
        self.clients.answer(place, Line::of(text.to_owned()), Instant::START);
    }

    fn flush(&mut self, now: Instant) {
        self.clients.flush(&self.poller, now).unwrap();
    }

    fn is_read_from(&self, place: usize) -> bool {
        self.clients.clients[place].as_ref().map_or(false, |client| client.awaited.reads)
    }
}

impl Drop for Stage {
    fn drop(&mut self) {
        let _ = std::fs::remove_file(&self.path);
    }
}

#[test]
fn questions_are_lines() {
    for (line, wanted) in [
        ("status", Question::Status),
        (" status\r", Question::Status),
        ("events 17", Question::Events { first: 17 }),
        ("events", Question::Unknown),
        ("events -1", Question::Unknown),
        ("kick 02:00:00:00:01:01 02:aa:00:00:00:01", Question::Kick { bssid: OURS, station: STATION }),
        ("kick 02:00:00:00:01:01", Question::Unknown),
        ("kick x y", Question::Unknown),
        ("", Question::Unknown),
        ("Status", Question::Unknown),
    ] {
        assert_eq!(Question::of(line.as_bytes()), wanted, "{line}");
    }
    assert_eq!(Question::of(&[0xff, b's']), Question::Unknown);
}

#[test]
fn a_client_is_answered_in_order() {
    let mut stage = Stage::new("order");
    let mut stream = stage.connect(Instant::START);
    stream.write_all(b"status\nhello\nsta").unwrap();
    stage.clients.take(0, true, false, Instant::from_nanos(1));
    assert_eq!(stage.clients.next(), Some((0, Question::Status)));
    stage.clients.wait(0, Question::Status, Instant::from_nanos(5));
    assert_eq!((stage.clients.next(), stage.waiting()), (None, vec![(0, Instant::from_nanos(5))]));
    stage.answer(0, "{}");
    assert_eq!((stage.clients.next(), stage.clients.has_questions()), (None, false));
    stage.flush(Instant::from_nanos(6));
    assert!(stage.clients.has_questions());
    assert_eq!(stage.clients.next(), Some((0, Question::Unknown)));
    stage.answer(0, "[]");
    stage.flush(Instant::from_nanos(7));
    assert_eq!((stage.clients.next(), stage.waiting()), (None, vec![]));
    let lines: Vec<String> = BufReader::new(stream).lines().take(2).map(Result::unwrap).collect();
    assert_eq!(lines, ["{}", "[]"]);
}

/// One that reads nothing keeps nobody, and is closed: its answer is kept for ten seconds.
#[test]
fn who_takes_nothing_is_closed() {
    let mut stage = Stage::new("slow");
    let mut stream = stage.connect(Instant::START);
    stage.answer(0, &"x".repeat(4 << 20));
    stage.flush(Instant::from_nanos(1));
    let client = stage.clients.clients[0].as_ref().unwrap();
    assert!(client.is_blocked && client.awaited == Awaited { reads: false, writes: true });
    stage.flush(at(MOST_UNTAKEN));
    assert!(stage.clients.clients[0].is_some());
    stage.flush(at(MOST_UNTAKEN + NANOSECOND));
    assert!(stage.clients.clients[0].is_none());
    let mut rest = Vec::new();
    stream.read_to_end(&mut rest).unwrap();
    assert!(rest.len() < 4 << 20);
}

#[test]
fn who_takes_slowly_is_not_closed_and_gets_all() {
    let mut stage = Stage::new("slowly");
    let mut stream = stage.connect(Instant::START);
    stage.answer(0, &"x".repeat(4 << 20));
    let (mut found, mut piece) = (0, vec![0; 1 << 16]);
    for turn in 1.. {
        stage.flush(at(turn * (MOST_UNTAKEN - SECOND)));
        found += stream.read(&mut piece).unwrap();
        stage.clients.take(0, false, true, Instant::from_nanos(turn.into()));
        if found > 4 << 20 {
            break;
        }
    }
    assert_eq!(found, (4 << 20) + 1);
}

/// What a client writes that takes nothing stays in its socket, and in the end the client waits.
#[test]
fn who_floods_and_takes_nothing_takes_no_memory() {
    let mut stage = Stage::new("flood");
    let mut stream = stage.connect(Instant::START);
    stream.set_nonblocking(true).unwrap();
    let mut written = 0;
    for turn in 0..10_000 {
        written += stream.write(&[b'\n'; 4096]).unwrap_or(0);
        if stage.is_read_from(0) {
            stage.clients.take(0, true, true, Instant::from_nanos(turn));
        }
        while let Some((place, question)) = stage.clients.next() {
            assert_eq!(question, Question::Unknown);
            stage.answer(place, "{\"error\":\"no such question\"}");
        }
        stage.flush(Instant::from_nanos(turn));
        let client = stage.clients.clients[0].as_ref().unwrap();
        assert!(client.input.len() <= MOST_INPUT && client.input.capacity() <= 2 * MOST_INPUT);
    }
    assert!(stream.write(b"\n").is_err() && written < 1 << 20, "{written}");
    let client = stage.clients.clients[0].as_ref().unwrap();
    assert!(client.answer.is_some() && !client.awaited.reads);
}

#[test]
fn who_is_gone_while_its_answer_waits_is_closed() {
    let mut stage = Stage::new("gone");
    let stream = stage.connect(Instant::START);
    stage.answer(0, &"x".repeat(4 << 20));
    stage.flush(Instant::from_nanos(1));
    drop(stream);
    let mut found = Vec::new();
    stage.poller.wait(Some(1000), &mut found).unwrap();
    stage.clients.take(0, found[0].can_read, found[0].can_write, Instant::from_nanos(2));
    stage.flush(Instant::from_nanos(2));
    assert!(stage.clients.clients[0].is_none());
}

#[test]
fn an_answer_is_bounded_and_kept_once() {
    let line = Line::of("x".repeat(MOST_ANSWER));
    assert!(line.0.starts_with("{\"error\":\"the answer would have more than") && line.0.ends_with("}\n"));
    assert_eq!(Line::of("x".repeat(MOST_ANSWER - 1)).0.len(), MOST_ANSWER);
    let mut stage = Stage::new("once");
    let streams = [stage.connect(Instant::START), stage.connect(Instant::START)];
    (0..2).for_each(|place| stage.clients.answer(place, line.clone(), Instant::START));
    assert_eq!(Rc::strong_count(&line.0), 3);
    drop(streams);
}

/// At each turn as many as there are places; who connected last is answered.
#[test]
fn a_thousand_that_connect_keep_nobody() {
    let mut stage = Stage::new("thousand");
    let mut streams = Vec::new();
    while streams.len() < 1000 {
        // As many as may wait to be taken.
        streams.extend((0..100).map(|_| UnixStream::connect(&stage.path).unwrap()));
        stage.clients.accept(&stage.poller, Instant::from_nanos(streams.len() as u64)).unwrap();
        assert!(stage.clients.listener.accept().is_ok(), "more than are taken at a turn");
        (1..7).for_each(|_| stage.clients.accept(&stage.poller, Instant::from_nanos(streams.len() as u64)).unwrap());
    }
    // These tests may run as root, or as another user.
    let is_root = stage.users()[0] == ROOT;
    assert_eq!(stage.users().len(), if is_root { MOST_CLIENTS } else { MOST_CLIENTS - PLACES_OF_ROOT });
    streams[999].write_all(b"hello\n").unwrap();
    (0..MOST_CLIENTS).for_each(|place| stage.clients.take(place, true, false, Instant::from_nanos(2000)));
    let (place, _) = stage.clients.next().unwrap();
    stage.answer(place, "{}");
    stage.flush(Instant::from_nanos(2000));
    let mut line = String::new();
    BufReader::new(&streams[999]).read_line(&mut line).unwrap();
    assert_eq!(line, "{}\n");
}

#[test]
fn who_is_silent_or_writes_too_much_is_closed() {
    let mut stage = Stage::new("silent");
    let (_silent, mut much) = (stage.connect(Instant::START), stage.connect(at(20 * SECOND)));
    stage.flush(at(MOST_SILENCE));
    assert!(stage.clients.clients[0].is_none() && stage.clients.clients[1].is_some());
    much.write_all(&[b'x'; 2000]).unwrap();
    stage.clients.take(1, true, false, Instant::from_nanos(1));
    assert!(stage.clients.clients[1].is_none());
}

/// However many of the group connect and ask, root connects, asks, and isn't put out.
#[test]
fn root_has_places_that_others_never_take() {
    const OTHER_USER: u32 = 990;
    let mut stage = Stage::new("root");
    let connect = |stage: &mut Stage, user, times: std::ops::Range<u64>| -> Vec<UnixStream> {
        times.map(|time| stage.connect_as(user, Instant::from_nanos(time))).collect()
    };
    let others = connect(&mut stage, OTHER_USER, 0..100);
    assert_eq!(stage.users(), [OTHER_USER; MOST_CLIENTS - PLACES_OF_ROOT]);
    let mut root = connect(&mut stage, ROOT, 100..105);
    let more = connect(&mut stage, OTHER_USER, 105..205);
    let count = |stage: &Stage, user| stage.users().iter().filter(|found| **found == user).count();
    assert_eq!((count(&stage, ROOT), count(&stage, OTHER_USER)), (5, MOST_CLIENTS - 5));
    root[0].write_all(b"kick 02:00:00:00:01:01 02:aa:00:00:00:01\n").unwrap();
    (0..MOST_CLIENTS).for_each(|place| stage.clients.take(place, true, false, Instant::from_nanos(300)));
    let (place, question) = stage.clients.next().unwrap();
    assert!(stage.clients.is_root(place) && matches!(question, Question::Kick { .. }));
    // If root has all places, others are closed at once.
    root.extend(connect(&mut stage, ROOT, 400..420));
    let mut late = stage.connect_as(OTHER_USER, Instant::from_nanos(500));
    assert_eq!((stage.users(), late.read(&mut [0]).unwrap()), (vec![ROOT; MOST_CLIENTS], 0));
    drop((others, root, more));
}

/// Whoever has just got events waits behind those who ask since before.
#[test]
fn events_go_to_who_waits_longest() {
    let mut stage = Stage::new("events");
    let _streams = [0, 1, 2].map(|time| stage.connect(Instant::from_nanos(time)));
    stage.clients.wait(0, Question::Events { first: 9 }, at(2 * SECOND));
    stage.clients.wait(1, Question::Events { first: 8 }, at(SECOND));
    stage.clients.wait(2, Question::Status, Instant::START);
    assert!(stage.clients.has_questions());
    for wanted in [(1, 8), (0, 9)] {
        assert_eq!(stage.clients.waits_longest_for_events(), Some(wanted));
        stage.answer(wanted.0, "{}");
    }
    assert_eq!((stage.clients.waits_longest_for_events(), stage.clients.has_questions()), (None, false));
}

/// As when this machine has no descriptors left: nobody waits busily, and a second later it is tried again.
#[test]
fn where_nobody_can_connect_it_is_tried_again_later() {
    let mut stage = Stage::new("closed");
    // Of a socket that doesn't listen accept(2) tells a fault again and again, and this one can be read all the time.
    let (near, mut far) = UnixStream::pair().unwrap();
    far.write_all(b"x").unwrap();
    stage.clients = Clients::new(OwnedFd::from(near).into()).unwrap();
    stage.poller.add(stage.clients.descriptor(), Token::Listener, true, false).unwrap();
    let mut found = Vec::new();
    let mut is_ready = |stage: &mut Stage| {
        stage.poller.wait(Some(20), &mut found).unwrap();
        found.iter().any(|ready| ready.token == Token::Listener)
    };
    for time in [SECOND, 2 * SECOND] {
        stage.flush(at(time));
        assert!(is_ready(&mut stage));
        stage.clients.accept(&stage.poller, at(time)).unwrap();
        stage.flush(at(time + SECOND - NANOSECOND));
        assert!(!is_ready(&mut stage));
    }
}

#[test]
fn where_all_places_are_taken_the_one_that_wrote_longest_ago_goes() {
    let mut stage = Stage::new("many");
    let streams: Vec<UnixStream> =
        (0..MOST_CLIENTS as u64).map(|number| stage.connect(Instant::from_nanos(100 - number))).collect();
    let last = stage.connect(Instant::from_nanos(200));
    let client = stage.clients.clients[MOST_CLIENTS - 1].as_ref().unwrap();
    assert_eq!(client.wrote, Instant::from_nanos(200));
    drop((streams, last));
}
