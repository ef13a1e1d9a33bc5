use std::fs::{self, Permissions};
use std::io::{self, BufRead, BufReader, Write};
use std::os::unix::fs::{MetadataExt, OpenOptionsExt, PermissionsExt};
use std::os::unix::io::{AsFd, BorrowedFd, OwnedFd};
use std::os::unix::net::{UnixDatagram, UnixListener, UnixStream};
use std::path::PathBuf;
use std::sync::atomic::{AtomicBool, AtomicUsize, Ordering};
use std::sync::{Arc, Mutex};
use std::thread;
use std::time::Duration;

use libc::sock_filter;

use super::running::TO_BEACON;
use super::staying::{left_state, RESTORED_FROM, RESTORED_TO};
use super::*;
use crate::apctl::recording::Recording;
use crate::control::log;
use crate::formats::radiotap::sending_header;
use crate::network::Network;
use crate::os::handed::hand;
use crate::os::link::Link;
use crate::os::port::Port;
use crate::restart::state::State;
use crate::stations::own_frames::{association_request, deauthentication, departure, INACTIVITY};
use crate::testing::samples::{at, data, network, radiotap, Unit, OTHER, OURS, STATION};

#[path = "counting_test.rs"]
mod counting;
#[path = "fake_port_test.rs"]
mod fake_port;
#[path = "moving_test.rs"]
mod moving;
#[path = "overload_test.rs"]
mod overload;
#[path = "radio_test.rs"]
mod radio;
#[path = "roaming_test.rs"]
mod roaming;
#[path = "staying_test.rs"]
mod staying_tests;
#[path = "wires_test.rs"]
mod wires;

use fake_port::{FakePort, FarEnd};

const BEACON: &str = "80000000ffffffffffff020000000101020000000101";
/// What each program begins with: how it reads and writes records.
const PRELUDE: &str = r#"#!/usr/bin/python3
import itertools, struct, sys, time
OURS, OTHER, BEACON, ANSWER, JOINED = map(bytes.fromhex, (
    "020000000101", "020000000102", "BEACON", "b000000002aa000000010200000001010200000001011000000002000000",
    "1000000002aa0000000102000000010102000000010120000100000001c0"))
def write(kind, bssid, octets=b""):
    sys.stdout.buffer.write(kind + bssid + struct.pack("<H", len(octets)) + octets)
    sys.stdout.buffer.flush()
def open_networks(number):
    write(b"O", bytes([0, 0, 0, 0, 0, number]))
def air(bssid, octets):
    write(b"A", bssid, octets)
def unit(number, ethernet):
    air(OURS, bytes.fromhex("08020000") + ethernet[:6] + OURS + ethernet[6:12] + struct.pack("<H", 16 * number)
        + bytes.fromhex("aaaa03000000") + ethernet[12:])
def wire(bssid, octets):
    write(b"W", bssid, octets)
def tell(*lines):
    for line in lines:
        write(b"N", bytes(6), line.encode() + b"\n")
def events():
    while header := sys.stdin.buffer.read(9):
        kind, length = struct.unpack("<c6xH", header)
        yield kind, sys.stdin.buffer.read(length)
if sys.argv[1:] != ["live", "--octets", "radio.toml"]:
    sys.exit(2)
"#;
/// A program of one network: a beacon for each tick, for each frame heard the same on the wire, for each question a
/// table; a frame of the wire ends it.
const ONE: &str = r#"
open_networks(1)
for kind, octets in events():
    if kind == b"T":
        air(OURS, BEACON)
    elif kind == b"A":
        wire(OURS, octets)
    elif kind == b"I":
        tell("end")
    elif kind == b"W":
        sys.exit(3)
tell("network 02:00:00:00:01:01 ssid 6c6162")
"#;

/// A program that authenticates a station, and has it in its table.
const KNOWING: &str = r#"
open_networks(1)
for kind, octets in events():
    if kind == b"T":
        air(OURS, BEACON)
    elif kind == b"A" and octets[0] == 0xb0:
        air(OURS, ANSWER)
    elif kind == b"I":
        tell("network 02:00:00:00:01:01 ssid 6c", "events 7 clock 1 unread 0 lost 0 kept 0",
             "station 02:aa:00:00:00:01 authenticated", "end")
"#;

/// A program in which one station authenticates and associates, and then stands in its table.
const JOINING: &str = r#"
open_networks(1)
stations = []
for kind, octets in events():
    if kind == b"T":
        air(OURS, BEACON)
    elif kind == b"A" and octets[0] == 0xb0:
        time.sleep(0)
        air(OURS, ANSWER)
    elif kind == b"A" and octets[0] == 0x00:
        air(OURS, JOINED)
        stations = ["station 02:aa:00:00:00:01 associated aid 1 listen 5 active kept 0"]
    elif kind == b"I":
        tell("network 02:00:00:00:01:01 ssid 6c", "events 7 clock 1 unread 0 lost 0 kept 2", *stations, "end")
"#;

/// A program of two networks: a beacon of each for each tick, each frame heard the same on the network's wire, and
/// tables.
const TWO: &str = r#"
open_networks(1)
for kind, octets in events():
    if kind == b"T":
        air(OURS, BEACON)
        air(OTHER, BEACON)
    elif kind == b"A":
        wire(octets[4:10], octets)
    elif kind == b"I":
        for number in 1, 2:
            tell(f"network 02:00:00:00:01:0{number} ssid 6c", "end")
"#;

fn nothing() -> OwnedFd {
    fs::File::open("/dev/null").unwrap().into()
}

/// The other ends of a bridge's ports, and of its requests.
struct Stage {
    folder: PathBuf,
    requests: UnixStream,
    air: FarEnd,
    wire: FarEnd,
    /// The second network's wire.
    other_wire: FarEnd,
}

impl Stage {
    fn hear(&self, frame: &[u8]) {
        self.air.send(&radiotap(frame, 1 << 1, &[0]));
    }

    /// Our station asks to be authenticated.
    fn authenticate(&self) {
        self.hear(&Unit { control: [0xb0, 0], body: vec![0, 0, 1, 0, 0, 0], ..Unit::default() }.octets());
    }

    /// Our station authenticates and associates.
    fn join(&self) {
        self.authenticate();
        pause(100);
        self.hear(&own_request());
        pause(100);
    }

    fn record(&self) -> Vec<String> {
        let text = fs::read_to_string(self.folder.join("record")).unwrap();
        text.lines().map(str::to_owned).collect()
    }

    /// How many beacon intervals have begun.
    fn ticks(&self) -> usize {
        self.record().iter().filter(|line| *line == "T").count()
    }

    /// How many beacons were sent.
    fn beacons(&self) -> usize {
        let at = sending_header(2, 0).len();
        self.air.sent().iter().filter(|frame| frame.get(at) == Some(&crate::formats::frames::BEACON)).count()
    }

    /// Whether the program was told of a frame that was heard.
    fn has_told(&self, frame: &[u8]) -> bool {
        self.record().contains(&line_of(frame))
    }
}

/// The line of the record that tells of a frame that was heard.
fn line_of(frame: &[u8]) -> String {
    format!("A {}", hex::encode(frame))
}

fn pause(milliseconds: u64) {
    thread::sleep(Duration::from_millis(milliseconds));
}

/// The association request of our station.
fn own_request() -> Vec<u8> {
    let mut octets = association_request(&network(OURS), STATION);
    octets[26] = 5;
    octets
}

/// What a bridge runs in.
#[derive(Clone, Copy)]
struct Surroundings {
    /// Whether the radio shows the beacons that it sends.
    shows: bool,
    /// Whether an earlier bridge saw it send.
    has_sent: bool,
    /// How long a frame takes that is sent on the air.
    takes: Duration,
    interval: u16,
    max_known: u16,
    /// How many units each network keeps.
    quota: u32,
    /// After how many seconds stations of which nothing was heard are asked.
    silence: u32,
    /// How many networks there are: one or two.
    networks: usize,
    /// Whether there is a record.
    is_recorded: bool,
    /// The file of the record, if it isn't one of the stage.
    record: Option<&'static str>,
    /// Whether the second network's wire is there at the start.
    has_other_wire: bool,
    /// The beginning of the names of the files of the state, if there are some.
    state: Option<&'static str>,
}

const PLAIN: Surroundings = Surroundings {
    shows: true,
    has_sent: false,
    takes: Duration::ZERO,
    interval: 100,
    max_known: 100,
    quota: 100,
    silence: 300,
    networks: 1,
    is_recorded: true,
    record: None,
    has_other_wire: true,
    state: None,
};
const TWO_NETWORKS: Surroundings = Surroundings { networks: 2, ..PLAIN };

fn files_of(state: &str) -> [OwnedFd; 2] {
    let mut options = fs::OpenOptions::new();
    options.read(true).write(true).create(true);
    [0, 1].map(|number| options.open(format!("{state}.{number}")).unwrap().into())
}

/// Runs a bridge with a program of this text, and `later` beside it, and ends it then. Gives what that found, and the
/// stage.
fn run<F: Send>(text: &str, surroundings: Surroundings, later: impl FnOnce(&mut Stage) -> F + Send) -> (F, Stage) {
    let mut found = None;
    let (outcome, stage) = run_on(text, surroundings, |stage| {
        found = Some(later(stage));
        stage.requests.shutdown(std::net::Shutdown::Both).unwrap();
    });
    assert_eq!(outcome, Ok(()));
    (found.unwrap(), stage)
}

/// The same of a bridge that ends by itself, or that `later` ends: gives what came of it.
fn run_on(text: &str, surroundings: Surroundings, later: impl FnOnce(&mut Stage) + Send) -> (Result<(), Fault>, Stage) {
    static NUMBER: AtomicUsize = AtomicUsize::new(0);
    let number = NUMBER.fetch_add(1, Ordering::SeqCst);
    let folder = std::env::temp_dir().join(format!("bridge-{}-{number}", std::process::id()));
    fs::create_dir_all(&folder).unwrap();
    let path = folder.join("program");
    fs::write(&path, [PRELUDE, text].concat().replace("\"BEACON\"", &format!("\"{BEACON}\""))).unwrap();
    fs::set_permissions(&path, Permissions::from_mode(0o755)).unwrap();
    let (asked, requests) = UnixStream::pair().unwrap();
    let (mut monitor, air) = FakePort::new("mon0");
    (monitor.shows, monitor.takes) = (surroundings.shows, surroundings.takes);
    let ((near_wire, wire), (near_other, other_wire)) = (FakePort::new("wire1"), FakePort::new("wire2"));
    let mut stage = Stage { folder, requests, air, wire, other_wire };
    let ports = (monitor, vec![Some(near_wire), Some(near_other)]);
    let clients = Clients::new(UnixListener::bind(stage.folder.join("socket")).unwrap()).unwrap();
    let outcome = thread::scope(|scope| {
        let name = surroundings.record.map_or_else(|| stage.folder.join("record"), PathBuf::from);
        let record = || Recording::new("record", fs::File::create(name).unwrap(), None).unwrap();
        let record = surroundings.is_recorded.then(record);
        scope.spawn(|| {
            if let Some(state) = surroundings.state {
                hand(&stage.requests, b"state\n", &files_of(state)).unwrap();
            }
            // A bridge whose program has ended at once reads it no more.
            let _ = hand(&stage.requests, b"open\n", &[nothing(), nothing(), nothing()]);
            pause(400);
            later(&mut stage);
        });
        serve(path.to_str().unwrap(), record, (asked, clients), ports, surroundings)
    });
    (outcome, stage)
}

fn serve(
    path: &str,
    record: Option<Recording>,
    (asked, clients): (UnixStream, Clients),
    (monitor, mut wires): (FakePort, Vec<Option<FakePort>>),
    surroundings: Surroundings,
) -> Result<(), Fault> {
    let Surroundings { interval, max_known, quota, silence, has_sent, .. } = surroundings;
    let of = |bssid, wire: &str| Network { wire: Some(wire.into()), max_known, quota, ..network(bssid) };
    let mut networks = vec![of(OURS, "wire1"), of(OTHER, "wire2")];
    networks.truncate(surroundings.networks);
    wires.truncate(surroundings.networks);
    if !surroundings.has_other_wire {
        wires[1] = None;
    }
    let (program, feeder) = Program::start(path, "radio.toml", None, record)?;
    let most_silence = Some(silence * SECOND);
    let manner = Manner {
        setting: setting(interval),
        networks,
        by: None,
        most_silence,
        tells_wires: true,
        tells_alive: false,
        has_sent,
    };
    let mut bridge = Bridge::new(program, feeder, Requests::new(asked), Some(clients), manner)?;
    let mut ports = Some((monitor, wires));
    bridge.serve(|_| {
        let (monitor, wires) = ports.take().unwrap();
        let beacons = monitor.beside();
        Ok(Interfaces::new(monitor, beacons, wires))
    })
}

#[test]
fn it_runs_and_ends() {
    let ((), stage) = run(ONE, PLAIN, |stage| {
        stage.hear(&data());
        stage.requests.write_all(b"tables\n").unwrap();
        pause(400);
    });
    let beacon = [&sending_header(2, 0)[..], &hex::decode(BEACON).unwrap()].concat();
    let sent = stage.air.sent();
    assert!(sent.len() >= 6 && sent.iter().all(|frame| *frame == beacon), "{}", sent.len());
    assert_eq!(stage.wire.sent(), [data()]);
    assert_eq!(stage.ticks(), sent.len());
    let mut others: Vec<_> = stage.record().into_iter().filter(|line| *line != "T").collect();
    others.sort();
    assert_eq!(others, ["# I".to_owned(), line_of(&data())]);
}

fn setting(interval: u16) -> Setting {
    Setting { phy: "phy0".into(), channel: 6, interval }
}

fn ask(stage: &Stage, question: &str) -> String {
    let mut stream = UnixStream::connect(stage.folder.join("socket")).unwrap();
    stream.write_all(format!("{question}\n").as_bytes()).unwrap();
    let mut answer = String::new();
    BufReader::new(stream).read_line(&mut answer).unwrap();
    answer
}

/// The status of now: one that was made before serves for a second.
fn ask_for_new_status(stage: &Stage) -> String {
    pause(1001);
    ask(stage, "status")
}

/// Whoever asks for the status within a second gets the same one; all else is answered meanwhile.
#[test]
fn one_status_a_second_is_made() {
    let (answers, _) = run(KNOWING, PLAIN, |stage| {
        pause(300);
        let questions = ["status", "events 1", "status", "kick 02:00:00:00:01:09 02:aa:00:00:00:01", "status"];
        let answers = questions.map(|question| ask(stage, question));
        [&answers[..], &[ask_for_new_status(stage)]].concat()
    });
    let since =
        |place: usize| answers[place].split(r#""since":"#).nth(1).unwrap().split(',').next().unwrap().to_owned();
    assert_eq!((since(2), since(4)), (since(0), since(0)));
    assert_ne!(since(5), since(0));
    assert!(answers[1].contains(r#""next":"#) && answers[3].contains("error"), "{answers:?}");
}

#[test]
fn it_is_asked_by_its_socket() {
    let (answers, stage) = run(KNOWING, PLAIN, |stage| {
        stage.authenticate();
        pause(300);
        let questions = ["status", "kick 02:00:00:00:01:01 02:aa:00:00:00:01", "hello", "events 1"];
        let answers = questions.map(|question| ask(stage, question));
        pause(300);
        answers
    });
    let station = r#"{"address":"02:aa:00:00:00:01","state":"authenticated","aid":null,"#;
    assert!(answers[0].contains(station) && answers[0].contains(r#""events":7"#), "{}", answers[0]);
    assert!(answers[2].contains(r#"{"error":"no such question"#), "{}", answers[2]);
    if fs::metadata("/proc/self").unwrap().uid() != 0 {
        assert!(answers[1].contains("only root"), "{}", answers[1]);
        return;
    }
    assert_eq!(answers[1], "{\"kicked\":true}\n");
    let kicked = r#""event":"forgotten","bssid":"02:00:00:00:01:01","station":"02:aa:00:00:00:01","why":"kicked"}]}"#;
    assert!(answers[3].trim_end().ends_with(kicked), "{}", answers[3]);
    assert!(stage.has_told(&departure(OURS, STATION)));
    let told = [&sending_header(2, 3)[..], &deauthentication(OURS, STATION, INACTIVITY, 2049)].concat();
    assert!(stage.air.sent().contains(&told));
}

/// Also if beacons are rare.
#[test]
fn who_does_not_associate_is_given_up_within_five_seconds_where_the_network_is_nearly_full() {
    let ((), stage) = run(KNOWING, Surroundings { interval: 60_000, max_known: 1, ..PLAIN }, |stage| {
        stage.authenticate();
        pause(4900);
    });
    assert!(stage.has_told(&departure(OURS, STATION)));
    let told = [&sending_header(2, 0)[..], &deauthentication(OURS, STATION, INACTIVITY, 2049)].concat();
    assert!(stage.air.sent().contains(&told));
}

/// Waits until this is so, for some seconds at most.
fn wait_until(mut is_so: impl FnMut() -> bool) {
    let until = now() + 5 * SECOND;
    while !is_so() && now() < until {
        pause(10);
    }
}

#[test]
fn a_radio_that_does_not_send_is_told() {
    let (outcome, _) = run_on(ONE, Surroundings { shows: false, ..PLAIN }, |_| {});
    assert!(outcome.unwrap_err().to_string().contains("this radio does not send beside its interfaces"));
}

#[test]
fn a_radio_that_an_earlier_bridge_saw_send_may_be_busy_for_as_long_as_it_is() {
    run(ONE, Surroundings { shows: false, has_sent: true, ..PLAIN }, |_| {
        thread::sleep((TO_BEACON + SECOND / 2).into())
    });
}

#[test]
fn a_program_that_ends_by_itself_is_told() {
    let (outcome, _) = run_on(ONE, PLAIN, |stage| stage.wire.send(&[0; 14]));
    assert_eq!(outcome, Err(Fault::ProgramEnded));
}

#[test]
fn what_a_program_says_wrongly_is_told() {
    for (text, says) in [
        ("sys.exit(7)\n", "the program ended with status 7 before its networks were open"),
        ("print('hello', flush=True)\nlist(events())\n", "the program wrote what isn't known: hello"),
        (
            // Both records at once.
            "import os\nos.write(1, b'O' + bytes([0, 0, 0, 0, 0, 1, 0, 0]) + b'A' + OTHER + bytes(2))\nlist(events())\n",
            "a frame before it was given one",
        ),
        ("open_networks(1)\nnext(events())\nair(OTHER, b'0')\nlist(events())\n", "a network that it doesn't have"),
    ] {
        let (outcome, _) = run_on(text, PLAIN, |_| {});
        assert!(outcome.as_ref().unwrap_err().to_string().contains(says), "{outcome:?}");
    }
}
