use std::collections::BTreeMap;
use std::path::PathBuf;

use super::*;
use crate::apctl::program::Program;
use crate::os::clock::{now, Duration, Instant, SECOND};
use crate::restart::state::{choose, NetworkState, Setting};
use crate::restart::state_text::MOST_AID;
use crate::stations::meaning::{from_station, FromStation};
use crate::testing::samples::{self, at, network, Seeded, NANOSECOND, OTHER, OURS, STATION, STRANGER};

#[path = "state_test.rs"]
mod state_tests;

fn setting() -> Setting {
    Setting { phy: "phy0".into(), channel: 6, interval: 100 }
}

/// A station that joined our network with this identifier.
fn kept(network: &Network, number: u8, aid: u16) -> KeptStation {
    let address = Address::of([2, 0xaa, 0, 0, 1, number]);
    let mut request = association_request(network, address);
    request[26] = number;
    KeptStation { address, aid, listen: u16::from(number), dozes: false, has_dozed: false, request }
}

fn of_network(network: &Network, stations: Vec<KeptStation>) -> NetworkState {
    let Network { bssid, ssid, rates, .. } = network.clone();
    NetworkState { bssid, ssid, rates, units: Some(3), waiting: 2, stations }
}

fn state(networks: Vec<NetworkState>) -> State {
    State { setting: setting(), written: at(70 * SECOND), is_last: true, networks }
}

/// Two networks; the first has stations with the identifiers 2 and 4, of which the second one dozes.
fn sample() -> State {
    let ours = network(OURS);
    let dozing = KeptStation { dozes: true, has_dozed: true, ..kept(&ours, 9, 4) };
    let first = of_network(&ours, vec![kept(&ours, 7, 2), dozing]);
    state(vec![first, NetworkState { units: None, ..of_network(&network(OTHER), Vec::new()) }])
}

fn said_of(replay: &mut Replay) -> Vec<ReplayEvent> {
    std::iter::from_fn(|| replay.next()).collect()
}

#[test]
fn stations_are_said_in_order_with_gaps_filled_and_fillers_leave_last() {
    let ours = network(OURS);
    let mut replay = Replay::of(&sample(), &[ours.clone()]).unwrap();
    let stations = sample().networks.remove(0).stations;
    let joins = |address, request: Vec<u8>| [authentication(OURS, address), request];
    let made_up_joins = |number| joins(made_up(number), association_request(&ours, made_up(number)));
    let frames = [
        &made_up_joins(0)[..],
        &joins(stations[0].address, stations[0].request.clone()),
        &made_up_joins(1),
        &joins(stations[1].address, stations[1].request.clone()),
        &[mode_of_station(OURS, stations[1].address, true)],
        &[departure(OURS, made_up(0)), departure(OURS, made_up(1))],
    ];
    let mut wanted: Vec<ReplayEvent> = frames.concat().into_iter().map(ReplayEvent::Frame).collect();
    wanted.push(ReplayEvent::Tables);
    assert_eq!(said_of(&mut replay), wanted);
    assert!(!replay.is_done());
}

#[test]
fn a_made_up_station_has_no_station_s_address() {
    let ours = Network { bssid: made_up(1), ..network(OURS) };
    let mut taken = kept(&ours, 1, 2);
    taken.address = made_up(0);
    let mut replay = Replay::of(&state(vec![of_network(&ours, vec![taken])]), &[ours.clone()]).unwrap();
    let first = said_of(&mut replay).remove(0);
    assert_eq!(first, ReplayEvent::Frame(authentication(made_up(1), made_up(2))));
}

#[test]
fn only_networks_that_are_the_same_to_their_stations_are_restored() {
    let ours = network(OURS);
    for other in [
        Network { ssid: b"la".to_vec(), ..ours.clone() },
        Network { rates: vec![0x84], ..ours.clone() },
        Network { bssid: STRANGER, ..ours.clone() },
    ] {
        let found = Replay::of(&state(vec![of_network(&ours, vec![kept(&ours, 1, 1)])]), &[other.clone()]);
        assert_eq!(found.map(drop), Err(NotUsed::OtherConfiguration));
        let found = Replay::of(&sample(), &[other, network(OTHER)]).unwrap();
        assert!(found.is_empty());
    }
    let other = Network { max_known: 7, weight: 2, wire: Some("wire2".into()), ..ours };
    assert!(!Replay::of(&sample(), &[other]).unwrap().is_empty());
}

/// What a program does with the events that are said to it, as far as they matter here.
#[derive(Default)]
struct Model {
    max_stations: usize,
    stations: BTreeMap<Address, Option<(u16, u16, bool)>>,
    /// The addresses whose association is refused.
    refuses: Vec<Address>,
}

impl Model {
    fn take(&mut self, bssid: Address, event: &ReplayEvent) -> Vec<Answer> {
        let octets = match event {
            ReplayEvent::Frame(octets) => octets,
            ReplayEvent::Tables => return self.tables(bssid).into_iter().map(Answer::Told).collect(),
        };
        let frame = Frame::of(octets).unwrap();
        let station = frame.transmitter().unwrap();
        let (aid, kind) = match from_station(frame, bssid) {
            None => {
                self.stations.insert(station, None);
                return vec![answer(bssid, station, 0xb0, &[0, 0, 2, 0, 0, 0])];
            }
            Some(FromStation::Association { listen }) => {
                let used: HashSet<u16> = self.stations.values().flatten().map(|(aid, ..)| *aid).collect();
                let aid = (1..=MOST_AID).find(|aid| !used.contains(aid)).unwrap();
                if self.refuses.contains(&station) || used.len() >= self.max_stations {
                    return vec![answer(bssid, station, 0x10, &[1, 0, 17, 0, 0, 0])];
                }
                self.stations.insert(station, Some((aid, listen, false)));
                (aid, octets[0] | 0x10)
            }
            Some(FromStation::Data { dozes, .. }) => {
                self.stations.get_mut(&station).unwrap().as_mut().unwrap().2 = dozes;
                return Vec::new();
            }
            Some(FromStation::Deauthentication { .. }) => {
                self.stations.remove(&station);
                return Vec::new();
            }
            other => panic!("{other:?}"),
        };
        let [low, high] = aid.to_le_bytes();
        vec![answer(bssid, station, kind, &[1, 0, 0, 0, low, high | 0xc0])]
    }

    fn tables(&self, bssid: Address) -> Vec<String> {
        let mut lines = vec![format!("network {bssid} ssid 6c"), "events 9 clock 0 unread 0 lost 0 kept 0".into()];
        for (address, row) in &self.stations {
            let mode = |dozes| if dozes { "doze" } else { "active" };
            lines.push(match row {
                None => format!("station {address} authenticated"),
                Some((aid, listen, dozes)) => {
                    let mode = mode(*dozes);
                    format!("station {address} associated aid {aid} listen {listen} {mode} kept 0")
                }
            });
        }
        lines.push("end".into());
        lines
    }
}

fn answer(bssid: Address, station: Address, control: u8, body: &[u8]) -> Answer {
    Answer::Air(bssid, samples::of_network(bssid, station, control, body))
}

/// What comes of a network's stations with this model.
fn restore(state: &State, ours: &Network, model: Model) -> Restored {
    restore_all(state, std::slice::from_ref(ours), vec![model])
}

/// What comes of all networks' stations, each with its model.
fn restore_all(state: &State, networks: &[Network], mut models: Vec<Model>) -> Restored {
    let mut replay = Replay::of(state, networks).unwrap();
    networks.iter().zip(&mut models).for_each(|(network, model)| model.max_stations = network.max_stations.into());
    while let Some(event) = replay.next() {
        for (network, model) in networks.iter().zip(&mut models) {
            let is_heard = match &event {
                ReplayEvent::Frame(octets) => Frame::of(octets).unwrap().receiver() == network.bssid,
                ReplayEvent::Tables => true,
            };
            if is_heard {
                assert!(!replay.is_done());
                model.take(network.bssid, &event).iter().for_each(|answer| replay.take(answer));
            }
        }
    }
    assert!(replay.is_done());
    replay.restored()
}

fn members(stations: &[KeptStation]) -> Vec<Member> {
    stations.iter().map(|kept| (0, kept.address)).collect()
}

#[test]
fn who_is_answered_as_before_stays() {
    let ours = network(OURS);
    let mut sample = sample();
    sample.networks[0].stations[0].has_dozed = true;
    let stations = sample.networks[0].stations.clone();
    let restored = restore(&sample, &ours, Model::default());
    let stay: Vec<_> = stations.iter().map(|kept| ((0, kept.address), kept.clone())).collect();
    assert_eq!(restored, Restored { stay, swallowed: 8, ..Restored::default() });
    // If the bridge didn't write it at its end, who has dozed may doze: its units are kept until it wakes.
    let killed = restore(&State { is_last: false, ..sample }, &ours, Model::default());
    assert!(killed.stay.iter().all(|(_, kept)| kept.dozes));
    assert_eq!(killed.stay.len(), 2);
}

/// The identifiers behind one that is refused are others: none of these stays, and the program forgets them.
#[test]
fn who_is_answered_otherwise_joins_again() {
    let ours = network(OURS);
    let stations: Vec<KeptStation> = (1..=4).map(|number| kept(&ours, number, number.into())).collect();
    let state = state(vec![of_network(&ours, stations.clone())]);
    let refuses = Model { refuses: vec![stations[1].address], ..Model::default() };
    let restored = restore(&state, &ours, refuses);
    assert_eq!(restored.stay, [((0, stations[0].address), stations[0].clone())]);
    assert_eq!(restored.again, members(&stations[1..]));
    assert_eq!(restored.leave, members(&stations[1..]));
    let mut other = Model::default();
    other.stations.insert(STATION, None);
    assert_eq!(restore(&state, &ours, other).leave, [(0, STATION)]);
    // One whose listen interval or mode is another one in the table.
    for line in ["aid 2 listen 9 active", "aid 2 listen 2 doze", "aid 3 listen 2 active"] {
        let mut replay = Replay::of(&state, std::slice::from_ref(&ours)).unwrap();
        let mut model = Model { max_stations: 100, ..Model::default() };
        while let Some(event) = replay.next() {
            for answer in model.take(OURS, &event) {
                match answer {
                    Answer::Told(text) => {
                        let text = text.replace("aid 2 listen 2 active", line);
                        replay.take(&Answer::Told(text));
                    }
                    other => replay.take(&other),
                }
            }
        }
        let restored = replay.restored();
        assert_eq!((restored.stay.len(), restored.again), (3, members(&stations[1..2])), "{line}");
    }
}

/// A frame of the answer is compared too.
#[test]
fn who_is_answered_by_another_identifier_joins_again() {
    let ours = network(OURS);
    let stations = vec![kept(&ours, 1, 1)];
    let mut replay = Replay::of(&state(vec![of_network(&ours, stations.clone())]), &[ours]).unwrap();
    said_of(&mut replay);
    replay.take(&answer(OURS, stations[0].address, 0x10, &[1, 0, 0, 0, 2, 0xc0]));
    let row = format!("station {} associated aid 1 listen 1 active kept 0", stations[0].address);
    for line in [format!("network {OURS} ssid 6c"), row, "end".into()] {
        replay.take(&Answer::Told(line));
    }
    let restored = replay.restored();
    assert_eq!((restored.again, restored.leave), (members(&stations), members(&stations)));
}

#[test]
fn who_has_an_identifier_above_the_new_most_joins_again() {
    let ours = Network { max_stations: 3, ..network(OURS) };
    let stations: Vec<KeptStation> = [1, 3, 4].into_iter().map(|aid| kept(&ours, aid as u8, aid)).collect();
    let restored = restore(&state(vec![of_network(&ours, stations.clone())]), &ours, Model::default());
    assert_eq!(restored.stay.len(), 2);
    assert_eq!((restored.again, restored.leave), (members(&stations[2..]), vec![]));
}

/// Also if nobody else is to be said.
#[test]
fn who_alone_has_an_identifier_above_the_new_most_joins_again() {
    let ours = Network { max_stations: 3, ..network(OURS) };
    let stations = vec![kept(&ours, 4, 4)];
    let state = state(vec![of_network(&ours, stations.clone())]);
    assert!(!Replay::of(&state, std::slice::from_ref(&ours)).unwrap().is_empty());
    let restored = restore(&state, &ours, Model::default());
    assert_eq!(restored, Restored { again: members(&stations), ..Restored::default() });
}

/// A station may be known to both; a row of a table is of the network whose table it is.
#[test]
fn each_network_has_its_own_stations_again() {
    let networks = [network(OURS), network(OTHER)];
    let of = |network: &Network, aids: [u16; 2]| {
        of_network(network, aids.map(|aid| kept(network, 9 - aid as u8, aid)).into())
    };
    let state = state(vec![of(&networks[1], [1, 4]), of(&networks[0], [2, 4])]);
    let restored = restore_all(&state, &networks, vec![Model::default(), Model::default()]);
    let stay: Vec<_> = restored.stay.iter().map(|((place, _), kept)| (*place, kept.aid)).collect();
    assert_eq!(stay, [(0, 2), (0, 4), (1, 1), (1, 4)]);
    assert_eq!((restored.again, restored.leave), (vec![], vec![]));
    let mut other = Model::default();
    other.stations.insert(STATION, None);
    let address = |place: usize, number: usize| state.networks[place].stations[number].address;
    let refuses = Model { refuses: vec![address(0, 1)], ..Model::default() };
    let restored = restore_all(&state, &networks, vec![other, refuses]);
    let stay: Vec<_> = restored.stay.iter().map(|((place, _), kept)| (*place, kept.aid)).collect();
    assert_eq!((stay, restored.again), (vec![(0, 2), (0, 4), (1, 1)], vec![(1, address(0, 1))]));
    assert_eq!(restored.leave, [(0, STATION), (1, address(0, 1))]);
}

/// The tables of all networks have to come.
#[test]
fn it_is_done_once_the_last_table_came() {
    let networks = [network(OURS), network(OTHER)];
    let state = state(vec![of_network(&networks[0], vec![kept(&networks[0], 1, 1)])]);
    let mut replay = Replay::of(&state, &networks).unwrap();
    said_of(&mut replay);
    let lines = [format!("network {OURS} ssid 6c"), "end".into(), format!("network {OTHER} ssid 6c"), "end".into()];
    for (line, is_done) in lines.into_iter().zip([false, false, false, true]) {
        replay.take(&Answer::Told(line.clone()));
        assert_eq!(replay.is_done(), is_done, "{line}");
    }
}

/// Networks with drawn stations, with and without gaps, up to full ones.
fn drawn(random: &mut Seeded) -> (State, Network) {
    let ours = Network { max_stations: 1 + random.below(40) as u16, ..network(OURS) };
    let mut stations = Vec::new();
    for aid in 1..=ours.max_stations {
        if random.below(3) > 0 {
            let mut station = kept(&ours, aid as u8, aid);
            station.dozes = random.below(3) == 0;
            station.has_dozed = station.dozes || random.below(2) == 0;
            if random.below(2) == 0 {
                // A reassociation, from a network of before, and elements that nobody reads.
                station.request[0] = 0x20;
                station.request.splice(28..28, *OTHER.octets());
                station.request.extend([221, 3, 1, 2, 3]);
            }
            stations.push(station);
        }
    }
    (State { is_last: random.below(2) == 0, ..state(vec![of_network(&ours, stations)]) }, ours)
}

#[test]
fn all_that_fit_stay_whatever_gaps_there_are() {
    let mut random = Seeded(89);
    for number in 0..300 {
        let (state, ours) = drawn(&mut random);
        let stations = state.networks[0].stations.clone();
        assert_eq!(State::read(&state.text()), Some(state.clone()));
        let restored = restore(&state, &ours, Model::default());
        let stay: Vec<Member> = restored.stay.iter().map(|(member, _)| *member).collect();
        assert_eq!((stay, restored.again, restored.leave), (members(&stations), vec![], vec![]), "{number}");
    }
}

/// The built program, if it is there.
fn program() -> Option<PathBuf> {
    let path = std::env::var_os("PROGRAM").map_or_else(|| "../../build/apctl".into(), PathBuf::from);
    Some(path).filter(|path| path.exists())
}

fn config_of(ours: &Network) -> String {
    let Network { bssid, max_stations, max_known, .. } = ours;
    let (ssid, rates) = (String::from_utf8(ours.ssid.clone()).unwrap(), hex::encode(&ours.rates));
    format!(
        "version = 2\nchannel = 6\ninterval = 100\nqueue = 64\n[[network]]\nbssid = \"{bssid}\"\nssid = \"{ssid}\"\n\
         rates = \"{rates}\"\ndtim = 1\nmax_stations = {max_stations}\nmax_known = {max_known}\nquota = 9\n\
         max_events = 1000\nrelay = true\naging = true\n"
    )
}

/// The program itself answers so that all stay, and has them in its tables in the order of their identifiers.
#[test]
fn the_built_program_has_all_as_before() {
    let program = match program() {
        Some(program) => program,
        None => {
            // Past what the test's runner keeps back, so that whoever counts the tests can leave this one out.
            let told = std::io::Write::write_all(&mut std::io::stderr(), b"not run: build/apctl isn't there\n");
            return told.unwrap();
        }
    };
    let mut random = Seeded(2016);
    let path = std::env::temp_dir().join(format!("replay-{}.toml", std::process::id()));
    for number in 0..12 {
        let (state, ours) = drawn(&mut random);
        std::fs::write(&path, config_of(&ours)).unwrap();
        let words = (program.to_str().unwrap(), path.to_str().unwrap());
        let (mut program, mut feeder) = Program::start(words.0, words.1, None, None).unwrap();
        let mut replay = Replay::of(&state, std::slice::from_ref(&ours)).unwrap();
        let until = now() + 60 * SECOND;
        while !replay.is_done() {
            assert!(now() < until && !program.has_ended);
            while feeder.room() > 0 {
                match replay.next() {
                    Some(event) => feeder.feed(event.event()),
                    None => break,
                }
                feeder.flush().unwrap();
            }
            while program.read().unwrap() {
                while let Some(answer) = program.next_answer().unwrap() {
                    replay.take(&answer);
                }
            }
            std::thread::sleep(Duration::from_millis(1).into());
        }
        feeder.close();
        assert_eq!(program.status(now() + 60 * SECOND).unwrap(), 0);
        let stations = &state.networks[0].stations;
        let restored = replay.restored();
        let stay: Vec<Member> = restored.stay.iter().map(|(member, _)| *member).collect();
        assert_eq!((stay, restored.again, restored.leave), (members(stations), vec![], vec![]), "{number}");
        let fillers = stations.last().map_or(0, |last| usize::from(last.aid)) - stations.len();
        assert_eq!(restored.swallowed, 2 * (stations.len() + fillers), "{number}");
    }
    std::fs::remove_file(path).unwrap();
}
