use super::*;
use crate::apctl::tables::Asker;
use crate::formats::frames::Address;
use crate::os::clock::{MILLISECOND, SECOND};
use crate::outbound::air::account::{HandedBack, Unsent};
use crate::testing::samples::{at, frame_of, made_up, network, of_network, OTHER, OURS, STATION};

#[test]
fn texts_are_escaped() {
    for (text, wanted) in
        [("a b", r#""a b""#), ("a\"\\", r#""a\"\\""#), ("\n\u{e9}\u{1f600}\u{7f}", r#""\n\u00e9\ud83d\ude00\u007f""#)]
    {
        assert_eq!(line_of(&text), wanted);
    }
    assert_eq!(error("no \"x\""), r#"{"error":"no \"x\""}"#);
}

#[test]
fn numbers_are_decimal() {
    for (time, wanted) in [(12_345_678_901, "12.345"), (999_999, "0.000"), (u64::MAX, "18446744073.709")] {
        assert_eq!(line_of(&Decimal::seconds(Duration::from_nanos(time))), wanted);
    }
    assert_eq!(line_of(&Decimal::milliseconds(Duration::from_nanos(412_999))), "0.412");
    assert_eq!(line_of(&[None, Some(-30)]), "[null,-30]");
}

/// Those that are associated are counted beyond the ones that are listed.
#[test]
fn stations_that_are_not_listed_are_counted() {
    let known = Known::with_stations(1, 1700, 1500);
    let line = line_of_whole(&known.status(at(3 * SECOND)));
    assert!(line.contains(r#""known":1700,"associated":1500,"dozing":0,"stations":["#), "{}", &line[..1000]);
    assert_eq!((line.matches(r#""state":"associated""#).count(), line.matches(r#""state":"#).count()), (1000, 1000));
}

pub fn line_of_whole(status: &Status<'_>) -> String {
    let mut text = status.begin();
    for place in 0..status.networks.len() {
        add_stations(status.add_network(place, &mut text), &mut text);
        text.push_str(END);
    }
    text + END
}

/// What a status is of.
pub struct Known {
    networks: Vec<Network>,
    faults: Faults,
    beacons: BeaconDelays,
    accounts: Vec<Account>,
    unacknowledged: Vec<Unacknowledged>,
    tallies: Vec<Tally>,
    table: StationTable,
    tables: Tables,
}

impl Known {
    fn of(networks: Vec<Network>) -> Known {
        Known {
            faults: Faults::default(),
            beacons: BeaconDelays::default(),
            accounts: vec![Account::default(); networks.len()],
            unacknowledged: vec![Unacknowledged::default(); networks.len()],
            tallies: vec![Tally::default(); networks.len()],
            table: StationTable::new(networks.iter().map(|network| network.bssid).collect()),
            tables: Tables::new(networks.len()),
            networks,
        }
    }

    /// Of so many networks, each of which knows so many stations, of which so many are associated.
    pub fn with_stations(networks: u8, stations: usize, joined: u16) -> Known {
        let bssids = (0..networks).map(|place| Address::of([2, 0, 0, 0, 3, place]));
        let mut known = Known::of(bssids.map(network).collect());
        for place in 0..usize::from(networks) {
            let bssid = known.networks[place].bssid;
            for (number, aid) in (0..stations).zip(1..) {
                let to = |control, body: &[u8]| of_network(bssid, made_up(number), control, body);
                known.table.answered(place, &to(0xb0, &[0, 0, 2, 0, 0, 0]), at(SECOND));
                if aid <= joined {
                    let [low, high] = aid.to_le_bytes();
                    known.table.answered(place, &to(0x10, &[1, 0, 0, 0, low, 0xc0 | high]), at(SECOND));
                }
            }
        }
        known
    }

    pub fn of_two_networks() -> Known {
        Known::of(vec![network(OURS), network(OTHER)])
    }

    /// A status where nothing else is known.
    pub fn status(&self, now: Instant) -> Status<'_> {
        Status {
            phy: "phy0",
            channel: 6,
            by: Some(By::ActiveMonitors),
            radio: OfRadio::default(),
            began: Instant::START,
            faults: &self.faults,
            record: None,
            beacons: &self.beacons,
            drops: Named::new(),
            left_out: Named::new(),
            networks: &self.networks,
            wires_down: Vec::new(),
            updates: &[0; 16],
            accounts: &self.accounts,
            unacknowledged: &self.unacknowledged,
            table: &self.table,
            tallies: &self.tallies,
            tables: &self.tables,
            now,
        }
    }
}

#[test]
fn all_stands_in_one_line() {
    let of_wire = Network { wire: Some("wire1".into()), quota: 2000, ..network(OURS) };
    let mut known = Known::of(vec![of_wire, network(OTHER)]);
    let (table, tables, faults) = (&mut known.table, &mut known.tables, &mut known.faults);
    let to = |control, body: &[u8]| of_network(OURS, STATION, control, body);
    table.answered(0, &to(0xb0, &[0, 0, 2, 0, 0, 0]), at(SECOND));
    table.fed(&frame_of([0, 0], OURS, STATION, OURS, &[1, 0, 5, 0]), at(SECOND));
    table.answered(0, &to(0x10, &[1, 0, 0, 0, 3, 0xc0]), at(SECOND));
    table.answered(1, &to(0xb0, &[0, 0, 2, 0, 1, 0]), at(SECOND));
    tables.ask(Asker::Status, Instant::START);
    for line in [
        "network 02:00:00:00:01:01 ssid 6c",
        "events 4 clock 1 unread 0 lost 0 kept 2",
        "station 02:aa:00:00:00:01 associated aid 3 listen 5 doze kept 2",
        "end",
        "network 02:00:00:00:01:02 ssid 6d",
        "end",
    ] {
        tables.take(line, at(SECOND));
    }
    faults.push("fault L2 line 3", at(SECOND));
    faults.push("fault L1 line 4", at(2 * SECOND));
    let record = Recording::new("today", std::fs::File::open("/dev/null").unwrap(), None).unwrap();
    known.beacons.count(2 * MILLISECOND);
    known.beacons.count(4 * MILLISECOND);
    let accounts = &mut known.accounts;
    accounts.fill(Account { used: 2500 * MILLISECOND, waiting: 7, ..Account::default() });
    accounts[0].unsent.insert(Unsent::Late, 5);
    accounts[0].handed_back = HandedBack { units: 9, out_of_order: 1 };
    accounts[0].octets = 8400;
    known.unacknowledged[0] = Unacknowledged { again: 6, lost: 4 };
    known.tallies[0] =
        Tally { joins: 12, moved_in: 2, said: 3, silent: 4, unassociated: 5, kicked: 1, moved_out: 7, claims: 8 };
    let status = Status {
        radio: OfRadio { down_since: None, unsent_since: Some(at(SECOND)), elsewhere: Some(2412), heard_elsewhere: 3 },
        record: Some(&record),
        drops: Named::from([("the air: late".to_owned(), 3)]),
        wires_down: vec![Some(at(SECOND / 2)), None],
        updates: &[2, 0],
        ..known.status(at(3 * SECOND))
    };
    let wanted = [
        r#""since":3.000,"phy":"phy0","channel":6,"by":"active-monitors","#,
        r#""radio":{"down":null,"unsent":2.000,"elsewhere":2412,"heard_elsewhere":3},"#,
        r#""faults":[{"seconds":2.000,"text":"fault L2 line 3"},{"seconds":1.000,"text":"fault L1 line 4"}],"#,
        r#""record":{"octets":0,"fault":null},"#,
        r#""beacons":{"sent":2,"late_ms_mean":3.000,"late_ms_worst":4.000,"late_seconds":0.006,"#,
        r#""late_up_to_ms":[[1,0],[2,1],[5,2],[10,2],[20,2],[50,2],[100,2],[200,2]],"missed":0},"#,
        r#""drops":{"the air: late":3},"left_out":{},"networks":["#,
        r#"{"bssid":"02:00:00:00:01:01","ssid":"6c","wire":"wire1","wire_down":2.500,"updates":2,"#,
        r#""air":{"weight":1,"seconds":2.500,"waiting":7,"waiting_octets":8400,"most_waiting_octets":2097152,"#,
        r#""sent_again":6,"unacknowledged":4,"unsent":{"had waited too long":5},"#,
        r#""most_kept":1801,"handed_back":9,"handed_back_out_of_order":1},"#,
        r#""quota":2000,"holder":{"address":"02:aa:00:00:00:01","kept":2,"listen":5},"#,
        r#""counts":{"clock":1,"events":4,"kept":2,"lost":0,"unread":0},"joins":12,"#,
        r#""leaves":{"said":3,"silent":4,"unassociated":5,"kicked":1,"moved":7},"moved_in":2,"moved_out":7,"claims":8,"#,
        r#""refusals":{},"max_stations":100,"max_known":100,"#,
        r#""known":1,"associated":1,"dozing":0,"stations":[{"address":"02:aa:00:00:00:01","state":"associated","aid":3,"listen":5,"dozes":false,"#,
        r#""since":2.000,"heard":2.000,"signal":null,"rate_to":null,"rate_from":null,"#,
        r#""octets_to":0,"octets_from":0,"frames_to":0,"frames_from":0,"kept":2}]},"#,
        r#"{"bssid":"02:00:00:00:01:02","ssid":"6d","wire":null,"wire_down":null,"updates":0,"#,
        r#""air":{"weight":1,"seconds":2.500,"waiting":7,"waiting_octets":0,"most_waiting_octets":2097152,"#,
        r#""sent_again":0,"unacknowledged":0,"unsent":{},"#,
        r#""most_kept":null,"handed_back":0,"handed_back_out_of_order":0},"#,
        r#""quota":100,"holder":null,"#,
        r#""counts":{},"joins":0,"#,
        r#""leaves":{"said":0,"silent":0,"unassociated":0,"kicked":0,"moved":0},"moved_in":0,"moved_out":0,"claims":0,"#,
        r#""refusals":{"1":1},"max_stations":100,"max_known":100,"known":0,"associated":0,"dozing":0,"stations":[]}]}"#,
    ];
    let (line, wanted) = (line_of_whole(&status), wanted.concat());
    assert!(line.starts_with(&format!("{{\"version\":{}", line_of(&VERSION))), "{line}");
    assert!(line.ends_with(&wanted), "{line}\n{wanted}");
}

#[test]
fn only_the_last_faults_are_kept() {
    let mut faults = Faults::default();
    assert_eq!((0..100).filter(|number| faults.push(&number.to_string(), Instant::from_nanos(*number))).count(), 10);
    assert_eq!((faults.last.len(), faults.last[0].1.as_str()), (MOST_FAULTS, "99"));
}

/// Want of memory is a fault of each event, of which strangers send thousands in a second.
#[test]
fn few_faults_of_a_second_are_written_to_the_log_and_the_others_are_counted() {
    let mut faults = Faults::default();
    assert_eq!(faults.take_left_out(at(SECOND)), None);
    let written = |faults: &mut Faults, from: Instant, number: u32| {
        (0..number).filter(|more| faults.push("fault memory", from + *more * MILLISECOND)).count()
    };
    assert_eq!(written(&mut faults, at(SECOND), 900), 10);
    assert_eq!(faults.take_left_out(at(2 * SECOND - MILLISECOND)), None);
    assert_eq!(faults.take_left_out(at(2 * SECOND)), Some(890));
    assert_eq!(written(&mut faults, at(2 * SECOND), 3), 3);
    assert_eq!(faults.take_left_out(at(3 * SECOND)), None);
}
