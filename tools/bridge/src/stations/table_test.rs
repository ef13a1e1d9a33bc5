use super::*;
use crate::formats::frames::Frame;
use crate::formats::radiotap::{Outcome, Reception};
use crate::os::clock::SECOND;
use crate::stations::meaning::Tim;
use crate::stations::own_frames::departure;
use crate::testing::samples::{at, frame_of, made_up, Seeded, OTHER, OURS, STATION, STRANGER};

const FIRST: Member = (0, STATION);
const PLAIN: Reception = Reception { signal: Some(-40), rate: Some(22), frequency: None };

fn table() -> StationTable {
    StationTable::new(vec![OURS, OTHER])
}

fn frame(control: [u8; 2], receiver: Address, sender: Address, body: &[u8]) -> Vec<u8> {
    frame_of(control, receiver, sender, OURS, body)
}

fn authenticated(table: &mut StationTable, station: Address, status: u8) {
    table.answered(0, &frame([0xb0, 0], station, OURS, &[0, 0, 2, 0, status, 0]), at(SECOND));
}

fn associated(table: &mut StationTable, station: Address, status: u8, aid: u8) {
    table.fed(&frame([0, 0], OURS, station, &[1, 0, 2, 0]), at(SECOND));
    table.answered(0, &frame([0x10, 0], station, OURS, &[1, 0, status, 0, aid, 0xc0]), at(2 * SECOND));
}

fn joined() -> StationTable {
    let mut table = table();
    authenticated(&mut table, STATION, 0);
    associated(&mut table, STATION, 0, 1);
    assert_eq!(table.take_news(), [(FIRST, News::Joins { aid: 1, listen: 2 })]);
    table
}

fn beacon(table: &mut StationTable, bits: u8) -> Option<Tim> {
    let body = [&[0; 12][..], &[5, 4, 0, 1, 0, bits]].concat();
    table.answered(0, &frame([0x80, 0], Address::BROADCAST, OURS, &body), at(3 * SECOND))
}

#[test]
fn a_station_joins_and_leaves() {
    let mut table = joined();
    let found = table.station(&FIRST).unwrap();
    assert_eq!((found.state, found.since), (State::Associated(1), at(2 * SECOND)));
    table.fed(&frame([0xa0, 0], OURS, STATION, &[8, 0]), at(4 * SECOND));
    assert_eq!(table.station(&FIRST).unwrap().state, State::Authenticated);
    table.fed(&frame([0xa0, 0], OURS, STATION, &[8, 0]), at(4 * SECOND));
    table.fed(&frame([0xc0, 0], OURS, STATION, &[3, 0]), at(5 * SECOND));
    assert_eq!(table.station(&FIRST), None);
    let left = [(FIRST, News::Leaves { reason: 8 }), (FIRST, News::Leaves { reason: 3 })];
    assert_eq!(table.take_news(), left);
    assert_eq!(table.take_entered(), [FIRST]);
}

#[test]
fn who_is_refused_is_not_entered() {
    let mut table = table();
    authenticated(&mut table, STATION, 1);
    assert_eq!(table.station(&FIRST), None);
    authenticated(&mut table, STATION, 0);
    associated(&mut table, STATION, 17, 0);
    assert_eq!(table.station(&FIRST).unwrap().state, State::Authenticated);
    table.answered(0, &frame([0xc0, 0], STRANGER, OURS, &[6, 0]), at(SECOND));
    let wanted = [
        (FIRST, News::Refused { status: 1, is_association: false }),
        (FIRST, News::Refused { status: 17, is_association: true }),
        ((0, STRANGER), News::SentAway { reason: 6 }),
    ];
    assert_eq!(table.take_news(), wanted);
    assert_eq!(table.refusals[0].iter().collect::<Vec<_>>(), [(&1, &1), (&17, &1)]);
    assert!(table.refusals[1].is_empty());
}

#[test]
fn frames_and_acknowledgements_are_signs_of_life() {
    let mut table = joined();
    let unit = frame([0x08, 0x11], OURS, STATION, &[1; 10]);
    table.heard(Frame::of(&unit).unwrap(), PLAIN, at(9 * SECOND));
    table.fed(&unit, at(9 * SECOND));
    let found = table.station(&FIRST).unwrap();
    assert_eq!((found.heard, found.signal, found.dozes), (at(9 * SECOND), Some(-40), true));
    assert_eq!(found.from, Traffic { octets: 34, frames: 1, rate: Some(22) });
    let sent = frame([0x08, 0x02], STATION, OURS, &[1; 20]);
    table.answered(0, &sent, at(10 * SECOND));
    let outcome = |is_acknowledged| Outcome { is_acknowledged, retries: 0, rate: Some(108) };
    table.reported(&sent, outcome(false), true, at(10 * SECOND));
    assert_eq!(table.station(&FIRST).unwrap().heard, at(9 * SECOND));
    table.reported(&sent, outcome(true), true, at(11 * SECOND));
    let found = table.station(&FIRST).unwrap();
    assert_eq!((found.heard, found.to), (at(11 * SECOND), Traffic { octets: 44, frames: 1, rate: Some(108) }));
    table.fed(&frame([0x48, 0x01], OURS, STATION, &[]), at(12 * SECOND));
    assert!(!table.station(&FIRST).unwrap().dozes);
}

#[test]
fn who_dozes_too_long_is_told_of_once() {
    let mut table = joined();
    let too_long = (FIRST, News::DozesTooLong { beacons: 3, listen: 2 });
    (0..5).for_each(|_| assert_eq!(beacon(&mut table, 0x02), Some(Tim { aids: vec![1], ..Tim::default() })));
    assert_eq!(table.take_news(), [too_long]);
    let poll = [&[0xa4, 0x10, 1, 0xc0][..], OURS.octets(), STATION.octets()].concat();
    table.fed(&poll, at(SECOND));
    (0..2).for_each(|_| drop(beacon(&mut table, 0x02)));
    // One that is ignored is one all the same.
    table.ignored_poll(FIRST);
    (0..2).for_each(|_| drop(beacon(&mut table, 0x02)));
    beacon(&mut table, 0);
    beacon(&mut table, 0x02);
    assert_eq!(table.take_news(), []);
    (0..3).for_each(|_| drop(beacon(&mut table, 0x02)));
    assert_eq!(table.take_news(), [too_long]);
}

#[test]
fn who_is_forgotten_leaves_without_a_word() {
    let mut table = joined();
    table.forget(FIRST, Forgotten::Kicked, at(SECOND));
    table.forget(FIRST, Forgotten::Kicked, at(SECOND));
    assert_eq!(table.take_news(), [(FIRST, News::Forgotten(Forgotten::Kicked))]);
    assert!(table.station(&FIRST).unwrap().is_leaving);
    table.fed(&departure(OURS, STATION), at(SECOND));
    assert_eq!(table.station(&FIRST), None);
    assert_eq!(table.take_news(), []);
}

/// What a new program has to know is what the station said last, and what the network answered.
#[test]
fn what_stations_joined_by_is_kept_while_they_are_associated() {
    let mut table = table();
    authenticated(&mut table, STATION, 0);
    assert_eq!((table.kept(0), table.changes), (vec![], 0));
    associated(&mut table, STATION, 0, 1);
    let request = frame([0, 0], OURS, STATION, &[1, 0, 2, 0]);
    let plain =
        KeptStation { address: STATION, aid: 1, listen: 2, dozes: false, has_dozed: false, request: request.clone() };
    assert_eq!((table.kept(0), table.changes), (vec![plain.clone()], 1));
    table.fed(&frame([0x48, 0x11], OURS, STATION, &[]), Instant::START);
    table.fed(&frame([0x48, 0x11], OURS, STATION, &[]), Instant::START);
    let dozing = KeptStation { dozes: true, has_dozed: true, ..plain.clone() };
    assert_eq!((table.kept(0), table.changes), (vec![dozing.clone()], 2));
    table.fed(&frame([0x48, 0x01], OURS, STATION, &[]), Instant::START);
    assert_eq!(table.kept(0), [KeptStation { dozes: false, ..dozing }]);
    // A request that is refused changes nothing, and one that is accepted takes the place of the one before.
    table.fed(&frame([0, 0], OURS, STATION, &[1, 0, 7, 0]), Instant::START);
    table.answered(0, &frame([0x10, 0], STATION, OURS, &[1, 0, 17, 0, 0, 0]), Instant::START);
    assert_eq!(table.kept(0)[0].request, request);
    table.fed(&frame([0x20, 0], OURS, STATION, &[1, 0, 9, 0, 0, 0, 0, 0, 0, 0]), Instant::START);
    table.answered(0, &frame([0x30, 0], STATION, OURS, &[1, 0, 0, 0, 1, 0xc0]), Instant::START);
    let again = frame([0x20, 0], OURS, STATION, &[1, 0, 9, 0, 0, 0, 0, 0, 0, 0]);
    assert_eq!(table.kept(0), [KeptStation { listen: 9, request: again, ..plain }]);
    // Of two requests before an answer the later one counts, whose listen interval the program has too.
    table.fed(&frame([0, 0], OURS, STATION, &[1, 0, 3, 0]), Instant::START);
    associated(&mut table, STATION, 0, 1);
    assert_eq!(table.kept(0), [plain]);
    table.fed(&frame([0xa0, 0], OURS, STATION, &[8, 0]), Instant::START);
    assert_eq!(table.kept(0), []);
    assert!(table.kept(1).is_empty());
}

#[test]
fn who_is_forgotten_is_kept_no_more() {
    let mut table = joined();
    assert_eq!(table.kept(0).len(), 1);
    table.forget(FIRST, Forgotten::Kicked, at(SECOND));
    assert_eq!(table.kept(0), []);
}

/// A state is written anew if one joins or leaves, and says stations in the order of their identifiers.
#[test]
fn who_is_kept_stands_in_the_order_of_identifiers_and_each_change_counts() {
    let mut table = table();
    let stations = [9, 3, 7, 1, 5].map(|number| (number, Address::of([2, 0xaa, 0, 0, 1, 3 * number % 10])));
    for (count, (aid, station)) in stations.iter().enumerate() {
        authenticated(&mut table, *station, 0);
        associated(&mut table, *station, 0, *aid);
        assert_eq!(table.changes, count as u64 + 1);
    }
    let identifiers: Vec<u16> = table.kept(0).iter().map(|kept| kept.aid).collect();
    assert_eq!(identifiers, [1, 3, 5, 7, 9]);
    table.fed(&frame([0xa0, 0], OURS, stations[0].1, &[8, 0]), Instant::START);
    assert_eq!((table.changes, table.kept(0).len()), (6, 4));
    table.fed(&departure(OURS, stations[1].1), Instant::START);
    assert_eq!((table.changes, table.kept(0).len()), (7, 3));
    // One that authenticates again is associated no more.
    authenticated(&mut table, stations[2].1, 0);
    assert_eq!((table.changes, table.kept(0).len()), (8, 2));
}

#[test]
fn who_is_restored_is_there_as_before_without_a_word() {
    let before = joined().kept(0);
    let mut table = table();
    let dozing = KeptStation { dozes: true, ..before[0].clone() };
    table.restore(FIRST, &dozing, at(9 * SECOND));
    let found = table.station(&FIRST).unwrap();
    assert_eq!((found.state, found.listen, found.dozes), (State::Associated(1), 2, true));
    assert_eq!((table.take_news(), table.take_entered()), (vec![], vec![FIRST]));
    assert_eq!(table.kept(0), [KeptStation { has_dozed: true, ..dozing }]);
    // One that had dozed before and was awake counts as one that may doze, if the next bridge doesn't know better.
    let awake = KeptStation { dozes: false, has_dozed: true, ..before[0].clone() };
    table.restore(FIRST, &awake, at(9 * SECOND));
    assert_eq!(table.kept(0), [awake]);
    table.restore(FIRST, &before[0], at(9 * SECOND));
    assert_eq!(table.kept(0), before);
    (0..3).for_each(|_| drop(beacon(&mut table, 0x02)));
    assert_eq!(table.told_of(0), 1);
    assert_eq!(table.take_news(), [(FIRST, News::DozesTooLong { beacons: 3, listen: 2 })]);
}

#[test]
fn an_identifier_goes_to_another_station() {
    let mut table = joined();
    authenticated(&mut table, STATION, 0);
    authenticated(&mut table, STRANGER, 0);
    associated(&mut table, STRANGER, 0, 1);
    table.fed(&departure(OURS, STATION), at(SECOND));
    table.take_news();
    (0..3).for_each(|_| drop(beacon(&mut table, 0x02)));
    assert_eq!(table.take_news(), [((0, STRANGER), News::DozesTooLong { beacons: 3, listen: 2 })]);
    let order: Vec<_> = table.stations_of(0).map(|(address, _)| address).collect();
    assert_eq!(order, [STRANGER]);
}

/// The program's table of a network has these stations.
fn agree(table: &mut StationTable, place: usize, known: &[(Address, State)]) {
    table.agree(Row::Begin { place }, at(SECOND));
    for (address, state) in known.iter().copied() {
        table.agree(Row::Station { place, address, state }, at(SECOND));
    }
    table.agree(Row::End { place }, at(SECOND));
}

/// What a station does while a table comes is newer than its rows.
#[test]
fn who_is_entered_while_a_table_comes_stays() {
    let mut table = joined();
    table.agree(Row::Begin { place: 0 }, at(SECOND));
    authenticated(&mut table, STRANGER, 0);
    table.agree(Row::End { place: 0 }, at(SECOND));
    assert!(table.station(&FIRST).is_none() && table.station(&(0, STRANGER)).is_some());
    agree(&mut table, 0, &[]);
    assert!(table.station(&(0, STRANGER)).is_none());
}

/// Where thousands are gone at once, some are taken out behind each table.
#[test]
fn of_a_full_table_few_are_taken_out_in_one_piece() {
    let mut table = joined();
    let known: Vec<_> = (0..9000).map(|number| (made_up(number), State::Authenticated)).collect();
    agree(&mut table, 0, &known);
    assert_eq!((table.known(0), table.station(&FIRST)), (9000, None));
    table.take_left();
    for left in [8000, 7000] {
        agree(&mut table, 0, &[]);
        assert_eq!((table.known(0), table.take_left().len()), (left, MOST_COMPARED));
    }
}

/// Few stations are looked at in one piece, and each has its turn: a station that is gone is found behind some tables.
#[test]
fn each_station_of_a_full_table_is_looked_at_in_its_turn() {
    for gone in [0, 999, 1000, 1999, 2000, 2499] {
        let mut table = table();
        let known: Vec<_> = (0..2500).map(|number| (made_up(number), State::Authenticated)).collect();
        known.iter().for_each(|(address, _)| authenticated(&mut table, *address, 0));
        let without: Vec<_> = known.iter().copied().filter(|(address, _)| *address != made_up(gone)).collect();
        let found = (1..=3).find(|_| {
            agree(&mut table, 0, &without);
            table.station(&(0, made_up(gone))).is_none()
        });
        assert_eq!((found, table.known(0)), (Some(1 + gone / MOST_COMPARED), 2499), "{gone}");
    }
}

/// However stations come, associate and go, they are in the order in which people see them.
#[test]
fn stations_stand_in_their_order() {
    let (mut table, mut seeded) = (table(), Seeded(7));
    for _ in 0..5000 {
        let (number, aid) = (seeded.below(60), 1 + seeded.below(60) as u8);
        let station = made_up(number);
        match seeded.below(6) {
            0 | 1 => authenticated(&mut table, station, 0),
            2 | 3 => associated(&mut table, station, 0, aid),
            4 => table.fed(&frame([0xa0, 0], OURS, station, &[8, 0]), at(SECOND)),
            _ => table.fed(&departure(OURS, station), at(SECOND)),
        }
        let mut wanted: Vec<_> = table.stations[0].iter().map(|(address, station)| (*address, station)).collect();
        wanted.sort_by_key(|(_, station)| (!station.is_associated(), station.turn));
        assert!(table.stations_of(0).eq(wanted.iter().copied()));
        let associated = wanted.iter().filter(|(_, station)| station.is_associated()).count();
        assert_eq!((table.associated_of(0).count(), table.ranks[0].len()), (associated, table.known(0)));
    }
}

#[test]
fn the_program_s_tables_are_right() {
    let mut table = joined();
    agree(&mut table, 1, &[]);
    assert!(table.station(&FIRST).is_some());
    agree(&mut table, 0, &[(STRANGER, State::Associated(4))]);
    assert_eq!(table.station(&FIRST), None);
    assert_eq!(table.station(&(0, STRANGER)).unwrap().state, State::Associated(4));
    assert_eq!(table.take_entered(), [FIRST, (0, STRANGER)]);
}

fn fed_null(table: &mut StationTable, dozes: bool) {
    let control = if dozes { [0x48, 0x11] } else { [0x48, 0x01] };
    table.fed(&frame(control, OURS, STATION, &[]), at(4 * SECOND));
}

/// A mode that was said before changes nothing.
#[test]
fn each_change_of_a_mode_is_told_once() {
    let mut table = joined();
    assert_eq!(table.take_moves(), [(FIRST, Move::Joins { dozes: false })]);
    [false, true, true, false].into_iter().for_each(|dozes| fed_null(&mut table, dozes));
    table.fed(&frame([0x08, 0x11], OURS, STATION, &[1; 10]), at(4 * SECOND));
    let wanted = [Move::Dozes, Move::Wakes, Move::Dozes].map(|change| (FIRST, change));
    assert_eq!(table.take_moves(), wanted);
    table.fed(&frame([0xa0, 0], OURS, STATION, &[8, 0]), at(4 * SECOND));
    fed_null(&mut table, true);
    assert_eq!(table.take_moves(), [(FIRST, Move::Leaves)]);
}

/// A poll of a station that is awake brings nothing.
#[test]
fn a_poll_is_told_of_a_station_that_dozes() {
    let poll = [&[0xa4, 0x10, 1, 0xc0][..], OURS.octets(), STATION.octets()].concat();
    let mut table = joined();
    table.take_moves();
    table.fed(&poll, at(4 * SECOND));
    fed_null(&mut table, true);
    [(); 2].map(|()| table.fed(&poll, at(5 * SECOND)));
    assert_eq!(table.take_moves(), [Move::Dozes, Move::Polls, Move::Polls].map(|change| (FIRST, change)));
    assert_eq!((table.polled_by(&poll), table.polled_by(&poll[..15])), (Some(FIRST), None));
    fed_null(&mut table, false);
    assert_eq!(table.polled_by(&poll), None);
    table.fed(&poll, at(6 * SECOND));
    assert_eq!(table.take_moves(), [(FIRST, Move::Wakes)]);
}

/// The program makes a station active as it joins; what it is given behind the request holds.
#[test]
fn a_mode_that_comes_before_the_answer_to_a_request_holds() {
    for modes in [&[][..], &[true], &[true, false], &[false, true]] {
        let mut table = joined();
        fed_null(&mut table, true);
        table.take_moves();
        table.fed(&frame([0, 0], OURS, STATION, &[1, 0, 2, 0]), at(5 * SECOND));
        modes.iter().for_each(|dozes| fed_null(&mut table, *dozes));
        table.answered(0, &frame([0x10, 0], STATION, OURS, &[1, 0, 0, 0, 1, 0xc0]), at(6 * SECOND));
        let dozes = modes.last() == Some(&true);
        assert_eq!(table.take_moves().last(), Some(&(FIRST, Move::Joins { dozes })), "{modes:?}");
        assert_eq!(table.station(&FIRST).unwrap().dozes, dozes);
    }
}

/// Also by what the program answers or has in its tables.
#[test]
fn who_is_associated_no_more_is_told() {
    let left = [(FIRST, Move::Left)];
    let mut table = joined();
    table.take_moves();
    authenticated(&mut table, STATION, 0);
    assert_eq!(table.take_moves(), left);
    table.answered(0, &frame([0xa0, 0], STATION, OURS, &[7, 0]), at(SECOND));
    assert_eq!(table.take_moves(), left);
    table.answered(0, &frame([0xc0, 0], STRANGER, OURS, &[6, 0]), at(SECOND));
    table.fed(&departure(OURS, STATION), at(SECOND));
    assert_eq!(table.take_moves(), []);
    let mut table = joined();
    table.take_moves();
    agree(&mut table, 0, &[]);
    assert_eq!(table.take_moves(), left);
    let mut table = joined();
    table.take_moves();
    table.fed(&departure(OURS, STATION), at(SECOND));
    assert_eq!(table.take_moves(), [(FIRST, Move::Leaves)]);
}

/// Until the program was given the frame that changes it, each further one changes it too.
#[test]
fn a_frame_that_changes_a_mode_is_known_when_it_is_heard() {
    let mut table = joined();
    let unit = |dozes| frame([0x08, if dozes { 0x11 } else { 0x01 }], OURS, STATION, &[1; 10]);
    let mut changes = |octets: &[u8]| table.heard(Frame::of(octets).unwrap(), PLAIN, at(SECOND));
    assert_eq!([false, true, true, false, false].map(|dozes| changes(&unit(dozes))), [false, true, true, true, false]);
    assert!(!changes(&frame([0xa0, 0], OURS, STATION, &[8, 0])) && changes(&unit(true)));
    assert!(!changes(&frame([0x88, 0x01], OURS, STATION, &[0, 0])));
    table.fed(&unit(true), at(SECOND));
    let mut changes = |octets: &[u8]| table.heard(Frame::of(octets).unwrap(), PLAIN, at(SECOND));
    assert_eq!([true, false].map(|dozes| changes(&unit(dozes))), [false, true]);
    assert!(!changes(&frame([0x08, 0x11], OURS, STRANGER, &[1; 10])));
}

/// A station that joins again as it is about to be forgotten is no longer about to leave.
#[test]
fn one_that_joins_anew_is_not_leaving() {
    let mut table = StationTable::new(vec![OURS]);
    let member = (0, STATION);
    table.associate(member, 1, at(SECOND));
    table.forget(member, Forgotten::Kicked, at(2 * SECOND));
    assert!(table.station(&member).unwrap().is_leaving && table.kept(0).is_empty());
    table.associate(member, 1, at(3 * SECOND));
    assert!(!table.station(&member).unwrap().is_leaving);
}
