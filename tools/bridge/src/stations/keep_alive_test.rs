use super::*;
use crate::formats::radiotap::Outcome;
use crate::os::clock::Duration;
use crate::stations::own_frames::{departure, mode_of_station};
use crate::testing::samples::{at, made_up, of_network, OTHER, OURS, STATION, STRANGER};

const MOST: Duration = Duration::from_secs(300);

fn enter(table: &mut StationTable, station: Address, now: Instant) {
    table.answered(0, &of_network(OURS, station, 0xb0, &[0, 0, 2, 0, 0, 0]), now);
}

fn join(table: &mut StationTable, station: Address, now: Instant) {
    enter(table, station, now);
    table.answered(0, &of_network(OURS, station, 0x10, &[1, 0, 0, 0, 1, 0xc0]), now);
}

fn doze(table: &mut StationTable) {
    table.fed(&mode_of_station(OURS, STATION, true), Instant::START);
}

/// Looks at stations in all pieces of a time, and does what is to be done in each; answers how many pieces those were.
fn look(
    table: &mut StationTable,
    keep_alive: &mut KeepAlive,
    now: Instant,
    mut does: impl FnMut(&mut StationTable, usize, Step),
) -> usize {
    let mut pieces = 0;
    while pieces == 0 || keep_alive.is_behind() {
        let steps = keep_alive.look(table, now);
        assert!(steps.len() <= MOST_IN_A_PIECE);
        steps.into_iter().for_each(|(place, step)| does(table, place, step));
        pieces += 1;
    }
    pieces
}

/// What is done each tenth of a second, with the tenth in which it is.
fn steps(table: &mut StationTable, keep_alive: &mut KeepAlive, tenths: std::ops::Range<u32>) -> Vec<(u32, Step)> {
    let mut found = Vec::new();
    for tenth in tenths {
        look(table, keep_alive, at(tenth * SECOND / 10), |_, _, step| found.push((tenth, step)));
    }
    found
}

fn gone(seconds: u32) -> Step {
    Step::Forget { station: STATION, why: Forgotten::Silent(seconds * SECOND), tells: true }
}

fn keep_alive() -> (StationTable, KeepAlive) {
    (StationTable::new(vec![OURS]), KeepAlive::new(Some(MOST), [100]))
}

/// The stations that are given up, with the tenth of a second, and how many are told so; each leaves at once.
fn given_up(
    table: &mut StationTable,
    keep_alive: &mut KeepAlive,
    tenths: std::ops::Range<u32>,
) -> (Vec<(u32, Address)>, u32) {
    let (mut found, mut told) = (Vec::new(), 0);
    for tenth in tenths {
        for (tenth, step) in steps(table, keep_alive, tenth..tenth + 1) {
            match step {
                Step::Forget { station, why: Forgotten::Unassociated(_), tells } => {
                    found.push((tenth, station));
                    told += u32::from(tells);
                    table.fed(&departure(OURS, station), at(tenth * SECOND / 10));
                }
                other => panic!("{other:?}"),
            }
        }
    }
    (found, told)
}

#[test]
fn who_does_not_answer_is_forgotten_after_three_questions() {
    let (mut table, mut keep_alive) = keep_alive();
    join(&mut table, STATION, Instant::START);
    let found = steps(&mut table, &mut keep_alive, 0..3050);
    let ask = Step::Ask(STATION);
    assert_eq!(found, [(3000, ask), (3010, ask), (3020, ask), (3030, gone(303))]);
    table.forget((0, STATION), Forgotten::Silent(Duration::ZERO), at(303 * SECOND));
    assert_eq!(steps(&mut table, &mut keep_alive, 3050..3100), [(3080, gone(308))]);
    table.fed(&departure(OURS, STATION), Instant::START);
    assert_eq!(steps(&mut table, &mut keep_alive, 3100..3300), []);
}

#[test]
fn who_answers_stays() {
    let (mut table, mut keep_alive) = keep_alive();
    join(&mut table, STATION, Instant::START);
    assert_eq!(steps(&mut table, &mut keep_alive, 0..3001), [(3000, Step::Ask(STATION))]);
    let outcome = Outcome { is_acknowledged: true, retries: 0, rate: None };
    table.reported(&of_network(OURS, STATION, 0x48, &[]), outcome, false, at(300 * SECOND));
    let found = steps(&mut table, &mut keep_alive, 3001..6011);
    assert_eq!(found, [(6000, Step::Ask(STATION)), (6010, Step::Ask(STATION))]);
}

#[test]
fn who_is_authenticated_only_is_asked_once_and_sooner() {
    let (mut table, mut keep_alive) = keep_alive();
    enter(&mut table, STATION, Instant::START);
    let found = steps(&mut table, &mut keep_alive, 0..620);
    assert_eq!(found, [(600, Step::Ask(STATION)), (610, gone(61))]);
    let mut short = KeepAlive::new(Some(5 * SECOND), [100]);
    let mut table = StationTable::new(vec![OURS]);
    enter(&mut table, STATION, Instant::START);
    assert_eq!(steps(&mut table, &mut short, 0..55), [(50, Step::Ask(STATION))]);
}

/// It has longer to answer, as it listens at some beacons alone.
#[test]
fn who_dozes_is_asked_by_a_unit() {
    let (mut table, mut keep_alive) = keep_alive();
    join(&mut table, STATION, at(SECOND / 10));
    doze(&mut table);
    let ask = Step::AskByUnit(STATION);
    let found = steps(&mut table, &mut keep_alive, 0..3160);
    assert_eq!(found, [(3001, ask), (3051, ask), (3101, ask), (3151, gone(315))]);
}

#[test]
fn nobody_is_asked_where_that_is_not_wanted() {
    let (mut table, mut keep_alive) = (StationTable::new(vec![OURS]), KeepAlive::new(None, [100]));
    join(&mut table, STATION, Instant::START);
    enter(&mut table, made_up(0), Instant::START);
    assert_eq!(steps(&mut table, &mut keep_alive, 0..9000), []);
}

/// A flood of addresses is forgotten at a rate that leaves the air to others.
#[test]
fn what_is_asked_in_a_second_is_bounded() {
    let (mut table, mut keep_alive) = (StationTable::new(vec![OURS]), KeepAlive::new(Some(MOST), [2000]));
    (0..1000).for_each(|number| enter(&mut table, made_up(number), Instant::START));
    let (mut asked, mut forgotten) = (0, 0);
    for tenth in 0..1200 {
        let (before, now) = (asked, at(tenth * SECOND / 10));
        look(&mut table, &mut keep_alive, now, |table, _, step| match step {
            Step::Ask(_) | Step::AskByUnit(_) => asked += 1,
            Step::Forget { station, .. } => {
                forgotten += 1;
                table.fed(&departure(OURS, station), now);
            }
        });
        assert!(asked <= before + MOST_AT_A_TIME, "{tenth}");
    }
    assert!(asked > 990 && forgotten > 960, "{asked} {forgotten}");
}

/// Of a second network a station is awake and one dozes, and both fell silent. They are asked in time where
/// thousands are silent in the first, or are given up since it is full.
#[test]
fn silent_stations_of_one_network_keep_those_of_another_from_no_question() {
    for max_known in [5000, 2000] {
        let mut table = StationTable::new(vec![OURS, OTHER]);
        let mut keep_alive = KeepAlive::new(Some(MOST), [max_known, 100]);
        for station in [STATION, STRANGER] {
            table.answered(1, &of_network(OTHER, station, 0xb0, &[0, 0, 2, 0, 0, 0]), Instant::START);
            table.answered(1, &of_network(OTHER, station, 0x10, &[1, 0, 0, 0, 1, 0xc0]), Instant::START);
        }
        table.fed(&mode_of_station(OTHER, STATION, true), Instant::START);
        (0..1900).for_each(|number| enter(&mut table, made_up(number), at(MOST - AUTHENTICATED - SECOND)));
        let (mut asked, mut others) = (Vec::new(), 0);
        for tenth in 0..3100 {
            let now = at(tenth * SECOND / 10);
            if tenth > 2900 && max_known == 2000 {
                (0..1900).for_each(|number| enter(&mut table, made_up(number), now - 4 * SECOND));
            }
            look(&mut table, &mut keep_alive, now, |table, place, step| match (place, step) {
                (1, Step::Ask(station) | Step::AskByUnit(station)) if tenth < 3010 => asked.push((tenth, station)),
                (0, Step::Forget { station, tells, .. }) => {
                    others += u32::from(tells);
                    table.fed(&departure(OURS, station), now);
                }
                _ => others += 1,
            });
        }
        assert_eq!(asked, [(3000, STATION), (3000, STRANGER)], "{max_known}");
        assert!(others > 20, "{max_known}: {others}");
    }
}

/// If those that are authenticated only and those that are associated fell silent at once, the first are asked
/// first.
#[test]
fn who_is_authenticated_only_is_asked_before_who_is_associated() {
    let (mut table, mut keep_alive) = (StationTable::new(vec![OURS]), KeepAlive::new(Some(AUTHENTICATED), [100]));
    (0..4).for_each(|number| join(&mut table, made_up(number), Instant::START));
    (4..8).for_each(|number| enter(&mut table, made_up(number), Instant::START));
    let found = steps(&mut table, &mut keep_alive, 0..604);
    let wanted = [(600, 4), (600, 5), (601, 6), (601, 7), (602, 0), (602, 1), (603, 2), (603, 3)];
    assert_eq!(found, wanted.map(|(tenth, number)| (tenth, Step::Ask(made_up(number)))));
}

#[test]
fn who_does_not_associate_is_given_up_within_five_seconds_where_the_network_is_nearly_full() {
    for most in [Some(MOST), None] {
        let (mut table, mut keep_alive) = (StationTable::new(vec![OURS]), KeepAlive::new(most, [100]));
        (0..30).for_each(|number| join(&mut table, made_up(number), Instant::START));
        (30..89).for_each(|number| enter(&mut table, made_up(number), at(SECOND)));
        assert_eq!(steps(&mut table, &mut keep_alive, 0..500), []);
        enter(&mut table, made_up(89), at(50 * SECOND));
        let (found, told) = given_up(&mut table, &mut keep_alive, 500..550);
        let stations: Vec<Address> = found.iter().map(|(_, station)| *station).collect();
        assert_eq!(stations, (30..90).map(made_up).collect::<Vec<_>>());
        assert!(found[..59].iter().all(|(tenth, _)| *tenth < 505), "{found:?}");
        assert_eq!((found[59].0, told), (530, 5 * MOST_AT_A_TIME + 1));
        assert_eq!(table.known(0), 30);
    }
}

/// Strangers fill sixteen networks. Of each as many are given up at a time as of one alone, and few of them in a piece.
#[test]
fn of_full_networks_few_stations_are_given_up_in_a_piece() {
    const KNOWN: usize = 9000;
    for networks in [1, 16] {
        let bssids: Vec<Address> = (0..networks).map(|place| Address::of([2, 0, 0, 0, 3, place])).collect();
        let mut table = StationTable::new(bssids.clone());
        let mut keep_alive = KeepAlive::new(Some(MOST), bssids.iter().map(|_| KNOWN));
        for bssid in &bssids {
            let place = table.places.of(bssid).unwrap();
            for number in 0..KNOWN {
                let answer = of_network(*bssid, made_up(number), 0xb0, &[0, 0, 2, 0, 0, 0]);
                table.answered(place, &answer, Instant::START);
            }
        }
        look(&mut table, &mut keep_alive, at(SECOND), |_, _, step| panic!("{step:?}"));
        for times in 1..=2 {
            let (mut given_up, now) = (vec![0; bssids.len()], at(times * TO_ASSOCIATE));
            let pieces = look(&mut table, &mut keep_alive, now, |table, place, step| match step {
                Step::Forget { station, why, .. } => {
                    given_up[place] += 1;
                    table.forget((place, station), why, now);
                }
                other => panic!("{other:?}"),
            });
            assert_eq!(given_up, vec![KNOWN / PARTS + 1; bssids.len()]);
            assert!(pieces > given_up.iter().sum::<usize>() / MOST_IN_A_PIECE);
        }
    }
}

/// A flood that goes on keeps newcomers out for no more than a moment.
#[test]
fn who_authenticates_again_and_again_is_given_up_too() {
    let (mut table, mut keep_alive) = (StationTable::new(vec![OURS]), KeepAlive::new(Some(MOST), [10]));
    let mut left = 0;
    for tenth in 0..35 {
        (0..9).for_each(|number| enter(&mut table, made_up(number), at(tenth * SECOND / 10)));
        let (found, _) = given_up(&mut table, &mut keep_alive, tenth..tenth + 1);
        assert!(found.is_empty() || tenth >= 30, "{tenth}");
        left += found.len();
    }
    assert!(left >= 9, "{left}");
}

#[test]
fn who_associates_in_time_or_comes_later_stays() {
    let (mut table, mut keep_alive) = (StationTable::new(vec![OURS]), KeepAlive::new(Some(MOST), [10]));
    (0..9).for_each(|number| enter(&mut table, made_up(number), Instant::START));
    assert_eq!(steps(&mut table, &mut keep_alive, 0..29), []);
    join(&mut table, made_up(3), at(29 * SECOND / 10));
    let (found, _) = given_up(&mut table, &mut keep_alive, 29..40);
    assert_eq!(found.len(), 8);
    enter(&mut table, made_up(20), at(4 * SECOND));
    assert_eq!(steps(&mut table, &mut keep_alive, 41..600), []);
    assert_eq!(table.known(0), 2);
}

/// What is said to the program may be dropped, if too much comes.
#[test]
fn who_stays_all_the_same_is_given_up_again() {
    let (mut table, mut keep_alive) = (StationTable::new(vec![OURS]), KeepAlive::new(None, [1]));
    enter(&mut table, STATION, Instant::START);
    let mut tenths = Vec::new();
    for tenth in 0..70 {
        for (tenth, step) in steps(&mut table, &mut keep_alive, tenth..tenth + 1) {
            let is_told = matches!(step, Step::Forget { station, tells: true, .. } if station == STATION);
            assert!(is_told, "{step:?}");
            table.forget((0, STATION), Forgotten::Unassociated(Duration::ZERO), at(tenth * SECOND / 10));
            tenths.push(tenth);
        }
    }
    assert_eq!(tenths, [30, 60]);
}

/// How many entries the queues of our network have.
fn entries(keep_alive: &KeepAlive) -> usize {
    keep_alive.networks[0].queues.iter().map(BTreeSet::len).sum()
}

#[test]
fn entries_of_stations_that_left_do_not_pile_up() {
    let (mut table, mut keep_alive) = keep_alive();
    let mut number = 0;
    for tenth in 0..600 {
        let now = at(tenth * SECOND / 10);
        let first = number;
        for _ in 0..100 {
            enter(&mut table, made_up(number), now);
            number += 1;
        }
        look(&mut table, &mut keep_alive, now, |_, _, _| {});
        (first..number).for_each(|left| table.fed(&departure(OURS, made_up(left)), now));
        assert!(entries(&keep_alive) <= 100 && table.known(0) == 0, "{} entries at {tenth}", entries(&keep_alive));
    }
    keep_alive.look(&mut table, at(60 * SECOND));
    assert_eq!(entries(&keep_alive), 0);
}

#[test]
fn one_that_left_and_came_back_between_two_looks_is_asked_as_any_other() {
    let (mut table, mut keep_alive) = keep_alive();
    enter(&mut table, STATION, at(Duration::ZERO));
    keep_alive.look(&mut table, at(Duration::ZERO));
    table.fed(&departure(OURS, STATION), at(SECOND));
    enter(&mut table, STATION, at(2 * SECOND));
    assert_eq!(steps(&mut table, &mut keep_alive, 20..660), [(620, Step::Ask(STATION)), (630, gone(61))]);
    assert_eq!(entries(&keep_alive), 1);
}
