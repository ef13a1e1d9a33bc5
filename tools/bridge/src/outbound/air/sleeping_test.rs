//! A slow model of stations that doze, written from the rules: all that happened to a station is kept, and searched.
use super::*;
use crate::os::clock::{Duration, MILLISECOND, SECOND};
use crate::outbound::air::falling_asleep::TO_ALL_OUTCOMES;
use crate::testing::samples::{made_up, network, Seeded, OTHER, OURS, STATION, STRANGER};

const CALLS: usize = if cfg!(debug_assertions) { 100_000 } else { 1_000_000 };
const CALLS_OF_A_RUN: usize = 5000;
const STATIONS: [Address; 2] = [STATION, STRANGER];
const QUOTAS: [u32; 2] = [3, 40];

/// A unit by its mark, as its octets have it.
fn octets(mark: u32) -> Octets {
    Rc::new(mark.to_be_bytes().to_vec())
}

/// A station that falls asleep, as the model sees it.
struct ModelFalling {
    with_radio: Vec<(u16, u32, Option<bool>)>,
    waiting: Vec<u32>,
    began: Instant,
    told: Instant,
    is_answered: bool,
}

impl ModelFalling {
    /// Rule 1.
    fn gives_up(&self) -> Instant {
        (self.told + Duration::from_millis(30)).min(self.began + Duration::from_millis(100))
    }

    fn is_over(&self, now: Instant) -> bool {
        let is_known = self.with_radio.iter().all(|(_, _, outcome)| outcome.is_some());
        self.is_answered && (is_known || now >= self.gives_up())
    }
}

#[derive(Default)]
struct ModelStation {
    mode: Option<Mode>,
    mark: Option<Mark>,
    falling: Option<ModelFalling>,
    /// When units went back.
    went: Vec<Instant>,
    /// What the program was given since it dozes, less what it sent.
    kept: u32,
}

impl ModelStation {
    fn mode(&self) -> Mode {
        self.mode.unwrap_or(Mode::Awake)
    }

    /// Rule 4: an eighth of a second is looked at whole, so that a second has at most nine of them.
    fn takes(&mut self, quota: u32, now: Instant) -> bool {
        let eighth = |moment: Instant| moment.as_nanos() / 125_000_000;
        let in_second = self.went.iter().filter(|moment| eighth(**moment) + 8 >= eighth(now)).count();
        let takes = in_second < quota as usize;
        if takes {
            self.went.push(now);
        }
        takes
    }

    fn dozes(&self) -> bool {
        matches!(self.mode(), Mode::FallsAsleep | Mode::Dozes)
    }
}

struct Model {
    stations: Vec<[ModelStation; 2]>,
    marks: VecDeque<(Mark, Place, usize)>,
    /// The stations that fall asleep, the first first.
    falling: Vec<(Place, usize)>,
    steps: Vec<Step>,
    over_quota: [u64; 2],
}

impl Model {
    fn new() -> Model {
        let stations = QUOTAS.iter().map(|_| Default::default()).collect();
        Model { stations, marks: VecDeque::new(), falling: Vec::new(), steps: Vec::new(), over_quota: [0; 2] }
    }

    fn of(&mut self, place: Place, one: usize) -> &mut ModelStation {
        &mut self.stations[place][one]
    }

    /// Rule 8.
    fn keep_one(&mut self, place: Place, one: usize) {
        let kept: u32 = self.stations[place].iter().map(|station| station.kept).sum();
        self.of(place, one).kept += u32::from(kept < QUOTAS[place]);
    }

    /// Answers whether others are kept, or that it is lost.
    fn hand_back(&mut self, place: Place, one: usize, unit: u32, now: Instant) -> Late {
        let is_behind_others = self.of(place, one).kept > 0;
        if self.of(place, one).takes(QUOTAS[place], now) {
            self.keep_one(place, one);
            self.steps.push(Step::HandBack { place, station: STATIONS[one], octets: octets(unit) });
            Late::GoesBack { is_behind_others }
        } else {
            self.over_quota[place] += 1;
            Late::OverQuota
        }
    }

    /// Rules 1 to 3.
    fn settle(&mut self, place: Place, one: usize, now: Instant) {
        if let Some(falling) = self.of(place, one).falling.take() {
            let lost = falling.with_radio.iter().filter(|(_, _, outcome)| *outcome == Some(false));
            for unit in lost.map(|(_, unit, _)| *unit).chain(falling.waiting.iter().copied()) {
                self.hand_back(place, one, unit, now);
            }
            self.steps.push(Step::GoOn { place, station: STATIONS[one] });
            self.of(place, one).mode = Some(Mode::Dozes);
            self.falling.retain(|falling| *falling != (place, one));
        }
    }

    fn settle_if_over(&mut self, place: Place, one: usize, now: Instant) {
        if self.of(place, one).falling.as_ref().map_or(false, |falling| falling.is_over(now)) {
            self.settle(place, one, now);
        }
    }

    /// Rule 9.
    fn drop_units(&mut self, place: Place, one: usize) -> usize {
        let before = self.steps.len();
        let is_of = |step: &Step| matches!(step, Step::HandBack { place: of, station, .. } if (*of, *station) == (place, STATIONS[one]));
        self.steps.retain(|step| !is_of(step));
        let steps = before - self.steps.len();
        self.of(place, one).falling.as_mut().map_or(steps, |falling| {
            let before = falling.with_radio.len() + falling.waiting.len();
            falling.with_radio.retain(|(_, _, outcome)| *outcome != Some(false));
            falling.waiting.clear();
            steps + before - falling.with_radio.len()
        })
    }

    fn change(&mut self, place: Place, one: usize, mode: Mode, mark: Option<Mark>, now: Instant) {
        self.settle(place, one, now);
        self.marks.extend(mark.map(|mark| (mark, place, one)));
        let station = self.of(place, one);
        (station.mode, station.mark, station.kept) = (Some(mode), mark, 0);
    }

    fn answered(&mut self, mark: Mark, now: Instant) -> bool {
        if self.marks.front().map(|(first, ..)| *first) != Some(mark) {
            return false;
        }
        let (_, place, one) = self.marks.pop_front().unwrap();
        let station = self.of(place, one);
        if station.mark == Some(mark) {
            station.mark = None;
            if matches!(station.mode(), Mode::Wakes | Mode::Leaves) {
                station.mode = Some(Mode::Awake);
            }
            station.falling.iter_mut().for_each(|falling| falling.is_answered = true);
            self.settle_if_over(place, one, now);
        }
        true
    }

    fn due(&self) -> Option<Instant> {
        let falling = self.stations.iter().flatten().filter_map(|station| station.falling.as_ref());
        falling.filter(|falling| falling.is_answered).map(ModelFalling::gives_up).min()
    }
}

/// Both, and what was called.
struct Both {
    sleepers: Sleepers,
    model: Model,
    now: Instant,
    units: u32,
    last_mark: Mark,
    handed_back: usize,
    lost: u64,
}

impl Both {
    fn new() -> Both {
        let [ours, other] = [OURS, OTHER].map(network);
        let networks = [Network { quota: QUOTAS[0], ..ours }, Network { quota: QUOTAS[1], ..other }];
        let (sleepers, now) = (Sleepers::new(&networks), Instant::START);
        Both { sleepers, model: Model::new(), now, units: 0, last_mark: 0, handed_back: 0, lost: 0 }
    }

    fn next_mark(&mut self) -> Mark {
        self.last_mark += 3;
        self.last_mark
    }

    fn some_units(&mut self, number: usize) -> Vec<u32> {
        (0..number).map(|_| self.next_unit()).collect()
    }

    fn next_unit(&mut self) -> u32 {
        self.units += 1;
        self.units
    }

    fn falls_asleep(&mut self, seeded: &mut Seeded, place: Place, one: usize) {
        let mark = self.next_mark();
        let (with_radio, waiting) = (self.some_units(seeded.below(4)), self.some_units(seeded.below(4)));
        let numbered = with_radio.iter().map(|unit| (Some((unit % 5) as u16), octets(*unit)));
        let queued = waiting.iter().copied().map(octets).collect();
        self.sleepers.falls_asleep((place, STATIONS[one]), mark, numbered, queued, self.now);
        self.model.change(place, one, Mode::FallsAsleep, Some(mark), self.now);
        let with_radio = with_radio.iter().map(|unit| ((unit % 5) as u16, *unit, None)).collect();
        let (began, told) = (self.now, self.now);
        let falling = ModelFalling { with_radio, waiting, began, told, is_answered: false };
        self.model.of(place, one).falling = Some(falling);
        self.model.falling.push((place, one));
    }

    fn leaves(&mut self, place: Place, one: usize, mark: Option<Mark>) {
        let waiting = self.sleepers.leaves(place, STATIONS[one], mark, self.now);
        let mode = if mark.is_some() { Mode::Leaves } else { Mode::Awake };
        let dropped = self.model.drop_units(place, one);
        if mark.is_some() || self.model.of(place, one).mode() != Mode::Awake {
            self.model.change(place, one, mode, mark, self.now);
        }
        assert_eq!(waiting, dropped);
    }

    fn unit_comes(&mut self, place: Place, one: usize, is_late: bool) {
        let (unit, mode) = (self.next_unit(), self.model.of(place, one).mode());
        if is_late {
            let late = self.sleepers.goes_back_late(place, STATIONS[one], octets(unit), self.now);
            let wanted = match mode {
                Mode::Dozes => self.model.hand_back(place, one, unit, self.now),
                _ => Late::Stays,
            };
            assert_eq!(late, wanted);
        } else {
            assert!(self.sleepers.goes_back(place, STATIONS[one], octets(unit)));
            let falling = self.model.of(place, one).falling.as_mut();
            falling.into_iter().for_each(|falling| falling.waiting.push(unit));
        }
    }

    fn reported(&mut self, seeded: &mut Seeded, place: Place, one: usize) {
        let (number, is_acknowledged, now) = (seeded.below(5) as u16, seeded.below(2) == 0, self.now);
        let is_awaited = self.sleepers.reported((place, STATIONS[one]), Some(number), is_acknowledged, now);
        let falling = self.model.of(place, one).falling.as_mut();
        let found = falling.and_then(|falling| {
            let unit = falling.with_radio.iter_mut().find(|(of, _, outcome)| *of == number && outcome.is_none())?;
            (unit.2, falling.told) = (Some(is_acknowledged), now);
            Some(())
        });
        assert_eq!(is_awaited, found.is_some());
        if is_awaited {
            self.model.settle_if_over(place, one, now);
        }
    }

    fn call(&mut self, seeded: &mut Seeded) {
        self.now += Duration::from_micros(seeded.below(9000) as u64);
        let (place, one) = (seeded.below(2), seeded.below(2));
        let mode = self.model.of(place, one).mode();
        match seeded.below(16) {
            0..=1 if matches!(mode, Mode::Awake | Mode::Wakes) => self.falls_asleep(seeded, place, one),
            2 => {
                let mark = self.next_mark();
                self.sleepers.wakes(place, STATIONS[one], mark, self.now);
                self.model.change(place, one, Mode::Wakes, Some(mark), self.now);
            }
            3 => {
                let mark = (seeded.below(2) == 0).then(|| self.next_mark());
                self.leaves(place, one, mark);
            }
            4 if mode != Mode::Awake => {
                self.sleepers.joins(place, STATIONS[one], self.now);
                self.model.change(place, one, Mode::Awake, None, self.now);
            }
            5..=7 => self.unit_comes(place, one, seeded.below(4) == 0),
            8..=10 => self.reported(seeded, place, one),
            12 if seeded.below(2) == 0 => {
                self.sleepers.was_given(place, STATIONS[one]);
                if self.model.of(place, one).dozes() {
                    self.model.keep_one(place, one);
                }
            }
            12 if mode == Mode::Dozes => {
                self.sleepers.was_sent(place, STATIONS[one]);
                let station = self.model.of(place, one);
                station.kept = station.kept.saturating_sub(1);
            }
            11 => {
                self.sleepers.expire(self.now);
                let falling = self.model.falling.clone();
                falling.into_iter().for_each(|(place, one)| self.model.settle_if_over(place, one, self.now));
            }
            _ => {
                let first = self.model.marks.front().map_or(7, |(mark, ..)| *mark);
                let mark = if seeded.below(8) == 0 { first + 1 } else { first };
                assert_eq!(self.sleepers.answered(mark, self.now), self.model.answered(mark, self.now));
            }
        }
    }

    fn agree(&mut self) {
        for place in 0..QUOTAS.len() {
            for (one, station) in STATIONS.into_iter().enumerate() {
                assert_eq!(self.sleepers.mode(place, station), self.model.of(place, one).mode());
                assert_eq!(self.sleepers.kept_at_most(place, station), self.model.of(place, one).kept);
            }
            let lost = std::mem::take(&mut self.model.over_quota[place]);
            assert_eq!(self.sleepers.take_over_quota(place), lost);
            self.lost += lost;
        }
        let falls = self.model.stations.iter().flatten().any(|station| station.falling.is_some());
        assert_eq!((self.sleepers.awaits_outcomes(), self.sleepers.due()), (falls, self.model.due()));
    }

    fn steps_agree(&mut self) {
        let steps: Vec<Step> = std::iter::from_fn(|| self.sleepers.next()).collect();
        self.handed_back += steps.iter().filter(|step| matches!(step, Step::HandBack { .. })).count();
        assert_eq!(steps, std::mem::take(&mut self.model.steps));
    }
}

#[test]
fn any_calls_leave_what_the_rules_say() {
    let (mut seeded, mut handed_back, mut lost) = (Seeded(71), 0, 0);
    for _ in 0..CALLS / CALLS_OF_A_RUN {
        let mut both = Both::new();
        for _ in 0..CALLS_OF_A_RUN {
            both.call(&mut seeded);
            both.agree();
            if seeded.below(3) == 0 {
                both.steps_agree();
            }
        }
        (handed_back, lost) = (handed_back + both.handed_back, lost + both.lost);
    }
    assert!(handed_back > CALLS / 20 && lost > CALLS as u64 / 500, "{handed_back} {lost}");
}

/// What is known of stations doesn't grow with those that were.
#[test]
fn stations_that_are_awake_are_forgotten() {
    let mut sleepers = Sleepers::new(&[network(OURS)]);
    for number in 0..10_000u32 {
        let (station, now) = (made_up(number as usize), Instant::START + 10 * SECOND + number * MILLISECOND);
        sleepers.wakes(0, station, u64::from(number), now);
        assert!(sleepers.answered(u64::from(number), now));
    }
    assert!(sleepers.networks[0].sleepers.len() <= 2 * FEW, "{}", sleepers.networks[0].sleepers.len());
}

/// A program that answers a wake without end, as its station dozes again, fills no memory. All that goes back or leaves
/// makes room.
#[test]
fn what_goes_back_of_a_network_is_bounded() {
    let mut sleepers = Sleepers::new(&[Network { quota: 100_000, ..network(OURS) }]);
    let unit = || Rc::new(vec![0; 1000]);
    let most = MOST_OCTETS_BACK / 1000;
    for (round, leaves) in [true, false, false].into_iter().enumerate() {
        let (mark, now) = (round as u64, Instant::START + SECOND * (2 * round as u32));
        sleepers.falls_asleep((0, STATION), mark, [(None, unit())].into_iter(), vec![unit()], now);
        let fitting = (0..most + 10).take_while(|_| sleepers.goes_back(0, STATION, unit())).count();
        assert_eq!(fitting, most - 2, "{round}");
        if leaves {
            assert_eq!(sleepers.leaves(0, STATION, None, now), most - 1);
        }
        assert!(sleepers.answered(mark, now));
        sleepers.expire(now + TO_ALL_OUTCOMES);
        let back = std::iter::from_fn(|| sleepers.next()).filter(|step| matches!(step, Step::HandBack { .. })).count();
        assert_eq!(back, if leaves { 0 } else { most - 1 });
        assert_eq!(sleepers.networks[0].octets, 0);
    }
}

/// Stations that doze and wake in turns, for each of which as much waits anew as may: while nothing of it goes to the
/// program, no more goes back than may wait. So it is with what goes back late. What is beyond is lost and counted.
#[test]
fn what_waited_for_many_that_fall_asleep_goes_back_within_the_bound_too() {
    let mut sleepers = Sleepers::new(&[Network { quota: 100_000, ..network(OURS) }]);
    let now = Instant::START + 10 * SECOND;
    let (most, unit) = (MOST_OCTETS_BACK / 1000, Rc::new(vec![0; 1000]));
    let mut fitted = 0;
    for (station, mark) in (0..10).map(made_up).zip(0..) {
        let with_radio = [(Some(1), Rc::clone(&unit))].into_iter();
        let lost = sleepers.falls_asleep((0, station), mark, with_radio, vec![Rc::clone(&unit); 2000], now);
        assert!(sleepers.reported((0, station), Some(1), true, now) && sleepers.answered(mark, now));
        fitted += 2000 - lost;
        assert!(sleepers.networks[0].octets <= MOST_OCTETS_BACK);
    }
    // The last unit that the radio had takes the place of one of these, until it is known that it went.
    assert!(fitted == most || fitted == most - 1, "{fitted} of {most}");
    sleepers.next();
    let late = std::iter::repeat_with(|| sleepers.goes_back_late(0, made_up(9), Rc::clone(&unit), now));
    let fitted_late = late.take_while(|late| *late != Late::NoRoom).count();
    assert_eq!((fitted + fitted_late, sleepers.take_over_quota(0)), (most + 1, 0));
    let back = std::iter::from_fn(|| sleepers.next()).filter(|step| matches!(step, Step::HandBack { .. })).count();
    assert_eq!((back, sleepers.networks[0].octets), (most, 0));
}

/// For all stations of a network together the program is taken to keep no more units than the network keeps, and what
/// one station gets back makes room for another.
#[test]
fn a_network_is_taken_to_keep_no_more_units_than_its_quota() {
    let mut sleepers = Sleepers::new(&[Network { quota: 100, ..network(OURS) }, network(OTHER)]);
    let kept = |sleepers: &Sleepers, place| (0..50).map(|number| sleepers.kept_at_most(place, made_up(number))).sum();
    for station in (0..50).map(made_up) {
        sleepers.has_dozed(0, station, Instant::START + SECOND);
        (0..60).for_each(|_| sleepers.was_given(0, station));
    }
    let found: u32 = kept(&sleepers, 0);
    assert_eq!((found, sleepers.kept_at_most(0, made_up(1)), kept(&sleepers, 1)), (100, 40, 0));
    sleepers.wakes(0, made_up(0), 1, Instant::START + SECOND);
    (0..100).for_each(|_| sleepers.was_given(0, made_up(2)));
    assert_eq!(sleepers.kept_at_most(0, made_up(2)), 60);
    sleepers.was_sent(0, made_up(2));
    sleepers.was_given(0, made_up(3));
    assert_eq!((kept(&sleepers, 0), sleepers.kept_at_most(0, made_up(3))), (100, 1));
}
