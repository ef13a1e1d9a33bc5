//! Which stations doze, as the program knows it, and which of their units go back to it.
//!
//! A mode is the program's: it comes by the frames that the program is given, in their order. The program answers a
//! frame some time after it was given. So behind each frame that changes a mode goes a *mark*, an event that changes
//! nothing and has an answer of its own. Once that came, the program has answered all that it was given before.
//!
//! The rules, of any order of calls:
//!
//! 1. A station *falls asleep* by a frame that says that it dozes. It *dozes* once the mark is answered and it is known
//!    what became of the units that the radio had for it. For that one waits until none was told of for 30 ms, and for
//!    100 ms in all.
//! 2. What goes back of a station that falls asleep are its units in their order: those that the radio had and nobody
//!    acknowledged, those that waited, and those that came since. They go back once it dozes, and in no other order.
//! 3. While a station falls asleep, the program is told nothing of it. It is told what waits *behind* the last unit that
//!    goes back.
//! 4. Of a station go back in any second at most as many units as its network keeps. What is beyond is lost.
//! 5. A unit that nobody acknowledged goes back later too, as long as its station dozes, and may come out of order then.
//! 6. A unit that comes for a station that dozes is the answer to a poll. One that comes for a station that woke was
//!    kept, until the mark is answered. One that comes for a station that left is dropped, until the mark is answered.
//! 7. Of a network units of 6 MB go back at a time, as many as may wait to be sent. What the radio had as their
//!    stations fell asleep goes back beside them. What is beyond is lost, whether it waited, comes, or goes back late.
//! 8. The program is taken to keep for all stations of a network together no more units than the network keeps: a unit
//!    that comes beyond that isn't counted, since the program loses it.
//! 9. Once a station has left, none of its units goes back. Those that were about to are dropped.
//! 10. The program *has* a poll of a station until the mark behind it is answered: by then the answer has come.
//!
//! Nothing is sent or timed here.
use std::collections::VecDeque;
use std::rc::Rc;

use crate::formats::frames::{Address, AddressMap};
use crate::network::Network;
use crate::os::clock::Instant;
use crate::outbound::air::backlog::MOST_KEPT_OCTETS;
use crate::outbound::air::falling_asleep::Falling;
use crate::outbound::air::hand_back_pace::Pace;
use crate::outbound::air::queue::MOST_OCTETS;
use crate::outbound::air::scheduler::Place;

/// The most octets of a network's units that go back.
pub const MOST_OCTETS_BACK: usize = MOST_OCTETS + MOST_KEPT_OCTETS;
/// With so few stations nobody looks for those that can be forgotten.
const FEW: usize = 64;

/// By which number the answer to a mark is known.
pub type Mark = u64;

/// The octets of a unit as a frame.
pub type Octets = Rc<Vec<u8>>;

#[derive(Debug, Clone, Copy, PartialEq, Eq)]
pub enum Mode {
    Awake,
    /// It is awake, and what the program had kept for it comes.
    Wakes,
    /// It dozes, and what comes for it goes back.
    FallsAsleep,
    Dozes,
    /// It isn't associated any more, and what comes for it is worth nothing.
    Leaves,
}

/// What is to be done for stations that fell asleep, in this order.
#[derive(Debug, Clone, PartialEq, Eq)]
pub enum Step {
    /// A unit of a network for this station goes back to the program.
    HandBack { place: Place, station: Address, octets: Octets },
    /// The program may be told what waits of this station and for it.
    GoOn { place: Place, station: Address },
}

/// What becomes of a unit that nobody waited for.
#[derive(Debug, Clone, Copy, PartialEq, Eq)]
pub enum Late {
    /// Its station doesn't doze: it doesn't go back.
    Stays,
    /// It goes back, maybe behind others of its station that it had been before.
    GoesBack { is_behind_others: bool },
    /// It is lost, since too many of its station went back in a second.
    OverQuota,
    /// It is lost, since too many of its network go back.
    NoRoom,
}

/// What is known of a station that isn't merely awake, or wasn't a second ago.
#[derive(Debug)]
struct Sleeper {
    mode: Mode,
    /// The mark of its last change, until that is answered.
    mark: Option<Mark>,
    /// The mark of its last poll, until that is answered.
    polled: Option<Mark>,
    falling: Option<Falling>,
    pace: Pace,
    /// How many units the program was given since it dozes and hasn't sent to it, those that go back included. It may
    /// keep fewer, as units age.
    kept: u32,
}

impl Sleeper {
    fn is_needed(&self, now: Instant) -> bool {
        self.mode != Mode::Awake || !self.pace.is_idle(now)
    }

    fn dozes(&self) -> bool {
        matches!(self.mode, Mode::FallsAsleep | Mode::Dozes)
    }

    /// The program keeps one more unit for it, unless the network has as many as it keeps.
    fn keeps_one(&mut self, of_network: &mut u32, quota: u32) {
        if *of_network < quota {
            self.kept += 1;
            *of_network += 1;
        }
    }
}

/// The stations of one network.
#[derive(Debug)]
struct OfNetwork {
    /// How many units it keeps.
    quota: u32,
    /// How many it may keep at the moment, for all of its stations together.
    kept: u32,
    /// How many octets those have that go back.
    octets: usize,
    sleepers: AddressMap<Sleeper>,
    /// With how many sleepers those are looked for next that aren't needed any more.
    many: usize,
}

/// Whether a unit goes back too, where those that do have so many octets.
fn has_room(octets: usize, unit: &Octets) -> bool {
    octets + unit.len() <= MOST_OCTETS_BACK
}

/// The stations of all networks that doze, woke or left, and what is to be done for them.
#[derive(Debug)]
pub struct Sleepers {
    networks: Vec<OfNetwork>,
    /// The marks that aren't answered, with the stations that they stand behind.
    marks: VecDeque<(Mark, Place, Address)>,
    /// The stations that fall asleep.
    falling: Vec<(Place, Address)>,
    steps: VecDeque<Step>,
    /// The stations that doze from now on, and fell asleep before.
    settled: Vec<(Place, Address)>,
    /// Of each network how many units were lost, since too many went back.
    over_quota: Vec<u64>,
}

impl Sleepers {
    /// All stations of these networks are awake.
    pub fn new(networks: &[Network]) -> Sleepers {
        let of_network = |network: &Network| OfNetwork {
            quota: network.quota,
            kept: 0,
            octets: 0,
            sleepers: AddressMap::default(),
            many: FEW,
        };
        Sleepers {
            over_quota: vec![0; networks.len()],
            networks: networks.iter().map(of_network).collect(),
            marks: VecDeque::new(),
            falling: Vec::new(),
            steps: VecDeque::new(),
            settled: Vec::new(),
        }
    }

    pub fn mode(&self, place: Place, station: Address) -> Mode {
        self.networks[place].sleepers.get(&station).map_or(Mode::Awake, |sleeper| sleeper.mode)
    }

    /// A station falls asleep. The radio has these units for it, and these waited. Answers how many of the latter are
    /// lost, since they have no room.
    pub fn falls_asleep(
        &mut self,
        (place, station): (Place, Address),
        mark: Mark,
        with_radio: impl Iterator<Item = (Option<u16>, Octets)>,
        waiting: Vec<Octets>,
        now: Instant,
    ) -> usize {
        let falling = Falling::new(with_radio, now);
        let octets = falling.octets();
        self.change(place, station, Mode::FallsAsleep, Some(mark), now).falling = Some(falling);
        self.networks[place].octets += octets;
        self.falling.push((place, station));
        waiting.into_iter().filter(|unit| !self.goes_back(place, station, Rc::clone(unit))).count()
    }

    /// A station dozes since before this bridge began.
    pub fn has_dozed(&mut self, place: Place, station: Address, now: Instant) {
        self.change(place, station, Mode::Dozes, None, now);
    }

    /// The program was given a frame by which a station that dozed is awake, and behind it this mark.
    pub fn wakes(&mut self, place: Place, station: Address, mark: Mark, now: Instant) {
        self.change(place, station, Mode::Wakes, Some(mark), now);
    }

    /// The program was given a poll of a station, and behind it this mark.
    pub fn polls(&mut self, place: Place, station: Address, mark: Mark) {
        self.marks.push_back((mark, place, station));
        let sleeper = self.networks[place].sleepers.get_mut(&station);
        sleeper.into_iter().for_each(|sleeper| sleeper.polled = Some(mark));
    }

    /// Whether the program has a poll of a station.
    pub fn has_polled(&self, place: Place, station: Address) -> bool {
        self.networks[place].sleepers.get(&station).map_or(false, |sleeper| sleeper.polled.is_some())
    }

    /// A station leaves, and what comes for it until the mark is answered isn't for it. Without a mark nothing comes.
    /// Answers how many of its units were about to go back.
    pub fn leaves(&mut self, place: Place, station: Address, mark: Option<Mark>, now: Instant) -> usize {
        let is_of = |place_of: Place, to: Address| (place_of, to) == (place, station);
        let mut dropped = Vec::new();
        for step in std::mem::take(&mut self.steps) {
            match step {
                Step::HandBack { place, station, octets } if is_of(place, station) => dropped.push(octets),
                step => self.steps.push_back(step),
            }
        }
        dropped.extend(self.falling_mut(place, station).map(Falling::take_units).unwrap_or_default());
        self.networks[place].octets -= dropped.iter().map(|octets| octets.len()).sum::<usize>();
        if mark.is_some() || self.mode(place, station) != Mode::Awake {
            let mode = if mark.is_some() { Mode::Leaves } else { Mode::Awake };
            self.change(place, station, mode, mark, now);
        }
        dropped.len()
    }

    /// A station is associated, and awake.
    pub fn joins(&mut self, place: Place, station: Address, now: Instant) {
        if self.mode(place, station) != Mode::Awake {
            self.change(place, station, Mode::Awake, None, now);
        }
    }

    /// Changes a mode. A station that falls asleep doesn't any more.
    fn change(&mut self, place: Place, station: Address, mode: Mode, mark: Option<Mark>, now: Instant) -> &mut Sleeper {
        self.settle(place, station, now);
        self.marks.extend(mark.map(|mark| (mark, place, station)));
        let OfNetwork { sleepers, many, kept, .. } = &mut self.networks[place];
        if sleepers.len() > *many {
            sleepers.retain(|_, sleeper| sleeper.is_needed(now));
            *many = 2 * sleepers.len() + FEW;
        }
        let unknown = || Sleeper { mode, mark, polled: None, falling: None, pace: Pace::default(), kept: 0 };
        let sleeper = sleepers.entry(station).or_insert_with(unknown);
        *kept -= sleeper.kept;
        (sleeper.mode, sleeper.mark, sleeper.kept) = (mode, mark, 0);
        sleeper
    }

    /// The program was given a unit for a station that it may keep.
    pub fn was_given(&mut self, place: Place, station: Address) {
        let OfNetwork { sleepers, quota, kept, .. } = &mut self.networks[place];
        let sleeper = sleepers.get_mut(&station).filter(|sleeper| sleeper.dozes());
        sleeper.into_iter().for_each(|sleeper| sleeper.keeps_one(kept, *quota));
    }

    /// The program sent a unit that it had kept for a station that dozes.
    pub fn was_sent(&mut self, place: Place, station: Address) {
        let OfNetwork { sleepers, kept, .. } = &mut self.networks[place];
        if let Some(sleeper) = sleepers.get_mut(&station).filter(|sleeper| sleeper.kept > 0) {
            sleeper.kept -= 1;
            *kept -= 1;
        }
    }

    /// How many units the program may keep for a station.
    pub fn kept_at_most(&self, place: Place, station: Address) -> u32 {
        self.networks[place].sleepers.get(&station).map_or(0, |sleeper| sleeper.kept)
    }

    /// A unit came for a station that falls asleep. Answers whether it has room.
    pub fn goes_back(&mut self, place: Place, station: Address, octets: Octets) -> bool {
        let has_room = has_room(self.networks[place].octets, &octets);
        let falling = self.falling_mut(place, station).filter(|_| has_room);
        if let Some(falling) = falling {
            let length = octets.len();
            falling.push(octets);
            self.networks[place].octets += length;
        }
        has_room
    }

    /// A unit of a station may go back late.
    pub fn goes_back_late(&mut self, place: Place, station: Address, octets: Octets, now: Instant) -> Late {
        let OfNetwork { quota, kept, octets: all, sleepers, .. } = &mut self.networks[place];
        let sleeper = match sleepers.get_mut(&station).filter(|sleeper| sleeper.mode == Mode::Dozes) {
            Some(sleeper) => sleeper,
            None => return Late::Stays,
        };
        if !has_room(*all, &octets) {
            return Late::NoRoom;
        }
        if !sleeper.pace.takes(*quota, now) {
            self.over_quota[place] += 1;
            return Late::OverQuota;
        }
        let is_behind_others = sleeper.kept > 0;
        sleeper.keeps_one(kept, *quota);
        *all += octets.len();
        self.steps.push_back(Step::HandBack { place, station, octets });
        Late::GoesBack { is_behind_others }
    }

    /// The radio told of a unit; answers whether one waited for that, as its station falls asleep.
    pub fn reported(
        &mut self,
        (place, station): (Place, Address),
        number: Option<u16>,
        is_acknowledged: bool,
        now: Instant,
    ) -> bool {
        let falling = match self.falling_mut(place, station) {
            Some(falling) => falling,
            None => return false,
        };
        let is_awaited = falling.take_outcome(number, is_acknowledged, now);
        if is_awaited && falling.is_over(now) {
            self.settle(place, station, now);
        }
        is_awaited
    }

    /// A mark was answered: the stations behind which it stood are as they said, or their polls were answered. Answers
    /// whether there is such a mark.
    pub fn answered(&mut self, mark: Mark, now: Instant) -> bool {
        let (place, station) = match self.marks.front() {
            Some((first, place, station)) if *first == mark => (*place, *station),
            _ => return false,
        };
        self.marks.pop_front();
        let sleeper = match self.networks[place].sleepers.get_mut(&station) {
            Some(sleeper) => sleeper,
            None => return true,
        };
        if sleeper.polled == Some(mark) {
            sleeper.polled = None;
        }
        if sleeper.mark != Some(mark) {
            return true;
        }
        sleeper.mark = None;
        match sleeper.mode {
            Mode::Wakes | Mode::Leaves => sleeper.mode = Mode::Awake,
            Mode::Awake | Mode::Dozes | Mode::FallsAsleep => {}
        }
        let is_over = sleeper.falling.as_mut().map_or(false, |falling| {
            falling.take_answer();
            falling.is_over(now)
        });
        if is_over {
            self.settle(place, station, now);
        }
        true
    }

    /// Whether one waits for what the radio tells of units.
    pub fn awaits_outcomes(&self) -> bool {
        !self.falling.is_empty()
    }

    /// When `expire` has something to do.
    pub fn due(&self) -> Option<Instant> {
        let falling = self
            .falling
            .iter()
            .filter_map(|(place, station)| self.networks[*place].sleepers.get(station)?.falling.as_ref()?.due());
        falling.min()
    }

    /// The time is this: what was waited for in vain is waited for no more.
    pub fn expire(&mut self, now: Instant) {
        for (place, station) in self.falling.clone() {
            if self.falling_mut(place, station).map_or(false, |falling| falling.is_over(now)) {
                self.settle(place, station, now);
            }
        }
    }

    pub fn next(&mut self) -> Option<Step> {
        let step = self.steps.pop_front();
        if let Some(Step::HandBack { place, octets, .. }) = &step {
            self.networks[*place].octets -= octets.len();
        }
        step
    }

    /// Whether something is to be done for stations that fell asleep.
    pub fn has_next(&self) -> bool {
        !self.steps.is_empty()
    }

    /// A station that dozes from now on, and fell asleep before.
    pub fn take_settled(&mut self) -> Option<(Place, Address)> {
        self.settled.pop()
    }

    /// How many units of each network were lost since this was asked last, as too many went back.
    pub fn take_over_quota(&mut self, place: Place) -> u64 {
        std::mem::take(&mut self.over_quota[place])
    }

    fn falling_mut(&mut self, place: Place, station: Address) -> Option<&mut Falling> {
        if self.falling.is_empty() {
            return None;
        }
        self.networks[place].sleepers.get_mut(&station)?.falling.as_mut()
    }

    /// A station that falls asleep dozes: its units go back, and then the program is told what waits of it.
    fn settle(&mut self, place: Place, station: Address, now: Instant) {
        let OfNetwork { quota, kept, octets: all, sleepers, .. } = &mut self.networks[place];
        let sleeper = match sleepers.get_mut(&station) {
            Some(sleeper) => sleeper,
            None => return,
        };
        if let Some(mut falling) = sleeper.falling.take() {
            sleeper.mode = Mode::Dozes;
            *all -= falling.octets();
            for octets in falling.take_units() {
                if sleeper.pace.takes(*quota, now) {
                    sleeper.keeps_one(kept, *quota);
                    *all += octets.len();
                    self.steps.push_back(Step::HandBack { place, station, octets });
                } else {
                    self.over_quota[place] += 1;
                }
            }
            self.steps.push_back(Step::GoOn { place, station });
            self.settled.push((place, station));
            self.falling.retain(|falling| *falling != (place, station));
        }
    }
}

#[cfg(test)]
#[path = "sleeping_test.rs"]
mod tests;
