//! Which stations are asked whether they are there, since nothing was heard of them for long, and which are forgotten.
//!
//! Stations are looked at every so often at a time at which no beacon is due. An acknowledgement is an answer, as any
//! frame is. One that dozes is asked by a unit, which the program keeps for it: it learns of that by the TIM, and its
//! poll or its waking is the answer. Questions go out a few at a time: each that nobody acknowledges takes some 8 ms of
//! the air at 1 Mb/s. Networks share this pace: the one whose last frame went longest ago is looked at first. So one
//! that has thousands of silent stations takes no more of it, where others want it, than its turns.
//!
//! If a network knows nearly as many stations as it may, those that authenticated and didn't associate are given up
//! soon and unasked, so that made-up addresses don't keep newcomers out: who is there associates at once, or else
//! authenticates again. A queue has one entry for each station that is known, and none for those that left.
//!
//! A time at which stations are looked at may have many pieces, each of few stations: beacons and frames go between.
use std::collections::{BTreeSet, VecDeque};

use crate::formats::frames::Address;
use crate::os::clock::{Duration, Instant, SECOND};
use crate::stations::news::Forgotten;
use crate::stations::station::{Asked, Member, State, Station};
use crate::stations::table::StationTable;

/// After how long those are asked that are authenticated only, if not sooner.
const AUTHENTICATED: Duration = Duration::from_secs(60);
/// How often stations are looked at, if no beacon is in between.
pub const EVERY: Duration = Duration::from_millis(100);
/// How long an answer is awaited.
const TO_ANSWER: Duration = SECOND;
/// The same of one that dozes, which listens at some beacons.
const TO_ANSWER_OF_DOZING: Duration = Duration::from_secs(5);
/// How often a station is asked, once it is associated and while it is authenticated only.
const QUESTIONS: u32 = 3;
const QUESTIONS_AUTHENTICATED: u32 = 1;
/// How many frames go in each time of `EVERY` at most to stations that may be gone, in all networks.
const MOST_AT_A_TIME: u32 = 2;
/// How many stations of a queue are looked at in a row at most.
const MOST_LOOKED_AT: u32 = 64;
/// When a station is looked at again that should have left: what was said to the program may have been dropped.
const AGAIN: Duration = Duration::from_secs(5);
/// A network is nearly full if so many tenths are known of the stations that it may know.
const NEARLY_FULL: usize = 9;
/// After how long those that are authenticated only are given up if their network is nearly full.
const TO_ASSOCIATE: Duration = Duration::from_secs(3);
/// How large a part of a network's stations is given up at a time at most.
const PARTS: usize = 8;
/// With how many stations something is done at most in one piece.
const MOST_IN_A_PIECE: usize = 250;

/// What is to be done of a station.
#[derive(Debug, Clone, Copy, PartialEq, Eq)]
pub enum Step {
    /// It is asked.
    Ask(Address),
    /// It dozes, and is asked by a unit.
    AskByUnit(Address),
    /// It is forgotten, for this reason; it is told so or not.
    Forget { station: Address, why: Forgotten, tells: bool },
}

/// What a station is, in the order in which stations are looked at.
#[derive(Debug, Clone, Copy, PartialEq, Eq, PartialOrd)]
enum Queue {
    Authenticated,
    Associated,
}

impl Queue {
    fn of(station: &Station) -> Queue {
        match station.state {
            State::Authenticated => Queue::Authenticated,
            State::Associated(_) => Queue::Associated,
        }
    }
}

/// The stations of a network, by when they are to be looked at.
#[derive(Debug)]
struct Watched {
    /// Its turn: the number, among those of all networks, of the last frame that went to a station that may be gone.
    last_taken: u64,
    max_known: usize,
    /// When the network was nearly full last.
    nearly_full: Option<Instant>,
    /// Of each queue.
    queues: [BTreeSet<(Instant, Address)>; 2],
}

/// What is found of a station that is due.
#[derive(Debug, Clone, Copy, PartialEq, Eq)]
enum Found {
    /// It is to be looked at again then, and what is done until then.
    Again { due: Instant, times: u32, step: Option<Step> },
    /// Its turn comes later.
    Later(Queue),
    /// Enough were asked at a time.
    Enough,
}

/// How many frames went to stations that may be gone, and how many may go until when.
#[derive(Debug, Default)]
struct Pace {
    until: Instant,
    left: u32,
    taken: u64,
}

impl Pace {
    /// Whether one more may go now; answers its number among all.
    fn take(&mut self, now: Instant) -> Option<u64> {
        if now >= self.until {
            (self.until, self.left) = (now + EVERY, MOST_AT_A_TIME);
        }
        self.left = self.left.checked_sub(1)?;
        self.taken += 1;
        Some(self.taken)
    }
}

/// With how many stations something may still be done in one piece, and what is to be done.
#[derive(Debug)]
struct Piece {
    room: usize,
    steps: Vec<(usize, Step)>,
}

impl Piece {
    fn has_room(&self) -> bool {
        self.room > 0
    }

    /// Whether something may be done with one more, which is counted.
    fn takes(&mut self) -> bool {
        let takes = self.has_room();
        self.room -= usize::from(takes);
        takes
    }

    /// The next one of these, if there is one and something may be done with it.
    fn take_of<T>(&mut self, waiting: &mut VecDeque<T>) -> Option<T> {
        let next = self.has_room().then(|| waiting.pop_front()).flatten();
        self.room -= usize::from(next.is_some());
        next
    }
}

/// The stations of all networks.
#[derive(Debug)]
pub(super) struct KeepAlive {
    /// After how long those are asked that are associated; `None` if nobody is asked.
    most: Option<Duration>,
    networks: Vec<Watched>,
    pace: Pace,
    /// The stations that left and were entered, with which nothing was done yet.
    left: VecDeque<(Member, Instant)>,
    entered: VecDeque<Member>,
    /// The networks that are still to be looked at this time, and how many stations of each may be given up.
    places: VecDeque<(usize, usize)>,
}

impl KeepAlive {
    /// For networks that know so many stations at most; `None` asks nobody.
    pub fn new(most: Option<Duration>, max_known: impl IntoIterator<Item = usize>) -> KeepAlive {
        let watched = |max_known| Watched { last_taken: 0, max_known, nearly_full: None, queues: Default::default() };
        let networks = max_known.into_iter().map(watched).collect();
        let (left, entered, places) = Default::default();
        KeepAlive { most, networks, pace: Pace::default(), left, entered, places }
    }

    /// What is to be done at a time at which no beacon is due, or in a further piece of it.
    pub fn look(&mut self, table: &mut StationTable, now: Instant) -> Vec<(usize, Step)> {
        self.left.extend(table.take_left());
        self.entered.extend(table.take_entered());
        if self.places.is_empty() {
            self.places = self.in_turn();
        }
        let mut piece = Piece { room: MOST_IN_A_PIECE, steps: Vec::new() };
        self.follow(table, &mut piece, now);
        while let Some((place, most)) = piece.has_room().then(|| self.places.pop_front()).flatten() {
            let given_up = self.give_up(table, (place, most), now, &mut piece);
            if let Some(most) = self.most {
                self.look_at(table, (place, Queue::Authenticated), most, now, &mut piece);
                self.look_at(table, (place, Queue::Associated), most, now, &mut piece);
            }
            if !piece.has_room() {
                self.places.push_front((place, most - given_up));
            }
        }
        piece.steps
    }

    /// Whether a further piece is to be looked at.
    pub fn is_behind(&self) -> bool {
        !(self.left.is_empty() && self.entered.is_empty() && self.places.is_empty())
    }

    /// Takes out of the queues who left, and puts in who was entered.
    fn follow(&mut self, table: &mut StationTable, piece: &mut Piece, now: Instant) {
        while let Some(((place, station), due)) = piece.take_of(&mut self.left) {
            for queue in &mut self.networks[place].queues {
                queue.remove(&(due, station));
            }
        }
        while let Some(member) = piece.take_of(&mut self.entered) {
            if let Some(most) = self.most {
                let heard = table.station(&member).map_or(now, |station| station.heard);
                self.put(table, member, heard + AUTHENTICATED.min(most), Queue::Authenticated);
            }
        }
    }

    /// The places of the networks, with how many stations of each may be given up. The network is first whose last
    /// frame to a station that may be gone went longest ago.
    fn in_turn(&self) -> VecDeque<(usize, usize)> {
        let mut places: Vec<usize> = (0..self.networks.len()).collect();
        places.sort_by_key(|place| self.networks[*place].last_taken);
        places.into_iter().map(|place| (place, self.networks[place].max_known / PARTS + 1)).collect()
    }

    /// Whether a network may have one more frame go now to a station that may be gone.
    fn takes(&mut self, place: usize, now: Instant) -> bool {
        let taken = self.pace.take(now);
        self.networks[place].last_taken = taken.unwrap_or(self.networks[place].last_taken);
        taken.is_some()
    }

    /// Gives up who has been authenticated only for too long and was so while its network was nearly full. Gives up so
    /// many at most, and answers how many. Who is given up is told so as long as that are few.
    fn give_up(
        &mut self,
        table: &StationTable,
        (place, most): (usize, usize),
        now: Instant,
        piece: &mut Piece,
    ) -> usize {
        let network = &mut self.networks[place];
        if table.known(place) * 10 >= network.max_known * NEARLY_FULL {
            network.nearly_full = Some(now);
        }
        let nearly_full = match network.nearly_full {
            Some(time) => time,
            None => return 0,
        };
        let found = table.unassociated(place);
        let found = found.take_while(|(since, _)| *since <= nearly_full && *since + TO_ASSOCIATE <= now);
        let mut given_up = 0;
        for (since, station) in found.take(most) {
            if !piece.takes() {
                break;
            }
            let why = Forgotten::Unassociated(now.since(since));
            piece.steps.push((place, Step::Forget { station, why, tells: self.takes(place, now) }));
            given_up += 1;
        }
        given_up
    }

    /// Looks at the stations of a queue that are due.
    fn look_at(
        &mut self,
        table: &mut StationTable,
        (place, queue): (usize, Queue),
        most: Duration,
        now: Instant,
        piece: &mut Piece,
    ) {
        for _ in 0..MOST_LOOKED_AT {
            let first = self.networks[place].queues[queue as usize].iter().next().copied();
            let (due, address) = match first.filter(|(due, _)| *due <= now && piece.takes()) {
                Some(first) => first,
                None => return,
            };
            let member = (place, address);
            let station = table.station(&member).filter(|station| station.asked.due == due);
            let found = station.map(|station| self.judge(station, (place, address), queue, most, now));
            if matches!(found, Some(Found::Enough)) {
                return;
            }
            self.networks[place].queues[queue as usize].remove(&(due, address));
            match found {
                Some(Found::Again { due, times, step }) => {
                    piece.steps.extend(step.map(|step| (place, step)));
                    if let Some(asked) = table.asked(&member) {
                        asked.times = times;
                    }
                    let queue = table.station(&member).map_or(queue, Queue::of);
                    self.put(table, member, due, queue);
                }
                Some(Found::Later(queue)) => self.put(table, member, due, queue),
                Some(Found::Enough) | None => {}
            }
        }
    }

    /// What is to be done of a station that is due.
    fn judge(&mut self, station: &Station, member: Member, queue: Queue, most: Duration, now: Instant) -> Found {
        let (limit, questions) = match station.state {
            State::Associated(_) => (most, QUESTIONS),
            State::Authenticated => (AUTHENTICATED.min(most), QUESTIONS_AUTHENTICATED),
        };
        let (Asked { times, .. }, (place, address)) = (station.asked, member);
        let silent = now.since(station.heard);
        if silent < limit {
            Found::Again { due: station.heard + limit, times: 0, step: None }
        } else if times >= questions || station.is_leaving {
            let step = Step::Forget { station: address, why: Forgotten::Silent(silent), tells: true };
            Found::Again { due: now + AGAIN, times, step: Some(step) }
        } else if Queue::of(station) > queue {
            Found::Later(Queue::of(station))
        } else if !self.takes(place, now) {
            Found::Enough
        } else {
            let (to_answer, step) = match station.dozes {
                true => (TO_ANSWER_OF_DOZING, Step::AskByUnit(address)),
                false => (TO_ANSWER, Step::Ask(address)),
            };
            Found::Again { due: now + to_answer, times: times + 1, step: Some(step) }
        }
    }

    fn put(&mut self, table: &mut StationTable, member: Member, due: Instant, queue: Queue) {
        if let Some(asked) = table.asked(&member) {
            asked.due = due;
            self.networks[member.0].queues[queue as usize].insert((due, member.1));
        }
    }
}

#[cfg(test)]
#[path = "keep_alive_test.rs"]
mod tests;
