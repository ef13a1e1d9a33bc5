//! What the proved library decides of frames on their way to the air, for the receivers of the bridge: of which network
//! one goes next, which ones wait, go once more, go back to the program, and are dropped since others wait or their
//! station left.
//!
//! The library knows a frame by its ticket, and a receiver by its number. Here a station has a number from when a frame
//! comes for it. It may lose that once the library holds no frame of it, and gets a number anew with the next one. What
//! the station said of itself until then the library is told first, but no poll: a unit that answers it goes back then.
//!
//! The bridge says of which receiver of a network a frame goes, and when one is given up. The library is told no time
//! at which a frame is late: how late one may be hangs on others (`lateness`).
use std::cell::Cell;

use crate::formats::frames::{Address, AddressMap};
use crate::os::clock::Instant;
use crate::outbound::air::frame::{Receiver, MOST_LIFETIME};
use crate::outbound::air::proved_queues::{Answer, Change, Fate, ProvedQueues};
use crate::outbound::air::scheduler::Place;

/// The most frames that wait of a network for one station, and for its groups or for all who aren't associated.
pub const MOST_FOR_STATION: usize = 64;
pub const MOST_FOR_OTHERS: usize = 256;
/// The largest weight of a network; the least is 1.
pub const MOST_WEIGHT: u8 = 16;

const GROUPS: usize = 0;
const OTHERS: usize = 1;
const FIRST_STATION: usize = 2;
/// So many stations of a network have a number: as many as can be associated (9.4.1.8), and some that left lately.
const MOST_STATIONS: usize = 2007 + 249;
/// With so few stations nobody looks for those of which nothing has to be known.
const FEW: usize = 64;
/// The library is told no time after which a frame is worth nothing.
const NEVER: u64 = u64::MAX;

/// By which the library knows a frame of a network that came.
#[derive(Debug, Clone, Copy, PartialEq, Eq)]
pub struct Ticket {
    /// The number of the receiver, which nobody else has as long as the library holds the frame.
    receiver: usize,
    number: u64,
}

/// A frame came, and waits.
#[derive(Debug, Clone, Copy, PartialEq, Eq)]
pub struct Came {
    pub ticket: Ticket,
    /// The one that is dropped, since too many wait.
    pub crowded_out: Option<Ticket>,
    /// Whether it may be one that won't go (`returns`).
    pub may_return: bool,
}

/// What a station said of itself last, as far as its units go by it.
#[derive(Debug, Clone, Copy, PartialEq, Eq)]
enum Mode {
    /// It isn't associated any more.
    Absent,
    /// Also of a station of which nothing is known.
    Awake,
    FallsAsleep,
    Dozes,
}

impl Mode {
    fn after(self, change: Change) -> Mode {
        match (change, self) {
            (Change::Joins, _) => Mode::Awake,
            (Change::Leaves, _) | (_, Mode::Absent) => Mode::Absent,
            (Change::Dozes, _) => Mode::FallsAsleep,
            (Change::Settles, Mode::FallsAsleep) => Mode::Dozes,
            (Change::Wakes, _) => Mode::Awake,
            (Change::Settles | Change::Polls { .. }, mode) => mode,
        }
    }

    fn is_asleep(self) -> bool {
        matches!(self, Mode::FallsAsleep | Mode::Dozes)
    }

    /// How a receiver comes to it, of whom the library knows nothing.
    fn changes(self) -> &'static [Change] {
        match self {
            Mode::Absent => &[],
            Mode::Awake => &[Change::Joins],
            Mode::FallsAsleep => &[Change::Joins, Change::Dozes],
            Mode::Dozes => &[Change::Joins, Change::Dozes, Change::Settles],
        }
    }
}

/// What is known of a station.
#[derive(Debug)]
struct Station {
    mode: Mode,
    number: Option<usize>,
}

/// The receivers of one network, by their numbers.
#[derive(Debug)]
struct Receivers {
    stations: AddressMap<Station>,
    /// Of each number how many frames wait, or are with the radio.
    held: Vec<usize>,
    free: Vec<usize>,
    /// With how many stations those are looked for next of which nothing has to be known.
    many: usize,
    is_paused: bool,
    /// The number of the last ticket. Each network counts its own, so that none hangs on what others do.
    last: u64,
}

impl Receivers {
    fn new() -> Receivers {
        let free = (FIRST_STATION..FIRST_STATION + MOST_STATIONS).rev().collect();
        let held = vec![0; FIRST_STATION + MOST_STATIONS];
        Receivers { stations: AddressMap::default(), held, free, many: FEW, is_paused: false, last: 0 }
    }

    /// The number of a receiver, if it has one.
    fn number(&self, receiver: Receiver) -> Option<usize> {
        match receiver {
            Receiver::Groups => Some(GROUPS),
            Receiver::Others => Some(OTHERS),
            Receiver::Station(address) => self.stations.get(&address)?.number,
        }
    }

    /// Takes the numbers of all stations of which the library holds no frame, and forgets those that don't doze.
    fn take_unused(&mut self) -> Vec<usize> {
        let (mut unused, held) = (Vec::new(), &self.held);
        self.stations.retain(|_, station| {
            let is_used = station.number.map_or(false, |number| held[number] > 0);
            if !is_used {
                unused.extend(station.number.take());
            }
            is_used || station.mode.is_asleep()
        });
        self.many = 2 * self.stations.len() + FEW;
        unused
    }
}

/// The library, and the receivers by their numbers.
#[derive(Debug)]
pub struct Downlink {
    queues: ProvedQueues,
    networks: Vec<Receivers>,
    /// The network whose turn it is, since that was asked last and nothing changed.
    turn: Cell<Option<Option<Place>>>,
}

impl Downlink {
    /// Nothing waits of networks of these weights, from 1 to `MOST_WEIGHT`; other ones are taken for the next of these.
    pub fn new(weights: impl Iterator<Item = u8>) -> Downlink {
        let mut mosts = vec![MOST_FOR_STATION; FIRST_STATION + MOST_STATIONS];
        (mosts[GROUPS], mosts[OTHERS]) = (MOST_FOR_OTHERS, MOST_FOR_OTHERS);
        let of_library: Vec<_> = weights.map(|weight| (weight.clamp(1, MOST_WEIGHT), mosts.clone())).collect();
        let mut queues = ProvedQueues::new(&of_library).expect("the bridge has memory for its queues at the start");
        (0..of_library.len()).for_each(|place| assert!(queues.change((place, GROUPS), Change::Joins)));
        let networks = of_library.iter().map(|_| Receivers::new()).collect();
        Downlink { queues, networks, turn: Cell::new(None) }
    }

    /// The network whose turn it is.
    pub fn turn(&self) -> Option<Place> {
        let turn = self.turn.get().unwrap_or_else(|| self.queues.turn());
        self.turn.set(Some(turn));
        turn
    }

    /// The library, for a call that may change whose turn it is.
    fn queues(&mut self) -> &mut ProvedQueues {
        self.turn.set(None);
        &mut self.queues
    }

    /// A frame comes, and waits for its receiver. `None` if it can't, for lack of memory or of a number.
    pub fn comes(&mut self, place: Place, receiver: Receiver, is_unit: bool, now: Instant) -> Option<Came> {
        let (number, mode) = self.number(place, receiver)?;
        let last = &mut self.networks[place].last;
        *last += 1;
        let (ticket, now) = (Ticket { receiver: number, number: *last }, now.as_nanos());
        let crowded_out = self.queues().comes((place, number), ticket.number, is_unit, NEVER, now).ok()?;
        let crowded_out = crowded_out.map(|answer| Ticket { number: answer.ticket, ..ticket });
        self.networks[place].held[number] += usize::from(crowded_out.is_none());
        Some(Came { ticket, crowded_out, may_return: is_unit && mode != Mode::Awake })
    }

    /// If it is this network's turn, the next frame goes of the receiver that has this one. Answers which one goes.
    pub fn goes(&mut self, place: Place, Ticket { receiver, .. }: Ticket, now: Instant) -> Option<Ticket> {
        let answer = self.queues().next_of((place, receiver), now.as_nanos())?;
        debug_assert!(answer.fate.is_sending(), "no frame is late to the library");
        Some(Ticket { receiver, number: answer.ticket })
    }

    /// A network's frames took so many microseconds of air. A debt that would be too large stays as it is.
    pub fn used(&mut self, place: Place, microseconds: u32) {
        self.queues().used(place, microseconds);
    }

    /// It is told what became of a frame that went. `None` if nothing was to be told any more.
    pub fn told(&mut self, place: Place, ticket: Ticket, is_acknowledged: bool) -> Option<Fate> {
        let answer = self.queues().told((place, ticket.receiver), ticket.number, is_acknowledged);
        match answer?.fate {
            Fate::WaitsAgain => Some(Fate::WaitsAgain),
            _ => self.left(place, ticket.receiver, answer).map(|(_, fate)| fate),
        }
    }

    /// The next frame of a receiver leaves without going.
    pub fn gives_up(&mut self, place: Place, receiver: Receiver) -> Option<(Ticket, Fate)> {
        let number = self.networks[place].number(receiver)?;
        let answer = self.queues().gives_up((place, number));
        self.left(place, number, answer)
    }

    /// The next frame of a receiver leaves that goes back to the program, or whose station left.
    pub fn returns(&mut self, place: Place, receiver: Receiver) -> Option<(Ticket, Fate)> {
        let number = self.networks[place].number(receiver)?;
        let answer = self.queues().returns((place, number));
        self.left(place, number, answer)
    }

    /// A network doesn't wait for its turn, or does again.
    pub fn set_paused(&mut self, place: Place, is_paused: bool) {
        if std::mem::replace(&mut self.networks[place].is_paused, is_paused) != is_paused {
            self.queues().pauses(place, is_paused);
        }
    }

    /// Whether something is known of a station.
    pub fn knows(&self, place: Place, station: Address) -> bool {
        self.networks[place].stations.contains_key(&station)
    }

    /// A station joins or leaves, or changes its mode.
    pub fn change(&mut self, place: Place, address: Address, change: Change) {
        let Receivers { stations, .. } = &mut self.networks[place];
        let station = match stations.get_mut(&address) {
            Some(station) => station,
            // One of which nothing is known is awake, and nothing of it can be dropped.
            None if change == Change::Dozes => {
                stations.entry(address).or_insert(Station { mode: Mode::Awake, number: None })
            }
            None => return,
        };
        station.mode = station.mode.after(change);
        if let Some(number) = station.number {
            self.queues().change((place, number), change);
        }
    }

    /// Whether polls of a station are ignored now: the answer to an earlier one waits, or a unit is out for it.
    pub fn ignores_polls(&self, place: Place, station: Address) -> bool {
        let number = self.networks[place].number(Receiver::Station(station));
        number.map_or(false, |number| self.queues.ignores_polls((place, number)))
    }

    /// A station polls: one unit is the answer that comes soon.
    pub fn polls(&mut self, place: Place, station: Address, now: Instant) {
        if self.knows(place, station) && self.number(place, Receiver::Station(station)).is_some() {
            self.change(place, station, Change::Polls { until: (now + MOST_LIFETIME).as_nanos() });
        }
    }

    /// The number of a receiver, and how it is. A station that has none gets one, and is as it said last.
    fn number(&mut self, place: Place, receiver: Receiver) -> Option<(usize, Mode)> {
        let address = match receiver {
            Receiver::Groups => return Some((GROUPS, Mode::Awake)),
            Receiver::Others => return Some((OTHERS, Mode::Awake)),
            Receiver::Station(address) => address,
        };
        let known = self.networks[place].stations.get(&address);
        if let Some((number, mode)) = known.and_then(|station| Some((station.number?, station.mode))) {
            return Some((number, mode));
        }
        let number = self.take_free(place)?;
        let unknown = Station { mode: Mode::Awake, number: None };
        let station = self.networks[place].stations.entry(address).or_insert(unknown);
        station.number = Some(number);
        let mode = station.mode;
        mode.changes().iter().for_each(|change| {
            self.queues().change((place, number), *change);
        });
        Some((number, mode))
    }

    /// A number that no station has. Where there is none, or where many stations are known, those of stations are taken
    /// first of which the library holds no frame: with them it knows nobody any more.
    fn take_free(&mut self, place: Place) -> Option<usize> {
        let receivers = &mut self.networks[place];
        if receivers.free.is_empty() || receivers.stations.len() > receivers.many {
            for number in receivers.take_unused() {
                self.queues.change((place, number), Change::Leaves);
                receivers.free.push(number);
            }
        }
        receivers.free.pop()
    }

    /// How many frames of stations of a network wait, or are with the radio.
    #[cfg(test)]
    pub fn held(&self, place: Place) -> usize {
        self.networks[place].held[FIRST_STATION..].iter().sum()
    }

    /// A frame left for good, or none did.
    fn left(&mut self, place: Place, receiver: usize, answer: Option<Answer>) -> Option<(Ticket, Fate)> {
        let answer = answer?;
        let held = &mut self.networks[place].held[receiver];
        *held = held.saturating_sub(1);
        Some((Ticket { receiver, number: answer.ticket }, answer.fate))
    }
}
