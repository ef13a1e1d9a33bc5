//! What the radio was given and hasn't told of yet, and whether it is given more: as much as it sends in some
//! milliseconds. A frame that the radio has can't be overtaken by another network's, so that is bounded by the clock.
//!
//! Each frame is given with a reckoned time: what it is expected to take of the radio. The rules, of any order of
//! calls:
//!
//! 1. *Pace*: how much time of the clock goes by in reckoned time, by the last outcomes. Each weighs an eighth. An
//!    outcome's time of the clock began when its frame was given, or at the latest outcome before it if that was
//!    later. It counts for at most 100 ms. The pace is a quarter at least.
//! 2. *Room*: a radio that has nothing is given any frame. Another is given a frame if that and all it has take at most
//!    8 ms by its pace.
//! 3. *Done*: with a frame that is given the radio is done once it is done with those before and then took that frame's
//!    time. That is never later than all frames of which it hasn't told take from now on. Here no radio is faster than
//!    is reckoned.
//! 4. *Overdue*: a frame that has been out for more than twice as long as the radio needed to be done with it.
//! 5. Once the radio tells of an overdue frame, those given behind it for other receivers have their time anew. They
//!    are overdue after twice what all behind it take up to them, from now on, unless they have longer anyway.
//! 6. *Awaited*: if the radio tells of a frame before older ones for other receivers, these are awaited for longer:
//!    twice what it took. A receiver waits for its oldest frame once that is out for longer than it is awaited.
//! 7. A radio whose oldest frame is overdue and out for more than 16 ms lets newer ones overtake it: it is given none.
//! 8. Once its socket is empty, the radio has no frame any more, and none takes any of its time. Those that it had have
//!    *left*. If what it told was read since, and a frame wasn't in it, that one is *missing*: it may be out after all.
//!    The oldest frame is the first that hasn't left.
//! 9. A frame of which nothing was told for 200 ms is taken out, and a missing one once the socket was empty at 16 more
//!    looks. After two of these the radio has none of it as far as its network's turn goes (`has_any`). The radio tells
//!    of a frame once; of several of one name it tells of the first.
//!
//! Nothing is sent or timed here.
use std::collections::VecDeque;

use crate::formats::frames::Address;
use crate::os::clock::{nanos, Duration, Instant, MILLISECOND};
use crate::outbound::air::scheduler::Place;

/// How long the radio takes at most for what it has at once, unless that is one frame.
const MOST_AT_ONCE: Duration = Duration::from_millis(8);
/// A network is busy if what the radio has of it takes longer.
const BUSY: Duration = Duration::from_millis(2);
/// A frame of which nothing was told for so long is one of which nothing will be.
pub const MOST_OUT: Duration = Duration::from_millis(200);
/// At so many looks the socket is empty until a frame that is missing is given up. Outcomes are read between two looks,
/// though maybe not all that wait, and some come late.
const MOST_EMPTY_LOOKS: u8 = 16;
/// The same, until other networks wait no more for what becomes of it.
const MOST_LOOKS_AWAITED: u8 = 2;
/// The weight of the last outcome in what is known of the radio's pace, as a part.
const PACE_PARTS: u32 = 8;
const PACE_UNIT: u64 = 1024;
/// The radio isn't taken for faster than this many times what is reckoned: short preambles and slots are half of it.
const FASTEST: u64 = 4;
/// Nor for slower than one that takes so long for a frame: it was away, or the bridge was.
const MOST_STEP: Duration = Duration::from_millis(100);

/// What is known of a frame that the radio was given.
pub trait Sending {
    /// How long the radio takes for it if nobody acknowledges it.
    fn longest(&self) -> Duration;
}

/// A frame by what the radio tells of it.
#[derive(Debug, Clone, Copy, PartialEq, Eq)]
pub struct FrameName {
    /// The network that sends it.
    pub place: Place,
    pub receiver: Address,
    /// Its fragment and sequence number.
    pub number: Option<u16>,
}

/// A frame that the radio was given, and of which it hasn't told yet.
#[derive(Debug)]
struct FrameInFlight<W> {
    name: FrameName,
    what: W,
    /// Estimated air time still to come.
    reckoned: Duration,
    since: Instant,
    /// When it has been out for twice the time in which the radio was reckoned to be done with it. That time began when
    /// the radio got it, or when one before it that took longer was told of.
    overdue: Instant,
    /// The same, if what the radio got later for others and let go before it makes that time longer.
    awaited: Instant,
    state: State,
}

/// Whether the radio still has a frame.
#[derive(Debug, Clone, Copy, PartialEq, Eq)]
enum State {
    /// As far as one knows.
    Out,
    /// It doesn't, by what its socket says; what became of the frame wasn't looked at since.
    Left,
    /// It was looked at since, and the frame wasn't among those that the radio told of; the socket was empty so often
    /// since then.
    Missing { empty_looks: u8 },
}

impl<W> FrameInFlight<W> {
    /// Whether the radio has it for so long that it must have let newer ones go before it.
    fn was_overtaken(&self, now: Instant) -> bool {
        self.overdue.max(self.since + 2 * MOST_AT_ONCE) < now
    }
}

/// How long a radio of this pace takes for what is reckoned to take so long.
fn at_pace(pace: u64, reckoned: Duration) -> Duration {
    Duration::from_nanos((nanos(reckoned) / PACE_UNIT).saturating_mul(pace))
}

/// The frames that the radio has, in the order in which it got them, and how fast it is.
#[derive(Debug)]
pub struct InFlight<W> {
    frames: VecDeque<FrameInFlight<W>>,
    /// Of each network how long those of its frames may take that the radio has, as far as one knows.
    longest_out: Vec<Duration>,
    /// How many it doesn't have or may not have.
    doubtful: usize,
    reckoned: Duration,
    /// When the radio is reckoned to be done with all of them, though nobody has looked yet what became of some.
    done: Instant,
    /// The clock's time and the reckoned time of the last outcomes, the latest counting most.
    spent: Duration,
    took: Duration,
    /// How many nanoseconds of the clock go by in so many reckoned ones as `PACE_UNIT` has.
    pace: u64,
    last_told: Instant,
}

impl<W: Sending> InFlight<W> {
    /// The radio has nothing, and is taken to be as fast as is reckoned.
    pub fn new() -> InFlight<W> {
        let took = PACE_PARTS * MILLISECOND;
        InFlight {
            frames: VecDeque::new(),
            longest_out: Vec::new(),
            doubtful: 0,
            reckoned: Duration::ZERO,
            done: Instant::START,
            spent: took,
            took,
            pace: PACE_UNIT,
            last_told: Instant::START,
        }
    }

    /// Whether a frame that is reckoned to take so long may be given to it now.
    pub fn has_room(&self, reckoned: Duration, now: Instant) -> bool {
        match self.oldest() {
            None => true,
            Some(oldest) if oldest.was_overtaken(now) => false,
            Some(_) => self.by_clock(self.reckoned + reckoned) <= MOST_AT_ONCE,
        }
    }

    /// Whether the frames of a network that the radio has are reckoned to take longer than some short ones, whatever
    /// it has of others.
    pub fn is_busy(&self, place: Place) -> bool {
        self.reckoned_of(place) > BUSY
    }

    /// Whether a network has as much at the radio as that may have at once, if a frame is added that is reckoned so.
    pub fn is_filled_by(&self, place: Place, reckoned: Duration) -> bool {
        let of_network = self.reckoned_of(place);
        !of_network.is_zero() && of_network + reckoned > MOST_AT_ONCE
    }

    fn reckoned_of(&self, place: Place) -> Duration {
        self.frames.iter().filter(|given| given.name.place == place).map(|given| given.reckoned).sum()
    }

    /// The first frame that the radio may still have.
    fn oldest(&self) -> Option<&FrameInFlight<W>> {
        self.frames.iter().find(|given| given.state != State::Left)
    }

    /// How long the radio takes for what is reckoned to take so long, by its pace.
    fn by_clock(&self, reckoned: Duration) -> Duration {
        at_pace(self.pace, reckoned)
    }

    /// The same of a radio that isn't faster than is reckoned.
    fn takes(&self, reckoned: Duration) -> Duration {
        self.by_clock(reckoned).max(reckoned)
    }

    /// The radio is given a frame.
    pub fn give(&mut self, name: FrameName, what: W, reckoned: Duration, now: Instant) {
        self.reckoned += reckoned;
        let behind_those_before = self.done.max(now) + self.takes(reckoned);
        self.done = behind_those_before.min(now + self.takes(self.reckoned));
        let overdue = now + 2 * self.done.since(now);
        if self.longest_out.len() <= name.place {
            self.longest_out.resize(name.place + 1, Duration::ZERO);
        }
        self.longest_out[name.place] += what.longest();
        self.frames.push_back(FrameInFlight {
            name,
            what,
            reckoned,
            since: now,
            overdue,
            awaited: overdue,
            state: State::Out,
        });
    }

    /// The radio told of a frame at this time, which has taken as long as `took` says of it; answers what was given.
    /// `None` of a frame that it doesn't have.
    pub fn reported(&mut self, name: FrameName, now: Instant, took: impl FnOnce(&W) -> Duration) -> Option<W> {
        let found = self.frames.iter().position(|given| given.name == name)?;
        let FrameInFlight { what, since, overdue, .. } = self.remove(found)?;
        if overdue < now {
            self.wait_anew(found, name, now);
        }
        let step = now.since(since.max(self.last_told)).min(MOST_STEP);
        self.last_told = self.last_told.max(now);
        let took = took(&what);
        self.overtake(found, name, took);
        self.spent = self.spent - self.spent / PACE_PARTS + step;
        self.took = self.took - self.took / PACE_PARTS + took;
        self.pace = (nanos(self.spent) * PACE_UNIT / nanos(self.took).max(1)).max(PACE_UNIT / FASTEST);
        Some(what)
    }

    /// A frame took longer than was reckoned: those for others that the radio got after it have their time from now on.
    fn wait_anew(&mut self, from: usize, late: FrameName, now: Instant) {
        let (pace, mut reckoned) = (self.pace, Duration::ZERO);
        for given in self.frames.iter_mut().skip(from) {
            reckoned += given.reckoned;
            if (given.name.place, given.name.receiver) != (late.place, late.receiver) {
                given.overdue = given.overdue.max(now + 2 * at_pace(pace, reckoned).max(reckoned));
                given.awaited = given.awaited.max(given.overdue);
            }
        }
        self.done = self.done.max(now + self.takes(reckoned));
    }

    /// The radio sent a frame before those up to here that it got earlier for others: these are awaited for longer.
    fn overtake(&mut self, until: usize, sent: FrameName, took: Duration) {
        let longer = 2 * self.takes(took);
        for given in self.frames.iter_mut().take(until) {
            if (given.name.place, given.name.receiver) != (sent.place, sent.receiver) {
                given.awaited += longer;
            }
        }
    }

    /// The radio was never given this frame; answers what it was.
    pub fn forget(&mut self, name: FrameName) -> Option<W> {
        let place = self.frames.iter().rposition(|given| given.name == name)?;
        self.remove(place).map(|given| given.what)
    }

    /// Takes out the frame at this place among those in flight.
    fn remove(&mut self, at: usize) -> Option<FrameInFlight<W>> {
        let given = self.frames.remove(at)?;
        self.reckoned -= given.reckoned;
        match given.state {
            State::Out => self.longest_out[given.name.place] -= given.what.longest(),
            State::Left | State::Missing { .. } => self.doubtful -= 1,
        }
        Some(given)
    }

    /// The frames for a receiver of which the radio hasn't told, in the order in which it got them.
    pub fn of(&self, place: Place, receiver: Address) -> impl Iterator<Item = (FrameName, &W)> {
        let is_meant = move |name: &FrameName| name.receiver == receiver && name.place == place;
        self.frames.iter().filter(move |given| is_meant(&given.name)).map(|given| (given.name, &given.what))
    }

    /// Whether the radio has such a frame for this receiver, as far as one knows.
    pub fn has_such(&self, place: Place, receiver: Address, is_such: impl Fn(&W) -> bool) -> bool {
        let mut out = self.frames.iter().filter(|given| given.state == State::Out);
        out.any(|given| given.name.receiver == receiver && given.name.place == place && is_such(&given.what))
    }

    /// Whether the oldest frame that the radio has is for this receiver, and is out for more than twice its reckoned
    /// time, what overtook it counted. The younger ones may wait for it alone.
    pub fn is_overdue(&self, place: Place, receiver: Address, now: Instant) -> bool {
        self.oldest()
            .map_or(false, |given| given.awaited < now && given.name.receiver == receiver && given.name.place == place)
    }

    /// Whether the radio has sent a frame for this receiver, and it isn't known what became of that.
    pub fn is_unknown(&self, place: Place, receiver: Address) -> bool {
        let mut left = self.frames.iter().filter(|given| given.state == State::Left);
        left.any(|given| given.name.receiver == receiver && given.name.place == place)
    }

    /// Whether the radio has sent a frame, and it isn't known what became of that.
    pub fn any_unknown(&self) -> bool {
        self.frames.iter().any(|given| given.state == State::Left)
    }

    /// Whether the radio has a frame for this receiver, or it isn't known what became of one.
    pub fn has(&self, place: Place, receiver: Address) -> bool {
        self.frames.iter().any(|given| given.name.receiver == receiver && given.name.place == place)
    }

    /// How long those frames of a network may take in all that were given and of which nothing was read. One that has
    /// left the radio took no longer than it was out.
    pub fn longest_of(&self, place: Place, now: Instant) -> Duration {
        let out = self.longest_out.get(place).copied().unwrap_or(Duration::ZERO);
        if self.doubtful == 0 {
            return out;
        }
        let left = self.frames.iter().filter(|given| given.name.place == place && given.state == State::Left);
        out + left.map(|given| given.what.longest().min(now.since(given.since))).sum::<Duration>()
    }

    /// Whether the radio has a frame of this network, or what became of one that it has sent may be told soon.
    pub fn has_any(&self, place: Place) -> bool {
        let is_awaited = |state| match state {
            State::Out | State::Left => true,
            State::Missing { empty_looks } => empty_looks < MOST_LOOKS_AWAITED,
        };
        self.frames.iter().any(|given| given.name.place == place && is_awaited(given.state))
    }

    /// Whether `settle` has something to do at this time.
    pub fn is_doubtful(&self, now: Instant) -> bool {
        self.oldest().map_or(false, |given| given.state == State::Out && given.overdue < now)
    }

    /// The radio's socket says that the radio has sent all that it had: what became of that is still to be looked at.
    pub fn settle(&mut self) {
        (self.reckoned, self.done) = (Duration::ZERO, Instant::START);
        self.longest_out.fill(Duration::ZERO);
        self.doubtful = self.frames.len();
        for given in &mut self.frames {
            given.reckoned = Duration::ZERO;
            if given.state == State::Out {
                given.state = State::Left;
            }
        }
    }

    /// The socket is empty once more (`settle`): takes out the frames that have been missing for long.
    pub fn give_up_missing(&mut self) -> Vec<(FrameName, W)> {
        let mut gone = Vec::new();
        for number in (0..self.frames.len()).rev() {
            if let State::Missing { empty_looks } = &mut self.frames[number].state {
                *empty_looks += 1;
                if *empty_looks >= MOST_EMPTY_LOOKS {
                    gone.extend(self.remove(number).map(|given| (given.name, given.what)));
                }
            }
        }
        gone
    }

    pub fn any_missing(&self) -> bool {
        self.frames.iter().any(|given| matches!(given.state, State::Missing { .. }))
    }

    pub fn names(&self) -> impl Iterator<Item = FrameName> + '_ {
        self.frames.iter().map(|given| given.name)
    }

    /// What the radio told was looked at since `settle`: a frame that wasn't in it may be out after all.
    pub fn reports_read(&mut self) {
        let left = self.frames.iter_mut().filter(|given| given.state == State::Left);
        left.for_each(|given| given.state = State::Missing { empty_looks: 0 });
    }

    /// Takes out the frames of which nothing will be told any more at this time.
    pub fn expire(&mut self, now: Instant) -> Vec<(FrameName, W)> {
        let mut gone = Vec::new();
        while self.frames.front().map_or(false, |given| given.since + MOST_OUT <= now) {
            gone.extend(self.remove(0).map(|given| (given.name, given.what)));
        }
        gone
    }

    /// The radio lost all but those of which this is true: answers what it had, in the order in which it got them.
    pub fn take_lost(&mut self, is_kept: impl Fn(FrameName) -> bool) -> Vec<(FrameName, W)> {
        let mut lost = Vec::new();
        for number in (0..self.frames.len()).rev() {
            if !is_kept(self.frames[number].name) {
                lost.extend(self.remove(number).map(|given| (given.name, given.what)));
            }
        }
        lost.reverse();
        lost
    }

    /// The radio has nothing any more: answers what it had.
    pub fn clear(&mut self) -> Vec<(FrameName, W)> {
        (self.reckoned, self.done, self.doubtful) = (Duration::ZERO, Instant::START, 0);
        self.longest_out.fill(Duration::ZERO);
        self.frames.drain(..).map(|given| (given.name, given.what)).collect()
    }

    /// When its first frame is out for more than twice its reckoned time.
    pub fn overdue(&self) -> Option<Instant> {
        self.oldest().map(|given| given.overdue)
    }

    /// When `expire` has something to do.
    pub fn due(&self) -> Option<Instant> {
        self.frames.front().map(|given| given.since + MOST_OUT)
    }

    /// How many such frames of a network it has, or may have.
    pub fn count(&self, place: Place, is_such: impl Fn(&W) -> bool) -> usize {
        self.frames.iter().filter(|given| given.name.place == place && is_such(&given.what)).count()
    }

    pub fn len(&self) -> usize {
        self.frames.len()
    }
}

#[cfg(test)]
#[path = "in_flight_test.rs"]
mod tests;

#[cfg(test)]
#[path = "in_flight_model_test.rs"]
mod model_tests;
