//! Which receiver of a network a frame goes to next, of several networks that send by one radio, and what waits for
//! each. Whose turn it is among networks the proved library decides (`downlink`).
//!
//! The rule is start-time fair queueing (Goyal, Vin and Cheng, 1996), written as debts. It has no clock, no quantum and
//! no round. Each receiver has a debt. Of those for which a frame waits, the one of least debt is next, and of several
//! the lowest. What that one owed is taken off every debt, as far as there is any. Its own debt becomes what its frame
//! cost, and what the radio used beyond that is added when it is told.
//!
//! So for any order of calls:
//!
//! 1. Idle time earns nothing: a receiver that was idle owes at least nothing when something comes for it again.
//! 2. Frames for one receiver wait in the order in which they came; one that is sent again goes first, and who pushes
//!    one may put it behind the first ones alone.
//! 3. Each frame that came waits, was served or was taken out: one of them, once.
//! 4. The work of a call doesn't grow with the frames that wait. It grows with the logarithm of the number of
//!    receivers. The first `longest` of a network with many receivers puts them in order by how many frames wait. The
//!    order is kept until half of the network's frames are gone.
//! 5. Of receivers for which nothing waits no more than some thousands are known for what they owe. If more of a
//!    network owe, all of them are forgotten, and owe nothing.
//! 6. What waits for a receiver when it is hurried goes before all else of its network, and is charged to the receiver.
//!    No debt is lowered for it.
//! 7. A receiver may be held: its next frame waits for what becomes of the one before. A network whose receivers with
//!    waiting frames are all held has its turn all the same, until it is passed over. From then on it doesn't wait for
//!    a turn while all are held, until a frame of it goes.
use std::collections::{BTreeSet, HashMap, VecDeque};
use std::hash::Hash;

use crate::hashing::Seeds;

/// A network by its number, in the order of the configuration.
pub type Place = usize;

/// The most receivers of a network that are known for what they owe alone, and so few that nobody looks.
const MOST_RESTING: usize = 4096;
const FEW: usize = 64;
/// So few receivers of a network are looked at for the one for which most frames wait.
const FEW_TO_LOOK_AT: usize = 4;

/// The frames that wait, of several networks to several receivers.
#[derive(Debug)]
pub(super) struct Scheduler<R, T> {
    networks: Vec<NetworkQueues<R, T>>,
}

impl<R: Copy + Ord + Hash, T> Scheduler<R, T> {
    /// So many networks, of which nothing waits.
    pub fn new(networks: usize) -> Scheduler<R, T> {
        Scheduler { networks: (0..networks).map(|_| NetworkQueues::new()).collect() }
    }

    fn change<A>(&mut self, place: Place, receiver: R, change: impl FnOnce(&mut ReceiverQueue<T>) -> A) -> A {
        self.networks[place].change(receiver, change)
    }

    /// A frame of a network waits for a receiver, behind all that wait for it.
    pub fn push(&mut self, place: Place, receiver: R, frame: T) {
        self.change(place, receiver, |queue| queue.waiting.push_back(frame));
    }

    /// A frame of a network waits for a receiver, behind the first ones of which this is true.
    pub fn push_behind(&mut self, place: Place, receiver: R, frame: T, go_before: impl Fn(&T) -> bool) {
        self.change(place, receiver, |queue| {
            let behind = queue.waiting.partition_point(go_before);
            queue.waiting.insert(behind, frame);
            queue.urgent += usize::from(behind < queue.urgent);
        });
    }

    /// A frame is sent again: it waits before all others for its receiver.
    pub fn push_first(&mut self, place: Place, receiver: R, frame: T) {
        self.change(place, receiver, |queue| {
            queue.waiting.push_front(frame);
            queue.urgent += usize::from(queue.urgent > 0);
        });
    }

    /// All that waits for a receiver goes before what waits for others of its network.
    pub fn hurry(&mut self, place: Place, receiver: R) {
        self.change(place, receiver, |queue| queue.urgent = queue.waiting.len());
    }

    /// For whom the next frame of a network is, with the frame; `None` if none may go.
    pub fn first(&self, place: Place) -> Option<(R, &T)> {
        self.networks[place].first()
    }

    /// Whether a frame of a network may go.
    pub fn has_ready(&self, place: Place) -> bool {
        !self.networks[place].ready.is_empty()
    }

    /// A network of which all that waits is held doesn't wait for a turn, until a frame of it goes.
    pub fn pass_over(&mut self, place: Place) {
        self.networks[place].is_passed_over = true;
    }

    /// Whether a network doesn't wait for a turn, though frames of it wait: it is passed over.
    pub fn is_passed_over(&self, place: Place) -> bool {
        self.networks[place].is_passed_over && self.networks[place].ready.is_empty()
    }

    /// The first frame for a receiver goes of which this is true, and costs so many microseconds; `None` if none may go
    /// for that.
    pub fn serve(&mut self, place: Place, receiver: R, cost: u32, is_meant: impl FnMut(&T) -> bool) -> Option<T> {
        self.networks[place].serve(receiver, u64::from(cost), is_meant)
    }

    pub fn drop_last(&mut self, place: Place, receiver: R) -> Option<T> {
        self.change(place, receiver, |queue| {
            let last = queue.waiting.pop_back();
            queue.urgent = queue.urgent.min(queue.waiting.len());
            last
        })
    }

    /// Takes out the first frame for a receiver of which this is true.
    pub fn take_first(&mut self, place: Place, receiver: R, is_meant: impl FnMut(&T) -> bool) -> Option<T> {
        self.change(place, receiver, |queue| queue.take_first(is_meant))
    }

    /// A frame of a network for a receiver cost so many microseconds.
    pub fn charge(&mut self, place: Place, receiver: R, cost: u32) {
        if cost > 0 {
            self.change(place, receiver, |queue| queue.start = queue.start.saturating_add(u64::from(cost)));
        }
    }

    /// A receiver is held: none of its frames goes next until it is released.
    pub fn hold(&mut self, place: Place, receiver: R) {
        let was_held = self.change(place, receiver, |queue| std::mem::replace(&mut queue.is_held, true));
        self.networks[place].held += usize::from(!was_held);
    }

    pub fn release(&mut self, place: Place, receiver: R) {
        let was_held = self.change(place, receiver, |queue| std::mem::take(&mut queue.is_held));
        self.networks[place].held -= usize::from(was_held);
    }

    pub fn is_held(&self, place: Place, receiver: R) -> bool {
        let NetworkQueues { receivers, held, .. } = &self.networks[place];
        *held > 0 && receivers.get(&receiver).map_or(false, |queue| queue.is_held)
    }

    /// How many frames of a network wait for a receiver.
    pub fn waiting(&self, place: Place, receiver: R) -> usize {
        self.networks[place].receivers.get(&receiver).map_or(0, |queue| queue.waiting.len())
    }

    /// How many of the first frames that wait for a receiver are such ones.
    pub fn count_first(&self, place: Place, receiver: R, are_such: impl Fn(&T) -> bool) -> usize {
        self.networks[place].receivers.get(&receiver).map_or(0, |queue| queue.waiting.partition_point(are_such))
    }

    /// Takes all frames out that wait for a receiver and of which this is true, in their order.
    pub fn take_all(&mut self, place: Place, receiver: R, mut is_meant: impl FnMut(&T) -> bool) -> Vec<T> {
        let (mut taken, mut kept) = (Vec::new(), VecDeque::new());
        self.change(place, receiver, |queue| {
            let mut urgent = 0;
            for (number, frame) in queue.waiting.drain(..).enumerate() {
                if is_meant(&frame) {
                    taken.push(frame);
                } else {
                    urgent += usize::from(number < queue.urgent);
                    kept.push_back(frame);
                }
            }
            (queue.waiting, queue.urgent) = (kept, urgent);
        });
        taken
    }

    /// The receiver for which most frames of a network wait, of several the last in their order.
    pub fn longest(&mut self, place: Place) -> Option<R> {
        self.networks[place].longest()
    }

    /// Whether a frame waits that isn't held.
    pub fn any_ready(&self) -> bool {
        self.networks.iter().any(|network| !network.ready.is_empty())
    }

    /// Whether no frame waits, for a turn or held.
    pub fn is_empty(&self) -> bool {
        self.networks.iter().all(|turns| turns.waiting == 0)
    }
}

/// The receivers of one network, and whose turn it is. In place of a debt each has a start: the debt and `begun`, so
/// that no debt has to be lowered when one is served.
#[derive(Debug)]
struct NetworkQueues<R, T> {
    receivers: HashMap<R, ReceiverQueue<T>, Seeds>,
    /// Those that wait for a turn.
    ready: BTreeSet<(Turn, R)>,
    /// How many of them are held.
    held: usize,
    /// How many frames wait for all of them.
    waiting: usize,
    /// The start of the one that was served last.
    begun: u64,
    /// With how many receivers those are looked for next that owe nothing any more.
    many: usize,
    /// Whether it doesn't count as waiting by what is held.
    is_passed_over: bool,
    by_length: Option<ByLength<R>>,
}

/// The receivers for which frames wait, in the order of how many do.
#[derive(Debug)]
struct ByLength<R> {
    receivers: BTreeSet<(usize, R)>,
    /// The order is kept while so many frames of the network wait: it pays if `longest` is asked again and again.
    least: usize,
}

impl<R: Copy + Ord> ByLength<R> {
    /// So many frames wait for a receiver, if others did before.
    fn change(&mut self, receiver: R, before: usize, waiting: usize) {
        if before > 0 {
            self.receivers.remove(&(before, receiver));
        }
        if waiting > 0 {
            self.receivers.insert((waiting, receiver));
        }
    }
}

/// When the first frame for a receiver goes, by its start: before those of others that aren't urgent, or among them.
#[derive(Debug, Clone, Copy, PartialEq, Eq, PartialOrd, Ord)]
enum Turn {
    Urgent(u64),
    InTurn(u64),
}

#[derive(Debug)]
struct ReceiverQueue<T> {
    waiting: VecDeque<T>,
    start: u64,
    is_held: bool,
    /// How many of the first ones go before what waits for others.
    urgent: usize,
}

impl<T> ReceiverQueue<T> {
    fn turn(&self) -> Option<Turn> {
        let turn = if self.urgent > 0 { Turn::Urgent(self.start) } else { Turn::InTurn(self.start) };
        (!self.is_held && !self.waiting.is_empty()).then_some(turn)
    }

    fn take_first(&mut self, is_meant: impl FnMut(&T) -> bool) -> Option<T> {
        let number = self.waiting.iter().position(is_meant)?;
        self.urgent -= usize::from(number < self.urgent);
        match number {
            0 => self.waiting.pop_front(),
            _ => self.waiting.remove(number),
        }
    }
}

impl<R: Copy + Ord + Hash, T> NetworkQueues<R, T> {
    fn new() -> NetworkQueues<R, T> {
        NetworkQueues {
            receivers: HashMap::default(),
            ready: BTreeSet::new(),
            held: 0,
            waiting: 0,
            begun: 0,
            many: FEW,
            is_passed_over: false,
            by_length: None,
        }
    }

    fn longest(&mut self) -> Option<R> {
        if self.by_length.is_none() {
            let waiting = self.receivers.iter().filter(|(_, queue)| !queue.waiting.is_empty());
            let lengths = waiting.map(|(receiver, queue)| (queue.waiting.len(), *receiver));
            if self.receivers.len() <= FEW_TO_LOOK_AT {
                return lengths.max().map(|(_, receiver)| receiver);
            }
            self.by_length = Some(ByLength { receivers: lengths.collect(), least: self.waiting / 2 });
        }
        let (_, receiver) = self.by_length.as_ref()?.receivers.iter().next_back()?;
        Some(*receiver)
    }

    /// So many frames wait for a receiver, if others did before.
    fn count(&mut self, receiver: R, before: usize, waiting: usize) {
        self.waiting = self.waiting + waiting - before;
        if let Some(by_length) = self.by_length.as_mut().filter(|_| waiting != before) {
            by_length.change(receiver, before, waiting);
        }
        if self.by_length.as_ref().map_or(false, |by_length| self.waiting <= by_length.least) {
            self.by_length = None;
        }
    }

    fn first(&self) -> Option<(R, &T)> {
        let (_, receiver) = self.ready.iter().next()?;
        Some((*receiver, self.receivers.get(receiver)?.waiting.front()?))
    }

    fn serve(&mut self, receiver: R, cost: u64, is_meant: impl FnMut(&T) -> bool) -> Option<T> {
        let (turn, _) = self.ready.iter().next().filter(|(_, next)| *next == receiver)?;
        if let Turn::InTurn(start) = turn {
            self.begun = *start;
        }
        self.is_passed_over = false;
        self.change(receiver, |queue| {
            queue.start = queue.start.saturating_add(cost);
            queue.take_first(is_meant)
        })
    }

    /// Changes what waits for a receiver, and keeps it in the set where it belongs. One that isn't there owes nothing.
    fn change<A>(&mut self, receiver: R, change: impl FnOnce(&mut ReceiverQueue<T>) -> A) -> A {
        let begun = self.begun;
        let unknown = || ReceiverQueue { waiting: VecDeque::new(), start: begun, is_held: false, urgent: 0 };
        // What is there is found in less time than a place for what isn't.
        let queue = match self.receivers.get_mut(&receiver) {
            Some(queue) => queue,
            None => self.receivers.entry(receiver).or_insert_with(unknown),
        };
        let (before, turn) = (queue.waiting.len(), queue.turn());
        queue.start = queue.start.max(begun);
        let answer = change(queue);
        let (waiting, new_turn) = (queue.waiting.len(), queue.turn());
        self.count(receiver, before, waiting);
        if turn != new_turn {
            turn.into_iter().for_each(|turn| {
                self.ready.remove(&(turn, receiver));
            });
            self.ready.extend(new_turn.map(|turn| (turn, receiver)));
        }
        if self.receivers.len() > self.many {
            self.forget_rested();
        }
        answer
    }

    /// Receivers for which nothing waits, and which owe nothing any more, are forgotten; if that leaves too many,
    /// all for which nothing waits.
    fn forget_rested(&mut self) {
        let begun = self.begun;
        let is_kept = |queue: &ReceiverQueue<T>| queue.is_held || !queue.waiting.is_empty();
        self.receivers.retain(|_, queue| is_kept(queue) || queue.start > begun);
        if self.receivers.len() > MOST_RESTING {
            self.receivers.retain(|_, queue| is_kept(queue));
        }
        self.many = 2 * self.receivers.len() + FEW;
    }
}

#[cfg(test)]
#[path = "scheduler_test.rs"]
mod tests;
