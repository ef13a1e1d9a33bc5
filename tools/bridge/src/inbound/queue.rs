//! Frames that wait for the program: bounded, and if more comes than goes through, what is dropped.
//!
//! Each network has two queues of its own: one of what the air brings for it, and one of its wire. What the air brings
//! for all networks has one more. Queues take turns, and each has room of its own: what fills one takes from the others
//! nothing but its turns.
//!
//! In a queue frames leave in the order in which they came, but for those that are dropped. So what a station sends to
//! one network stays in its order, and so does what it sends to all. These two may overtake each other: a station that
//! looks for networks and then authenticates may be answered in the other order. Nothing else comes of it: of what is
//! for all, networks read probe requests alone, and those change no station (docs/PROTOCOL.md, 'What is read').
//!
//! A frame is dropped if it waited longer than its priority is worth, or if `MOST_OF_FLOW` younger ones of its
//! priority wait of its sender to its receiver. A full queue drops the oldest frame of the priority that is worth
//! least. So who sends more than goes through loses its own frames, and others don't wait behind them. A drop takes the
//! same time however many frames wait, and each one is counted.
//!
//! Frames of a station that is held, and for it, wait apart until it is released (`held`).
use crate::inbound::frame::{InboundFrame, Source};
use crate::inbound::held::HeldFrames;
use crate::inbound::source_queue::{Dropped, SourceQueue};
use crate::os::clock::Instant;

/// The frames that wait of all sources.
#[derive(Debug)]
pub struct InboundQueue {
    /// By which each queue is found.
    sources: Vec<Source>,
    queues: Vec<SourceQueue>,
    turn: usize,
    /// How many frames wait in all queues, and whether any of these was dropped so far.
    frames: usize,
    has_dropped: bool,
    /// What waits with stations that are held: it comes out by `pop` alone.
    pub held: HeldFrames,
}

impl InboundQueue {
    /// The queues of so many networks, in which nothing waits.
    pub fn new(networks: usize) -> InboundQueue {
        let of_networks = (0..networks).flat_map(|place| [Source::Air(place), Source::Wire(place)]);
        let sources: Vec<Source> = std::iter::once(Source::AirForAll).chain(of_networks).collect();
        let queues = sources.iter().map(|_| SourceQueue::default()).collect();
        InboundQueue { queues, sources, turn: 0, frames: 0, has_dropped: false, held: HeldFrames::default() }
    }

    fn change<A>(&mut self, queue: usize, change: impl FnOnce(&mut SourceQueue) -> A) -> A {
        let queue = &mut self.queues[queue];
        let before = queue.frames;
        let answer = change(queue);
        self.frames = self.frames + queue.frames - before;
        self.has_dropped |= !queue.dropped.is_empty();
        answer
    }

    /// A frame of this source waits, or one is dropped for it, or it.
    pub fn push(&mut self, source: Source, frame: InboundFrame) {
        let queue = match source {
            Source::AirForAll => 0,
            Source::Air(place) => 1 + 2 * place,
            Source::Wire(place) => 2 + 2 * place,
        };
        self.change(queue, |queue| queue.push(frame));
    }

    /// A frame that was taken out waits all the same, if its station is held.
    pub fn keep(&mut self, source: Source, frame: InboundFrame) {
        let kept = self.held.keep(source, frame);
        debug_assert!(kept.is_none(), "its station is held");
    }

    /// The next frame that isn't held, with its source: those go first that were held.
    pub fn pop(&mut self, now: Instant) -> Option<(Source, InboundFrame)> {
        loop {
            let (source, frame) = self.held.next().or_else(|| self.pop_queued(now))?;
            if let Some(found) = self.held.keep(source, frame) {
                return Some(found);
            }
        }
    }

    /// The next frame, with its source: queues take turns.
    fn pop_queued(&mut self, now: Instant) -> Option<(Source, InboundFrame)> {
        while self.frames > 0 {
            let queue = self.turn;
            self.turn = if queue + 1 < self.queues.len() { queue + 1 } else { 0 };
            if self.queues[queue].frames > 0 {
                if let Some(frame) = self.change(queue, |queue| queue.pop(now)) {
                    return Some((self.sources[queue], frame));
                }
            }
        }
        None
    }

    pub fn len(&self) -> usize {
        self.frames + self.held.len()
    }

    /// Whether nothing waits but what is held.
    pub fn is_empty(&self) -> bool {
        self.frames == 0 && self.held.is_empty()
    }

    pub fn has_dropped(&self) -> bool {
        self.has_dropped || self.held.has_dropped()
    }

    /// What people are told at the end of frames that still wait, also of those that are held.
    pub fn rest(&self) -> Option<String> {
        Some(self.len())
            .filter(|number| *number > 0)
            .map(|number| format!("{number} frames still waited for the program"))
    }

    /// How many frames of each source were dropped, and why.
    pub fn dropped(&self) -> impl Iterator<Item = (Source, Dropped, u64)> + '_ {
        let queues = self.sources.iter().zip(&self.queues);
        let of_queues = queues
            .flat_map(|(source, queue)| queue.dropped.iter().map(move |(what, number)| (*source, *what, *number)));
        of_queues.chain(self.held.dropped())
    }
}

#[cfg(test)]
#[path = "queue_test.rs"]
mod tests;
