//! The frames that wait of one source: bounded, and what is dropped is counted.
use std::collections::HashMap;
use std::fmt;

use crate::inbound::flow_queue::FlowQueue;
use crate::inbound::frame::{InboundFrame, Priority};
use crate::os::clock::Instant;

/// How many frames of a priority wait at most of one sender to one receiver.
pub const MOST_OF_FLOW: usize = 32;
/// The room of a queue.
pub const MOST_FRAMES: usize = 8192;
pub const MOST_OCTETS: usize = 2 << 20;

#[derive(Debug, Clone, Copy, PartialEq, Eq, Hash, PartialOrd, Ord)]
pub struct Dropped {
    pub priority: Priority,
    pub why: Why,
}

#[derive(Debug, Clone, Copy, PartialEq, Eq, Hash, PartialOrd, Ord)]
pub enum Why {
    /// It waited too long.
    Late,
    /// Too many younger ones of its sender to its receiver waited.
    Crowded,
    Full,
    /// Its station fell asleep or woke, and too many waited with it, or with all such stations of its network.
    Held,
}

impl fmt::Display for Dropped {
    fn fmt(&self, to: &mut fmt::Formatter<'_>) -> fmt::Result {
        let Dropped { priority, why } = self;
        match (why, priority.longest()) {
            (Why::Late, Some(longest)) => write!(to, "{priority} that had waited {} ms", longest.as_millis()),
            (Why::Late, None) => write!(to, "{priority} that had waited too long"),
            (Why::Crowded, _) => write!(to, "{priority} before {MOST_OF_FLOW} younger ones of the same sender"),
            (Why::Full, _) => write!(to, "{priority}, since no more could wait"),
            (Why::Held, _) => write!(to, "{priority}, since too many waited for stations to fall asleep or wake"),
        }
    }
}

/// The frames that wait of one source.
#[derive(Debug, Default)]
pub struct SourceQueue {
    /// Of each priority, in its order.
    pub queues: [FlowQueue; Priority::ALL.len()],
    pub frames: usize,
    pub octets: usize,
    /// How many came so far.
    came: u64,
    pub dropped: HashMap<Dropped, u64>,
}

impl SourceQueue {
    pub fn push(&mut self, frame: InboundFrame) {
        let (priority, length) = (frame.priority, frame.octets.len());
        let queue = &mut self.queues[priority as usize];
        if queue.frames_of(&frame.flow) >= MOST_OF_FLOW {
            let oldest = queue.pop_of(&frame.flow);
            self.drop_one(oldest, Why::Crowded);
        }
        if !self.has_room(length) {
            self.drop_late(frame.arrived);
        }
        while !self.has_room(length) {
            let oldest = self.queues[..=priority as usize].iter_mut().find_map(FlowQueue::pop);
            if !self.drop_one(oldest, Why::Full) {
                self.count(priority, Why::Full);
                return;
            }
        }
        self.frames += 1;
        self.octets += length;
        self.came += 1;
        self.queues[priority as usize].push(self.came, frame);
    }

    fn has_room(&self, length: usize) -> bool {
        self.frames < MOST_FRAMES && self.octets + length <= MOST_OCTETS
    }

    /// Drops those that waited too long, which of each priority are the oldest ones.
    fn drop_late(&mut self, now: Instant) {
        for priority in Priority::ALL {
            while self.queues[priority as usize].oldest().map_or(false, |slot| slot.frame.is_late(now)) {
                let oldest = self.queues[priority as usize].pop();
                self.drop_one(oldest, Why::Late);
            }
        }
    }

    /// The next one that doesn't come too late.
    pub fn pop(&mut self, now: Instant) -> Option<InboundFrame> {
        self.drop_late(now);
        let oldest = |queue: &&mut FlowQueue| queue.oldest().map_or(u64::MAX, |slot| slot.number);
        let frame = self.queues.iter_mut().min_by_key(oldest)?.pop()?;
        self.leaves(&frame);
        Some(frame)
    }

    /// Counts a frame that was taken out as dropped, if there was one.
    fn drop_one(&mut self, frame: Option<InboundFrame>, why: Why) -> bool {
        if let Some(frame) = &frame {
            self.leaves(frame);
            self.count(frame.priority, why);
        }
        frame.is_some()
    }

    fn count(&mut self, priority: Priority, why: Why) {
        *self.dropped.entry(Dropped { priority, why }).or_default() += 1;
    }

    fn leaves(&mut self, frame: &InboundFrame) {
        self.frames -= 1;
        self.octets -= frame.octets.len();
    }
}
