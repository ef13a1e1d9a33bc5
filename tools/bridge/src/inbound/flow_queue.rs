//! Frames of one priority in the order in which they came, and those of each flow in theirs. Each call takes the same
//! time however many wait.
use std::collections::hash_map::Entry;
use std::collections::HashMap;

use crate::hashing::Seeds;
use crate::inbound::frame::{Flow, InboundFrame};

/// A queue that had more frames at a time gives its memory back once it is empty.
const KEPT_SLOTS: usize = 256;

/// A frame in its queue, with the places of those beside it.
#[derive(Debug)]
pub struct Slot {
    /// Its number among all frames of its queue.
    pub number: u64,
    pub frame: InboundFrame,
    before: Option<usize>,
    after: Option<usize>,
    after_of_flow: Option<usize>,
}

/// The places of the first and the last frame of a flow, and how many there are.
#[derive(Debug)]
pub struct OfFlow {
    first: usize,
    last: usize,
    frames: usize,
}

/// The frames that wait of one priority in the queue of a source, in the order in which they came.
#[derive(Debug, Default)]
pub struct FlowQueue {
    pub slots: Vec<Slot>,
    free: Vec<usize>,
    first: Option<usize>,
    pub last: Option<usize>,
    pub flows: HashMap<Flow, OfFlow, Seeds>,
}

impl FlowQueue {
    /// A frame waits behind all others.
    pub fn push(&mut self, number: u64, frame: InboundFrame) {
        let (flow, before) = (frame.flow, self.last);
        let place = self.keep(Slot { number, frame, before, after: None, after_of_flow: None });
        match before {
            Some(before) => self.slots[before].after = Some(place),
            None => self.first = Some(place),
        }
        self.last = Some(place);
        match self.flows.entry(flow) {
            Entry::Occupied(mut found) => {
                let found = found.get_mut();
                self.slots[found.last].after_of_flow = Some(place);
                found.last = place;
                found.frames += 1;
            }
            Entry::Vacant(room) => {
                room.insert(OfFlow { first: place, last: place, frames: 1 });
            }
        }
    }

    fn keep(&mut self, slot: Slot) -> usize {
        match self.free.pop() {
            Some(place) => {
                self.slots[place] = slot;
                place
            }
            None => {
                self.slots.push(slot);
                self.slots.len() - 1
            }
        }
    }

    pub fn oldest(&self) -> Option<&Slot> {
        self.first.map(|place| &self.slots[place])
    }

    pub fn frames_of(&self, flow: &Flow) -> usize {
        self.flows.get(flow).map_or(0, |found| found.frames)
    }

    /// Takes the oldest one out.
    pub fn pop(&mut self) -> Option<InboundFrame> {
        self.first.map(|place| self.take(place))
    }

    /// Takes the oldest one of a flow out.
    pub fn pop_of(&mut self, flow: &Flow) -> Option<InboundFrame> {
        let place = self.flows.get(flow)?.first;
        Some(self.take(place))
    }

    /// Takes one out that is the oldest of its flow.
    fn take(&mut self, place: usize) -> InboundFrame {
        let slot = &mut self.slots[place];
        let (before, after, next) = (slot.before, slot.after, slot.after_of_flow);
        let InboundFrame { priority, flow, arrived, .. } = slot.frame;
        let octets = std::mem::take(&mut slot.frame.octets);
        match before {
            Some(before) => self.slots[before].after = after,
            None => self.first = after,
        }
        match after {
            Some(after) => self.slots[after].before = before,
            None => self.last = before,
        }
        match (self.flows.entry(flow), next) {
            (Entry::Occupied(mut found), Some(next)) => {
                let found = found.get_mut();
                found.first = next;
                found.frames -= 1;
            }
            (Entry::Occupied(found), None) => {
                found.remove();
            }
            (Entry::Vacant(_), _) => {}
        }
        self.free.push(place);
        if self.first.is_none() && self.slots.len() > KEPT_SLOTS {
            *self = FlowQueue::default();
        }
        InboundFrame { priority, flow, arrived, octets }
    }
}
