//! What is sent by a network's wire: in order, many frames a call, and no longer than is worth it.
use std::collections::VecDeque;

use crate::inbound::frame::LONGEST;
use crate::os::clock::{self, Instant};
use crate::os::gate::Gate;
use crate::os::port::{Port, AT_A_TIME};
use crate::outbound::counts::{count, Counts, Refused};
use crate::spare::give_back;

pub const MOST_OCTETS: usize = 4 << 20;

/// A frame on its way to a wire.
#[derive(Debug)]
struct Leaving {
    octets: Vec<u8>,
    since: Instant,
}

/// What waits to be sent by a wire, and what became of the rest.
#[derive(Debug, Default)]
pub struct WireQueue {
    leaving: VecDeque<Leaving>,
    pub(super) octets: usize,
    /// How many frames were sent.
    pub(super) sent: u64,
    /// How many frames were dropped for want of room, and because they had waited too long.
    without_room: u64,
    late: u64,
    refused: Refused,
}

impl WireQueue {
    /// Adds what was dropped and refused to these counts, for a wire of this interface.
    pub fn count_unsent(&self, interface: &str, counts: &mut Counts) {
        self.refused.add_to(counts);
        if self.without_room > 0 {
            count(counts, &format!("dropped, since no more could wait for {interface}"), self.without_room);
        }
        if self.late > 0 {
            count(counts, &format!("dropped, of data that had waited too long for {interface}"), self.late);
        }
    }

    pub fn is_empty(&self) -> bool {
        self.leaving.is_empty()
    }

    /// A frame waits from now on. What has no room beside it is dropped, the oldest first.
    pub fn push(&mut self, octets: Vec<u8>, now: Instant) {
        while self.octets + octets.len() > MOST_OCTETS {
            match self.leaving.pop_front() {
                Some(dropped) => self.octets -= dropped.octets.len(),
                None => break,
            }
            self.without_room += 1;
        }
        self.octets += octets.len();
        self.leaving.push_back(Leaving { octets, since: now });
    }

    /// Sends what waits by its wire, as far as there is room and until it is that time, and drops what waited too long.
    pub fn flush<P: Port>(&mut self, gate: &mut Gate<P>, now: Instant, until: Instant) {
        let mut time = now;
        while !gate.is_blocked() && !self.leaving.is_empty() && time < until {
            self.drop_late(now);
            let mut frames: [&[u8]; AT_A_TIME] = [&[]; AT_A_TIME];
            frames.iter_mut().zip(&self.leaving).for_each(|(frame, leaving)| *frame = &leaving.octets);
            let number = self.leaving.len().min(AT_A_TIME);
            if number == 0 {
                return;
            }
            if number < self.leaving.len() {
                time = clock::now();
            }
            match gate.send(&frames[..number]) {
                Ok(number) => self.sent(number),
                Err(fault) => {
                    if let Some(frame) = self.leaving.pop_front() {
                        self.octets -= frame.octets.len();
                        self.refused.count(gate.port.interface(), frame.octets.len(), &fault);
                    }
                }
            }
        }
    }

    fn drop_late(&mut self, now: Instant) {
        while self.leaving.front().map_or(false, |frame| now > frame.since + LONGEST) {
            self.octets -= self.leaving.pop_front().map_or(0, |frame| frame.octets.len());
            self.late += 1;
        }
    }

    fn sent(&mut self, number: usize) {
        for frame in self.leaving.drain(..number) {
            self.octets -= frame.octets.len();
            give_back(frame.octets);
        }
        self.sent += number as u64;
    }
}
