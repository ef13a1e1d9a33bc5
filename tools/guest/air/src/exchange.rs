//! A frame that a radio has to send: what has become of it so far, and at which rate it is tried next.

use std::rc::Rc;

use crate::frame::{again, is_group, receiver, transmitter, Address, Kind};
use crate::hwsim::{Attempt, Sent};
use crate::rate::Rate;

/// A frame from the moment at which a radio has it until it is acknowledged, given up or dropped.
#[derive(Debug)]
pub struct Exchange {
    pub sent: Sent,
    pub frame: Rc<Vec<u8>>,
    pub kind: Kind,
    /// None if the frame is too short to say.
    pub transmitter: Option<Address>,
    pub receiver: Option<Address>,
    pub tried: Vec<Attempt>,
    pub tries: u32,
}

impl Exchange {
    pub fn new(sent: Sent) -> Exchange {
        Exchange {
            frame: Rc::new(sent.frame.clone()),
            kind: Kind::of(&sent.frame),
            transmitter: transmitter(&sent.frame),
            receiver: receiver(&sent.frame),
            tried: Vec::new(),
            tries: 0,
            sent,
        }
    }

    pub fn wants_acknowledgement(&self) -> bool {
        !self.sent.wants_no_acknowledgement() && self.receiver.map_or(false, |address| !is_group(address))
    }

    /// The rate of the next try, or None if it was tried as often as its sender asked.
    pub fn next_rate(&self) -> Option<Rate> {
        let mut left = self.tries;
        self.sent.attempts.iter().find_map(|attempt| match left.checked_sub(u32::from(attempt.count)) {
            Some(rest) => {
                left = rest;
                None
            }
            None => Some(attempt.rate),
        })
    }

    pub fn count_try(&mut self, rate: Rate) {
        let begins = self.begins_attempt();
        match self.tried.last_mut() {
            Some(attempt) if !begins => attempt.count += 1,
            _ => self.tried.push(Attempt { rate, count: 1 }),
        }
        self.tries += 1;
    }

    /// From now on it is sent with Retry set.
    pub fn set_retry(&mut self) {
        self.frame = Rc::new(again(&self.sent.frame));
    }

    /// Whether the next try is the first of those at its place in the sender's list.
    fn begins_attempt(&self) -> bool {
        let mut ends = self.sent.attempts.iter().scan(0, |sum, attempt| {
            *sum += u32::from(attempt.count);
            Some(*sum)
        });
        self.tries == 0 || ends.any(|end| end == self.tries)
    }
}
