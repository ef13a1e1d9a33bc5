//! What is said to the program goes into its pipe, as far as it has read what was said before.
use std::collections::VecDeque;
use std::io::{ErrorKind, Write};
use std::os::unix::io::{AsFd, BorrowedFd};
use std::process::ChildStdin;

use crate::apctl::protocol::{push_mark, push_record, Event};
use crate::apctl::recording::Recording;
use crate::control::faults::Fault;
use crate::os::socket_options::octets_in_pipe;

/// How many events are in the pipe at most that the program hasn't read: what is said then waits no longer than these
/// take, a beacon interval above all.
const MOST_UNREAD: usize = 32;

/// Says events to the program, and keeps what its pipe doesn't take yet; each event is recorded first.
#[derive(Debug)]
pub struct Feeder {
    input: Option<ChildStdin>,
    pub record: Option<Recording>,
    pending: Vec<u8>,
    /// How many octets were said, and up to which of them each event goes that the program may not have read.
    said: u64,
    ends: VecDeque<u64>,
    tick_end: u64,
    /// How many records the program was given.
    records: u64,
}

impl Feeder {
    pub fn new(input: ChildStdin, record: Option<Recording>) -> Feeder {
        let (pending, ends) = (Vec::new(), VecDeque::new());
        Feeder { input: Some(input), record, pending, said: 0, ends, tick_end: 0, records: 0 }
    }

    /// By which one waits for room, while there is an input.
    pub fn descriptor(&self) -> Option<BorrowedFd<'_>> {
        self.input.as_ref().map(AsFd::as_fd)
    }

    /// How many more frames may be said now. What the program has ended to read is never read, and lost.
    pub fn room(&mut self) -> usize {
        if !self.pending.is_empty() {
            return 0;
        }
        if self.ends.len() >= MOST_UNREAD {
            self.forget_read();
        }
        MOST_UNREAD.saturating_sub(self.ends.len())
    }

    /// Whether the program has read the last beginning of a beacon interval.
    pub fn has_read_tick(&mut self) -> bool {
        self.forget_read();
        self.pending.is_empty() && self.ends.front().map_or(true, |end| *end > self.tick_end)
    }

    fn forget_read(&mut self) {
        let unread = match self.descriptor().map(octets_in_pipe) {
            Some(Ok(octets)) => (octets + self.pending.len()) as u64,
            _ => 0,
        };
        let read = self.said.saturating_sub(unread);
        while self.ends.front().map_or(false, |end| *end <= read) {
            self.ends.pop_front();
        }
    }

    /// Says an event; it is written by the next `flush`.
    pub fn feed(&mut self, event: Event<'_>) {
        if let Some(record) = &mut self.record {
            record.write(event);
        }
        self.push(|pending| push_record(event, pending));
        if event == Event::Tick {
            self.tick_end = self.said;
        }
    }

    /// Says a mark, and answers its number: the program has answered all that was said before once it answers that. A
    /// mark isn't recorded, as `run` takes none.
    pub fn mark(&mut self) -> u64 {
        self.push(push_mark);
        self.records
    }

    fn push(&mut self, push: impl FnOnce(&mut Vec<u8>)) {
        self.records += 1;
        if self.input.is_some() {
            let before = self.pending.len();
            push(&mut self.pending);
            self.said += (self.pending.len() - before) as u64;
            self.ends.push_back(self.said);
        }
    }

    /// Writes a comment into the record, if there is one.
    pub fn remark(&mut self, text: &str) {
        if let Some(record) = &mut self.record {
            record.remark(text);
        }
    }

    /// Writes what the pipe takes, and answers whether that was all. What is said to a program that has ended is lost.
    pub fn flush(&mut self) -> Result<bool, Fault> {
        let mut written = 0;
        while written < self.pending.len() {
            match self.input.as_mut().map(|input| input.write(&self.pending[written..])) {
                Some(Ok(length)) => written += length,
                Some(Err(fault)) if fault.kind() == ErrorKind::WouldBlock => break,
                Some(Err(fault)) if fault.kind() == ErrorKind::Interrupted => {}
                Some(Err(fault)) if fault.kind() == ErrorKind::BrokenPipe => self.close(),
                Some(Err(fault)) => return Err(Fault::of("the program's input", &fault)),
                None => written = self.pending.len(),
            }
        }
        self.pending.drain(..written);
        Ok(self.pending.is_empty())
    }

    pub fn close(&mut self) {
        self.input = None;
    }

    /// What was recorded waits from now on for the file of the record.
    pub fn flush_record(&mut self) {
        self.record.iter_mut().for_each(Recording::flush);
    }

    /// Nothing more is recorded: what waits is written, for a bounded time.
    pub fn finish_record(&mut self) {
        self.record.iter_mut().for_each(Recording::finish);
    }
}
