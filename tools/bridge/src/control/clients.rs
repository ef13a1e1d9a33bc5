//! Whoever asks the bridge by its socket, for the status, for events, or to forget a station: a line is a question, and
//! a line of JSON its answer. Here questions are read and answers are written; `run::answering` makes the answers.
//! Nobody keeps frames from going, and nobody takes memory without bound:
//!
//! - There are `MOST_CLIENTS` clients at most, and so many connect at most before something else is looked at.
//! - `PLACES_OF_ROOT` of their places are root's alone, and no other user puts out a client of root's: so root is heard.
//! - A client is read from only while it has no question here and no answer waits for it: so `MOST_INPUT` octets of
//!   what it writes are kept at most. The rest waits in its socket, and then it waits itself.
//! - An answer has `MOST_ANSWER` octets at most, and one that goes to many clients is kept once.
//! - Who writes no question for `MOST_SILENCE`, or takes nothing of its answer for `MOST_UNTAKEN`, is closed.
use std::io::{self, ErrorKind, Read, Write};
use std::os::unix::io::{AsFd, BorrowedFd};
use std::os::unix::net::{UnixListener, UnixStream};
use std::rc::Rc;

use crate::control::faults::{self, Fault};
use crate::control::log;
use crate::control::status::error;
use crate::formats::frames::Address;
use crate::os::clock::{Duration, Instant, SECOND};
use crate::os::poller::{Poller, Token, MOST_CLIENTS};
use crate::os::socket_options::user_of;

/// A client that wrote nothing for so long is closed.
const MOST_SILENCE: Duration = Duration::from_secs(30);
/// A client that took nothing of its answer for so long is closed, and told of.
const MOST_UNTAKEN: Duration = Duration::from_secs(10);
const MOST_LINE: usize = 128;
/// How many octets of a client's lines are kept at most.
const MOST_INPUT: usize = 4 * MOST_LINE;
/// The longest answer: the status of 16 networks with as many stations as it lists has some 6 million octets.
const MOST_ANSWER: usize = 8 << 20;
/// How much of an answer is written before something else is looked at.
const MOST_AT_A_TIME: usize = 1 << 18;
const ROOT: u32 = 0;
const PLACES_OF_ROOT: usize = 4;
/// So long after nobody could connect, as when this machine has no descriptors left, that is tried again.
const UNTIL_TRIED: Duration = SECOND;

#[derive(Debug, Clone, Copy, PartialEq, Eq)]
pub enum Question {
    /// What is going on.
    Status,
    /// What happened, from the event of this number on.
    Events { first: u64 },
    /// A station of the network of this address is to be forgotten.
    Kick { bssid: Address, station: Address },
    /// The line isn't known.
    Unknown,
}

impl Question {
    fn of(line: &[u8]) -> Question {
        let text = String::from_utf8_lossy(line);
        let words: Vec<&str> = text.split_ascii_whitespace().collect();
        match words[..] {
            ["status"] => Question::Status,
            ["events", first] => first.parse().map_or(Question::Unknown, |first| Question::Events { first }),
            ["kick", bssid, station] => match (bssid.parse(), station.parse()) {
                (Ok(bssid), Ok(station)) => Question::Kick { bssid, station },
                _ => Question::Unknown,
            },
            _ => Question::Unknown,
        }
    }
}

/// An answer: a line with its end, which isn't copied, since one may have millions of octets.
#[derive(Debug, Clone)]
pub struct Line(Rc<String>);

impl Line {
    /// Of this text. If it is too long, the answer says that.
    pub fn of(text: String) -> Line {
        let mut text = text;
        if text.len() >= MOST_ANSWER {
            text = error(&format!("the answer would have more than {MOST_ANSWER} octets"));
        }
        text.push('\n');
        Line(Rc::new(text))
    }
}

impl Line {
    /// With its end.
    #[cfg(test)]
    pub fn text(&self) -> &str {
        &self.0
    }
}

/// What is waited for of a client.
#[derive(Debug, Clone, Copy, PartialEq, Eq)]
struct Awaited {
    reads: bool,
    writes: bool,
}

#[derive(Debug)]
struct Client {
    stream: UnixStream,
    user: u32,
    input: Vec<u8>,
    /// The answer that it hasn't taken whole, and how much of it it has.
    answer: Option<(Line, usize)>,
    /// When it wrote last.
    wrote: Instant,
    /// When it took something of its answer last, or the answer was there.
    took: Instant,
    /// The question that it waits for an answer of, and since when.
    waits: Option<(Question, Instant)>,
    is_blocked: bool,
    awaited: Awaited,
}

/// All that are connected, each at a place of its own.
#[derive(Debug)]
pub struct Clients {
    listener: UnixListener,
    clients: Vec<Option<Client>>,
    connected: usize,
    /// When it is tried again whether somebody can connect, if nobody could.
    closed_until: Option<Instant>,
    /// Whether it was told that nobody can connect.
    has_told: bool,
}

impl Clients {
    /// Nobody is connected yet.
    pub fn new(listener: UnixListener) -> Result<Clients, Fault> {
        listener.set_nonblocking(true).map_err(|fault| Fault::of("the bridge's socket", &fault))?;
        let clients = (0..MOST_CLIENTS).map(|_| None).collect();
        Ok(Clients { listener, clients, connected: 0, closed_until: None, has_told: false })
    }

    /// By which one waits for somebody who connects.
    pub fn descriptor(&self) -> BorrowedFd<'_> {
        self.listener.as_fd()
    }

    /// Takes those who want to connect, as many at most as there are places.
    pub fn accept(&mut self, poller: &Poller, now: Instant) -> Result<(), Fault> {
        for _ in 0..MOST_CLIENTS {
            match self.listener.accept() {
                Ok((stream, _)) => {
                    self.has_told = false;
                    let user = user_of(stream.as_fd()).unwrap_or(u32::MAX);
                    self.enter(stream, user, poller, now);
                }
                Err(fault) if fault.kind() == ErrorKind::WouldBlock => break,
                Err(fault) if matches!(fault.kind(), ErrorKind::Interrupted | ErrorKind::ConnectionAborted) => {}
                Err(fault) => return self.close_for_a_while(&fault, poller, now),
            }
        }
        Ok(())
    }

    /// Nobody can connect now. Whoever wants to keeps the listener readable, so it isn't waited for meanwhile.
    fn close_for_a_while(&mut self, fault: &io::Error, poller: &Poller, now: Instant) -> Result<(), Fault> {
        if !self.has_told {
            self.has_told = true;
            let text = format!("nobody can connect to the bridge's socket now: {}", faults::reason(fault));
            log::warn(text);
        }
        self.closed_until = Some(now + UNTIL_TRIED);
        poller.remove(self.descriptor())
    }

    /// Waits again for those who want to connect, if it is time.
    fn open_again(&mut self, poller: &Poller, now: Instant) -> Result<(), Fault> {
        if self.closed_until.map_or(false, |until| now >= until) {
            self.closed_until = None;
            poller.add(self.descriptor(), Token::Listener, true, false)?;
        }
        Ok(())
    }

    /// One of this user has connected. If there is no place for it, it is closed.
    fn enter(&mut self, stream: UnixStream, user: u32, poller: &Poller, now: Instant) {
        let place = match self.place_for(user) {
            Some(place) if stream.set_nonblocking(true).is_ok() => place,
            _ => return,
        };
        let client = Client::new(stream, user, now);
        let Awaited { reads, writes } = client.awaited;
        if poller.add(client.stream.as_fd(), Token::Client(place), reads, writes).is_ok() {
            self.clients[place] = Some(client);
            self.count();
        }
    }

    fn count(&mut self) {
        self.connected = self.clients.iter().flatten().count();
    }

    /// The place for one more client of a user: one that is free, or that of the client which wrote longest ago, which
    /// is root's only if this one is too.
    fn place_for(&self, user: u32) -> Option<usize> {
        let is_of_root = user == ROOT;
        let first = if is_of_root { 0 } else { PLACES_OF_ROOT };
        let places = (first..self.clients.len()).filter(|place| is_of_root || !self.is_root(*place));
        places.min_by_key(|place| self.clients[*place].as_ref().map(|client| (client.user == ROOT, client.wrote)))
    }

    /// Reads what a client wrote, or learns that it takes more of its answer; one that is gone or writes too much is
    /// closed.
    pub fn take(&mut self, place: usize, can_read: bool, can_write: bool, now: Instant) {
        if let Some(client) = self.clients.get_mut(place).and_then(Option::as_mut) {
            client.is_blocked &= !can_write;
            // Who isn't read from wakes the bridge only once nobody is there any more.
            let is_there = !can_read || client.awaited.reads && client.read(now);
            if !is_there {
                self.clients[place] = None;
                self.count();
            }
        }
    }

    /// Whether nobody is connected, and whoever wants to can.
    pub fn are_away(&self) -> bool {
        self.closed_until.is_none() && self.connected == 0
    }

    /// The next question, with the place of who asks; of one client the next comes once it took the answer before.
    pub fn next(&mut self) -> Option<(usize, Question)> {
        let asking = self.clients.iter_mut().enumerate().filter_map(|(place, client)| Some((place, client.as_mut()?)));
        let mut lines = asking.filter_map(|(place, client)| Some((place, client.next_line()?)));
        lines.next().map(|(place, line)| (place, Question::of(&line)))
    }

    /// Whether a question was read that nobody has looked at, or one waits for events.
    pub fn has_questions(&self) -> bool {
        let asks = |client: &Client| match client.waits {
            Some((Question::Events { .. }, _)) => true,
            _ => client.is_free() && client.has_line(),
        };
        self.connected > 0 && self.clients.iter().flatten().any(asks)
    }

    pub fn is_root(&self, place: usize) -> bool {
        self.clients[place].as_ref().map_or(false, |client| client.user == ROOT)
    }

    /// A client waits for its answer.
    pub fn wait(&mut self, place: usize, question: Question, now: Instant) {
        if let Some(client) = &mut self.clients[place] {
            client.waits = Some((question, now));
        }
    }

    /// The clients that wait for the status, each with since when.
    pub fn waiting_for_status(&self) -> Vec<(usize, Instant)> {
        let waiting = self.waiting().filter(|(_, question, _)| *question == Question::Status);
        waiting.map(|(place, _, since)| (place, since)).collect()
    }

    /// The client that waits longest for events, and from which on.
    pub fn waits_longest_for_events(&self) -> Option<(usize, u64)> {
        let waiting = self.waiting().filter_map(|(place, question, since)| match question {
            Question::Events { first } => Some((since, place, first)),
            _ => None,
        });
        waiting.min().map(|(_, place, first)| (place, first))
    }

    fn waiting(&self) -> impl Iterator<Item = (usize, Question, Instant)> + '_ {
        let clients = self.clients.iter().enumerate();
        let waits = clients.map(|(place, client)| Some((place, client.as_ref()?.waits?)));
        waits.flatten().map(|(place, (question, since))| (place, question, since))
    }

    pub fn answer(&mut self, place: usize, line: Line, now: Instant) {
        if let Some(client) = &mut self.clients[place] {
            client.waits = None;
            client.took = now;
            client.answer = Some((line, 0));
        }
    }

    /// Writes what clients take, and closes those that are gone, silent, or take nothing.
    pub fn flush(&mut self, poller: &Poller, now: Instant) -> Result<(), Fault> {
        self.open_again(poller, now)?;
        for (place, slot) in self.clients.iter_mut().enumerate() {
            if let Some(client) = slot {
                if !client.write(now) || client.is_silent(now) {
                    *slot = None;
                } else if client.takes_nothing(now) {
                    let (user, seconds) = (client.user, MOST_UNTAKEN.as_secs());
                    let text = format!(
                        "a client of user {user} took nothing of its answer for {seconds} seconds: it was closed"
                    );
                    log::notice(text);
                    *slot = None;
                } else {
                    client.wait_for(poller, place)?;
                }
            }
        }
        self.count();
        Ok(())
    }
}

impl Client {
    fn new(stream: UnixStream, user: u32, now: Instant) -> Client {
        Client {
            user,
            stream,
            input: Vec::new(),
            answer: None,
            wrote: now,
            took: now,
            waits: None,
            is_blocked: false,
            awaited: Awaited { reads: true, writes: false },
        }
    }

    /// Whether it has no question that was looked at, and no answer waits for it.
    fn is_free(&self) -> bool {
        self.answer.is_none() && self.waits.is_none()
    }

    fn has_line(&self) -> bool {
        self.input.contains(&b'\n')
    }

    fn is_silent(&self, now: Instant) -> bool {
        self.is_free() && now >= self.wrote.max(self.took) + MOST_SILENCE
    }

    fn takes_nothing(&self, now: Instant) -> bool {
        self.answer.is_some() && now >= self.took + MOST_UNTAKEN
    }

    /// Reads what waits and may be kept; false if it is gone, or writes more than a client may.
    fn read(&mut self, now: Instant) -> bool {
        let mut piece = [0; MOST_INPUT];
        let room = MOST_INPUT - self.input.len();
        match self.stream.read(&mut piece[..room]) {
            Ok(0) => false,
            Ok(length) => {
                self.wrote = now;
                self.input.extend(&piece[..length]);
                self.input.len() < MOST_INPUT || self.has_line()
            }
            Err(fault) => matches!(fault.kind(), ErrorKind::WouldBlock | ErrorKind::Interrupted),
        }
    }

    /// The next line, if it may ask.
    fn next_line(&mut self) -> Option<Vec<u8>> {
        let place = self.input.iter().position(|octet| *octet == b'\n').filter(|_| self.is_free())?;
        let mut line: Vec<u8> = self.input.drain(..=place).collect();
        line.truncate(place.min(MOST_LINE));
        Some(line)
    }

    /// Writes what it takes; false if it is gone.
    fn write(&mut self, now: Instant) -> bool {
        let (line, mut taken) = match self.answer.take() {
            Some((Line(line), taken)) => (line, taken),
            None => return true,
        };
        let end = line.len().min(taken + MOST_AT_A_TIME);
        while taken < end && !self.is_blocked {
            match self.stream.write(&line.as_bytes()[taken..end]) {
                Ok(length) => {
                    taken += length;
                    self.took = now;
                }
                Err(fault) if fault.kind() == ErrorKind::WouldBlock => self.is_blocked = true,
                Err(fault) if fault.kind() == ErrorKind::Interrupted => {}
                Err(_) => return false,
            }
        }
        self.answer = (taken < line.len()).then_some((Line(line), taken));
        true
    }

    /// Waits for what it may do next.
    fn wait_for(&mut self, poller: &Poller, place: usize) -> Result<(), Fault> {
        let awaited = Awaited { reads: self.is_free() && !self.has_line(), writes: self.answer.is_some() };
        if awaited != self.awaited {
            self.awaited = awaited;
            poller.change(self.stream.as_fd(), Token::Client(place), awaited.reads, awaited.writes)?;
        }
        Ok(())
    }
}

#[cfg(test)]
#[path = "clients_test.rs"]
mod tests;
