//! Waiting for what comes first: by `epoll`, with a clock of its own that is exact to less than a millisecond.
use std::os::unix::io::BorrowedFd;

use crate::control::faults::Fault;
use crate::os::clock::{now, Instant};
use crate::os::epoll::{wait_for_one, Epoll};
use crate::os::timer::Timer;

type Outcome = Result<(), Fault>;

#[derive(Debug, Clone, Copy, PartialEq, Eq)]
pub enum Token {
    /// Requests of `tools/live`.
    Control,
    /// The program's answers.
    Output,
    /// Room in the program's input.
    Input,
    /// The time that was set.
    Clock,
    Monitor,
    /// The frames that it shows as acknowledged.
    Acknowledged,
    /// Somebody who connects to ask something.
    Listener,
    /// The client of this place.
    Client(usize),
    /// The wire of the network of this place.
    Wire(usize),
}

pub const MOST_CLIENTS: usize = 16;
/// Those of which there is one each, by their numbers.
const SINGLE: [Token; 7] =
    [Token::Control, Token::Output, Token::Input, Token::Clock, Token::Monitor, Token::Listener, Token::Acknowledged];
const FIRST_CLIENT: u64 = SINGLE.len() as u64;
const FIRST_WIRE: u64 = FIRST_CLIENT + MOST_CLIENTS as u64;

impl Token {
    fn number(self) -> u64 {
        match self {
            Token::Client(place) => FIRST_CLIENT + place as u64,
            Token::Wire(place) => FIRST_WIRE + place as u64,
            single => SINGLE.iter().position(|one| *one == single).expect("it is in the list") as u64,
        }
    }

    fn of(number: u64) -> Token {
        match number {
            FIRST_WIRE.. => Token::Wire((number - FIRST_WIRE) as usize),
            FIRST_CLIENT.. => Token::Client((number - FIRST_CLIENT) as usize),
            _ => SINGLE[number as usize],
        }
    }
}

#[derive(Debug, Clone, Copy, PartialEq, Eq)]
pub struct Ready {
    pub token: Token,
    /// Whether something can be read, or was closed, or has a fault.
    pub can_read: bool,
    /// Whether there is room to write.
    pub can_write: bool,
}

pub struct Poller {
    epoll: Epoll,
    clock: Timer,
    due: Instant,
}

impl Poller {
    /// For nothing yet but the time that `set_due` sets.
    pub fn new() -> Result<Poller, Fault> {
        let poller = Poller { epoll: Epoll::new()?, clock: Timer::new()?, due: Instant::NEVER };
        poller.add(poller.clock.descriptor(), Token::Clock, true, false)?;
        Ok(poller)
    }

    /// Waits for a descriptor too. Of what was closed nothing comes.
    pub fn add<'a>(&self, of: impl Into<Option<BorrowedFd<'a>>>, token: Token, reads: bool, writes: bool) -> Outcome {
        of.into().map_or(Ok(()), |descriptor| Ok(self.epoll.add(descriptor, token.number(), reads, writes)?))
    }

    /// Waits for something else of a descriptor.
    pub fn change<'a>(
        &self,
        of: impl Into<Option<BorrowedFd<'a>>>,
        token: Token,
        reads: bool,
        writes: bool,
    ) -> Outcome {
        of.into().map_or(Ok(()), |descriptor| Ok(self.epoll.change(descriptor, token.number(), reads, writes)?))
    }

    /// Waits for a descriptor no more.
    pub fn remove<'a>(&self, of: impl Into<Option<BorrowedFd<'a>>>) -> Outcome {
        of.into().map_or(Ok(()), |descriptor| Ok(self.epoll.remove(descriptor)?))
    }

    /// Sets the time at which the wait ends, by the clock that nobody sets.
    pub fn set_due(&mut self, due: Instant) -> Result<(), Fault> {
        if due != self.due {
            self.due = due;
            self.clock.set(due)?;
        }
        Ok(())
    }

    /// Waits until this time, or until this descriptor alone can be read: all else that comes may gather.
    pub fn gather(&self, descriptor: BorrowedFd<'_>, until: Instant) -> Result<(), Fault> {
        Ok(wait_for_one(descriptor, until.since(now()))?)
    }

    /// Waits until something comes, or for so many milliseconds at most.
    pub fn wait(&mut self, most: Option<u16>, found: &mut Vec<Ready>) -> Result<(), Fault> {
        found.clear();
        self.epoll.wait(most)?;
        for came in self.epoll.came() {
            let token = Token::of(came.number);
            found.push(Ready { token, can_read: came.can_read, can_write: came.can_write });
            if token == Token::Clock {
                self.due = Instant::NEVER;
                self.clock.clear();
            }
        }
        Ok(())
    }
}

#[cfg(test)]
mod tests {
    use super::*;
    use crate::os::clock::{MILLISECOND, SECOND};
    use std::io::Write;
    use std::os::unix::io::AsFd;
    use std::os::unix::net::UnixStream;

    #[test]
    fn each_token_has_a_number_of_its_own() {
        let clients = (0..MOST_CLIENTS).map(Token::Client);
        let all = [Token::Control, Token::Output, Token::Input, Token::Clock, Token::Monitor, Token::Acknowledged];
        for token in all.into_iter().chain([Token::Listener]).chain(clients).chain((0..20).map(Token::Wire)) {
            assert_eq!(Token::of(token.number()), token);
        }
    }

    #[test]
    fn what_comes_first_ends_the_wait() {
        let (one, mut other) = UnixStream::pair().unwrap();
        let mut poller = Poller::new().unwrap();
        poller.add(one.as_fd(), Token::Wire(7), true, false).unwrap();
        let (mut found, begun) = (Vec::new(), now());
        poller.set_due(begun + 20 * MILLISECOND).unwrap();
        poller.wait(None, &mut found).unwrap();
        assert_eq!(found, [Ready { token: Token::Clock, can_read: true, can_write: false }]);
        assert!(now().since(begun) >= 20 * MILLISECOND);
        other.write_all(b"x").unwrap();
        poller.wait(None, &mut found).unwrap();
        assert_eq!(found, [Ready { token: Token::Wire(7), can_read: true, can_write: false }]);
        poller.change(one.as_fd(), Token::Wire(7), false, true).unwrap();
        poller.wait(None, &mut found).unwrap();
        assert_eq!(found, [Ready { token: Token::Wire(7), can_read: false, can_write: true }]);
        poller.change(one.as_fd(), Token::Wire(7), false, false).unwrap();
        poller.wait(Some(1), &mut found).unwrap();
        assert_eq!(found, []);
    }

    #[test]
    fn what_gathers_ends_no_wait() {
        let ((one, mut other), (wanted, mut asks)) = (UnixStream::pair().unwrap(), UnixStream::pair().unwrap());
        let poller = Poller::new().unwrap();
        poller.add(one.as_fd(), Token::Wire(7), true, false).unwrap();
        other.write_all(b"x").unwrap();
        let begun = now();
        poller.gather(wanted.as_fd(), begun + 20 * MILLISECOND).unwrap();
        assert!(now().since(begun) >= 20 * MILLISECOND);
        poller.gather(wanted.as_fd(), begun).unwrap();
        asks.write_all(b"x").unwrap();
        poller.gather(wanted.as_fd(), now() + 100 * SECOND).unwrap();
        assert!(now().since(begun) < 50 * SECOND);
    }
}
