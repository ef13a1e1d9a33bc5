//! An interface by which frames are sent, and whether it has room.
use std::io::{self, ErrorKind};

use crate::os::port::Port;

/// Whether an interface has room, and whether one waits for that.
#[derive(Debug, Clone, Copy, PartialEq, Eq)]
enum Room {
    /// It has some.
    Free,
    /// It has none since a moment ago: nobody waits for it yet.
    Lost,
    /// It has none, and one waits for it.
    Awaited,
    /// It may have some again: one waits for it still.
    Back,
}

/// An interface by which frames are sent, and whether it has room.
#[derive(Debug)]
pub struct Gate<P> {
    pub port: P,
    room: Room,
}

impl<P: Port> Gate<P> {
    /// It has room.
    pub fn new(port: P) -> Gate<P> {
        Gate { port, room: Room::Free }
    }

    /// One waits for its room from now on exactly if it has none.
    pub fn settle(&mut self) {
        self.room = match self.room {
            Room::Free | Room::Back => Room::Free,
            Room::Lost | Room::Awaited => Room::Awaited,
        };
    }

    /// Whether one waits for its room exactly if it has none.
    pub fn is_settled(&self) -> bool {
        matches!(self.room, Room::Free | Room::Awaited)
    }

    /// Whether it has no room at the moment.
    pub fn is_blocked(&self) -> bool {
        matches!(self.room, Room::Lost | Room::Awaited)
    }

    /// It may have room again.
    pub fn unblock(&mut self) {
        self.room = match self.room {
            Room::Free | Room::Lost => Room::Free,
            Room::Awaited | Room::Back => Room::Back,
        };
    }

    /// It has no room.
    fn block(&mut self) {
        self.room = match self.room {
            Room::Free | Room::Lost => Room::Lost,
            Room::Awaited | Room::Back => Room::Awaited,
        };
    }

    /// Sends the first so many of these frames as there is room for. A fault is of the first one alone.
    pub fn send(&mut self, frames: &[&[u8]]) -> io::Result<usize> {
        match self.port.send(frames) {
            Err(fault) if fault.kind() == ErrorKind::WouldBlock => {
                self.block();
                Ok(0)
            }
            Err(fault) if fault.kind() == ErrorKind::Interrupted => Ok(0),
            outcome => outcome,
        }
    }
}

#[cfg(test)]
mod tests {
    use super::*;
    use crate::testing::samples::Recorder;

    #[test]
    fn one_waits_for_room_from_when_there_is_none_until_there_is_some() {
        let mut gate = Gate::new(Recorder { room: Some(0), ..Recorder::default() });
        assert!(!gate.is_blocked() && gate.is_settled());
        assert_eq!(gate.send(&[&[7]]).unwrap(), 0);
        assert!(gate.is_blocked() && !gate.is_settled());
        gate.settle();
        assert!(gate.is_blocked() && gate.is_settled());
        gate.unblock();
        assert!(!gate.is_blocked() && !gate.is_settled());
        assert_eq!(gate.send(&[&[7]]).unwrap(), 0);
        assert!(gate.is_blocked() && gate.is_settled());
        gate.unblock();
        gate.settle();
        assert!(!gate.is_blocked() && gate.is_settled());
    }

    #[test]
    fn room_that_is_back_before_one_waits_for_it_is_not_waited_for() {
        let mut gate = Gate::new(Recorder { room: Some(0), ..Recorder::default() });
        assert_eq!(gate.send(&[&[7]]).unwrap(), 0);
        gate.unblock();
        assert!(!gate.is_blocked() && gate.is_settled());
    }
}
