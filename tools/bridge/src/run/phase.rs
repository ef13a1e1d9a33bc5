//! How far the bridge is. Each phase has what belongs to it alone.
use super::running::Running;
use crate::control::parent::{Handed, Request};
use crate::os::clock::Instant;
use crate::os::interfaces::Interfaces;
use crate::restart::replay::Replay;

pub(super) enum Phase<P> {
    /// The program opens the networks, until this time.
    Opening {
        until: Instant,
        /// The sockets of the interfaces, where they are there already.
        handed: Option<Handed>,
    },
    /// `tools/live` sets the interfaces up, until it hands their sockets over.
    SettingUp { handed: Option<Handed> },
    /// The program is told of stations that joined before.
    Replay(Box<Replaying<P>>),
    /// Frames go.
    Running(Box<Running<P>>),
    /// The program's input ends. What it still writes is taken as in the phase before.
    Ending(Box<Phase<P>>),
}

/// What is said of stations that joined before, and what waits for the end of that.
pub(super) struct Replaying<P> {
    pub(super) until: Instant,
    pub(super) replay: Replay,
    /// The interfaces, by which nothing goes yet.
    pub(super) interfaces: Interfaces<P>,
    /// What `tools/live` asked for meanwhile.
    pub(super) deferred: Vec<Request>,
}

impl<P> Phase<P> {
    /// The interfaces, while frames go.
    pub(super) fn running(&mut self) -> Option<&mut Running<P>> {
        match self {
            Phase::Running(running) => Some(running),
            _ => None,
        }
    }

    /// The interfaces, while frames go and behind that, while the program still writes.
    pub(super) fn still_running(&mut self) -> Option<&mut Running<P>> {
        self.at_work().running()
    }

    /// This phase, or the one before the end.
    pub(super) fn at_work(&mut self) -> &mut Phase<P> {
        match self {
            Phase::Ending(before) => before,
            phase => phase,
        }
    }

    /// The end begins, if it hasn't yet; answers whether it does.
    pub(super) fn end(&mut self) -> bool {
        if self.is_ending() {
            return false;
        }
        let before = std::mem::replace(self, Phase::SettingUp { handed: None });
        *self = Phase::Ending(Box::new(before));
        true
    }

    pub(super) fn is_ending(&self) -> bool {
        matches!(self, Phase::Ending(_))
    }

    /// What was replayed, once the program has answered all of that: the phase of it is over.
    pub(super) fn take_replayed(&mut self) -> Option<Replaying<P>> {
        match std::mem::replace(self, Phase::SettingUp { handed: None }) {
            Phase::Replay(replaying) if replaying.replay.is_done() => Some(*replaying),
            phase => {
                *self = phase;
                None
            }
        }
    }
}
