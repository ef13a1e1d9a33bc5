//! The way of a frame to the air: when it goes, at which rate, how often it is tried, and when it is given up.
//!
//! This is a state machine without sockets and clocks: calls bring the time, and the same calls have the same answers.
//! `monitor` does what is left to others. It hands the packets to the radio's sockets, in their order, asks the socket
//! whether it is empty, and says when time has passed.
//!
//! What decides the most of them is a proved library (`downlink`): which network sends, what of a receiver goes next,
//! goes once more, goes back to the program or is dropped since others wait or its station left. The rest is decided
//! here, and tested: when a receiver is held, which one of its network sends, at which rate, and what is late.
//!
//! The rules, of any order of calls. A *receiver* is a station, all groups of a network, or all others, who aren't
//! associated with it.
//!
//! What may wait (`queue`, `beacon_queue`):
//!
//! 1. A beacon waits apart from all else. At most two of a network wait: one more drops the oldest of its network.
//! 2. Any other frame waits in its network for its receiver. At most 64 wait for a station, 256 for groups and 256 for
//!    others. One more drops the oldest of its receiver, and of others the one that would go last.
//! 3. Of a network 2 MB wait at most, without what was kept (5) or waits apart. What is beyond that is dropped: the
//!    oldest frame of the receiver for which most wait, of several the last in their order. The answer to a poll goes
//!    back then.
//! 4. A unit that is sent once more waits before the others for its station, and isn't counted among the 64.
//! 5. Units that the program kept for a station until it woke drop nothing. Of a network 4 MB of them wait, and one
//!    more is dropped itself. While 16 frames wait for their station, further ones wait apart (`backlog`). Once a frame
//!    of their station is gone and fewer than 16 wait, the next one waits in its place.
//! 6. Units that come for a station of which some wait apart wait behind these, 64 at most. One more drops the oldest.
//!
//! What goes next (`scheduler`):
//!
//! 7. No frame goes while a beacon waits, but for beacons.
//! 8. Of the networks with a waiting frame, the library says which one sends. Its receivers take turns by the same
//!    rule. If all that waits of that network is held (10 and 11), no other one sends in its place: all wait until the
//!    radio has told of the network's frames. It is passed over where the radio has none of them, until one goes.
//! 9. Of a network those go before all else that wait for its groups when units for the group come behind a beacon that
//!    tells of them, and those that wait for a station when the answer to its poll comes.
//!
//! When it is held:
//!
//! 10. A station's frames are held while `links` waits for what became of the frame before, for 200 ms at most. It
//!     waits for a sample, for a unit that is sent once more, and for each frame behind a lost one.
//! 11. They are held while the radio's oldest frame is theirs and overdue (`in_flight`). If the station loses tries,
//!     they are held too while what became of one that left the radio is unread. If few wait then, or the last one was
//!     lost, they are held while the radio has any of them. Units are held while the radio has one if the station
//!     acknowledged none for 100 ms: by then it may hear other rates, and all would be lost with the rate.
//! 12. All but beacons are held while the radio has as much as it sends in some 8 ms, unless the bridge ends. While the
//!     radio has frames of a network, another one of it is held if all would take more than 50 ms, should nobody
//!     acknowledge any. If its station loses few tries, it is tried four times at most then.
//! 13. All but beacons are held while the interface is down or its socket has no room.
//!
//! When it is dropped, besides 1 to 6:
//!
//! 14. When a frame's turn comes, it is dropped if it has waited longer than its kind is worth (`frame`). Late units
//!     go for a while all the same (`lateness`). What was kept is worth sending until its station has acknowledged
//!     nothing for 2 s; then all that waits apart for it is dropped too. For units behind it the time counts since the
//!     last one went that was kept.
//! 15. A frame that the interface refuses is dropped. One that had its turn before the interface went down is dropped
//!     once that lasted for 50 ms. Frames that the radio had then, and of which it told nothing, are lost: a unit goes
//!     once more or back as any that is lost, and the others are dropped.
//!
//! In which order:
//!
//! 16. Frames for a station or a group go in the order in which they came. Only a lost unit goes once more before the
//!     others for its station, and only where nothing was sent to that since. Management frames don't wait for units
//!     apart. What waits for one of the others goes behind its own frames once it is associated.
//! 17. Each frame waits, went, went back or was dropped: one of them, once. Those that were dropped are counted with
//!     the reason. One that waits here and that the library doesn't have is dropped at its turn.
//!
//! Of stations that doze (`sleeping`, `handing_back`):
//!
//! 18. From a frame that says that a station dozes until one that says that it is awake no unit goes to it but one for
//!     each poll that the program was given: the first that comes within 400 ms. Polls are ignored while the program
//!     has one, the answer waits, or a unit for the station is out. Management frames go.
//! 19. What waits for a station that dozes goes back to the program in its order. So does a unit that nobody
//!     acknowledged and whose station dozes by then, one that comes and answers no poll, and the answer to a poll that
//!     was lost twice, waited for 400 ms, had no room (3) or was refused by the interface.
//! 20. Units that wait for a station that isn't associated any more are dropped, and so are those that the program sent
//!     before it knew that, and what was about to go back. What the radio has for it isn't sent once more.
//!
//! Of others, who aren't associated (`notices`):
//!
//! 21. Of what waits for them answers to authentications and associations go first, then those to probe requests for
//!     one network, then those to probe requests for all. Of each kind the newest goes first.
//! 22. A notice that tells one to go waits apart, until its turn comes and nothing else of its network waits for
//!     others. It is tried once. An answer to its address drops it.
//! 23. While another answer waits for others of its network or the radio has one, an answer is tried twice at most.
//!     While more than eight do, it is tried once.
//!
//! Rate and cost are chosen when a frame goes. What the radio then tells of its tries and their rate corrects the share
//! of its network. It isn't believed that it tried a frame more often than it was asked to.
pub mod account;
mod air_time;
mod awaiting_room;
pub mod backlog;
mod beacon_queue;
mod dequeue;
mod downlink;
mod enqueue;
mod falling_asleep;
pub mod frame;
pub mod hand_back_pace;
pub mod handing_back;
mod in_flight;
mod lateness;
pub mod links;
pub mod notices;
mod outcomes;
mod proved_queues;
mod queue;
mod rate_control;
mod reporting;
pub mod scheduler;
mod sleeping;
mod station_requests;

pub use crate::outbound::air::downlink::MOST_WEIGHT;
pub use crate::outbound::air::queue::MOST_OCTETS;
pub use crate::outbound::air::sleeping::Mark;

use std::collections::VecDeque;

use crate::formats::frames::Frame;
use crate::formats::radiotap::Outcome;
use crate::network::Network;
use crate::os::clock::{nanos, Duration, Instant};
use crate::outbound::air::account::Account;
use crate::outbound::air::air_time::{Cost, Size};
use crate::outbound::air::beacon_queue::BeaconQueue;
use crate::outbound::air::downlink::Ticket;
use crate::outbound::air::frame::{FrameKind, Receiver};
use crate::outbound::air::in_flight::{FrameName, InFlight, Sending};
use crate::outbound::air::lateness::Lateness;
use crate::outbound::air::links::{Links, Unacknowledged};
use crate::outbound::air::queue::Queue;
use crate::outbound::air::rate_control::BAND;
use crate::outbound::air::scheduler::Place;
use crate::outbound::air::sleeping::{Octets, Sleepers};

/// What is known of a frame that the radio has.
#[derive(Debug)]
struct Sent {
    /// As it was to be sent.
    size: Size,
    cost: Cost,
    /// How often it was to be tried again at most, and how long the radio takes for it if nobody acknowledges it.
    retries: u8,
    longest: Duration,
    receiver: Receiver,
    kind: FrameKind,
    /// By which the library knows it.
    ticket: Ticket,
    octets: Octets,
}

impl Sending for Sent {
    fn longest(&self) -> Duration {
        self.longest
    }
}

impl Sent {
    /// Whether the bridge made it.
    fn is_own(&self) -> bool {
        matches!(self.kind, FrameKind::Own { .. })
    }

    /// How it went, without tries that it wasn't asked for.
    fn within_tries(&self, outcome: Outcome) -> Outcome {
        Outcome { retries: outcome.retries.min(self.retries), ..outcome }
    }

    /// What a try of it took, by the rate that the radio tells; by the one that it was asked for where it tells none.
    fn told_cost(&self, outcome: Outcome) -> Cost {
        let told = outcome.rate.filter(|rate| BAND.contains(rate)).unwrap_or(self.size.rate);
        if told == self.size.rate {
            self.cost
        } else {
            Size { rate: told, ..self.size }.cost()
        }
    }
}

/// How much the radio is given of what waits, beacons left out.
#[derive(Debug, Clone, Copy, PartialEq, Eq)]
enum Intake {
    /// As much as it sends in some milliseconds.
    Bounded,
    /// Nothing until it has told of a frame: it has as much as it may have at once.
    Closed,
    /// All, however much it has: the bridge ends.
    Unbounded,
}

/// Whether what the radio told of frames is to be read though no frame waits for it.
#[derive(Debug, Clone, Copy, PartialEq, Eq)]
enum Reports {
    Read,
    /// The radio is late with a frame, unless what it told of that one is unread.
    Wanted,
}

#[derive(Debug, Clone, Copy, PartialEq, Eq)]
enum Interface {
    Up,
    /// The radio is given nothing but beacons, which it refuses.
    Down,
}

/// The frames of all networks that one radio sends.
#[derive(Debug)]
pub struct Transmitter {
    beacons: BeaconQueue,
    queue: Queue,
    links: Links,
    lateness: Lateness,
    in_flight: InFlight<Sent>,
    /// Frames that are the radio's turn, and for which its socket has no room yet.
    awaiting_room: VecDeque<(FrameName, Vec<u8>)>,
    /// The room of frames that were sent, for those that come.
    spare: Vec<Vec<u8>>,
    intake: Intake,
    /// Until when each network is busy, since the radio had as much of it as it may have at once.
    busy_until: Vec<Instant>,
    reports: Reports,
    /// When the radio's socket is looked at, while the radio has as much as it may have.
    look_due: Option<Instant>,
    interface: Interface,
    /// How many frames were sent.
    pub sent: u64,
    /// A station falls asleep and leaves by calls of this type alone: they take out what waits for it too.
    pub sleepers: Sleepers,
    /// Of each network whether units for the group follow its last beacon and came last.
    follows_dtim: Vec<bool>,
}

impl Transmitter {
    /// For these networks, of these weights. Nothing waits.
    pub fn new(networks: &[Network]) -> Transmitter {
        Transmitter {
            beacons: BeaconQueue::default(),
            queue: Queue::new(networks.iter().map(|network| network.weight)),
            links: Links::new(networks),
            lateness: Lateness::default(),
            in_flight: InFlight::new(),
            awaiting_room: VecDeque::new(),
            spare: Vec::new(),
            intake: Intake::Bounded,
            busy_until: vec![Instant::START; networks.len()],
            reports: Reports::Read,
            look_due: None,
            interface: Interface::Up,
            sent: 0,
            sleepers: Sleepers::new(networks),
            follows_dtim: vec![false; networks.len()],
        }
    }

    /// Whether the radio tells what becomes of frames, as far as one knows.
    pub fn tells_outcomes(&self) -> bool {
        self.links.is_told()
    }

    /// What the air was to each network.
    pub fn accounts(&self) -> &[Account] {
        &self.queue.accounts
    }

    /// What became so far of units that nobody acknowledged, of each network.
    pub fn unacknowledged_by_network(&self) -> &[Unacknowledged] {
        &self.links.unacknowledged
    }

    /// The same of all networks.
    pub fn unacknowledged(&self) -> Unacknowledged {
        let sum = |(again, lost), one: &Unacknowledged| (again + one.again, lost + one.lost);
        let (again, lost) = self.links.unacknowledged.iter().fold((0, 0), sum);
        Unacknowledged { again, lost }
    }

    /// How many frames were dropped that the library didn't have.
    pub fn strays(&self) -> u64 {
        self.queue.strays
    }

    /// A frame was heard that is for this network alone.
    pub fn heard(&mut self, place: Place, frame: Frame<'_>) {
        self.links.hear(place, frame);
    }

    /// A station is associated, by this request, since before this bridge began.
    pub fn restore(&mut self, place: Place, request: Frame<'_>, now: Instant) {
        self.links.hear(place, request);
        if let Some(address) = request.transmitter() {
            self.join(place, address, now);
        }
    }

    /// Whether a frame that is no beacon waits and may go now, if the socket has room.
    pub(super) fn has_next(&self) -> bool {
        let waits = !self.awaiting_room.is_empty() || self.queue.has_ready() && self.intake != Intake::Closed;
        waits && self.interface == Interface::Up
    }

    pub fn is_empty(&self) -> bool {
        self.queue.is_empty() && self.awaiting_room.is_empty() && self.beacons.is_empty()
    }

    pub fn is_down(&self) -> bool {
        self.interface == Interface::Down
    }

    /// From now on the radio is given all that waits, however much it has.
    pub fn end(&mut self) {
        self.intake = Intake::Unbounded;
        self.look_due = None;
    }
}

const NANOS_PER_MICROSECOND: u64 = 1000;

/// Whole microseconds, by which shares are reckoned, and no fewer than it takes.
fn microseconds(time: Duration) -> u32 {
    u32::try_from((nanos(time) + NANOS_PER_MICROSECOND - 1) / NANOS_PER_MICROSECOND).unwrap_or(u32::MAX)
}

#[cfg(test)]
#[path = "air_test.rs"]
mod tests;

#[cfg(test)]
#[path = "calls_test.rs"]
mod calls_tests;

#[cfg(test)]
#[path = "downlink_test.rs"]
mod downlink_tests;
