//! The queues of a radio's networks as the proved library of `crates/downlink_c` keeps them: what waits on its way to
//! the air by tickets, whose turn it is, and what becomes of each. What is unsafe of it is here alone: the calls of
//! that library, which tests their arguments itself, over memory that this keeps. That both lay out alike what they
//! hand over `build.rs` looks at.
#![allow(unsafe_code)]
use std::cell::UnsafeCell;

/// What became of a frame (`Fate` of the crate `downlink`).
#[derive(Debug, Clone, Copy, PartialEq, Eq)]
pub enum Fate {
    Goes,
    GoesAgain,
    Acknowledged,
    WaitsAgain,
    Lost,
    HandedBack,
    Late,
    Crowded,
    Left,
    GivenUp,
}

impl Fate {
    /// In the order of their numbers.
    pub const ALL: [Fate; 10] = {
        use Fate::*;
        [Goes, GoesAgain, Acknowledged, WaitsAgain, Lost, HandedBack, Late, Crowded, Left, GivenUp]
    };

    pub fn is_sending(self) -> bool {
        matches!(self, Fate::Goes | Fate::GoesAgain)
    }
}

/// What a call answers of a frame.
#[derive(Debug, Clone, Copy, PartialEq, Eq)]
pub struct Answer {
    pub network: usize,
    pub receiver: usize,
    pub ticket: u64,
    pub fate: Fate,
}

/// What a station does (`StationChange` of the crate `downlink`).
#[derive(Debug, Clone, Copy, PartialEq, Eq)]
pub enum Change {
    /// It is associated, and awake.
    Joins,
    Leaves,
    /// It says that it dozes.
    Dozes,
    /// All was answered that came before it said so.
    Settles,
    Wakes,
    /// It polls, and is answered until this time.
    Polls {
        until: u64,
    },
}

/// Why the library didn't take a frame.
#[derive(Debug, Clone, Copy, PartialEq, Eq)]
pub enum Refusal {
    NoReceiver,
    NoMemory,
}

/// A radio of the library, by the memory that holds it.
#[repr(C)]
#[derive(Debug)]
struct RadioHandle {
    at: *mut u8,
}

/// What became of a frame, as the library tells it.
#[repr(C)]
#[derive(Debug, Clone, Copy)]
struct FrameTold {
    is_told: bool,
    fate: u8,
    network: usize,
    receiver: usize,
    ticket: u64,
}

#[repr(C)]
struct Taken {
    is_there: bool,
    is_taken: bool,
    told: FrameTold,
}

#[repr(C)]
struct Chosen {
    is_there: bool,
    network: usize,
}

#[repr(C)]
struct Added {
    is_allowed: bool,
    is_added: bool,
}

#[repr(C)]
struct Changed {
    is_known: bool,
    is_there: bool,
}

#[link(name = "downlink_c", kind = "static")]
extern "C" {
    fn downlink_size() -> usize;
    fn downlink_new(radio: *mut RadioHandle);
    fn downlink_free(radio: *mut RadioHandle);
    fn downlink_add(radio: *mut RadioHandle, weight: u8, mosts: *const usize, number: usize) -> Added;
    fn downlink_turn(radio: *mut RadioHandle) -> Chosen;
    fn downlink_comes(
        radio: *mut RadioHandle,
        network: usize,
        receiver: usize,
        ticket: u64,
        is_unit: bool,
        until: u64,
        now: u64,
    ) -> Taken;
    fn downlink_next_of(radio: *mut RadioHandle, network: usize, receiver: usize, now: u64) -> FrameTold;
    fn downlink_ignores_polls(radio: *mut RadioHandle, network: usize, receiver: usize) -> bool;
    fn downlink_used(radio: *mut RadioHandle, network: usize, units: u32) -> bool;
    fn downlink_told(
        radio: *mut RadioHandle,
        network: usize,
        receiver: usize,
        ticket: u64,
        is_acknowledged: bool,
    ) -> FrameTold;
    fn downlink_gives_up(radio: *mut RadioHandle, network: usize, receiver: usize) -> FrameTold;
    fn downlink_returns(radio: *mut RadioHandle, network: usize, receiver: usize) -> FrameTold;
    fn downlink_pauses(radio: *mut RadioHandle, network: usize, is_paused: bool) -> bool;
    fn downlink_change(radio: *mut RadioHandle, network: usize, receiver: usize, change: u8, until: u64) -> Changed;
}

// The way to the C library's memory: the toolchain's own, or ours where it has none (`tools/c_calls`).
#[cfg_attr(target_arch = "x86_64", link(name = "libc_c", kind = "static"))]
#[cfg_attr(target_arch = "aarch64", link(name = "c_calls", kind = "static"))]
extern "C" {}

/// The networks of a radio.
#[derive(Debug)]
pub struct ProvedQueues {
    radio: UnsafeCell<RadioHandle>,
    /// The memory that holds the radio: the library alone reads and writes it.
    _memory: Vec<u64>,
}

impl ProvedQueues {
    /// Networks of these weights, from 1 to 16, with a receiver for each of the numbers of frames that may wait for it.
    /// `None` if the library refuses a weight, or has no memory.
    pub fn new(networks: &[(u8, Vec<usize>)]) -> Option<ProvedQueues> {
        // SAFETY: the call takes nothing.
        let size = unsafe { downlink_size() };
        let mut memory = vec![0_u64; (size + 7) / 8];
        let radio = UnsafeCell::new(RadioHandle { at: memory.as_mut_ptr().cast() });
        let mut queues = ProvedQueues { radio, _memory: memory };
        // SAFETY: the memory is as large as the library says, and stays where it is until it is freed.
        unsafe { downlink_new(queues.radio.get_mut()) };
        let are_added = networks.iter().all(|(weight, mosts)| queues.add(*weight, mosts));
        are_added.then_some(queues)
    }

    fn add(&mut self, weight: u8, mosts: &[usize]) -> bool {
        // SAFETY: the radio is made, and the numbers are as many as is said.
        let added = unsafe { downlink_add(self.radio.get_mut(), weight, mosts.as_ptr(), mosts.len()) };
        added.is_allowed && added.is_added
    }

    /// The network whose turn it is.
    pub fn turn(&self) -> Option<usize> {
        // SAFETY: the radio is made, nobody else reads or writes it now, and the call only reads it.
        let chosen = unsafe { downlink_turn(self.radio.get()) };
        chosen.is_there.then_some(chosen.network)
    }

    /// A frame comes; answers the one that is dropped since too many wait.
    pub fn comes(
        &mut self,
        (network, receiver): (usize, usize),
        ticket: u64,
        is_unit: bool,
        until: u64,
        now: u64,
    ) -> Result<Option<Answer>, Refusal> {
        // SAFETY: the radio is made, and nobody else reads or writes it; so with each call below.
        let taken = unsafe { downlink_comes(self.radio.get_mut(), network, receiver, ticket, is_unit, until, now) };
        match (taken.is_there, taken.is_taken) {
            (_, true) => Ok(answer_of(taken.told)),
            (true, false) => Err(Refusal::NoMemory),
            (false, false) => Err(Refusal::NoReceiver),
        }
    }

    /// If it is this network's turn, that receiver of it has its turn. `None` where no frame goes by that.
    pub fn next_of(&mut self, (network, receiver): (usize, usize), now: u64) -> Option<Answer> {
        answer_of(unsafe { downlink_next_of(self.radio.get_mut(), network, receiver, now) })
    }

    /// Whether polls of a receiver are ignored now; `false` where there is none.
    pub fn ignores_polls(&self, (network, receiver): (usize, usize)) -> bool {
        // SAFETY: the radio is made, nobody else reads or writes it now, and the call only reads it.
        unsafe { downlink_ignores_polls(self.radio.get(), network, receiver) }
    }

    /// A network used so many microseconds of air; `false` where there is none, or its debt would be too large.
    pub fn used(&mut self, network: usize, units: u32) -> bool {
        unsafe { downlink_used(self.radio.get_mut(), network, units) }
    }

    pub fn told(&mut self, (network, receiver): (usize, usize), ticket: u64, is_acknowledged: bool) -> Option<Answer> {
        answer_of(unsafe { downlink_told(self.radio.get_mut(), network, receiver, ticket, is_acknowledged) })
    }

    /// The frame of a receiver that would go next leaves without going.
    pub fn gives_up(&mut self, (network, receiver): (usize, usize)) -> Option<Answer> {
        answer_of(unsafe { downlink_gives_up(self.radio.get_mut(), network, receiver) })
    }

    /// The next frame of a receiver leaves that won't go.
    pub fn returns(&mut self, (network, receiver): (usize, usize)) -> Option<Answer> {
        answer_of(unsafe { downlink_returns(self.radio.get_mut(), network, receiver) })
    }

    /// A network has no turn, or may have one again; `false` where there is none.
    pub fn pauses(&mut self, network: usize, is_paused: bool) -> bool {
        unsafe { downlink_pauses(self.radio.get_mut(), network, is_paused) }
    }

    /// `false` where there is no such receiver.
    pub fn change(&mut self, whose: (usize, usize), change: Change) -> bool {
        let (number, until) = match change {
            Change::Joins => (0, 0),
            Change::Leaves => (1, 0),
            Change::Dozes => (2, 0),
            Change::Settles => (3, 0),
            Change::Wakes => (4, 0),
            Change::Polls { until } => (5, until),
        };
        self.change_by_number(whose, number, until).unwrap_or(false)
    }

    /// `None` where the number is that of no change.
    fn change_by_number(&mut self, (network, receiver): (usize, usize), number: u8, until: u64) -> Option<bool> {
        let changed = unsafe { downlink_change(self.radio.get_mut(), network, receiver, number, until) };
        changed.is_known.then_some(changed.is_there)
    }
}

impl Drop for ProvedQueues {
    fn drop(&mut self) {
        // SAFETY: the radio is made, and is handed to no call from now on.
        unsafe { downlink_free(self.radio.get_mut()) }
    }
}

/// A number that is no fate's is taken for nothing.
fn answer_of(told: FrameTold) -> Option<Answer> {
    let FrameTold { is_told, fate, network, receiver, ticket } = told;
    let fate = Fate::ALL.get(usize::from(fate)).copied().filter(|_| is_told)?;
    Some(Answer { network, receiver, ticket, fate })
}

#[cfg(test)]
extern "C" {
    fn downlink_has_next(radio: *mut RadioHandle) -> bool;
    fn downlink_next(radio: *mut RadioHandle, now: u64) -> FrameTold;
}

/// Calls that the bridge has no use for: by these the library says too which receiver of a network is next.
#[cfg(test)]
impl ProvedQueues {
    pub fn has_next(&mut self) -> bool {
        unsafe { downlink_has_next(self.radio.get_mut()) }
    }

    pub fn next(&mut self, now: u64) -> Option<Answer> {
        answer_of(unsafe { downlink_next(self.radio.get_mut(), now) })
    }
}

#[cfg(test)]
mod tests {
    use super::*;

    #[test]
    fn the_library_refuses_what_it_has_no_rule_for() {
        for weight in [0, 17, u8::MAX] {
            assert!(ProvedQueues::new(&[(1, vec![1]), (weight, vec![1])]).is_none());
        }
        let mut queues = ProvedQueues::new(&[(1, vec![1])]).unwrap();
        assert_eq!(queues.comes((0, 1), 1, true, 0, 0), Err(Refusal::NoReceiver));
        assert_eq!(queues.comes((1, 0), 1, true, 0, 0), Err(Refusal::NoReceiver));
        assert_eq!(queues.change_by_number((0, 0), 5, 0), Some(true));
        assert_eq!(queues.change_by_number((0, 1), 5, 0), Some(false));
        assert_eq!(queues.change_by_number((0, 0), 6, 0), None);
        assert_eq!(queues.change_by_number((0, 0), u8::MAX, 0), None);
        assert_eq!((queues.used(1, 1), queues.pauses(1, true), queues.turn()), (false, false, None));
        assert_eq!((queues.told((1, 0), 1, true), queues.returns((1, 0)), queues.gives_up((1, 0))), (None, None, None));
        assert_eq!((queues.next_of((1, 0), 0), queues.next_of((0, 0), 0)), (None, None));
        assert!(!queues.ignores_polls((0, 1)) && !queues.ignores_polls((1, 0)));
    }

    #[test]
    fn a_debt_never_turns() {
        let mut queues = ProvedQueues::new(&[(1, vec![1]), (1, vec![1])]).unwrap();
        let told = (0..10_000).filter(|_| queues.used(0, u32::MAX)).count() as u64;
        assert_eq!(told, u64::MAX / (720_720 * u64::from(u32::MAX)));
        // What was refused changed nothing: the first still owes more than the second.
        assert!((1..told).all(|_| queues.used(1, u32::MAX)));
        [0, 1].map(|place| assert_eq!(queues.comes((place, 0), 1, false, u64::MAX, 0), Ok(None)));
        assert_eq!(queues.turn(), Some(1));
    }

    #[test]
    fn a_frame_goes_by_its_networks_turn_alone() {
        let mut queues = ProvedQueues::new(&[(1, vec![2, 2]), (1, vec![2])]).unwrap();
        assert_eq!(queues.comes((0, 1), 7, false, u64::MAX, 0), Ok(None));
        assert_eq!(queues.comes((1, 0), 8, false, u64::MAX, 0), Ok(None));
        assert_eq!((queues.turn(), queues.next_of((1, 0), 0)), (Some(0), None));
        assert!(queues.pauses(0, true));
        assert_eq!((queues.turn(), queues.next_of((0, 1), 0)), (Some(1), None));
        assert!(queues.pauses(0, false));
        let sent = Answer { network: 0, receiver: 1, ticket: 7, fate: Fate::Goes };
        assert_eq!(queues.next_of((0, 1), 0), Some(sent));
        assert_eq!(queues.gives_up((1, 0)), Some(Answer { network: 1, receiver: 0, ticket: 8, fate: Fate::GivenUp }));
        assert_eq!(queues.turn(), None);
    }
}
