//! The queues of a radio as the crate `downlink` defines them, written again in Rust.
use crate::outbound::air::proved_queues::{Answer, Change, Fate, Refusal};

/// The least common multiple of the weights 1 to 16.
const COMMON_MULTIPLE: u32 = 720_720;

#[derive(Debug, Clone, Copy, PartialEq, Eq)]
enum Way {
    InTurn,
    AnswersPoll,
    GoesBack,
    IsDropped,
}

#[derive(Debug, Clone, Copy, PartialEq, Eq)]
struct Waiting {
    ticket: u64,
    is_unit: bool,
    until: u64,
    way: Way,
}

impl Waiting {
    fn goes(&self) -> bool {
        matches!(self.way, Way::InTurn | Way::AnswersPoll)
    }
}

#[derive(Debug, Clone, Copy, PartialEq, Eq)]
enum Mode {
    Absent,
    Awake,
    FallsAsleep,
    Dozing,
}

/// What waits for one receiver, and what went to it with nothing told of it yet.
#[derive(Debug)]
struct ReceiverModel {
    most: usize,
    mode: Mode,
    right: Option<u64>,
    waiting: Vec<Waiting>,
    again: Option<Waiting>,
    /// Each with whether it went for the second time.
    out: Vec<(Waiting, bool)>,
    last: Option<u64>,
}

impl ReceiverModel {
    fn new(most: usize) -> ReceiverModel {
        let (waiting, out) = (Vec::new(), Vec::new());
        ReceiverModel { most, mode: Mode::Absent, right: None, waiting, again: None, out, last: None }
    }

    fn is_asleep(&self) -> bool {
        matches!(self.mode, Mode::FallsAsleep | Mode::Dozing)
    }

    fn comes(&mut self, ticket: u64, is_unit: bool, until: u64, now: u64) -> Option<(u64, Fate)> {
        let may_answer = self.right.map_or(false, |right| now <= right);
        let way = match self.mode {
            _ if !is_unit => Way::InTurn,
            Mode::Absent => Way::IsDropped,
            Mode::Awake => Way::InTurn,
            Mode::Dozing if may_answer => Way::AnswersPoll,
            Mode::FallsAsleep | Mode::Dozing => Way::GoesBack,
        };
        if way == Way::AnswersPoll {
            self.right = None;
        }
        self.waiting.push(Waiting { ticket, is_unit, until, way });
        (self.waiting.len() > self.most).then(|| (self.waiting.remove(0).ticket, Fate::Crowded))
    }

    /// The next one that goes, or that leaves without going, and whether it is the one that waits to go once more.
    fn next(&self, goes: bool) -> Option<(Waiting, bool)> {
        let again = self.again.filter(|frame| frame.goes() == goes).map(|frame| (frame, true));
        again.or_else(|| self.waiting.iter().find(|frame| frame.goes() == goes).map(|frame| (*frame, false)))
    }

    fn remove(&mut self, goes: bool) {
        if self.again.map_or(false, |frame| frame.goes() == goes) {
            self.again = None;
        } else if let Some(place) = self.waiting.iter().position(|frame| frame.goes() == goes) {
            self.waiting.remove(place);
        }
    }

    fn unsent(&self, fate: Fate, frame: Waiting) -> Fate {
        if frame.is_unit && self.is_asleep() {
            Fate::HandedBack
        } else {
            fate
        }
    }

    fn turn(&mut self, now: u64) -> Option<(u64, Fate)> {
        let (frame, is_again) = self.next(true)?;
        self.remove(true);
        if frame.until < now {
            return Some((frame.ticket, self.unsent(Fate::Late, frame)));
        }
        self.out.push((frame, is_again));
        self.last = Some(frame.ticket);
        Some((frame.ticket, if is_again { Fate::GoesAgain } else { Fate::Goes }))
    }

    fn told(&mut self, ticket: u64, is_acknowledged: bool) -> Option<(u64, Fate)> {
        let place = self.out.iter().position(|(frame, _)| frame.ticket == ticket)?;
        let (frame, is_again) = self.out.remove(place);
        if is_acknowledged {
            return Some((ticket, Fate::Acknowledged));
        }
        if frame.is_unit && !is_again && self.again.is_none() && self.last == Some(ticket) {
            (self.again, self.last) = (Some(frame), None);
            return Some((ticket, Fate::WaitsAgain));
        }
        Some((ticket, self.unsent(Fate::Lost, frame)))
    }

    fn gives_up(&mut self) -> Option<(u64, Fate)> {
        let (frame, _) = self.next(true)?;
        self.remove(true);
        Some((frame.ticket, self.unsent(Fate::GivenUp, frame)))
    }

    fn returns(&mut self) -> Option<(u64, Fate)> {
        let (frame, _) = self.next(false)?;
        self.remove(false);
        Some((frame.ticket, if frame.way == Way::GoesBack { Fate::HandedBack } else { Fate::Left }))
    }

    /// Whether the answer to an earlier poll hasn't succeeded yet, nor failed.
    fn ignores_polls(&self) -> bool {
        let waits = self.waiting.iter().any(|frame| frame.way == Way::AnswersPoll);
        waits || self.again.is_some() || self.out.iter().any(|(frame, _)| frame.is_unit)
    }

    /// The station is so from now on, and its units take this way.
    fn set(&mut self, mode: Mode, way: Way) {
        (self.mode, self.right, self.last) = (mode, None, None);
        self.waiting.iter_mut().chain(&mut self.again).filter(|frame| frame.is_unit).for_each(|frame| frame.way = way);
    }

    fn change(&mut self, change: Change) {
        match (change, self.mode) {
            (Change::Joins, _) => (self.mode, self.right) = (Mode::Awake, None),
            (Change::Leaves, _) => self.set(Mode::Absent, Way::IsDropped),
            (Change::Dozes, Mode::Awake | Mode::FallsAsleep | Mode::Dozing) => {
                self.set(Mode::FallsAsleep, Way::GoesBack);
            }
            (Change::Settles, Mode::FallsAsleep) => self.mode = Mode::Dozing,
            (Change::Wakes, Mode::FallsAsleep | Mode::Dozing) => (self.mode, self.right) = (Mode::Awake, None),
            (Change::Polls { until }, Mode::Dozing) if !self.ignores_polls() => self.right = Some(until),
            (Change::Dozes | Change::Settles | Change::Wakes | Change::Polls { .. }, _) => {}
        }
    }
}

/// The receivers of a network, and what it owes.
#[derive(Debug)]
struct NetworkModel {
    receivers: Vec<ReceiverModel>,
    /// From which place on the next turn is looked for.
    from: usize,
    /// Whether it has no turn.
    is_paused: bool,
    scale: u32,
    debt: u64,
}

impl NetworkModel {
    fn may_go(&self, place: usize) -> bool {
        self.receivers[place].next(true).is_some()
    }

    /// The receiver whose turn it is.
    fn turn(&self) -> Option<usize> {
        let places = self.receivers.len();
        (self.from..places).chain(0..places).find(|place| !self.is_paused && self.may_go(*place))
    }
}

/// The networks of a radio.
#[derive(Debug, Default)]
pub struct Model {
    networks: Vec<NetworkModel>,
}

impl Model {
    /// Networks of these weights, with a receiver for each of the numbers of frames that may wait for it.
    pub fn new(networks: &[(u8, Vec<usize>)]) -> Model {
        let network = |(weight, mosts): &(u8, Vec<usize>)| NetworkModel {
            receivers: mosts.iter().map(|most| ReceiverModel::new(*most)).collect(),
            from: 0,
            is_paused: false,
            scale: COMMON_MULTIPLE / u32::from(*weight),
            debt: 0,
        };
        Model { networks: networks.iter().map(network).collect() }
    }

    /// Whose turn it is.
    pub fn turn(&self) -> Option<usize> {
        let waits = |place: &usize| self.networks[*place].turn().is_some();
        (0..self.networks.len()).filter(waits).min_by_key(|place| self.networks[*place].debt)
    }

    pub fn has_next(&mut self) -> bool {
        self.turn().is_some()
    }

    pub fn comes(
        &mut self,
        (network, receiver): (usize, usize),
        ticket: u64,
        is_unit: bool,
        until: u64,
        now: u64,
    ) -> Result<Option<Answer>, Refusal> {
        let queue = self.receiver(network, receiver).ok_or(Refusal::NoReceiver)?;
        Ok(queue.comes(ticket, is_unit, until, now).map(|(ticket, fate)| Answer { network, receiver, ticket, fate }))
    }

    pub fn next(&mut self, now: u64) -> Option<Answer> {
        let place = self.turn()?;
        let receiver = self.networks[place].turn()?;
        let answer = self.next_of((place, receiver), now)?;
        if answer.fate.is_sending() {
            self.networks[place].from = receiver + 1;
        }
        Some(answer)
    }

    /// If it is this network's turn, that receiver of it has its turn.
    pub fn next_of(&mut self, (network, receiver): (usize, usize), now: u64) -> Option<Answer> {
        self.turn().filter(|turn| *turn == network)?;
        let (ticket, fate) = self.receiver(network, receiver)?.turn(now)?;
        if fate.is_sending() {
            let debt = self.networks[network].debt;
            self.networks.iter_mut().for_each(|network| network.debt = network.debt.saturating_sub(debt));
        }
        Some(Answer { network, receiver, ticket, fate })
    }

    /// `false` where there is no such network.
    pub fn pauses(&mut self, network: usize, is_paused: bool) -> bool {
        self.networks.get_mut(network).map(|network| network.is_paused = is_paused).is_some()
    }

    /// A network used so many time units of air; `false` where there is none, or its debt would be too large.
    pub fn used(&mut self, place: usize, units: u32) -> bool {
        let network = self.networks.get_mut(place);
        let more = |network: &NetworkModel| u64::from(network.scale) * u64::from(units);
        let debt = network.as_ref().and_then(|network| network.debt.checked_add(more(network)));
        debt.into_iter().zip(network).map(|(debt, network)| network.debt = debt).next().is_some()
    }

    pub fn told(&mut self, (network, receiver): (usize, usize), ticket: u64, is_acknowledged: bool) -> Option<Answer> {
        let (ticket, fate) = self.receiver(network, receiver)?.told(ticket, is_acknowledged)?;
        Some(Answer { network, receiver, ticket, fate })
    }

    pub fn gives_up(&mut self, (network, receiver): (usize, usize)) -> Option<Answer> {
        let (ticket, fate) = self.receiver(network, receiver)?.gives_up()?;
        Some(Answer { network, receiver, ticket, fate })
    }

    pub fn returns(&mut self, (network, receiver): (usize, usize)) -> Option<Answer> {
        let (ticket, fate) = self.receiver(network, receiver)?.returns()?;
        Some(Answer { network, receiver, ticket, fate })
    }

    /// `false` where there is no such receiver.
    pub fn ignores_polls(&self, (network, receiver): (usize, usize)) -> bool {
        let queue = self.networks.get(network).and_then(|network| network.receivers.get(receiver));
        queue.map_or(false, ReceiverModel::ignores_polls)
    }

    /// `false` where there is no such receiver.
    pub fn change(&mut self, (network, receiver): (usize, usize), change: Change) -> bool {
        self.receiver(network, receiver).map(|queue| queue.change(change)).is_some()
    }

    fn receiver(&mut self, network: usize, receiver: usize) -> Option<&mut ReceiverModel> {
        self.networks.get_mut(network)?.receivers.get_mut(receiver)
    }
}
