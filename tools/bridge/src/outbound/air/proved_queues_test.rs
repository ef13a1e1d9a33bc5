//! The model of the queues beside the proved library, by the same calls: both answer the same.
use super::{Model, CALLS, CALLS_OF_A_RUN};
use crate::outbound::air::proved_queues::{Answer, Change, Fate, ProvedQueues, Refusal};
use crate::testing::samples::Seeded;

/// Both: each call goes to each, and they have to answer the same.
#[derive(Debug)]
pub struct Beside {
    model: Model,
    proved: ProvedQueues,
}

/// What both answer.
macro_rules! both {
    ($beside:ident.$call:ident($($word:expr),*)) => {{
        let (of_model, of_proved) = ($beside.model.$call($($word),*), $beside.proved.$call($($word),*));
        assert_eq!(of_model, of_proved);
        of_model
    }};
}

impl Beside {
    pub fn new(networks: &[(u8, Vec<usize>)]) -> Beside {
        Beside { model: Model::new(networks), proved: ProvedQueues::new(networks).unwrap() }
    }

    pub fn has_next(&mut self) -> bool {
        both!(self.has_next())
    }

    pub fn comes(
        &mut self,
        whose: (usize, usize),
        ticket: u64,
        is_unit: bool,
        until: u64,
        now: u64,
    ) -> Result<Option<Answer>, Refusal> {
        both!(self.comes(whose, ticket, is_unit, until, now))
    }

    pub fn next(&mut self, now: u64) -> Option<Answer> {
        both!(self.next(now))
    }

    pub fn turn(&self) -> Option<usize> {
        both!(self.turn())
    }

    pub fn next_of(&mut self, whose: (usize, usize), now: u64) -> Option<Answer> {
        both!(self.next_of(whose, now))
    }

    pub fn gives_up(&mut self, whose: (usize, usize)) -> Option<Answer> {
        both!(self.gives_up(whose))
    }

    pub fn pauses(&mut self, place: usize, is_paused: bool) -> bool {
        both!(self.pauses(place, is_paused))
    }

    pub fn used(&mut self, place: usize, units: u32) -> bool {
        both!(self.used(place, units))
    }

    pub fn told(&mut self, whose: (usize, usize), ticket: u64, is_acknowledged: bool) -> Option<Answer> {
        both!(self.told(whose, ticket, is_acknowledged))
    }

    pub fn returns(&mut self, whose: (usize, usize)) -> Option<Answer> {
        both!(self.returns(whose))
    }

    pub fn ignores_polls(&self, whose: (usize, usize)) -> bool {
        both!(self.ignores_polls(whose))
    }

    pub fn change(&mut self, whose: (usize, usize), change: Change) -> bool {
        both!(self.change(whose, change))
    }
}

/// Seeded calls of some networks of a few receivers each, for which few frames may wait.
struct Run {
    beside: Beside,
    seeded: Seeded,
    networks: Vec<(u8, Vec<usize>)>,
    now: u64,
    /// The receiver that most calls are of, for a while.
    whose: (usize, usize),
    /// What went, with nothing told of it yet.
    out: Vec<Answer>,
    fates: [u64; Fate::ALL.len()],
    /// After how many calls polls of the receiver that most are of were ignored.
    ignored: usize,
}

impl Run {
    fn new(seed: u64) -> Run {
        let mut seeded = Seeded(seed);
        let mosts = |seeded: &mut Seeded| (0..seeded.below(5)).map(|_| seeded.below(8)).collect();
        let number = [1, 2, 4, 16][seeded.below(4)];
        let networks: Vec<_> = (0..number).map(|_| (1 + seeded.below(16) as u8, mosts(&mut seeded))).collect();
        let (beside, fates) = (Beside::new(&networks), [0; Fate::ALL.len()]);
        Run { beside, seeded, networks, now: 0, whose: (0, 0), out: Vec::new(), fates, ignored: 0 }
    }

    /// A receiver, which sometimes isn't there.
    fn some_receiver(&mut self) -> (usize, usize) {
        let (network, receiver) = (self.seeded.below(self.networks.len()), self.seeded.below(5));
        match self.seeded.below(200) {
            0 => (usize::MAX, receiver),
            1 => (self.networks.len(), receiver),
            2 => (network, usize::MAX),
            3..=40 => (network, receiver),
            _ => self.whose,
        }
    }

    fn some_change(&mut self) -> Change {
        match self.seeded.below(9) {
            0 => Change::Joins,
            1 => Change::Leaves,
            2..=3 => Change::Dozes,
            4..=5 => Change::Settles,
            6 => Change::Wakes,
            _ => Change::Polls { until: self.now + self.seeded.below(16) as u64 },
        }
    }

    /// What was answered is counted, and what went is told of later.
    fn count(&mut self, answer: Option<Answer>) {
        if let Some(answer) = answer {
            self.fates[answer.fate as usize] += 1;
            if answer.fate.is_sending() {
                self.out.push(answer);
            }
        }
    }

    /// A frame comes, mostly with a time after which it is worth nothing that is soon.
    fn come(&mut self, whose: (usize, usize)) {
        let (is_unit, until) = (self.seeded.below(6) > 0, (self.now + 40).saturating_sub(self.seeded.below(50) as u64));
        let dropped = self.beside.comes(whose, self.now, is_unit, until, self.now);
        self.count(dropped.ok().flatten());
    }

    /// It is told what became of one that went, or of one that may not be out.
    fn tell(&mut self, whose: (usize, usize)) {
        let (is_acknowledged, place) = (self.seeded.below(3) == 0, self.seeded.below(self.out.len()));
        let told = if self.out.is_empty() || self.seeded.below(16) == 0 {
            self.beside.told(whose, self.now / 2, is_acknowledged)
        } else {
            let Answer { network, receiver, ticket, .. } = self.out.remove(place);
            self.beside.told((network, receiver), ticket, is_acknowledged)
        };
        self.count(told);
    }

    fn call(&mut self) {
        self.now += self.seeded.below(3) as u64 / 2;
        if self.seeded.below(50) == 0 {
            self.whose = (self.seeded.below(self.networks.len()), self.seeded.below(5));
        }
        let whose = self.some_receiver();
        match self.seeded.below(24) {
            0..=5 => self.come(whose),
            6..=9 => {
                let next = self.beside.next(self.now);
                self.count(next);
            }
            20..=21 => {
                let turn = self.beside.turn().filter(|_| self.seeded.below(4) > 0);
                let next = self.beside.next_of((turn.unwrap_or(whose.0), whose.1), self.now);
                self.count(next);
            }
            22 => {
                let given_up = self.beside.gives_up(whose);
                self.count(given_up);
            }
            23 => {
                let is_paused = self.seeded.below(3) == 0;
                self.beside.pauses(whose.0, is_paused);
            }
            10..=13 => self.tell(whose),
            14 => {
                let returned = self.beside.returns(whose);
                self.count(returned);
            }
            15..=18 => {
                let change = self.some_change();
                self.beside.change(whose, change);
            }
            _ => {
                let units = if self.seeded.below(50) == 0 { u32::MAX } else { self.seeded.below(5000) as u32 };
                self.beside.used(whose.0, units);
            }
        }
        self.beside.has_next();
        self.ignored += usize::from(self.beside.ignores_polls(whose));
    }
}

/// Any calls: both decide the same.
#[test]
fn the_library_decides_as_its_model_does() {
    let (mut fates, mut ignored) = ([0; Fate::ALL.len()], 0);
    for seed in 0..CALLS / CALLS_OF_A_RUN {
        let mut run = Run::new(seed as u64);
        (0..CALLS_OF_A_RUN).for_each(|_| run.call());
        (0..fates.len()).for_each(|fate| fates[fate] += run.fates[fate]);
        ignored += run.ignored;
    }
    assert!(ignored > CALLS / 100 && ignored < CALLS / 100 * 99, "{ignored}");
    for fate in Fate::ALL {
        assert!(fates[fate as usize] > CALLS as u64 / 2000, "{fate:?} {fates:?}");
    }
}
