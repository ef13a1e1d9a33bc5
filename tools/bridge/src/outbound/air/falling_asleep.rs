//! A station that falls asleep, until it is known which of its units go back to the program.
use crate::os::clock::{Duration, Instant};
use crate::outbound::air::sleeping::Octets;

/// How long one waits for what becomes of a unit that the radio has, since the last one was told of, and in all.
pub const TO_OUTCOME: Duration = Duration::from_millis(30);
pub const TO_ALL_OUTCOMES: Duration = Duration::from_millis(100);

/// A unit that the radio has for a station that falls asleep.
#[derive(Debug)]
struct WithRadio {
    number: Option<u16>,
    octets: Octets,
    outcome: Option<Acknowledged>,
}

#[derive(Debug, Clone, Copy, PartialEq, Eq)]
enum Acknowledged {
    Yes,
    No,
}

/// What is known of a station that falls asleep.
#[derive(Debug)]
pub struct Falling {
    /// Whether the mark is answered.
    is_answered: bool,
    with_radio: Vec<WithRadio>,
    /// When outcomes are waited for no more.
    until: Instant,
    /// And at the latest.
    latest: Instant,
    waiting: Vec<Octets>,
}

impl Falling {
    /// It falls asleep now. The radio has these units for it.
    pub fn new(with_radio: impl Iterator<Item = (Option<u16>, Octets)>, now: Instant) -> Falling {
        let with_radio = with_radio.map(|(number, octets)| WithRadio { number, octets, outcome: None }).collect();
        let (until, latest) = (now + TO_OUTCOME, now + TO_ALL_OUTCOMES);
        Falling { is_answered: false, with_radio, until, latest, waiting: Vec::new() }
    }

    /// Whether it is known what goes back.
    pub fn is_over(&self, now: Instant) -> bool {
        self.is_answered && (self.until <= now || self.with_radio.iter().all(|unit| unit.outcome.is_some()))
    }

    /// When nothing is waited for any more, if that is known.
    pub fn due(&self) -> Option<Instant> {
        self.is_answered.then_some(self.until)
    }

    pub fn take_answer(&mut self) {
        self.is_answered = true;
    }

    /// The radio told of a unit; answers whether one waited for that.
    pub fn take_outcome(&mut self, number: Option<u16>, is_acknowledged: bool, now: Instant) -> bool {
        let mut awaited = self.with_radio.iter_mut().filter(|unit| unit.number == number && unit.outcome.is_none());
        match awaited.next() {
            Some(unit) => unit.outcome = Some(if is_acknowledged { Acknowledged::Yes } else { Acknowledged::No }),
            None => return false,
        }
        self.until = (now + TO_OUTCOME).min(self.latest);
        true
    }

    /// A unit waited or came, and goes back behind the others.
    pub fn push(&mut self, octets: Octets) {
        self.waiting.push(octets);
    }

    /// Takes out what is known to go back, in its order: those that nobody acknowledged, those that waited and came.
    pub fn take_units(&mut self) -> Vec<Octets> {
        let is_lost = |unit: &WithRadio| unit.outcome == Some(Acknowledged::No);
        let (lost, others) = std::mem::take(&mut self.with_radio).into_iter().partition::<Vec<_>, _>(is_lost);
        self.with_radio = others;
        lost.into_iter().map(|unit| unit.octets).chain(std::mem::take(&mut self.waiting)).collect()
    }

    /// How many octets the units have that may go back.
    pub fn octets(&self) -> usize {
        let with_radio = self.with_radio.iter().map(|unit| unit.octets.len());
        with_radio.chain(self.waiting.iter().map(|octets| octets.len())).sum()
    }
}
