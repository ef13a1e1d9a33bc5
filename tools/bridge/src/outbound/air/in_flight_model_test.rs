//! A slow model of what is in flight, written from the sentences of `in_flight`. Totals are summed anew for each
//! answer, and the pace is reckoned from all outcomes.
use super::*;
use crate::testing::samples::{at, Seeded, OTHER, STATION, STRANGER};

const RECEIVERS: [Address; 3] = [STATION, OTHER, STRANGER];
const CALLS: usize = if cfg!(debug_assertions) { 100_000 } else { 1_000_000 };
const CALLS_OF_A_RUN: usize = 400;

/// A frame by its mark.
impl Sending for u32 {
    fn longest(&self) -> Duration {
        self % 7 * MILLISECOND
    }
}

#[derive(Debug, Clone)]
struct ModelFrame {
    name: FrameName,
    mark: u32,
    reckoned: Duration,
    given: Instant,
    overdue: Instant,
    awaited: Instant,
    state: State,
}

impl ModelFrame {
    fn receiver(&self) -> (Place, Address) {
        (self.name.place, self.name.receiver)
    }
}

#[derive(Default)]
struct Model {
    frames: Vec<ModelFrame>,
    /// Of each outcome the clock's time and the reckoned time.
    outcomes: Vec<(Duration, Duration)>,
    done: Instant,
    last_outcome: Instant,
}

impl Model {
    /// Rule 1.
    fn pace(&self) -> u64 {
        let (mut clock, mut reckoned) = (8 * MILLISECOND, 8 * MILLISECOND);
        for outcome in &self.outcomes {
            clock = clock - clock / 8 + outcome.0;
            reckoned = reckoned - reckoned / 8 + outcome.1;
        }
        (nanos(clock) * 1024 / nanos(reckoned).max(1)).max(1024 / 4)
    }

    fn by_clock(&self, reckoned: Duration) -> Duration {
        Duration::from_nanos(nanos(reckoned) / 1024 * self.pace())
    }

    fn takes(&self, reckoned: Duration) -> Duration {
        self.by_clock(reckoned).max(reckoned)
    }

    fn reckoned(&self) -> Duration {
        self.frames.iter().map(|frame| frame.reckoned).sum()
    }

    fn oldest(&self) -> Option<&ModelFrame> {
        self.frames.iter().find(|frame| frame.state != State::Left)
    }

    /// Rules 2 and 7.
    fn has_room(&self, reckoned: Duration, now: Instant) -> bool {
        let is_overtaken = |frame: &ModelFrame| frame.overdue < now && frame.given + 16 * MILLISECOND < now;
        let fits = self.by_clock(self.reckoned() + reckoned) <= 8 * MILLISECOND;
        self.oldest().map_or(true, |oldest| !is_overtaken(oldest) && fits)
    }

    /// Rules 3 and 4.
    fn give(&mut self, name: FrameName, mark: u32, reckoned: Duration, now: Instant) {
        let behind_those_before = self.done.max(now) + self.takes(reckoned);
        self.done = behind_those_before.min(now + self.takes(self.reckoned() + reckoned));
        let overdue = now + 2 * self.done.since(now);
        let state = State::Out;
        self.frames.push(ModelFrame { name, mark, reckoned, given: now, overdue, awaited: overdue, state });
    }

    /// Rules 1, 5, 6 and 9.
    fn reported(&mut self, name: FrameName, now: Instant, took: Duration) -> Option<u32> {
        let found = self.frames.iter().position(|frame| frame.name == name)?;
        let told = self.frames.remove(found);
        if told.overdue < now {
            for place in found..self.frames.len() {
                let up_to_it = self.frames[found..=place].iter().map(|frame| frame.reckoned).sum();
                let anew = now + 2 * self.takes(up_to_it);
                let frame = &mut self.frames[place];
                if frame.receiver() != told.receiver() {
                    frame.overdue = frame.overdue.max(anew);
                    frame.awaited = frame.awaited.max(frame.overdue);
                }
            }
            let behind_it = self.frames[found..].iter().map(|frame| frame.reckoned).sum();
            self.done = self.done.max(now + self.takes(behind_it));
        }
        let longer = 2 * self.takes(took);
        let before = self.frames[..found].iter_mut().filter(|frame| frame.receiver() != told.receiver());
        before.for_each(|frame| frame.awaited += longer);
        let began = told.given.max(self.last_outcome);
        self.outcomes.push((now.since(began).min(100 * MILLISECOND), took));
        self.last_outcome = self.last_outcome.max(now);
        Some(told.mark)
    }

    /// Rule 8.
    fn settle(&mut self) {
        self.done = Instant::START;
        for frame in &mut self.frames {
            frame.reckoned = Duration::ZERO;
            frame.state = if frame.state == State::Out { State::Left } else { frame.state };
        }
    }

    fn reports_read(&mut self) {
        for frame in &mut self.frames {
            frame.state = if frame.state == State::Left { State::Missing { empty_looks: 0 } } else { frame.state };
        }
    }

    /// Rule 9.
    fn give_up_missing(&mut self) {
        for frame in &mut self.frames {
            if let State::Missing { empty_looks } = &mut frame.state {
                *empty_looks += 1;
            }
        }
        self.frames.retain(|frame| frame.state != State::Missing { empty_looks: 16 });
    }

    fn forget(&mut self, name: FrameName) {
        if let Some(last) = self.frames.iter().rposition(|frame| frame.name == name) {
            self.frames.remove(last);
        }
    }

    /// Rule 9.
    fn expire(&mut self, now: Instant) -> Vec<FrameName> {
        let (gone, left) = self.frames.drain(..).partition(|frame| frame.given + 200 * MILLISECOND <= now);
        self.frames = left;
        gone.into_iter().map(|frame: ModelFrame| frame.name).collect()
    }

    fn clear(&mut self) -> Vec<FrameName> {
        self.done = Instant::START;
        self.frames.drain(..).map(|frame| frame.name).collect()
    }

    fn is_overdue(&self, receiver: (Place, Address), now: Instant) -> bool {
        self.oldest().map_or(false, |frame| frame.receiver() == receiver && frame.awaited < now)
    }

    fn is_unknown(&self, receiver: (Place, Address)) -> bool {
        self.frames.iter().any(|frame| frame.receiver() == receiver && frame.state == State::Left)
    }

    fn agree(&self, in_flight: &InFlight<u32>, now: Instant) {
        for reckoned in [Duration::ZERO, MILLISECOND, 30 * MILLISECOND] {
            assert_eq!(in_flight.has_room(reckoned, now), self.has_room(reckoned, now));
        }
        for place in [0, 1] {
            let of_place = self.frames.iter().filter(|frame| frame.name.place == place);
            let reckoned = of_place.map(|frame| frame.reckoned).sum::<Duration>();
            assert_eq!(in_flight.is_busy(place), reckoned > 2 * MILLISECOND);
        }
        for (place, receiver) in [0, 1].into_iter().flat_map(|place| RECEIVERS.map(|receiver| (place, receiver))) {
            assert_eq!(in_flight.is_overdue(place, receiver, now), self.is_overdue((place, receiver), now));
            assert_eq!(in_flight.is_unknown(place, receiver), self.is_unknown((place, receiver)));
            let has = self.frames.iter().any(|frame| frame.receiver() == (place, receiver));
            assert_eq!(in_flight.has(place, receiver), has);
        }
        for place in [0, 1] {
            let is_awaited = |frame: &ModelFrame| match frame.state {
                State::Missing { empty_looks } => empty_looks < 2,
                State::Out | State::Left => true,
            };
            let has_any = self.frames.iter().any(|frame| frame.name.place == place && is_awaited(frame));
            assert_eq!(in_flight.has_any(place), has_any);
            let of_place = self.frames.iter().filter(|frame| frame.name.place == place);
            let mut takes = Duration::ZERO;
            for frame in of_place {
                takes += match frame.state {
                    State::Out => frame.mark.longest(),
                    State::Left => frame.mark.longest().min(now.since(frame.given)),
                    State::Missing { .. } => Duration::ZERO,
                };
            }
            assert_eq!(in_flight.longest_of(place, now), takes);
        }
        let any_missing = self.frames.iter().any(|frame| matches!(frame.state, State::Missing { .. }));
        assert_eq!(in_flight.any_missing(), any_missing);
        assert_eq!(in_flight.any_unknown(), self.frames.iter().any(|frame| frame.state == State::Left));
        let is_doubtful = self.oldest().map_or(false, |frame| frame.state == State::Out && frame.overdue < now);
        assert_eq!(in_flight.is_doubtful(now), is_doubtful);
        assert_eq!(in_flight.overdue(), self.oldest().map(|frame| frame.overdue));
        assert_eq!(in_flight.due(), self.frames.iter().map(|frame| frame.given + 200 * MILLISECOND).min());
        assert_eq!(in_flight.len(), self.frames.len());
    }
}

fn any_name(seeded: &mut Seeded) -> FrameName {
    let number = [None, Some(1), Some(2), Some(3), Some(4), Some(5)][seeded.below(6)];
    FrameName { place: seeded.below(2), receiver: RECEIVERS[seeded.below(3)], number }
}

/// Often the name of a frame that the radio has.
fn name(seeded: &mut Seeded, model: &Model) -> FrameName {
    match seeded.below(model.frames.len() + 1) {
        0 => any_name(seeded),
        place => model.frames[place - 1].name,
    }
}

/// A seeded call of both; answers whether the radio told of a frame that it had.
fn call(seeded: &mut Seeded, in_flight: &mut InFlight<u32>, model: &mut Model, (mark, now): (u32, Instant)) -> bool {
    match seeded.below(40) {
        0..=15 => {
            let most = [5_000, 2_000_000, 40_000_000][seeded.below(3)];
            let (name, reckoned) = (any_name(seeded), Duration::from_nanos(seeded.below(most) as u64));
            in_flight.give(name, mark, reckoned, now);
            model.give(name, mark, reckoned, now);
        }
        16..=31 => {
            let (name, took) = (name(seeded, model), Duration::from_nanos(50_000 + seeded.below(20_000_000) as u64));
            let told = now - Duration::from_nanos(seeded.below(1_000_000) as u64);
            let found = model.reported(name, told, took);
            assert_eq!(in_flight.reported(name, told, |_| took), found);
            return found.is_some();
        }
        32..=33 => {
            let name = name(seeded, model);
            in_flight.forget(name);
            model.forget(name);
        }
        34..=35 => {
            in_flight.settle();
            model.settle();
            // A run of looks.
            for _ in 0..seeded.below(20) {
                in_flight.give_up_missing();
                model.give_up_missing();
            }
        }
        36..=37 => {
            in_flight.reports_read();
            model.reports_read();
        }
        38 => assert_eq!(names(in_flight.expire(now)), model.expire(now)),
        _ if seeded.below(8) == 0 => assert_eq!(names(in_flight.clear()), model.clear()),
        _ => {}
    }
    false
}

fn names(gone: Vec<(FrameName, u32)>) -> Vec<FrameName> {
    gone.into_iter().map(|(name, _)| name).collect()
}

/// Any calls have the answers of the sentences.
#[test]
fn any_calls_are_answered_by_the_rules() {
    let (mut seeded, mut told) = (Seeded(17), 0);
    for _ in 0..CALLS / CALLS_OF_A_RUN {
        let (mut model, mut now) = (Model::default(), at(10 * MILLISECOND));
        let mut in_flight = InFlight::new();
        let step = [100_000, 1_000_000, 20_000_000][seeded.below(3)];
        for mark in 0..CALLS_OF_A_RUN as u32 {
            now += Duration::from_nanos(seeded.below(step) as u64);
            told += usize::from(call(&mut seeded, &mut in_flight, &mut model, (mark, now)));
            model.agree(&in_flight, now);
        }
    }
    assert!(told > CALLS / 5, "{told}");
}
