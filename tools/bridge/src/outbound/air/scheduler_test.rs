use super::*;
use crate::outbound::air::proved_queues::ProvedQueues;
use crate::testing::samples::Seeded;

/// The receivers' turns with those of networks, by the proved queues, in which each network has one receiver here.
struct Shared<R, T> {
    scheduler: Scheduler<R, T>,
    queues: ProvedQueues,
    ticket: u64,
}

impl<R: Copy + Ord + Hash, T> Shared<R, T> {
    fn new(weights: impl IntoIterator<Item = u8>) -> Shared<R, T> {
        let weights: Vec<u8> = weights.into_iter().collect();
        let networks: Vec<_> = weights.iter().map(|weight| (*weight, vec![usize::MAX])).collect();
        let queues = ProvedQueues::new(&networks).unwrap();
        Shared { scheduler: Scheduler::new(weights.len()), queues, ticket: 0 }
    }

    /// The queues learn whether a network is passed over.
    fn tell(&mut self, place: Place) {
        self.queues.pauses(place, self.scheduler.is_passed_over(place));
    }

    /// A frame came.
    fn came(&mut self, place: Place) {
        self.ticket += 1;
        assert_eq!(self.queues.comes((place, 0), self.ticket, false, u64::MAX, 0), Ok(None));
    }

    fn push(&mut self, place: Place, receiver: R, frame: T) {
        self.came(place);
        self.scheduler.push(place, receiver, frame);
        self.tell(place);
    }

    fn push_first(&mut self, place: Place, receiver: R, frame: T) {
        self.came(place);
        self.scheduler.push_first(place, receiver, frame);
        self.tell(place);
    }

    fn turn(&self) -> Option<Place> {
        self.queues.turn()
    }

    fn first(&self) -> Option<(Place, R, &T)> {
        let place = self.turn()?;
        let (receiver, frame) = self.scheduler.first(place)?;
        Some((place, receiver, frame))
    }

    fn held(&self) -> Option<Place> {
        self.turn().filter(|place| !self.scheduler.has_ready(*place))
    }

    fn has_ready(&self) -> bool {
        self.turn().map_or(false, |place| self.scheduler.has_ready(place))
    }

    fn pass_over(&mut self, place: Place) {
        self.scheduler.pass_over(place);
        self.tell(place);
    }

    /// The frame of a network that goes next goes; `None` if it isn't its turn.
    fn serve(&mut self, place: Place, cost: u32) -> Option<T> {
        let (receiver, _) = self.scheduler.networks.get(place)?.first()?;
        let sent = self.queues.next_of((place, 0), 0);
        self.queues.told((place, 0), sent?.ticket, true);
        self.queues.used(place, cost);
        let frame = self.scheduler.serve(place, receiver, cost, |_| true);
        self.tell(place);
        frame
    }

    /// So many frames left without going.
    fn left(&mut self, place: Place, number: usize) {
        (0..number).for_each(|_| assert!(self.queues.gives_up((place, 0)).is_some()));
        self.tell(place);
    }

    fn drop_first(&mut self, place: Place, receiver: R) -> Option<T> {
        let dropped = self.scheduler.take_first(place, receiver, |_| true);
        self.left(place, usize::from(dropped.is_some()));
        dropped
    }

    fn take_all(&mut self, place: Place, receiver: R, is_meant: impl FnMut(&T) -> bool) -> Vec<T> {
        let taken = self.scheduler.take_all(place, receiver, is_meant);
        self.left(place, taken.len());
        taken
    }

    fn correct(&mut self, place: Place, receiver: R, more: u32) {
        self.queues.used(place, more);
        self.scheduler.charge(place, receiver, more);
        self.tell(place);
    }

    fn hold(&mut self, place: Place, receiver: R) {
        self.scheduler.hold(place, receiver);
        self.tell(place);
    }

    fn release(&mut self, place: Place, receiver: R) {
        self.scheduler.release(place, receiver);
        self.tell(place);
    }
}

/// The rule as its sentences say it: debts that are lowered one by one, lists that are searched.
struct Model {
    networks: Vec<ModelNetwork>,
}

struct ModelNetwork {
    scale: u128,
    debt: u128,
    receivers: Vec<ModelReceiver>,
    is_passed_over: bool,
}

struct ModelReceiver {
    name: u8,
    debt: u128,
    is_held: bool,
    /// The frames that wait, and of each whether it goes before what waits for others.
    waiting: Vec<(u32, bool)>,
}

impl Model {
    fn new(weights: &[u8]) -> Model {
        let networks = weights.iter().map(|weight| {
            let receivers = 0..RECEIVERS as u8;
            let receivers = receivers.map(|name| ModelReceiver { name, debt: 0, is_held: false, waiting: Vec::new() });
            let scale = 720_720 / u128::from(*weight);
            ModelNetwork { scale, debt: 0, receivers: receivers.collect(), is_passed_over: false }
        });
        Model { networks: networks.collect() }
    }

    fn of(&mut self, place: Place, receiver: u8) -> &mut ModelReceiver {
        &mut self.networks[place].receivers[usize::from(receiver)]
    }

    /// Rule 9: what is held counts, unless its network is passed over.
    fn waits(&self, place: Place) -> bool {
        let ModelNetwork { receivers, is_passed_over, .. } = &self.networks[place];
        let has_held = receivers.iter().any(|receiver| !receiver.waiting.is_empty());
        self.has_ready(place) || has_held && !is_passed_over
    }

    fn has_ready(&self, place: Place) -> bool {
        self.networks[place].receivers.iter().any(ModelReceiver::is_ready)
    }

    fn turn(&self) -> Option<Place> {
        let places = (0..self.networks.len()).filter(|place| self.waits(*place));
        places.min_by_key(|place| (self.networks[*place].debt, *place))
    }

    fn held(&self) -> Option<Place> {
        self.turn().filter(|place| !self.has_ready(*place))
    }

    fn first(&self) -> Option<(Place, u8, u32)> {
        let place = self.turn()?;
        let ready = self.networks[place].receivers.iter().filter(|receiver| receiver.is_ready());
        let receiver = ready.min_by_key(|receiver| (!receiver.waiting[0].1, receiver.debt, receiver.name))?;
        Some((place, receiver.name, receiver.waiting[0].0))
    }

    fn serve(&mut self, cost: u32) -> Option<u32> {
        let (place, receiver, frame) = self.first()?;
        let least = self.networks[place].debt;
        self.networks.iter_mut().for_each(|network| network.debt = network.debt.saturating_sub(least));
        self.networks[place].debt = self.networks[place].scale * u128::from(cost);
        self.networks[place].is_passed_over = false;
        let (_, is_urgent) = self.of(place, receiver).waiting.remove(0);
        if !is_urgent {
            let least = self.of(place, receiver).debt;
            self.networks[place].receivers.iter_mut().for_each(|one| one.debt = one.debt.saturating_sub(least));
        }
        self.of(place, receiver).debt += u128::from(cost);
        Some(frame)
    }

    fn take_all(&mut self, place: Place, receiver: u8, every: u32) -> Vec<u32> {
        let waiting = std::mem::take(&mut self.of(place, receiver).waiting);
        let (taken, kept): (Vec<_>, _) = waiting.into_iter().partition(|(frame, _)| frame % every == 0);
        self.of(place, receiver).waiting = kept;
        taken.into_iter().map(|(frame, _)| frame).collect()
    }

    fn longest(&self, place: Place) -> Option<u8> {
        let waiting = self.networks[place].receivers.iter().filter(|receiver| !receiver.waiting.is_empty());
        waiting.max_by_key(|receiver| (receiver.waiting.len(), receiver.name)).map(|receiver| receiver.name)
    }

    fn correct(&mut self, place: Place, receiver: u8, more: u32) {
        self.networks[place].debt += self.networks[place].scale * u128::from(more);
        self.of(place, receiver).debt += u128::from(more);
    }
}

impl ModelReceiver {
    fn is_ready(&self) -> bool {
        !self.is_held && !self.waiting.is_empty()
    }
}

/// What each network got of the air since another one waits without a break, and since a frame came to one that had
/// nothing waiting and owed nothing.
struct Watch {
    weights: Vec<u64>,
    waits: Vec<bool>,
    got: Vec<Vec<u64>>,
    /// The most that a turn of each took, what was told before its next turn included.
    most: Vec<u64>,
    turn: Vec<u64>,
    newcomer: Vec<Option<Vec<u32>>>,
}

impl Watch {
    fn new(weights: &[u8]) -> Watch {
        let number = weights.len();
        Watch {
            weights: weights.iter().copied().map(u64::from).collect(),
            waits: vec![false; number],
            got: vec![vec![0; number]; number],
            most: vec![0; number],
            turn: vec![0; number],
            newcomer: vec![None; number],
        }
    }

    fn gets(&mut self, place: Place, time: u64, is_turn: bool) {
        self.turn[place] = if is_turn { time } else { self.turn[place] + time };
        self.most[place] = self.most[place].max(self.turn[place]);
        self.got.iter_mut().for_each(|of_one| of_one[place] += time);
        self.newcomer[place] = None;
        for turns in self.newcomer.iter_mut().flatten().filter(|_| is_turn) {
            turns[place] += 1;
            assert!(turns[place] <= 1, "a newcomer waits for one frame of each other network");
        }
    }

    fn look(&mut self, model: &Model) {
        for one in 0..self.waits.len() {
            let waited = std::mem::replace(&mut self.waits[one], model.waits(one));
            if !self.waits[one] || !waited {
                self.got[one].fill(0);
                self.newcomer[one] = None;
            }
            if self.waits[one] && !waited && model.networks[one].debt == 0 {
                self.newcomer[one] = Some(vec![0; self.waits.len()]);
            }
            for other in (0..self.waits.len()).filter(|other| *other != one) {
                let own = (self.got[one][one] + self.most[one]) * self.weights[other];
                let others = self.got[one][other].saturating_sub(self.most[other]) * self.weights[one];
                assert!(others <= own, "{other} gets more than its share and a frame while {one} waits");
            }
        }
    }
}

const RECEIVERS: usize = 5;
const CALLS: usize = if cfg!(debug_assertions) { 100_000 } else { 1_000_000 };
const CALLS_OF_A_RUN: usize = 2000;

/// The frame that goes next, which costs so much.
fn next<R: Copy + Ord + Hash, T>(scheduler: &mut Shared<R, T>, cost: u32) -> Option<T> {
    let place = scheduler.first()?.0;
    scheduler.serve(place, cost)
}

/// Calls in any order: the same frames in the same order as by the slow model, and what the sentences
/// promise of shares and of newcomers.
#[test]
fn any_calls_go_by_the_rule() {
    let mut seeded = Seeded(11);
    let (mut served, mut passed_over) = (0u64, 0u64);
    for run in 0..CALLS / CALLS_OF_A_RUN {
        let number = 1 + seeded.below(4);
        let weights: Vec<u8> = (0..number).map(|_| 1 + seeded.below(16) as u8).collect();
        let (mut scheduler, mut model, mut watch) =
            (Shared::new(weights.clone()), Model::new(&weights), Watch::new(&weights));
        let (mut pushed, mut gone, pushes) = (0u32, 0u32, 1 + seeded.below(6));
        for _ in 0..CALLS_OF_A_RUN {
            let (place, receiver) = (seeded.below(number), seeded.below(RECEIVERS) as u8);
            match seeded.below(11 + pushes) {
                0..=3 => {
                    let cost = 1 + seeded.below(1000) as u32;
                    let first = model.first();
                    assert_eq!(scheduler.first().map(|(place, receiver, frame)| (place, receiver, *frame)), first);
                    let not_next = (0..number).filter(|other| first.map_or(true, |(place, ..)| place != *other));
                    not_next.for_each(|other| assert_eq!(scheduler.serve(other, cost), None));
                    let next = first.map_or(0, |(place, ..)| place);
                    assert_eq!(scheduler.serve(next, cost), model.serve(cost));
                    if let Some((place, _, _)) = first {
                        watch.gets(place, u64::from(cost), true);
                        (served, gone) = (served + 1, gone + 1);
                    }
                }
                4 => {
                    let more = seeded.below(300) as u32;
                    scheduler.correct(place, receiver, more);
                    model.correct(place, receiver, more);
                    watch.gets(place, u64::from(more), false);
                }
                5 => {
                    scheduler.hold(place, receiver);
                    model.of(place, receiver).is_held = true;
                }
                6 => {
                    scheduler.release(place, receiver);
                    model.of(place, receiver).is_held = false;
                }
                7 => {
                    let waiting = &mut model.of(place, receiver).waiting;
                    let dropped = if waiting.is_empty() { None } else { Some(waiting.remove(0).0) };
                    assert_eq!(scheduler.drop_first(place, receiver), dropped);
                    gone += u32::from(dropped.is_some());
                }
                8 if seeded.below(4) == 0 => {
                    let every = 1 + seeded.below(3) as u32;
                    let taken = scheduler.take_all(place, receiver, |frame| frame % every == 0);
                    assert_eq!(taken, model.take_all(place, receiver, every));
                    gone += taken.len() as u32;
                }
                8 => {}
                9 => {
                    scheduler.push_first(place, receiver, pushed);
                    let waiting = &mut model.of(place, receiver).waiting;
                    let is_urgent = waiting.first().map_or(false, |(_, is_urgent)| *is_urgent);
                    waiting.insert(0, (pushed, is_urgent));
                    pushed += 1;
                }
                10 => {
                    scheduler.scheduler.hurry(place, receiver);
                    model.of(place, receiver).waiting.iter_mut().for_each(|(_, is_urgent)| *is_urgent = true);
                }
                11 => {
                    if let Some(place) = scheduler.held() {
                        scheduler.pass_over(place);
                        model.networks[place].is_passed_over = true;
                        passed_over += 1;
                    }
                }
                _ => {
                    scheduler.push(place, receiver, pushed);
                    model.of(place, receiver).waiting.push((pushed, false));
                    pushed += 1;
                }
            }
            watch.look(&model);
            assert_eq!((scheduler.held(), scheduler.has_ready()), (model.held(), model.first().is_some()));
            assert_eq!(scheduler.scheduler.any_ready(), (0..number).any(|place| model.has_ready(place)));
            assert_eq!(scheduler.scheduler.waiting(place, receiver), model.of(place, receiver).waiting.len());
            assert_eq!(scheduler.scheduler.is_held(place, receiver), model.of(place, receiver).is_held);
            assert_eq!(scheduler.scheduler.longest(place), model.longest(place));
        }
        let waiting: usize =
            model.networks.iter().flat_map(|network| &network.receivers).map(|one| one.waiting.len()).sum();
        assert_eq!((pushed, scheduler.scheduler.is_empty()), (gone + waiting as u32, waiting == 0), "{run}");
    }
    assert!(served > CALLS as u64 / 10 && passed_over > CALLS as u64 / 200, "{served} {passed_over}");
}

/// Networks that all want all get what their weights say, whatever their frames cost.
#[test]
fn who_wants_all_gets_its_share() {
    let mut scheduler = Shared::new([1, 2, 3]);
    let (costs, mut got) = ([12_000, 500, 1700], [0u64; 3]);
    for _ in 0..30_000 {
        [0, 1, 2].map(|place| scheduler.push(place, 0u8, place));
        let place = scheduler.first().unwrap().0;
        got[place] += u64::from(costs[place]);
        assert_eq!(scheduler.serve(place, costs[place]), Some(place));
    }
    let all: u64 = got.iter().sum();
    for (place, weight) in [1, 2, 3].into_iter().enumerate() {
        let wanted = all * weight / 6;
        assert!(got[place].abs_diff(wanted) < wanted / 100, "{got:?}");
    }
}

#[test]
fn what_was_told_later_counts_too() {
    let mut scheduler = Shared::new([1, 1]);
    let mut turns = [0u64; 2];
    for _ in 0..10_000 {
        [0, 1].map(|place| scheduler.push(place, 0u8, place));
        let place = next(&mut scheduler, 100).unwrap();
        turns[place] += 1;
        if place == 0 {
            scheduler.correct(0, 0, 300);
        }
    }
    assert!(turns[1].abs_diff(4 * turns[0]) < turns[1] / 100, "{turns:?}");
}

#[test]
fn receivers_of_a_network_take_turns_by_time() {
    let mut scheduler = Shared::new([1]);
    [(); 9].map(|_| scheduler.push(0, 'a', 3));
    [(); 9].map(|_| scheduler.push(0, 'b', 1));
    let order: Vec<u32> = std::iter::from_fn(|| {
        let cost = *scheduler.first()?.2;
        next(&mut scheduler, cost)
    })
    .collect();
    assert_eq!(order[..9], [3, 1, 1, 1, 3, 1, 1, 1, 3]);
}

#[test]
fn idle_time_earns_nothing() {
    let mut scheduler = Shared::new([1, 1]);
    [(); 50].map(|_| scheduler.push(0, 'a', 'a'));
    (0..40).for_each(|_| assert_eq!(next(&mut scheduler, 10), Some('a')));
    [(); 50].map(|_| scheduler.push(1, 'b', 'b'));
    let order: String = std::iter::from_fn(|| next(&mut scheduler, 10)).take(8).collect();
    assert_eq!(order, "babababa");
}

#[test]
fn a_held_receiver_waits_and_keeps_its_order() {
    let mut scheduler = Shared::new([1]);
    [1, 2].map(|frame| scheduler.push(0, 'a', frame));
    scheduler.hold(0, 'a');
    assert_eq!((scheduler.first(), scheduler.has_ready(), scheduler.scheduler.is_empty()), (None, false, false));
    scheduler.push_first(0, 'a', 0);
    scheduler.release(0, 'a');
    assert_eq!([(); 4].map(|_| next(&mut scheduler, 1)), [Some(0), Some(1), Some(2), None]);
    assert!(scheduler.scheduler.is_empty());
}

/// Its turn isn't another one's: what that one gets meanwhile is what it would get beside one that waits.
#[test]
fn while_it_is_the_turn_of_a_network_that_is_held_no_other_one_goes() {
    let mut scheduler = Shared::new([1, 1]);
    for _ in 0..9 {
        scheduler.push(0, 'a', 'a');
        scheduler.push(1, 'b', 'b');
    }
    assert_eq!(next(&mut scheduler, 10), Some('a'));
    scheduler.hold(0, 'a');
    assert_eq!([next(&mut scheduler, 10), next(&mut scheduler, 10)], [Some('b'), None]);
    assert_eq!((scheduler.held(), scheduler.has_ready(), scheduler.scheduler.any_ready()), (Some(0), false, true));
    assert_eq!([0, 1].map(|place| scheduler.serve(place, 10)), [None, None]);
    scheduler.correct(0, 'a', 20);
    assert_eq!([(); 3].map(|_| next(&mut scheduler, 10)), [Some('b'), Some('b'), None]);
    scheduler.release(0, 'a');
    assert_eq!(next(&mut scheduler, 10), Some('a'));
    scheduler.hold(0, 'a');
    assert_eq!([next(&mut scheduler, 10), next(&mut scheduler, 10)], [Some('b'), None]);
    scheduler.pass_over(0);
    assert_eq!([(); 3].map(|_| next(&mut scheduler, 10)), [Some('b'); 3]);
    scheduler.push(0, 'c', 'c');
    assert_eq!([next(&mut scheduler, 10), next(&mut scheduler, 10)], [Some('c'), None]);
    assert_eq!(scheduler.held(), Some(0));
}

/// It is charged: who had to wait meanwhile catches up afterwards. Other networks have their turns as ever.
#[test]
fn what_is_hurried_goes_before_all_else_of_its_network() {
    let mut scheduler = Shared::new([1, 1]);
    for _ in 0..4 {
        scheduler.push(0, 'a', 'a');
        scheduler.push(0, 'g', 'g');
        scheduler.push(1, 'o', 'o');
    }
    scheduler.scheduler.hurry(0, 'g');
    scheduler.push(0, 'g', 'h');
    let order: String = std::iter::from_fn(|| next(&mut scheduler, 10)).collect();
    assert_eq!(order, "gogogogoaaaah");
}

#[test]
fn frames_are_taken_out_by_what_they_are() {
    let mut scheduler = Shared::new([1]);
    [0, 1, 2, 3, 4, 5].map(|frame| scheduler.push(0, 'a', frame));
    assert_eq!(scheduler.scheduler.longest(0), Some('a'));
    assert_eq!(scheduler.take_all(0, 'a', |frame| frame % 2 == 0), [0, 2, 4]);
    assert_eq!([(); 4].map(|_| next(&mut scheduler, 1)), [Some(1), Some(3), Some(5), None]);
    assert_eq!((scheduler.take_all(0, 'b', |_| true), scheduler.scheduler.longest(0)), (vec![], None));
}

thread_local! {
    static COMPARED: std::cell::Cell<u64> = std::cell::Cell::new(0);
}

/// A receiver that counts how often one is compared with another.
#[derive(Debug, Clone, Copy, PartialEq, Eq, Hash)]
struct Counted(u32);

impl Ord for Counted {
    fn cmp(&self, other: &Counted) -> std::cmp::Ordering {
        COMPARED.with(|compared| compared.set(compared.get() + 1));
        self.0.cmp(&other.0)
    }
}

impl PartialOrd for Counted {
    fn partial_cmp(&self, other: &Counted) -> Option<std::cmp::Ordering> {
        Some(self.cmp(other))
    }
}

/// As when a network's 2 MB are full: each frame that comes drops one for the receiver for which most wait.
#[test]
fn the_longest_queue_of_many_is_found_without_a_look_at_all() {
    const RECEIVERS: u32 = 2007;
    const PUSHES: u32 = 10_000;
    let mut scheduler = Shared::new([1]);
    (0..RECEIVERS).for_each(|receiver| scheduler.push(0, Counted(receiver), ()));
    assert_eq!(scheduler.scheduler.longest(0), Some(Counted(RECEIVERS - 1)));
    COMPARED.with(|compared| compared.set(0));
    for number in 0..PUSHES {
        let receiver = Counted(number % RECEIVERS);
        scheduler.push(0, receiver, ());
        assert_eq!(scheduler.scheduler.longest(0), Some(receiver));
        assert_eq!(scheduler.drop_first(0, receiver), Some(()));
    }
    let compared = COMPARED.with(std::cell::Cell::get) / u64::from(PUSHES);
    assert!(compared < 200, "{compared} comparisons for a frame");
}

/// The order is forgotten once it isn't asked for: what comes and goes then costs nothing for it.
#[test]
fn the_order_by_length_is_kept_while_many_frames_wait() {
    let mut scheduler = Shared::new([1]);
    (0..1000u32).for_each(|receiver| scheduler.push(0, receiver, ()));
    assert!(scheduler.scheduler.networks[0].by_length.is_none());
    scheduler.scheduler.longest(0);
    assert!(scheduler.scheduler.networks[0].by_length.is_some());
    (0..499).for_each(|_| assert!(next(&mut scheduler, 1).is_some()));
    assert!(scheduler.scheduler.networks[0].by_length.is_some());
    next(&mut scheduler, 1);
    assert!(scheduler.scheduler.networks[0].by_length.is_none());
    assert_eq!(scheduler.scheduler.longest(0), Some(999));
}

/// What is kept of receivers doesn't grow with those that were.
#[test]
fn receivers_that_owe_nothing_are_forgotten() {
    let mut scheduler = Shared::new([1]);
    for receiver in 0..30_000u32 {
        scheduler.push(0, receiver, ());
        next(&mut scheduler, 5);
    }
    let most = 2 * MOST_RESTING + FEW + 1;
    let known = scheduler.scheduler.networks[0].receivers.len();
    assert!((FEW..=most).contains(&known), "{known}");
    [(); 2].map(|_| scheduler.push(0, 7, ()));
    assert_eq!([(); 2].map(|_| next(&mut scheduler, 5)), [Some(()); 2]);
    scheduler.scheduler.networks[0].forget_rested();
    assert_eq!(scheduler.scheduler.networks[0].receivers.len(), 1);
}
