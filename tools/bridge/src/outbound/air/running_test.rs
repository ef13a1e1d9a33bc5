//! The way to the air beside the same queues while the bridge runs: what became of frames is told after the time that
//! they took. So the radio has no more at once than it may have, and stations and networks are held (rules 8 and 10 to
//! 12 of `air`).
//!
//! The queues have no rules for that. The bridge says when a frame goes and of which receiver, and when one is late;
//! the others are told so. Compared is whose turn it is, which frame goes, what becomes of it, and what is charged.
//! Where none goes, nothing waits, the radio has as much as it may have, or it has frames of the network whose turn it
//! is, and all that waits of that is held. The radio tells of each frame, so no network is passed over.
use super::*;

const MOST_AT_ONCE: Duration = Duration::from_millis(8);
const MOST_OF_NETWORK: Duration = Duration::from_millis(50);

/// A frame that the radio has.
struct Out {
    answer: Answer,
    packet: Vec<u8>,
    since: Instant,
}

/// How a frame goes that is on the air, and until when.
#[derive(Clone, Copy)]
struct OnAir {
    outcome: Outcome,
    is_acknowledged: bool,
    ends: Instant,
}

/// What was seen, so that one knows that it was tried.
#[derive(Debug, Default)]
struct Seen {
    limits: u64,
    held: u64,
    most_at_once: Duration,
    most_of_network: Duration,
}

struct Running {
    pair: Pair,
    out: VecDeque<Out>,
    on_air: Option<OnAir>,
    last_told: Instant,
    seen: Seen,
}

/// How long the radio takes for these frames, each tried once, or as often as it may be.
fn once<'a>(out: impl Iterator<Item = &'a Out>) -> Duration {
    out.map(|out| takes(&out.packet, out.packet[RATE_AT], 1)).sum()
}

fn longest<'a>(out: impl Iterator<Item = &'a Out>) -> Duration {
    out.map(|out| takes(&out.packet, out.packet[RATE_AT], 1 + u32::from(out.packet[RETRIES_AT]))).sum()
}

/// For whom a packet is, and of which network.
fn whose(packet: &[u8]) -> (Place, usize) {
    let frame = &packet[SENDING_LEN..];
    let receiver = if frame[4] & 1 != 0 { 0 } else { usize::from(frame[9]) };
    (usize::from(frame[15]), receiver)
}

impl Running {
    fn new(seed: u64) -> Running {
        let pair = Pair::running(seed);
        let last_told = pair.now;
        Running { pair, out: VecDeque::new(), on_air: None, last_told, seen: Seen::default() }
    }

    fn waiting(&self) -> [[usize; 1 + STATIONS]; NETWORKS] {
        let mut waiting = [[0; 1 + STATIONS]; NETWORKS];
        for (place, of_network) in waiting.iter_mut().enumerate() {
            of_network.iter_mut().enumerate().for_each(|(to, number)| *number = self.pair.waiting(place, to));
        }
        waiting
    }

    /// Both say the same of whose turn it is, and no network is passed over.
    fn agree(&mut self) {
        assert!((0..NETWORKS).all(|place| !self.pair.air.queue.scheduler.is_passed_over(place)));
        assert_eq!(self.pair.air.queue.downlink.turn(), self.pair.beside.turn());
        self.pair.agree_on_fates();
    }

    /// A frame comes for any receiver.
    fn come(&mut self) {
        let (place, receiver) = (self.pair.seeded.below(NETWORKS), self.pair.seeded.below(1 + STATIONS));
        let is_unit = receiver == 0 || self.pair.seeded.below(8) > 0;
        let octets = self.pair.octets(place, receiver, if is_unit { DATA } else { ACTION });
        self.pair.air.send(place, octets, self.pair.now);
        self.pair.come_beside(place, receiver, is_unit, Instant::NEVER);
        self.agree();
    }

    /// What the bridge gave up as late is given up beside.
    fn give_up(&mut self, before: [[usize; 1 + STATIONS]; NETWORKS], sent: Option<(Place, usize)>) {
        let after = self.waiting();
        for (place, receiver) in (0..NETWORKS).flat_map(|place| (0..=STATIONS).map(move |to| (place, to))) {
            let goes = usize::from(sent == Some((place, receiver)));
            for _ in 0..before[place][receiver] - after[place][receiver] - goes {
                let given_up = self.pair.beside.gives_up((place, receiver));
                assert_eq!(self.pair.count(given_up).unwrap().fate, Fate::GivenUp);
                self.pair.fates[place][Fate::Late as usize] += 1;
            }
        }
    }

    /// All goes that may.
    fn send(&mut self) {
        loop {
            let (before, used) = (self.waiting(), [0, 1, 2].map(|place| self.pair.used(place)));
            let goes = self.pair.air.choose(1, self.pair.now);
            let packet = self.pair.air.awaiting_room().next().map(<[u8]>::to_vec);
            assert_eq!(packet.is_some(), goes);
            self.give_up(before, packet.as_deref().map(whose));
            match packet {
                Some(packet) => self.sent(packet, used),
                None => {
                    self.agree();
                    return self.look_why_none_goes();
                }
            }
        }
    }

    fn sent(&mut self, packet: Vec<u8>, used: [Duration; NETWORKS]) {
        self.pair.air.gave(1);
        let (place, receiver) = whose(&packet);
        let answer = self.pair.beside.next_of((place, receiver), self.pair.nanos());
        let answer = self.pair.count(answer).expect("it is this network's turn");
        let frame = &packet[SENDING_LEN..];
        assert_eq!(ticket_of(frame), answer.ticket);
        assert_eq!(if frame[1] & 0x08 != 0 { Fate::GoesAgain } else { Fate::Goes }, answer.fate);
        self.pair.charge(place, used[place], takes(&packet, packet[RATE_AT], 1));
        self.out.push_back(Out { answer, packet, since: self.pair.now });
        self.look_at_limits(place);
        self.agree();
    }

    /// The radio has no more than it may have at once, in all and of the network that was given a frame.
    fn look_at_limits(&mut self, place: Place) {
        let of_network = || self.out.iter().filter(move |out| out.answer.network == place);
        let (at_once, of_this) = (once(self.out.iter()), longest(of_network()));
        if self.out.len() > 1 {
            assert!(at_once <= MOST_AT_ONCE, "{at_once:?}");
            self.seen.most_at_once = self.seen.most_at_once.max(at_once);
        }
        if of_network().count() > 1 {
            assert!(of_this <= MOST_OF_NETWORK, "{of_this:?}");
            self.seen.most_of_network = self.seen.most_of_network.max(of_this);
        }
    }

    fn look_why_none_goes(&mut self) {
        let place = match self.pair.beside.turn() {
            Some(place) => place,
            None => return,
        };
        if self.pair.air.queue.scheduler.has_ready(place) {
            assert!(self.pair.air.intake == Intake::Closed && !self.out.is_empty());
            self.seen.limits += 1;
        } else {
            assert!(self.out.iter().any(|out| out.answer.network == place), "others wait for nothing");
            self.seen.held += 1;
        }
    }

    /// How the first frame goes that the radio has, which takes as long as it was asked for.
    fn begin(&mut self) -> Option<OnAir> {
        let Out { answer, packet, since } = self.out.front()?;
        let (packet, begins) = (packet.clone(), self.last_told.max(*since));
        let may_be_lost = answer.receiver > 0 && packet[SENDING_LEN] == DATA;
        let is_acknowledged = !may_be_lost || self.pair.seeded.below(4) > 0;
        let outcome = self.pair.outcome(&packet, is_acknowledged);
        let tries = 1 + u32::from(outcome.retries.min(packet[RETRIES_AT]));
        Some(OnAir { outcome, is_acknowledged, ends: begins + takes(&packet, packet[RATE_AT], tries) })
    }

    /// Time goes on until then, and the radio tells of what it has sent.
    fn pass_until(&mut self, time: Instant) {
        loop {
            self.on_air = self.on_air.or_else(|| self.begin());
            match self.on_air.filter(|on_air| on_air.ends <= time) {
                Some(on_air) => self.end(on_air),
                None => break,
            }
        }
        self.pair.now = time;
    }

    fn end(&mut self, OnAir { outcome, is_acknowledged, ends }: OnAir) {
        self.on_air = None;
        (self.pair.now, self.last_told) = (self.pair.now.max(ends), ends);
        if let Some(Out { answer, packet, .. }) = self.out.pop_front() {
            let Answer { network: place, receiver, ticket, .. } = answer;
            let used = self.pair.used(place);
            self.pair.air.reported(place, &packet[SENDING_LEN..], outcome, ends);
            self.pair.charge(place, used, takes_more(&packet, outcome));
            let told = self.pair.beside.told((place, receiver), ticket, is_acknowledged);
            assert!(self.pair.count(told).is_some());
            self.agree();
            self.send();
        }
    }
}

/// Any calls: both decide the same, and the radio has no more at once than it may have.
#[test]
fn the_way_to_the_air_decides_as_the_crate_does_while_it_runs() {
    let (mut fates, mut seen) = ([0; Fate::ALL.len()], Seen::default());
    for run in 0..CALLS / CALLS_OF_A_RUN {
        let mut running = Running::new(run as u64);
        let pace = [200_000, 1_000_000, 4_000_000][run % 3];
        for _ in 0..CALLS_OF_A_RUN {
            let time = running.pair.now + Duration::from_nanos(running.pair.seeded.below(pace) as u64);
            running.pass_until(time);
            running.come();
            running.send();
        }
        for of_network in running.pair.fates {
            (0..Fate::ALL.len()).for_each(|fate| fates[fate] += of_network[fate]);
        }
        seen.limits += running.seen.limits;
        seen.held += running.seen.held;
        seen.most_at_once = seen.most_at_once.max(running.seen.most_at_once);
        seen.most_of_network = seen.most_of_network.max(running.seen.most_of_network);
    }
    use Fate::*;
    for fate in [Goes, GoesAgain, Acknowledged, WaitsAgain, Lost, Late, Crowded] {
        assert!(fates[fate as usize] > CALLS as u64 / 2000, "{fate:?} {fates:?}");
    }
    assert!([seen.limits, seen.held].iter().all(|often| *often > CALLS as u64 / 2000), "{seen:?}");
    assert!(seen.most_at_once > MOST_AT_ONCE * 9 / 10 && seen.most_of_network > MOST_OF_NETWORK * 9 / 10, "{seen:?}");
}
