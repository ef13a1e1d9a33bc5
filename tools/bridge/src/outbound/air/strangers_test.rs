//! Frames of made-up addresses come, more than can be answered, and newcomers want to join all the same. All share one
//! medium: of those that have a frame to send each is as likely to go next, and each try takes its time.
use std::collections::BTreeMap;

use super::*;
use crate::formats::frames::Frame;
use crate::outbound::air::air_time::Cost;
use crate::testing::samples::Seeded;

const NEWCOMERS: u32 = 20;
const BETWEEN_NEWCOMERS: Duration = Duration::from_millis(270);
/// When a newcomer asks again that got no answer, and within which time it has to be in.
const TO_ASK_AGAIN: Duration = Duration::from_millis(200);
const TO_JOIN: Duration = SECOND;
/// The rates that strangers and newcomers send by, in units of 500 kb/s.
const FAST: u8 = 108;
const SLOW: u8 = 2;
/// How many octets the frames of strangers have, and a newcomer's.
const STRANGERS_OCTETS: usize = 30;
const NEWCOMERS_OCTETS: usize = 60;
/// How many frames of strangers wait for the medium at most.
const MOST_COMING: u32 = 20;

const AUTHENTICATION: u8 = 0xb0;
const ASSOCIATION_RESPONSE: u8 = 0x10;
const DEAUTHENTICATION: u8 = 0xc0;

/// What comes by the air.
#[derive(Debug, Clone, Copy, PartialEq, Eq)]
enum Heard {
    /// Data of an address that isn't associated.
    Data(Address),
    Authentication(Address),
    Association(Address),
}

/// Strangers, who send this to a network so often in a second, at this rate.
#[derive(Debug, Clone, Copy)]
struct Flood {
    place: Place,
    a_second: u32,
    what: fn(Address) -> Heard,
    rate: u8,
}

/// How far a newcomer is.
#[derive(Debug, Clone, Copy, PartialEq, Eq)]
enum Stage {
    Authenticates,
    Associates,
    In(Instant),
}

/// A newcomer, when it asks next, and what it has to send.
#[derive(Debug, Clone, Copy)]
struct Newcomer {
    began: Instant,
    asks: Instant,
    stage: Stage,
    sends: Option<Heard>,
}

/// Whose frame is on the medium.
#[derive(Debug, Clone, Copy, PartialEq, Eq)]
enum Sender {
    Stranger,
    Newcomer(Address),
    Radio,
}

/// Two networks, their radio, and those who send to them: newcomers want to join the first one.
struct Scene {
    driver: Driver,
    flood: Flood,
    /// Whose frame is on the medium, until when.
    medium: Option<(Instant, Sender)>,
    /// What the radio sends, how often it tried, and whether its receiver is there.
    trying: Option<(Seen, u32, bool)>,
    /// How many frames of strangers wait for the medium, and when the next one comes.
    coming: u32,
    next: Instant,
    newcomers: BTreeMap<Address, Newcomer>,
    seeded: Seeded,
    sequence: u16,
    /// How many percent of the tries to newcomers are lost.
    losses: usize,
    /// How many went of each network.
    notices: [u32; 2],
}

fn newcomer(number: u32) -> Address {
    Address::of([2, 0xcc, 0, 0, 0, number as u8])
}

fn cost(octets: usize, rate: u8) -> Cost {
    Size { octets, rate, is_acknowledged: true }.cost()
}

impl Scene {
    fn new(flood: Flood) -> Scene {
        let driver = driver([1, 1]);
        let newcomers = (0..NEWCOMERS).map(|number| {
            let began = driver.now + SECOND + number * BETWEEN_NEWCOMERS;
            (newcomer(number), Newcomer { began, asks: began, stage: Stage::Authenticates, sends: None })
        });
        Scene {
            flood,
            medium: None,
            trying: None,
            coming: 0,
            next: driver.now,
            newcomers: newcomers.collect(),
            seeded: Seeded(5),
            sequence: 0,
            losses: 0,
            notices: [0; 2],
            driver,
        }
    }

    fn made_up(&mut self) -> Address {
        let [.., a, b, c, d] = self.seeded.number().to_be_bytes();
        Address::of([2, 0xee, a, b, c, d])
    }

    /// A network has heard a frame, and the program has answered it.
    fn hear(&mut self, place: Place, heard: Heard) {
        self.sequence = (self.sequence + 1) % 4096;
        let bssid = medium::BSSIDS[place];
        let answer = |control, to, body: &[u8]| of_network(control, bssid, to, self.sequence, body.to_vec());
        let octets = match heard {
            Heard::Data(from) => answer(DEAUTHENTICATION, from, &[6, 0]),
            Heard::Authentication(from) => answer(AUTHENTICATION, from, &[0, 0, 2, 0, 0, 0]),
            Heard::Association(from) => {
                self.driver.air.heard(place, Frame::of(&request(bssid, from, &RATES)).unwrap());
                answer(ASSOCIATION_RESPONSE, from, &[0, 0, 0, 0, 1, 0xc0])
            }
        };
        self.driver.send(place, octets);
    }

    /// Newcomers and strangers have frames to send whose time it is.
    fn ask(&mut self) {
        let now = self.driver.now;
        for (address, newcomer) in self.newcomers.iter_mut().filter(|(_, newcomer)| newcomer.asks <= now) {
            newcomer.asks = now + TO_ASK_AGAIN;
            newcomer.sends = match newcomer.stage {
                Stage::Authenticates => Some(Heard::Authentication(*address)),
                Stage::Associates => Some(Heard::Association(*address)),
                Stage::In(_) => None,
            };
        }
        if self.next <= now {
            self.coming = (self.coming + 1).min(MOST_COMING);
            let part = 1 + self.seeded.below(2_000_000) as u32;
            self.next = now + SECOND * part / (self.flood.a_second * 1_000_000);
        }
    }

    /// If the medium is free, one of those goes that have a frame.
    fn contend(&mut self) {
        let given = self.driver.flush();
        self.driver.on_air.extend(given);
        self.driver.interfaces.monitor.port.unsent = self.driver.on_air.len() + usize::from(self.trying.is_some());
        if self.trying.is_none() {
            self.trying = self.driver.on_air.pop_front().map(|seen| {
                let to = Frame::of(&seen.frame).unwrap().receiver();
                (seen, 0, self.newcomers.contains_key(&to))
            });
        }
        let waiting = self.newcomers.iter().filter(|(_, newcomer)| newcomer.sends.is_some());
        let mut senders: Vec<Sender> = waiting.map(|(address, _)| Sender::Newcomer(*address)).collect();
        senders.extend((self.coming > 0).then_some(Sender::Stranger));
        senders.extend(self.trying.as_ref().map(|_| Sender::Radio));
        if self.medium.is_some() || senders.is_empty() {
            return;
        }
        let sender = senders[self.seeded.below(senders.len())];
        let takes = match (sender, &self.trying) {
            (Sender::Radio, Some((seen, tried, _))) => {
                let cost = cost(seen.frame.len(), seen.rate);
                cost.tries(tried + 1) - cost.tries(*tried)
            }
            (Sender::Newcomer(_), _) => cost(NEWCOMERS_OCTETS, SLOW).tries(1),
            _ => cost(STRANGERS_OCTETS, self.flood.rate).tries(1),
        };
        self.medium = Some((self.driver.now + takes, sender));
    }

    /// A frame was on the medium.
    fn end_of(&mut self, sender: Sender) {
        match sender {
            Sender::Stranger => {
                self.coming -= 1;
                let heard = (self.flood.what)(self.made_up());
                self.hear(self.flood.place, heard);
            }
            Sender::Newcomer(address) => {
                let sent = self.newcomers.get_mut(&address).and_then(|newcomer| newcomer.sends.take());
                sent.into_iter().for_each(|heard| self.hear(0, heard));
            }
            Sender::Radio => {
                if let Some((seen, tried, is_there)) = self.trying.take() {
                    let hears = is_there && self.seeded.below(100) >= self.losses;
                    if hears || tried == u32::from(seen.retries) {
                        self.sent(&seen, tried as u8, hears);
                    } else {
                        self.trying = Some((seen, tried + 1, is_there));
                    }
                }
            }
        }
    }

    /// The radio has sent a frame: a newcomer that heard what is for it acknowledges that, and goes on.
    fn sent(&mut self, seen: &Seen, retries: u8, hears: bool) {
        let (now, place) = (self.driver.now, medium::place_of(seen));
        let to = Frame::of(&seen.frame).unwrap().receiver();
        self.notices[place] += u32::from(seen.frame[0] == DEAUTHENTICATION);
        if let Some(newcomer) = self.newcomers.get_mut(&to).filter(|_| hears) {
            newcomer.stage = match (newcomer.stage, seen.frame[0]) {
                (Stage::Authenticates, AUTHENTICATION) => Stage::Associates,
                (Stage::Associates, ASSOCIATION_RESPONSE) => Stage::In(now),
                (_, DEAUTHENTICATION) => Stage::Authenticates,
                (stage, _) => stage,
            };
            newcomer.asks = now + MILLISECOND;
        }
        self.driver.reported(place, seen, retries, hears);
    }

    /// Runs until the last newcomer had its time.
    fn run(mut self) -> Scene {
        let end = self.driver.now + SECOND + NEWCOMERS * BETWEEN_NEWCOMERS + TO_JOIN;
        while self.driver.now < end {
            self.ask();
            self.contend();
            let asks = self.newcomers.values().filter(|newcomer| !matches!(newcomer.stage, Stage::In(_)));
            let asks = asks.map(|newcomer| newcomer.asks).min();
            let medium = self.medium.map(|(until, _)| until);
            let times = [asks, medium, self.driver.air.due()].into_iter().flatten();
            self.driver.now = times.fold(self.next, Instant::min).max(self.driver.now);
            let now = self.driver.now;
            self.driver.expire(now);
            if let Some((_, sender)) = self.medium.filter(|(until, _)| *until <= now) {
                self.medium = None;
                self.end_of(sender);
            }
        }
        self
    }

    /// How many newcomers were in within their time.
    fn joined(&self) -> usize {
        let in_time = |newcomer: &&Newcomer| matches!(newcomer.stage, Stage::In(at) if at <= newcomer.began + TO_JOIN);
        self.newcomers.values().filter(in_time).count()
    }
}

#[test]
fn nineteen_of_twenty_newcomers_join_while_a_thousand_frames_a_second_have_to_be_refused() {
    for place in [0, 1] {
        let scene = Scene::new(Flood { place, a_second: 1000, what: Heard::Data, rate: FAST }).run();
        assert!(scene.joined() >= 19, "{place} {}", scene.joined());
        // Of two networks each sends twenty-five in a second, and four more, in 7.4 seconds.
        assert!((175..=189).contains(&scene.notices[place]), "{place} {:?}", scene.notices);
        assert_eq!(scene.notices[1 - place], 0);
    }
}

#[test]
fn nineteen_of_twenty_newcomers_join_while_three_hundred_made_up_addresses_a_second_authenticate() {
    for (place, rate) in [(0, SLOW), (0, FAST), (1, SLOW), (1, FAST)] {
        let scene = Scene::new(Flood { place, a_second: 300, what: Heard::Authentication, rate }).run();
        assert!(scene.joined() >= 19, "{place} {rate} {}", scene.joined());
    }
}

/// Made-up addresses of another network take no tries from newcomers that hear one try of three or four.
#[test]
fn nineteen_of_twenty_far_newcomers_join_while_made_up_addresses_authenticate_in_another_network() {
    let flood = Flood { place: 1, a_second: 300, what: Heard::Authentication, rate: FAST };
    let scene = Scene { losses: 70, ..Scene::new(flood) }.run();
    assert!(scene.joined() >= 19, "{}", scene.joined());
}

#[test]
fn nobody_is_kept_out_while_fewer_frames_have_to_be_refused() {
    for place in [0, 1] {
        for a_second in [1, 10, 45, 50, 100, 300] {
            let scene = Scene::new(Flood { place, a_second, what: Heard::Data, rate: FAST }).run();
            assert_eq!(scene.joined(), 20, "{place} {a_second}");
        }
    }
}

/// One answer of another network at the radio, or ten, takes no tries from an answer of this one. Those of its own do.
#[test]
fn how_often_an_answer_is_tried_hangs_on_the_answers_of_its_own_network() {
    for (place, others, retries) in [(1, 0, 5), (1, 1, 5), (1, 10, 5), (0, 1, 1), (0, 10, 0)] {
        let mut driver = driver([1, 1]);
        for number in 0..others {
            let to = Address::of([2, 0xee, 0, 0, 0, number as u8]);
            driver.send(place, of_network(AUTHENTICATION, medium::BSSIDS[place], to, number, vec![0, 0, 2, 0, 0, 0]));
        }
        driver.air.end();
        let with_radio = driver.flush();
        assert_eq!(with_radio.len(), usize::from(others));
        let sent = driver.give([of_network(AUTHENTICATION, OURS, newcomer(0), 99, vec![0, 0, 2, 0, 0, 0])]);
        assert_eq!(sent.iter().map(|seen| seen.retries).collect::<Vec<_>>(), [retries], "{place} {others}");
    }
}
