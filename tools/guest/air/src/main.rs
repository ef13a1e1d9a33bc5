//! An air that loses frames, for the tests: it carries what the simulated radios of `mac80211_hwsim` send.
//!
//! It registers with the kernel's simulation (generic netlink, family MAC80211_HWSIM), takes each frame that a radio
//! sends, decides by its rules and draws of a seed who hears each try, repeats a frame that isn't acknowledged, says how
//! it was sent, and hands it to those who heard it; all after the time that frame and acknowledgement take on the air.
//! The module `medium` has how.
//!
//! What it leaves to others: which channel a radio is on (the kernel drops a frame of another one). A radio acknowledges
//! as long as it has an interface with that address, or sends beacons by it: the module `owners` has why. By the word
//! `sleepers deaf` it doesn't while it dozes, as the module `sleepers` says. There are no collisions and no hidden
//! stations.
//!
//! Usage: `air RADIOS SEED`, as root, once the simulation is loaded and before its interfaces are set up, since the
//! kernel tells a radio's addresses only then. It writes `ready`; then each line of its standard input is answered by
//! `ok`, or a line `fault ..`, and the end of the input ends it:
//!
//! ```text
//! lose frames|acknowledgements SHARE% [of KIND] [from RADIO] [to RADIO] [at RATE|above RATE]
//! clear       lose nothing any more
//! queue RADIO unbounded|one|fair
//!             in which order what waits in this radio goes, and what it drops: the module `queues` has which
//! sleepers hear|deaf
//!             whether a radio that dozes hears all the same, as at first
//! has RADIO ADDRESS
//!             the radio acknowledges for this address too, of which the kernel doesn't tell
//! report      before `ok`, a line for what was sent from whom to whom, of which kind, at which rate
//! airtime     before `ok`, a line for how long was sent from which address to which, of which kind
//! forget      begin to count anew
//! ```
//!
//! Each time in the answer to `airtime` is in nanoseconds. `sending` is that of the frames, each with that of its
//! acknowledgement if one is wanted, heard or not; `spaces` is that of DIFS and backoff before them; both together
//! are what nobody else could use. A frame that its radio drops is reported to the kernel as not acknowledged.

mod airtime;
mod exchange;
mod frame;
mod hwsim;
mod medium;
mod netlink;
mod owners;
mod queues;
mod rate;
mod rules;
mod sleepers;
mod tim;

use std::io::{self, BufRead};
use std::process::ExitCode;
use std::sync::mpsc::{channel, Receiver, RecvTimeoutError, Sender};
use std::thread;
use std::time::{Duration, Instant};

use hwsim::Said;
use medium::{Effect, Medium};
use netlink::Socket;

/// What wakes the thread that has the medium.
enum Woken {
    Kernel(Said),
    Line(String),
    End,
}

fn main() -> ExitCode {
    match words().and_then(|(radios, seed)| serve(radios, seed)) {
        Ok(()) => ExitCode::SUCCESS,
        Err(fault) => {
            eprintln!("air: {fault}");
            ExitCode::FAILURE
        }
    }
}

fn words() -> Result<(u16, u64), String> {
    let words: Vec<String> = std::env::args().skip(1).collect();
    match &words[..] {
        [radios, seed] => radios.parse().ok().zip(seed.parse().ok()).ok_or_else(|| "two numbers are wanted".to_owned()),
        _ => Err("usage: air RADIOS SEED".to_owned()),
    }
}

fn serve(radios: u16, seed: u64) -> Result<(), String> {
    let opened = Socket::open().and_then(|socket| {
        let family = socket.family(hwsim::FAMILY)?;
        socket.send(hwsim::register(family))?;
        Ok((socket.share()?, socket, family))
    });
    let (hearing, socket, family) = opened.map_err(|fault| format!("{}: {fault}", hwsim::FAMILY))?;
    let (sender, woken) = channel();
    let lines = sender.clone();
    thread::spawn(move || hear(&hearing, &sender));
    thread::spawn(move || read(&lines));
    println!("ready");
    let mut air = Air { medium: Medium::new(radios, seed), socket, family, refused: 0, begun: Instant::now() };
    air.run(&woken);
    Ok(())
}

/// Gives on what the kernel says, until the socket fails.
fn hear(socket: &Socket, to: &Sender<Woken>) {
    loop {
        let datagram = match socket.receive() {
            Ok(datagram) => datagram,
            Err(fault) if fault.raw_os_error() == Some(libc::ENOBUFS) => {
                eprintln!("air: the kernel dropped frames: this program was too slow for them");
                continue;
            }
            Err(fault) => {
                eprintln!("air: {fault}");
                break;
            }
        };
        for said in netlink::messages(&datagram).filter_map(|message| hwsim::read(&message)) {
            if to.send(Woken::Kernel(said)).is_err() {
                return;
            }
        }
    }
    let _ = to.send(Woken::End);
}

/// Gives on the lines of standard input up to its end, or up to one that can't be read.
fn read(to: &Sender<Woken>) {
    for line in io::stdin().lock().lines().map_while(Result::ok) {
        if to.send(Woken::Line(line)).is_err() {
            return;
        }
    }
    let _ = to.send(Woken::End);
}

/// The medium, and the kernel for which it carries.
struct Air {
    medium: Medium,
    socket: Socket,
    family: u16,
    refused: u64,
    begun: Instant,
}

impl Air {
    fn run(&mut self, woken: &Receiver<Woken>) {
        loop {
            let now = self.now();
            for effect in self.medium.advance(now) {
                self.tell(&effect);
            }
            let next = match self.medium.due() {
                Some(due) => woken.recv_timeout(Duration::from_nanos(due.saturating_sub(self.now()))),
                None => woken.recv().map_err(RecvTimeoutError::from),
            };
            match next {
                Ok(Woken::Kernel(said)) => self.take(said),
                Ok(Woken::Line(line)) => self.answer(&line),
                Ok(Woken::End) | Err(RecvTimeoutError::Disconnected) => return,
                Err(RecvTimeoutError::Timeout) => {}
            }
        }
    }

    /// Nanoseconds since this began.
    fn now(&self) -> u64 {
        u64::try_from(self.begun.elapsed().as_nanos()).unwrap_or(u64::MAX)
    }

    fn take(&mut self, said: Said) {
        match said {
            Said::Sent(sent) => {
                let now = self.now();
                if let Some(effect) = self.medium.take(sent, now) {
                    self.tell(&effect);
                }
            }
            Said::Has(radio, address) => self.medium.give_address(radio, address),
            Said::HasNoMore(radio, address) => self.medium.take_address(radio, address),
            Said::Refused(number) => {
                if self.refused == 0 {
                    eprintln!("air: the kernel refused something: {}", io::Error::from_raw_os_error(number));
                }
                self.refused += 1;
            }
        }
    }

    fn tell(&mut self, effect: &Effect) {
        let message = match effect {
            Effect::Delivered { to, frame, rate, frequency } => {
                hwsim::delivery(self.family, *to, frame, *rate, *frequency)
            }
            Effect::Done { sent, tried, acknowledged } => hwsim::report(self.family, sent, tried, *acknowledged),
        };
        if let Err(fault) = self.socket.send(message) {
            eprintln!("air: {fault}");
        }
    }

    fn answer(&mut self, line: &str) {
        match self.obey(line) {
            Ok(()) => println!("ok"),
            Err(fault) => println!("fault {fault}"),
        }
    }

    fn obey(&mut self, line: &str) -> Result<(), String> {
        match line.trim().split_once(' ').unwrap_or((line.trim(), "")) {
            ("lose", rule) => self.medium.rules.add(rule.parse()?),
            ("clear", "") => self.medium.rules.clear(),
            ("queue", words) => self.queue_by(words)?,
            ("sleepers", word) => self.medium.sleepers.set_ears(word.parse()?),
            ("has", words) => {
                let (radio, address) = words.split_once(' ').ok_or("a radio and an address are wanted")?;
                let address = frame::read_address(address).ok_or_else(|| format!("{address} is no address"))?;
                self.medium.give_address(radio.parse()?, address);
            }
            ("forget", "") => self.medium.clear_counts(),
            ("report", "") => {
                for (way, count) in self.medium.counts() {
                    let to = way.to.map_or_else(|| "group".to_owned(), |radio| radio.to_string());
                    println!(
                        "from {} to {to} {} at {} tries {} heard {} acknowledged {}",
                        way.from, way.kind, way.rate, count.tries, count.heard, count.acknowledged
                    );
                }
                println!("refused {}", self.refused);
            }
            ("airtime", "") => self.medium.airtimes().for_each(|(flow, airtime)| println!("{flow} {airtime}")),
            _ => return Err(format!("nothing is known of the line `{line}`")),
        }
        Ok(())
    }

    /// Obeys the words behind `queue`.
    fn queue_by(&mut self, words: &str) -> Result<(), String> {
        let (radio, discipline) = words.split_once(' ').ok_or("a radio and how it queues are wanted")?;
        for effect in self.medium.queue_by(radio.parse()?, discipline.parse()?) {
            self.tell(&effect);
        }
        Ok(())
    }
}
