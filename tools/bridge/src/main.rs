//! The bridge between the program's word `live` and a Linux machine's radio and wired ports: the way of a frame.
//! `tools/live` checks all, sets the interfaces up, starts this, and takes down what it set up; docs/BRIDGE.md tells
//! how.
//!
//! ```text
//!      what comes                                                                        the program
//!
//!  mon0 ───▶ filter ───▶ recvmmsg ──▶ judging  ──▶ queue: two of each     ──▶ feeder ═══▶ ┌────────────────┐
//!            (kernel)    8 at most    goes on, or  network, one of the        pipe of 32  │                │
//!  wire1 ──────────────▶ a call       is left out  air for all, which take    events at   │   apctl live   │
//!  wire2 ──────────────▶              and counted  turns                      most unread │   --octets     │
//!                                                                                 ▲       │                │
//!  the clock, `tables` of tools/live ─────────────────────────────────────────────┘       │                │
//!                                                                                         │                │
//!  wire1 ◀─┬─ send ◀─────────── wire: each in order;                 ◀═══════════════════ │                │
//!  wire2 ◀─┘  8 at most in a row                                                records  │                │
//!  mon0 ◀──── beacons, at once ◀─ air                                                     └────────────────┘
//!  mon0 ◀──── as much as the  ◀── downlink: whose turn it is of the networks, and what goes once more (proved)
//!             radio sends in      scheduler: which receiver of a network; links: at which rate
//!             8 milliseconds  ◀── in_flight: what the radio has at once
//!  mon0 ───▶ what became of it ─▶ corrects the shares
//!  people ◀──────────────────── lines of tables and faults
//! ```
//!
//! It promises: frames of the air for one network stay in their order, frames of the air for all networks, and frames
//! of each wire. What is for all and what is for one network may overtake each other (`inbound::queue`). What is sent
//! by each wire stays in its order, and on the air to each receiver.
//!
//! A unit that nobody acknowledged is sent once more, if none went to its station since. Each frame that comes is given
//! to the program once, or counted as left out or dropped, but for what the kernel's filter keeps out: control frames,
//! and frames for no network. A beginning of a beacon interval waits for none of the frames that wait. A beacon goes
//! before all that waits, group frames of its network included; what the program sends after a beacon never goes before
//! it. While a network has frames waiting for the air, no other one gets more than its share of it and some frames
//! (`downlink`). All memory is bounded. One thread does all by `epoll`, and waits nowhere else but where many frames
//! come for a millisecond at most, in which some gather (`batching`). What may make a writer wait, standard error, the
//! record and what `tools/live` is told, threads of their own write (`os::background_writer`): what these don't take in
//! time is dropped and counted.
//!
//! It leaves every decision on a frame to the program, and leaves to `tools/live` all that takes rights: it has none of
//! its own (`os::sandbox`). It speaks with that by lines of a Unix socket: it reads `state`, with the files by which
//! stations stay, `open PLACE...`, once the interfaces are there, with their sockets, `wire PLACE`, with the socket of
//! a wire that is there again, `tables`, and `dismiss PLACE...`, by which all stations of these networks are told to
//! join again; the end of its input ends it. It writes `ready`, once the networks are open, `sending`, once the first
//! beacon was seen as sent, `unsent` if none was for a while, and `sending` again, `elsewhere MHZ` if the radio
//! hears on another frequency than its channel's, and `here` once it is back, `alive` while the program answers, `down
//! PLACE` if a wire ended, `dismissed`, `status N` with the status of the program, and `fault CODE TEXT`, after which
//! it ends with status 1.
//!
//! If a bridge takes the place of another one, stations stay (`restart::replay`). The state that the one before
//! has left in the files says who is associated, and by which request. The new program is told of these before anything
//! else, and the record marks that by comments. What it answers to these events is swallowed: that alone of its answers
//! isn't sent. Each second in which something changed, and at its end, the bridge leaves such a state itself
//! (`restart::state_files`).
//!
//! By itself (`stations`) it watches which stations there are, tells what happens to them, and asks those
//! that have fallen silent whether they are there; for one that isn't, or that doesn't associate if a network is
//! nearly full, it tells the program that the station left. It answers who connects to its socket (`control::clients`).
#![deny(unsafe_code)]
// Shifts go before `&` and `|`, and need no parentheses for that: clippy 1.85 alone asks for them.
#![allow(clippy::precedence)]

mod apctl;
mod control;
mod formats;
mod hashing;
mod inbound;
mod network;
mod os;
mod outbound;
mod restart;
mod run;
mod spare;
mod stations;
#[cfg(test)]
mod testing;

use crate::os::clock::Duration;
use std::os::unix::io::{AsFd, RawFd};
use std::process::ExitCode;

use crate::apctl::program::Program;
use crate::apctl::recording::Recording;
use crate::restart::state::Setting;
use crate::restart::state_files::MOST_WRITTEN;
use control::arguments::Arguments;
use control::clients::Clients;
use control::faults::{self, Fault};
use control::log;
use control::notices::{self, say, Notice};
use control::parent::{Handed, Requests};
use os::handed::{inherited, inherited_listener};
use os::interfaces::Interfaces;
use os::packet_socket::PacketSocket;
use os::port::OfSocket;
use os::sandbox::{self, Bounds};
use run::{Bridge, Manner};

const WRONG_WORDS: u8 = 2;

/// Writes what of notices and the log still waits, whatever ends the bridge.
struct FinishesWriting;

impl Drop for FinishesWriting {
    fn drop(&mut self) {
        notices::finish();
        log::finish();
    }
}

fn main() -> ExitCode {
    let _at_the_end = FinishesWriting;
    begin()
}

fn begin() -> ExitCode {
    match Arguments::read(std::env::args().skip(1)) {
        Err(fault) => {
            faults::tell(fault);
            ExitCode::from(WRONG_WORDS)
        }
        Ok(words) => match run(&words) {
            Ok(()) => ExitCode::SUCCESS,
            Err(fault) => {
                say(&Notice::Fault(fault));
                ExitCode::FAILURE
            }
        },
    }
}

/// Runs the bridge until it is ended, or until a fault. It serves once it has given up what it doesn't need then.
fn run(words: &Arguments) -> Result<(), Fault> {
    log::begin(&words.name);
    sandbox::give_up_capabilities()?;
    let requests =
        std::io::stdin().as_fd().try_clone_to_owned().map_err(|fault| Fault::of("standard input", &fault))?;
    sandbox::bound_files(most_of_files(words))?;
    let record = words.record.as_ref().map(|named| record(named, words.record_limit)).transpose()?;
    let clients = words.socket.map(listen).transpose()?;
    let bounds = words.bounds.map(|memory| Bounds::of(&words.program, &words.config, memory)).transpose()?;
    let (program, feeder) = Program::start(&words.program, &words.config, bounds, record)?;
    let manner = Manner {
        setting: Setting { phy: words.phy.clone(), channel: words.channel, interval: words.interval },
        networks: words.networks.clone(),
        by: words.by,
        most_silence: Some(Duration::from_secs(words.idle.into())).filter(|silence| !silence.is_zero()),
        tells_wires: words.tells_wires,
        tells_alive: words.tells_alive,
        has_sent: words.has_sent,
    };
    log::write_in_background()?;
    notices::say_in_background()?;
    let process = program.process();
    let mut bridge = Bridge::new(program, feeder, Requests::new(requests.into()), clients, manner)?;
    sandbox::keep_to_calls(process)?;
    bridge.serve(|handed| open(words, handed))
}

/// How many octets a file has at most that the bridge writes: those of the state, and the record. There is no bound if
/// the record has no limit, or the log is led into a file.
fn most_of_files(words: &Arguments) -> Option<u64> {
    let of_record = if words.record.is_some() { words.record_limit } else { Some(0) };
    of_record.filter(|_| !log::is_file()).map(|most| most.max(MOST_WRITTEN as u64))
}

/// The file of the record, which `tools/live` has made.
fn record((descriptor, name): &(RawFd, String), limit: Option<u64>) -> Result<Recording, Fault> {
    let file = inherited(*descriptor).map_err(|fault| Fault::of(format!("--record {name}"), &fault))?;
    Recording::new(name, file.into(), limit).map_err(|fault| Fault::of("no thread for the record", &fault))
}

/// The socket by which whoever wants asks the bridge.
fn listen(descriptor: RawFd) -> Result<Clients, Fault> {
    Clients::new(inherited_listener(descriptor).map_err(|fault| Fault::of("--socket", &fault))?)
}

/// The sockets of the monitor interface and of each wire, as `tools/live` opened them.
fn open(words: &Arguments, handed: Handed) -> Result<Interfaces<PacketSocket>, Fault> {
    let mut sockets = handed.sockets.into_iter();
    let mut next = |interface: &str| match sockets.next() {
        Some(socket) => Ok(PacketSocket::of(interface, socket)),
        None => Err(Fault::Request(format!("{interface}: no socket was handed over"))),
    };
    let (monitor, beacons, acknowledged) = (next(&words.monitor)?, next(&words.monitor)?, next(&words.monitor)?);
    let mut wires: Vec<Option<PacketSocket>> = words.networks.iter().map(|_| None).collect();
    for place in handed.wires {
        let wire = words.networks.get(place).and_then(|network| network.wire.as_deref());
        let wire = wire.ok_or_else(|| Fault::Request(format!("the network of the place {place} has no wire")))?;
        wires[place] = Some(next(wire)?);
    }
    Ok(Interfaces::new(monitor, beacons, wires).with_acknowledged(acknowledged))
}
