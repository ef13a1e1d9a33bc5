//! What `tools/live`, which started the bridge, is told: lines of a Unix socket, which is the bridge's standard output.
//!
//! While the bridge serves, it waits for no line to be taken: a thread writes them. What `tools/live` doesn't take is
//! bounded, and what has no room is dropped, counted and told in the log.
use std::io::{self, Write};
use std::sync::{Mutex, MutexGuard, PoisonError};

use crate::control::faults::Fault;
use crate::control::log;
use crate::os::background_writer::BackgroundWriter;
use crate::os::clock::Duration;

/// How many octets of lines wait at most until `tools/live` takes them: some thousands of lines.
const MOST_WAITING: usize = 1 << 16;
/// How long what waits is written at the end.
const TO_FINISH: Duration = Duration::from_secs(2);

static NOTICES: Mutex<Notices> = Mutex::new(Notices { writer: None, dropped: 0 });

/// What `tools/live` is told.
#[derive(Debug, Clone, PartialEq, Eq)]
pub enum Notice {
    /// The networks are open.
    Ready,
    /// The wire of the network of this place has ended.
    Down(usize),
    /// The first beacon was seen as sent, or one again behind `Unsent`.
    Sending,
    /// The radio shows no beacon as sent any more (`beacon_watch`).
    Unsent,
    /// The radio hears on this frequency, in MHz, which isn't its channel's.
    Elsewhere(u16),
    /// It hears on its channel again.
    Here,
    /// The program has answered the last beginning of a beacon interval; told once a second at most.
    Alive,
    /// All stations that were to be told that they have to join again were told so.
    Dismissed,
    /// The program has ended with this status.
    Status(i32),
    /// The bridge ends, since this is so.
    Fault(Fault),
}

/// By what `tools/live` is told.
#[derive(Debug)]
struct Notices {
    /// Without it each line is written at once.
    writer: Option<BackgroundWriter>,
    /// How many lines had no room.
    dropped: u64,
}

/// Tells `tools/live`. If that has ended nothing is to be done: the bridge's input has ended too.
pub fn say(notice: &Notice) {
    notices().say(notice);
}

/// From now on nobody waits for a line to be taken.
pub fn say_in_background() -> Result<(), Fault> {
    notices().write_by(|line| drop(write_out(line)))
}

/// Writes what still waits, for a bounded time.
pub fn finish() {
    notices().finish(TO_FINISH);
}

fn notices() -> MutexGuard<'static, Notices> {
    NOTICES.lock().unwrap_or_else(PoisonError::into_inner)
}

fn write_out(line: &[u8]) -> io::Result<()> {
    let mut output = io::stdout();
    output.write_all(line).and_then(|()| output.flush())
}

impl Notices {
    fn write_by(&mut self, write: impl FnMut(&[u8]) + Send + 'static) -> Result<(), Fault> {
        let writer = BackgroundWriter::start(MOST_WAITING, write);
        self.writer = Some(writer.map_err(|fault| Fault::of("no thread for notices", &fault))?);
        Ok(())
    }

    fn say(&mut self, notice: &Notice) {
        let line = line_of(notice).into_bytes();
        match &self.writer {
            None => drop(write_out(&line)),
            // It is told again in a second: none has to wait behind what isn't taken.
            Some(writer) if *notice == Notice::Alive && !writer.is_empty() => {}
            Some(writer) if writer.push(line).is_ok() => {}
            Some(_) => {
                self.dropped += 1;
                if self.dropped == 1 {
                    log::warn("tools/live takes no notices: those that have no room are lost");
                }
            }
        }
    }

    fn finish(&mut self, most: Duration) {
        let left = self.writer.as_ref().map_or(0, |writer| writer.finish(most));
        if left > 0 || self.dropped > 0 {
            let dropped = self.dropped;
            log::warn(format_args!("tools/live took no notices: {dropped} are lost, and {left} octets of others"));
        }
    }
}

fn line_of(notice: &Notice) -> String {
    match notice {
        Notice::Ready => "ready\n".to_owned(),
        Notice::Down(place) => format!("down {place}\n"),
        Notice::Sending => "sending\n".to_owned(),
        Notice::Unsent => "unsent\n".to_owned(),
        Notice::Elsewhere(frequency) => format!("elsewhere {frequency}\n"),
        Notice::Here => "here\n".to_owned(),
        Notice::Alive => "alive\n".to_owned(),
        Notice::Dismissed => "dismissed\n".to_owned(),
        Notice::Status(status) => format!("status {status}\n"),
        Notice::Fault(fault) => format!("fault {} {}\n", fault.code(), fault.to_string().replace('\n', " ")),
    }
}

#[cfg(test)]
mod tests {
    use super::*;
    use std::io::Read;
    use std::os::unix::net::UnixStream;

    #[test]
    fn notices_are_lines() {
        let fault = Fault::WrongAnswer("two\nlines".to_owned());
        let notices = [Notice::Down(2), Notice::Unsent, Notice::Sending, Notice::Elsewhere(2412), Notice::Here];
        let lines: String = notices.iter().chain([&Notice::Fault(fault)]).map(line_of).collect();
        assert_eq!(lines, "down 2\nunsent\nsending\nelsewhere 2412\nhere\nfault 7 two lines\n");
    }

    /// Who takes nothing, as one that is stopped, makes nobody wait. What had room comes in its order.
    #[test]
    fn nobody_waits_for_one_that_takes_no_notices() {
        let (mut near, mut far) = UnixStream::pair().unwrap();
        let mut notices = Notices { writer: None, dropped: 0 };
        notices.write_by(move |line| near.write_all(line).unwrap()).unwrap();
        (0..30_000).for_each(|place| notices.say(&Notice::Down(place)));
        assert!(notices.dropped > 10_000, "{}", notices.dropped);
        let dropped = notices.dropped;
        (0..1000).for_each(|_| notices.say(&Notice::Alive));
        assert_eq!(notices.dropped, dropped);
        let reader = std::thread::spawn(move || {
            let mut found = String::new();
            far.read_to_string(&mut found).unwrap();
            found
        });
        notices.finish(Duration::from_secs(20));
        notices.say(&Notice::Alive);
        drop(notices);
        let found = reader.join().unwrap();
        let places: Vec<usize> = found.lines().filter_map(|line| line.strip_prefix("down ")?.parse().ok()).collect();
        assert!(places.windows(2).all(|pair| pair[0] < pair[1]));
        assert_eq!((places.len() as u64 + dropped, found.lines().last()), (30_000, Some("alive")));
        assert_eq!(found.lines().count(), places.len() + 1);
    }
}
