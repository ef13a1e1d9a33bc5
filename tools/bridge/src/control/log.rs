//! What is told to people on standard error. If the journal of systemd reads it, a line begins with its level
//! (sd-daemon(3)), and the journal has the time; else lines of what happened begin with the time, in UTC.
//!
//! While the bridge serves, it waits for no line to be written: what standard error doesn't take is dropped, counted
//! and told.
use std::fmt;
use std::fs::File;
use std::io::{self, ErrorKind, Write};
use std::os::unix::fs::MetadataExt;
use std::os::unix::io::AsFd;
use std::sync::{Mutex, MutexGuard, PoisonError};
use std::thread;
use std::time::UNIX_EPOCH;

use humantime::format_rfc3339_seconds;

use crate::control::faults::Fault;
use crate::os::background_writer::BackgroundWriter;
use crate::os::clock::{now, wall_now, Duration, Instant, SECOND};

/// How many lines are written in a second at most that stations of one network can cause.
const MOST_OF_NETWORK: u64 = 50;
/// How many lines are written in a second at most that stations can cause, of all networks: if there are more than
/// four, each has an equal part of these. So no other network's lines keep those of one out.
const MOST_A_SECOND: u64 = 200;
/// How many faults of the program are written in a second at most: want of memory is one of each event.
const MOST_FAULTS: u64 = 10;
/// How many octets of lines wait at most until standard error takes them: the tables of 16 networks of 2,007 stations
/// are half of that.
const MOST_WAITING: usize = 4 << 20;
/// How long what waits is written at the end.
const TO_FINISH: Duration = Duration::from_secs(2);
/// How often the thread that writes tries again if standard error is told not to wait.
const UNTIL_TAKEN: Duration = Duration::from_millis(10);

/// The name as long as it isn't known by which one a person has begun this.
pub(super) const UNNAMED: &str = "bridge";

static LOG: Mutex<Log> = Mutex::new(Log { name: None, stream: None, writer: None, dropped: 0 });

/// How lines begin, and where they go.
#[derive(Debug)]
struct Log {
    name: Option<String>,
    stream: Option<Stream>,
    /// By what lines are written that nobody waits for; without it each is written at once.
    writer: Option<BackgroundWriter>,
    /// How many lines had no room since one had.
    dropped: u64,
}

/// What standard error is.
#[derive(Debug, Clone, Copy, PartialEq, Eq)]
enum Stream {
    Journal,
    Other,
}

#[derive(Debug, Clone, Copy, PartialEq, Eq)]
pub enum Level {
    /// Something isn't as it should be.
    Warning,
    /// A person may want to look.
    Notice,
    Info,
}

impl Level {
    /// Its number of syslog(3).
    fn number(self) -> u8 {
        match self {
            Level::Warning => 4,
            Level::Notice => 5,
            Level::Info => 6,
        }
    }
}

/// Writes a line of this bridge. If nobody reads it any more, nothing is to be done.
pub fn write(level: Level, text: impl fmt::Display) {
    let text = text.to_string();
    let mut log = log();
    let line = log.line(level, String::new(), text);
    log.write(line);
}

/// Writes a line of what happened now.
pub fn write_event(level: Level, text: impl fmt::Display) {
    let text = text.to_string();
    let mut log = log();
    let line = log.event(level, text);
    log.write(line);
}

/// Writes a line of what happened now, which isn't as it should be.
pub fn warn(text: impl fmt::Display) {
    write_event(Level::Warning, text);
}

/// Writes a line of what happened now, at which a person may want to look.
pub fn notice(text: impl fmt::Display) {
    write_event(Level::Notice, text);
}

/// Writes a line of the program as it stands.
pub fn write_plain(line: &str) {
    log().write(format!("{line}\n"));
}

/// Learns what standard error is, and by which name lines are told from now on.
pub fn begin(name: &str) {
    let mut log = log();
    log.stream();
    log.name = Some(name.to_owned());
}

/// Whether standard error is led into a file.
pub fn is_file() -> bool {
    let stream = io::stderr().as_fd().try_clone_to_owned().map(File::from);
    stream.and_then(|stream| stream.metadata()).map_or(false, |found| found.is_file())
}

/// From now on nobody waits for a line to be written.
pub fn write_in_background() -> Result<(), Fault> {
    let stream = io::stderr().as_fd().try_clone_to_owned().map_err(|fault| Fault::of("standard error", &fault))?;
    write_in_background_to(stream.into())
}

/// By a thread that writes to this stream.
pub fn write_in_background_to(stream: File) -> Result<(), Fault> {
    let writer = BackgroundWriter::start(MOST_WAITING, write_to(stream));
    log().writer = Some(writer.map_err(|fault| Fault::of("no thread for the log", &fault))?);
    Ok(())
}

/// From now on each line is written before one goes on.
#[cfg(test)]
pub fn write_at_once() {
    log().writer = None;
}

/// Writes pieces whole, also if somebody has told standard error not to wait. What this stream doesn't take any more
/// is lost: nobody is left who could be told.
fn write_to(mut stream: File) -> impl FnMut(&[u8]) + Send {
    move |mut piece| {
        while !piece.is_empty() {
            match stream.write(piece) {
                Ok(0) => return,
                Ok(length) => piece = &piece[length..],
                Err(fault) if fault.kind() == ErrorKind::Interrupted => {}
                Err(fault) if fault.kind() == ErrorKind::WouldBlock => thread::sleep(UNTIL_TAKEN.into()),
                Err(_) => return,
            }
        }
    }
}

/// Writes what still waits, for a bounded time.
pub fn finish() {
    log().finish(TO_FINISH);
}

fn log() -> MutexGuard<'static, Log> {
    LOG.lock().unwrap_or_else(PoisonError::into_inner)
}

impl Log {
    /// A line of what happened now. The journal has the time by itself.
    fn event(&mut self, level: Level, text: impl fmt::Display) -> String {
        let date = format!("{} ", date(wall_now()));
        self.line(level, date, text)
    }

    /// A line with this start if standard error isn't the journal's.
    fn line(&mut self, level: Level, start: String, text: impl fmt::Display) -> String {
        let start = match self.stream() {
            Stream::Journal => format!("<{}>", level.number()),
            Stream::Other => start,
        };
        format!("{start}{}: {text}\n", self.name.as_deref().unwrap_or(UNNAMED))
    }

    /// What standard error is. It is looked at once, before the bridge may look at no file any more.
    fn stream(&mut self) -> Stream {
        let found = self.stream.unwrap_or_else(|| if looks_like_journal() { Stream::Journal } else { Stream::Other });
        self.stream = Some(found);
        found
    }

    fn write(&mut self, line: String) {
        self.tell_dropped();
        match &self.writer {
            None => drop(io::stderr().write_all(line.as_bytes())),
            Some(writer) if self.dropped == 0 && writer.push(line.into_bytes()).is_ok() => {}
            Some(_) => self.dropped += 1,
        }
    }

    /// Tells how many lines had no room, once there is some again.
    fn tell_dropped(&mut self) {
        if self.dropped > 0 {
            let lines = self.dropped;
            let line = self.event(Level::Warning, format_args!("{lines} lines are missing here: nothing took them"));
            if self.writer.as_ref().map_or(false, |writer| writer.push(line.into_bytes()).is_ok()) {
                self.dropped = 0;
            }
        }
    }

    fn finish(&mut self, most: Duration) {
        let until = now() + most;
        let left = self.writer.as_ref().map_or(0, |writer| writer.finish(most));
        if left == 0 && self.dropped > 0 {
            self.tell_dropped();
            if let Some(writer) = &self.writer {
                writer.finish(until.since(now()));
            }
        }
    }
}

/// Whether the variable names the device and inode of standard error.
fn looks_like_journal() -> bool {
    let stream = std::env::var("JOURNAL_STREAM").ok();
    stream
        .zip(std::fs::metadata("/proc/self/fd/2").ok())
        .map_or(false, |(stream, found)| stream == format!("{}:{}", found.dev(), found.ino()))
}

/// A moment of the wall clock, as `2026-11-25T22:30:50Z`.
fn date(since_1970: Duration) -> String {
    format_rfc3339_seconds(UNIX_EPOCH + std::time::Duration::from(since_1970)).to_string()
}

/// Bounds the lines that stations can cause, for each network by itself, or the program: what is more is counted, and
/// told once the second is over.
#[derive(Debug)]
pub struct Bounded {
    most: u64,
    second: Instant,
    /// Of each network its lines of this second.
    lines: Vec<u64>,
}

impl Bounded {
    /// For so many networks, of which nothing was written yet.
    pub fn new(networks: usize) -> Bounded {
        let part = MOST_A_SECOND / networks.max(1) as u64;
        Bounded { most: part.clamp(1, MOST_OF_NETWORK), second: Instant::START, lines: vec![0; networks] }
    }

    /// For the faults of the program, which are as of one network.
    pub fn of_faults() -> Bounded {
        Bounded { most: MOST_FAULTS, second: Instant::START, lines: vec![0] }
    }

    /// Nothing is written before the end of time.
    #[cfg(test)]
    pub fn quiet(networks: usize) -> Bounded {
        Bounded { most: 0, second: Instant::NEVER - SECOND, lines: vec![0; networks] }
    }

    /// Whether one more line of the network of this place may be written; it is counted in any case.
    pub fn takes(&mut self, network: usize) -> bool {
        self.lines[network] += 1;
        self.lines[network] <= self.most
    }

    /// Once a second is over, the next one begins; answers of which networks lines were left out in it, and how many.
    pub fn take_left_out(&mut self, now: Instant) -> Vec<(usize, u64)> {
        if now < self.second + SECOND {
            return Vec::new();
        }
        self.second = now;
        let counts = self.lines.iter_mut().map(std::mem::take).enumerate();
        let more = counts.map(|(network, lines)| (network, lines.saturating_sub(self.most)));
        more.filter(|(_, more)| *more > 0).collect()
    }
}

#[cfg(test)]
mod tests {
    use super::*;
    use crate::testing::samples::{at, read_all, NANOSECOND};
    use std::os::unix::io::OwnedFd;
    use std::os::unix::net::UnixStream;

    #[test]
    fn moments_are_written_as_dates() {
        for (seconds, wanted) in [
            (0, "1970-01-01T00:00:00Z"),
            (951_782_399, "2000-02-28T23:59:59Z"),
            (951_782_400, "2000-02-29T00:00:00Z"),
            (951_868_800, "2000-03-01T00:00:00Z"),
            (1_795_645_850, "2026-11-25T22:30:50Z"),
            (4_107_542_399, "2100-02-28T23:59:59Z"),
            (4_107_542_400, "2100-03-01T00:00:00Z"),
        ] {
            assert_eq!(date(seconds * SECOND), wanted);
        }
    }

    /// A log that writes by a thread to this stream, of which so many octets wait at most.
    fn log_to(stream: UnixStream, most_waiting: usize) -> Log {
        let writer = BackgroundWriter::start(most_waiting, write_to(OwnedFd::from(stream).into())).unwrap();
        Log { name: Some("live".to_owned()), stream: Some(Stream::Other), writer: Some(writer), dropped: 0 }
    }

    const LINES: usize = 50_000;

    fn line_of(number: usize) -> String {
        format!("{number:99}\n")
    }

    /// As when a terminal is paused. What fits waits, and is written once it goes on; the gap is told.
    #[test]
    fn where_nobody_reads_no_line_waits() {
        let (near, far) = UnixStream::pair().unwrap();
        let mut log = log_to(near, 10_000);
        (0..LINES).for_each(|number| log.write(line_of(number)));
        log.finish(Duration::from_millis(20));
        let reader = thread::spawn(|| read_all(far));
        log.finish(Duration::from_secs(20));
        assert_eq!(log.dropped, 0);
        log.write(line_of(LINES));
        log.finish(Duration::from_secs(20));
        drop(log);
        let (mut next, mut missing) = (0, 0);
        for line in reader.join().unwrap().lines() {
            let told = line.strip_suffix(" lines are missing here: nothing took them");
            if let Some((_, number)) = told.and_then(|told| told.split_once("Z live: ")) {
                let number: usize = number.parse().unwrap();
                (next, missing) = (next + number, missing + number);
            } else {
                assert_eq!(line, line_of(next).trim_end());
                next += 1;
            }
        }
        assert_eq!(next, LINES + 1);
        assert!(missing > LINES / 2, "{missing}");
    }

    /// As when whoever shares standard error has told it not to wait.
    #[test]
    fn a_stream_that_does_not_wait_gets_each_line() {
        let (near, far) = UnixStream::pair().unwrap();
        near.set_nonblocking(true).unwrap();
        let mut log = log_to(near, LINES * 100);
        (0..LINES).for_each(|number| log.write(line_of(number)));
        let reader = thread::spawn(|| read_all(far));
        log.finish(Duration::from_secs(20));
        drop(log);
        assert_eq!(reader.join().unwrap(), (0..LINES).map(line_of).collect::<String>());
    }

    #[test]
    fn lines_that_nobody_reads_any_more_are_lost() {
        let (near, far) = UnixStream::pair().unwrap();
        drop(far);
        let mut log = log_to(near, 10_000);
        for number in 0..1000 {
            log.write(line_of(number));
            log.finish(Duration::from_secs(20));
        }
        assert_eq!(log.dropped, 0);
    }

    #[test]
    fn lines_of_a_second_are_bounded_for_each_network() {
        let mut bounded = Bounded::new(2);
        assert_eq!(bounded.take_left_out(at(5 * SECOND)), []);
        assert!((0..MOST_OF_NETWORK).all(|_| bounded.takes(1)));
        assert!((0..7).all(|_| !bounded.takes(1)));
        assert!(bounded.takes(0));
        assert_eq!(bounded.take_left_out(at(6 * SECOND - NANOSECOND)), []);
        assert!(!bounded.takes(1) && bounded.takes(0));
        assert_eq!(bounded.take_left_out(at(6 * SECOND)), [(1, 8)]);
        assert!(bounded.takes(1));
        assert_eq!(bounded.take_left_out(at(7 * SECOND)), []);
    }

    #[test]
    fn lines_of_all_networks_are_bounded() {
        for (networks, wanted) in [(0, 50), (1, 50), (4, 50), (5, 40), (16, 12), (1000, 1)] {
            let most = Bounded::new(networks).most;
            assert_eq!(most, wanted);
            assert!(networks > 200 || most * networks as u64 <= MOST_A_SECOND);
        }
    }
}
