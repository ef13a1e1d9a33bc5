//! The recording of `--record`: the lines that the program is given, as `run` reads them (docs/FORMATS.md).
use std::fs::File;
use std::io::{self, ErrorKind, Write};
use std::sync::{Arc, Mutex, MutexGuard, PoisonError};

use crate::apctl::program::PIECE_LEN;
use crate::apctl::protocol::Event;
use crate::control::faults::reason;
use crate::control::log::{self, Level};
use crate::os::background_writer::BackgroundWriter;
use crate::os::clock::{now, Duration};

/// How many octets of lines wait at most until the file has taken them: at 4,000 units a second those of some seconds.
const MOST_WAITING: usize = 16 << 20;
/// How long what waits is written at the end.
const TO_FINISH: Duration = Duration::from_secs(2);

/// The lines that the program is given, as `run` reads them; a question for the tables stands there as a comment.
/// Nobody waits for the file: lines that it doesn't take in time are left out, and a comment there counts them. If
/// nothing more can be written, as on a full disk, or the file has reached its limit, the recording stops: it is told
/// once, the file keeps whole lines alone, and all else goes on.
#[derive(Debug)]
pub struct Recording {
    name: String,
    /// Whole lines that don't wait for the file yet.
    pending: Vec<u8>,
    writer: BackgroundWriter,
    progress: Arc<Progress>,
    /// How many lines had no room since one had.
    left_out: usize,
    has_stopped: bool,
}

/// How far the file is.
#[derive(Debug, Default)]
struct Progress(Mutex<Reached>);

#[derive(Debug, Default, Clone)]
struct Reached {
    written: u64,
    fault: Option<String>,
}

impl Progress {
    fn lock(&self) -> MutexGuard<'_, Reached> {
        self.0.lock().unwrap_or_else(PoisonError::into_inner)
    }
}

impl Recording {
    /// Into a file that is open for writing and empty, and which has so many octets at most, if it has a limit; its
    /// name is for people.
    pub fn new(name: &str, file: File, limit: Option<u64>) -> io::Result<Recording> {
        Recording::with_most(name, file, limit, MOST_WAITING)
    }

    fn with_most(name: &str, file: File, limit: Option<u64>, most_waiting: usize) -> io::Result<Recording> {
        let progress = Arc::<Progress>::default();
        let mut lines = Lines { name: name.to_owned(), file: Some(file), limit, progress: Arc::clone(&progress) };
        let writer = BackgroundWriter::start(most_waiting, move |piece| lines.write(piece))?;
        Ok(Recording { name: name.to_owned(), pending: Vec::new(), writer, progress, left_out: 0, has_stopped: false })
    }

    /// How many octets were written.
    pub fn written(&self) -> u64 {
        self.progress.lock().written
    }

    /// Why the recording has stopped, if it has.
    pub fn fault(&self) -> Option<String> {
        self.progress.lock().fault.clone()
    }

    pub fn write(&mut self, event: Event<'_>) {
        if self.has_stopped {
            return;
        }
        if event == Event::Tables {
            self.pending.extend(b"# ");
        }
        push_line(event, &mut self.pending);
        if self.pending.len() >= PIECE_LEN {
            self.flush();
        }
    }

    /// A comment of this text, a line.
    pub fn remark(&mut self, text: &str) {
        if !self.has_stopped {
            self.pending.extend(comment(text));
        }
    }

    /// Hands over the lines that are pending, to be written by whom nobody waits for.
    pub fn flush(&mut self) {
        self.tell_left_out();
        self.has_stopped = self.progress.lock().fault.is_some();
        let piece = std::mem::take(&mut self.pending);
        let refused = match self.left_out {
            _ if piece.is_empty() => return,
            0 => self.writer.push(piece).err(),
            _ => Some(piece),
        };
        if let Some(piece) = refused {
            self.leave_out(&piece);
        }
    }

    fn leave_out(&mut self, lines: &[u8]) {
        if self.left_out == 0 {
            let name = &self.name;
            log::warn(format_args!("--record {name}: too slow, so lines are left out there"));
        }
        self.left_out += lines.iter().filter(|octet| **octet == b'\n').count();
    }

    /// If there is room again, a comment says how many lines are missing before it.
    fn tell_left_out(&mut self) {
        let (lines, name) = (self.left_out, &self.name);
        if lines == 0 {
            return;
        }
        let told = comment(&format!("{lines} lines are missing here: the record was too slow"));
        if self.writer.push(told).is_ok() {
            log::notice(format_args!("--record {name}: {lines} lines were left out there"));
            self.left_out = 0;
        }
    }

    /// Writes what waits, for a bounded time. What isn't written by then never is.
    pub fn finish(&mut self) {
        let left = self.finish_within(TO_FINISH);
        if left > 0 {
            self.writer.abandon();
            let name = &self.name;
            log::warn(format_args!(
                "--record {name}: too slow: its last {left} octets are left out, and a line may be cut"
            ));
        }
    }

    /// Writes what waits, for so long at most, and answers how many octets aren't written.
    fn finish_within(&mut self, most: Duration) -> usize {
        let until = now() + most;
        self.flush();
        let left = self.writer.finish(most);
        if left == 0 && self.left_out > 0 {
            self.tell_left_out();
            return self.writer.finish(until.since(now()));
        }
        left
    }
}

/// What writes the lines, in a thread of its own.
struct Lines {
    name: String,
    /// `None` once the recording has stopped.
    file: Option<File>,
    /// How many octets the file has at most.
    limit: Option<u64>,
    progress: Arc<Progress>,
}

impl Lines {
    /// Writes whole lines, as far as the file's limit lets them in.
    fn write(&mut self, lines: &[u8]) {
        let room = self.limit.map_or(u64::MAX, |limit| limit.saturating_sub(self.progress.lock().written));
        let fitting = match usize::try_from(room) {
            Ok(room) if room < lines.len() => whole_lines(&lines[..room]),
            _ => lines.len(),
        };
        self.write_out(&lines[..fitting]);
        if let Some(limit) = self.limit.filter(|_| fitting < lines.len() && self.file.is_some()) {
            self.stop(&[], Level::Notice, format!("the limit of {limit} octets is reached"));
        }
    }

    fn write_out(&mut self, lines: &[u8]) {
        let mut done = 0;
        while let Some(file) = self.file.as_mut().filter(|_| done < lines.len()) {
            match file.write(&lines[done..]) {
                Ok(0) => self.fail(&lines[..done], &io::Error::from(ErrorKind::WriteZero)),
                Ok(length) => done += length,
                Err(fault) if fault.kind() == ErrorKind::Interrupted => {}
                Err(fault) => self.fail(&lines[..done], &fault),
            }
        }
        if self.file.is_some() {
            self.progress.lock().written += done as u64;
        }
    }

    /// Stops the recording, since nothing more can be written.
    fn fail(&mut self, written: &[u8], fault: &io::Error) {
        self.stop(written, Level::Warning, reason(fault));
    }

    /// Stops the recording: so much was written, of which the last line is cut off if it isn't whole. Nobody is kept
    /// waiting meanwhile who asks how far the file is.
    fn stop(&mut self, written: &[u8], level: Level, why: String) {
        let written = self.progress.lock().written + whole_lines(written) as u64;
        if let Some(file) = self.file.take() {
            // What is no file, as a pipe, has no length to set.
            let _ = file.set_len(written);
        }
        let name = &self.name;
        let text = format!("--record {name}: {why}: nothing more is recorded. All else goes on");
        log::write_event(level, text);
        *self.progress.lock() = Reached { written, fault: Some(why) };
    }
}

fn whole_lines(octets: &[u8]) -> usize {
    octets.iter().rposition(|octet| *octet == b'\n').map_or(0, |place| place + 1)
}

fn comment(text: &str) -> Vec<u8> {
    format!("# {text}\n").into_bytes()
}

fn push_line(event: Event<'_>, to: &mut Vec<u8>) {
    match event {
        Event::Air(octets) => {
            to.extend(b"A ");
            push_digits(octets, to);
        }
        Event::Wire(bssid, octets) => {
            to.extend(format!("W {bssid} ").as_bytes());
            push_digits(octets, to);
        }
        Event::Tick => to.push(b'T'),
        Event::Tables => to.push(b'I'),
    }
    to.push(b'\n');
}

fn push_digits(octets: &[u8], to: &mut Vec<u8>) {
    let begin = to.len();
    to.resize(begin + 2 * octets.len(), 0);
    let outcome = hex::encode_to_slice(octets, &mut to[begin..]);
    debug_assert!(outcome.is_ok(), "two digits an octet");
}

#[cfg(test)]
mod tests {
    use super::*;
    use crate::testing::samples::{read_all, OTHER, OURS};
    use std::fs::OpenOptions;
    use std::os::unix::io::OwnedFd;
    use std::os::unix::net::UnixStream;
    use std::thread;

    fn file_of(name: &str) -> (std::path::PathBuf, File) {
        let path = std::env::temp_dir().join(format!("record-{}-{name}", std::process::id()));
        let file = File::create(&path).unwrap();
        (path, file)
    }

    #[test]
    fn each_event_is_a_line() {
        let mut lines = Vec::new();
        for event in
            [Event::Air(&[0x80, 0]), Event::Wire(OURS, &[]), Event::Wire(OTHER, &[0xff]), Event::Tick, Event::Tables]
        {
            push_line(event, &mut lines);
        }
        let wanted = "A 8000\nW 02:00:00:00:01:01 \nW 02:00:00:00:01:02 ff\nT\nI\n";
        assert_eq!(String::from_utf8(lines).unwrap(), wanted);
    }

    /// What a reader may wait for: a test doesn't wait longer.
    const LONG: Duration = Duration::from_secs(20);
    const SHORT: Duration = Duration::from_millis(20);

    #[test]
    fn events_are_recorded_as_lines() {
        let (path, file) = file_of("lines");
        let mut record = Recording::new("today", file, None).unwrap();
        [Event::Tick, Event::Tables, Event::Air(&[1, 2])].into_iter().for_each(|event| record.write(event));
        record.remark("a word");
        assert_eq!(std::fs::read_to_string(&path).unwrap(), "");
        record.finish_within(LONG);
        assert_eq!(std::fs::read_to_string(&path).unwrap(), "T\n# I\nA 0102\n# a word\n");
        assert_eq!((record.written(), record.fault()), (22, None));
        std::fs::remove_file(path).unwrap();
    }

    #[test]
    fn where_the_disk_is_full_the_recording_stops() {
        let file = OpenOptions::new().write(true).open("/dev/full").unwrap();
        let mut record = Recording::new("today", file, None).unwrap();
        record.write(Event::Tick);
        record.finish_within(LONG);
        assert_eq!((record.written(), record.fault().as_deref()), (0, Some("No space left on device")));
        record.flush();
        (0..1_000_000).for_each(|_| record.write(Event::Tick));
        assert!(record.pending.is_empty() && record.left_out == 0);
    }

    /// A file keeps whole lines alone.
    #[test]
    fn a_line_that_was_cut_is_taken_back() {
        let (path, mut file) = file_of("cut");
        file.write_all(b"T\nA 0102\nA 03").unwrap();
        let progress = Arc::new(Progress(Mutex::new(Reached { written: 2, fault: None })));
        let progress_too = Arc::clone(&progress);
        let mut lines = Lines { name: "today".to_owned(), file: Some(file), limit: None, progress: progress_too };
        lines.fail(b"A 0102\nA 03", &io::Error::from_raw_os_error(libc::ENOSPC));
        assert_eq!(std::fs::read_to_string(&path).unwrap(), "T\nA 0102\n");
        assert_eq!(progress.lock().written, 9);
        std::fs::remove_file(path).unwrap();
    }

    /// The file has whole lines, and never more octets than the limit; that it has ended is told as other ends are.
    #[test]
    fn a_record_ends_at_its_limit() {
        const LIMIT: u64 = 10;
        for lines in [&[b"T\n".repeat(3)][..], &[b"A 01\n".to_vec(), b"A 02\nA 03\nA 04\n".to_vec(), b"T\n".to_vec()]] {
            let (path, file) = file_of("limit");
            let progress = Arc::<Progress>::default();
            let progress_too = Arc::clone(&progress);
            let mut of_file =
                Lines { name: "today".to_owned(), file: Some(file), limit: Some(LIMIT), progress: progress_too };
            lines.iter().for_each(|piece| of_file.write(piece));
            let (all, Reached { written, fault }) = (lines.concat(), progress.lock().clone());
            let is_ended = all.len() as u64 > LIMIT;
            assert_eq!(std::fs::read(&path).unwrap(), all[..all.len().min(LIMIT as usize)]);
            assert_eq!((written, fault.is_some()), ((all.len() as u64).min(LIMIT), is_ended));
            assert!(fault.map_or(true, |fault| fault == "the limit of 10 octets is reached"));
            std::fs::remove_file(path).unwrap();
        }
    }

    #[test]
    fn what_takes_nothing_stops_the_recording() {
        let (near, far) = UnixStream::pair().unwrap();
        drop(far);
        let mut record = Recording::new("pipe", OwnedFd::from(near).into(), None).unwrap();
        record.write(Event::Tick);
        record.finish_within(LONG);
        assert_eq!(record.fault().as_deref(), Some("Broken pipe"));
    }

    const GAP: &str = " lines are missing here: the record was too slow";

    /// As a disk that is too slow: nobody waits for it, and once it goes on a comment says what is missing.
    #[test]
    fn what_is_not_taken_in_time_is_left_out_and_counted() {
        let (near, far) = UnixStream::pair().unwrap();
        let most = 4 * PIECE_LEN;
        let mut record = Recording::with_most("slow", OwnedFd::from(near).into(), None, most).unwrap();
        let events = 10 * most / 2;
        (0..events).for_each(|_| record.write(Event::Tick));
        record.finish_within(SHORT);
        let reader = thread::spawn(|| read_all(far));
        record.finish_within(LONG);
        record.write(Event::Tables);
        record.finish_within(LONG);
        let written = record.written();
        drop(record);
        let text = reader.join().unwrap();
        // There may be several gaps, as the thread that writes has its turns.
        let gap = |line: &str| line.strip_prefix("# ")?.strip_suffix(GAP)?.parse::<usize>().ok();
        let left_out: usize = text.lines().filter_map(gap).sum();
        assert!(left_out > events / 2, "{left_out}");
        assert_eq!((text.len() as u64, text.matches("T\n").count()), (written, events - left_out));
        assert!(text.ends_with("# I\n"), "{}", &text[text.len() - 200..]);
    }
}
