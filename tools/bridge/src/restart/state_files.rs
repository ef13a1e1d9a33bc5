//! The state that a bridge leaves for the next one, as it is written: into two files in turn, so that one of them is
//! whole whenever the bridge ends. `tools/live` made the files, for its own eyes alone, and hands them over.
use std::fs::File;
use std::io::{self, Read, Seek, SeekFrom, Write};
use std::os::unix::io::OwnedFd;

use crate::control::faults::reason;
use crate::control::log;
use crate::os::clock::{Duration, Instant, SECOND};

/// How many octets of a file are read at most.
pub const MOST_OCTETS: u64 = 1 << 28;
/// How many octets of a state are written at most: sixteen full networks have half of that.
pub const MOST_WRITTEN: usize = 1 << 25;
/// So often a state is written at most while something changes, for each so many octets of it, and at least: a state
/// that isn't written any more is old.
const EVERY: Duration = SECOND;
const OCTETS_OF_EVERY: usize = 1 << 18;
const AT_LEAST_EVERY: Duration = Duration::from_secs(20);
/// How many octets are written at once.
const MOST_AT_ONCE: usize = 1 << 16;

#[derive(Debug)]
pub struct StateFiles {
    files: [File; 2],
    /// The place of the file that is written next.
    next: usize,
    /// When a state was written last, of how many octets and of how many changes.
    written: Option<(Instant, usize, u64)>,
    /// When one couldn't be written last, unless one was since.
    failed: Option<Instant>,
    writing: Option<Writing>,
}

/// A state of which a part is written, after so many changes.
#[derive(Debug)]
struct Writing {
    text: Vec<u8>,
    written: usize,
    changes: u64,
}

impl StateFiles {
    /// Of these files, into which nothing was written yet.
    pub fn new(files: [OwnedFd; 2]) -> StateFiles {
        StateFiles { files: files.map(File::from), next: 0, written: None, failed: None, writing: None }
    }

    /// What the bridge before has left in them.
    pub fn left(&mut self) -> io::Result<Vec<Vec<u8>>> {
        let texts: io::Result<Vec<Vec<u8>>> = self.files.iter_mut().map(read_whole).collect();
        texts
    }

    /// The older one of the files is written next.
    pub fn begin_with(&mut self, place: usize) {
        self.next = place;
    }

    /// Whether it is time to write, after so many changes.
    pub fn is_due(&self, changes: u64, now: Instant) -> bool {
        match (self.failed, self.written) {
            (Some(since), _) => now >= since + AT_LEAST_EVERY,
            (None, None) => true,
            (None, Some((since, octets, before))) => {
                let every = EVERY * (1 + octets / OCTETS_OF_EVERY) as u32;
                now >= since + AT_LEAST_EVERY || changes != before && now >= since + every
            }
        }
    }

    /// Begins to write a state after so many changes; `write_on` writes it.
    pub fn begin(&mut self, text: Vec<u8>, changes: u64) {
        self.writing = Some(Writing { text, written: 0, changes });
    }

    /// Whether a part of a state is still to be written.
    pub fn is_writing(&self) -> bool {
        self.writing.is_some()
    }

    /// Writes the next piece of what was begun, in less than a millisecond. Until all is written the file isn't whole, and
    /// the other one is.
    pub fn write_on(&mut self, now: Instant) {
        if let Some(Writing { text, written, changes }) = self.writing.take() {
            let end = text.len().min(written + MOST_AT_ONCE);
            let outcome = self.write_part(&text, written, end);
            if outcome.is_ok() && end < text.len() {
                self.writing = Some(Writing { text, written: end, changes });
            } else {
                self.note(outcome, text.len(), changes, now);
            }
        }
    }

    /// Writes a whole state after so many changes.
    pub fn write(&mut self, text: &[u8], changes: u64, now: Instant) {
        self.writing = None;
        let outcome = self.write_part(text, 0, text.len());
        self.note(outcome, text.len(), changes, now);
    }

    fn write_part(&mut self, text: &[u8], from: usize, to: usize) -> io::Result<()> {
        if text.len() > MOST_WRITTEN {
            return Err(io::Error::from_raw_os_error(libc::EFBIG));
        }
        let file = &mut self.files[self.next];
        if from == 0 {
            file.seek(SeekFrom::Start(0))?;
        }
        file.write_all(&text[from..to])?;
        if to == text.len() {
            file.set_len(to as u64)?;
        }
        Ok(())
    }

    /// A state was written. If that failed it is told once, and tried again some time later, into the same file: the
    /// other one may still be used.
    fn note(&mut self, outcome: io::Result<()>, octets: usize, changes: u64, now: Instant) {
        match outcome {
            Ok(()) => {
                self.next = 1 - self.next;
                self.written = Some((now, octets, changes));
                if self.failed.take().is_some() {
                    log::notice("the state of stations is written again");
                }
            }
            Err(fault) => {
                if self.failed.replace(now).is_none() {
                    let text = reason(&fault);
                    log::warn(format_args!(
                        "the state of stations can't be written now: {text}: after a crash they join again"
                    ));
                }
            }
        }
    }
}

fn read_whole(file: &mut File) -> io::Result<Vec<u8>> {
    let mut text = Vec::new();
    file.seek(SeekFrom::Start(0))?;
    file.take(MOST_OCTETS).read_to_end(&mut text)?;
    Ok(text)
}

#[cfg(test)]
mod tests {
    use super::*;
    use crate::restart::state::{NetworkState, Setting, State};
    use crate::restart::state_text::MOST_AID;
    use crate::stations::station::KeptStation;
    use crate::testing::samples::{at, NANOSECOND, OURS, STATION};
    use std::fs::OpenOptions;
    use std::path::PathBuf;

    fn paths(name: &str) -> [PathBuf; 2] {
        [0, 1].map(|place| std::env::temp_dir().join(format!("state-files-{}-{name}-{place}", std::process::id())))
    }

    fn files_at(paths: &[PathBuf; 2]) -> StateFiles {
        let mut options = OpenOptions::new();
        options.read(true).write(true).create(true);
        StateFiles::new([0, 1].map(|place| options.open(&paths[place]).unwrap().into()))
    }

    #[test]
    fn it_is_written_into_both_files_in_turn_and_read_by_the_next() {
        let paths = paths("turns");
        let mut first = files_at(&paths);
        assert_eq!(first.left().unwrap(), [b"", b""]);
        first.write(b"a longer one", 1, Instant::START);
        first.write(b"second", 2, at(SECOND));
        first.write(b"third", 3, at(2 * SECOND));
        let mut next = files_at(&paths);
        assert_eq!(next.left().unwrap(), [&b"third"[..], b"second"]);
        next.begin_with(1);
        next.write(b"fourth", 0, Instant::START);
        assert_eq!(next.left().unwrap(), [&b"third"[..], b"fourth"]);
        paths.iter().for_each(|path| std::fs::remove_file(path).unwrap());
    }

    /// Until the last piece is written the file before is the one that is whole; then it is shorter if it has to be.
    #[test]
    fn in_pieces_it_is_whole_once_the_last_one_is_written() {
        let paths = paths("pieces");
        let mut state_files = files_at(&paths);
        state_files.write(b"first", 1, at(SECOND));
        state_files.write(&vec![b'z'; 5 * MOST_AT_ONCE], 2, at(2 * SECOND));
        state_files.write(b"third", 3, at(3 * SECOND));
        let text: Vec<u8> = (0..2 * MOST_AT_ONCE + 1).map(|number| number as u8).collect();
        state_files.begin(text.clone(), 4);
        for piece in 0..3 {
            assert!(state_files.is_writing());
            state_files.write_on(at((4 + piece) * SECOND));
            assert_eq!(std::fs::read(&paths[0]).unwrap(), b"third");
        }
        assert!(!state_files.is_writing());
        assert_eq!(std::fs::read(&paths[1]).unwrap(), text);
        assert!(!state_files.is_due(4, at(7 * SECOND)) && state_files.is_due(5, at(7 * SECOND)));
        // What was begun ends where a whole one is written.
        state_files.begin(text, 5);
        state_files.write_on(at(8 * SECOND));
        state_files.write(b"last", 6, at(9 * SECOND));
        assert!(!state_files.is_writing());
        assert_eq!(std::fs::read(&paths[0]).unwrap(), b"last");
        paths.iter().for_each(|path| std::fs::remove_file(path).unwrap());
    }

    #[test]
    fn it_is_written_once_a_second_at_most_and_each_twenty_at_least() {
        let paths = paths("times");
        let mut state_files = files_at(&paths);
        assert!(state_files.is_due(0, Instant::START));
        state_files.write(b"x", 5, at(SECOND));
        assert!(!state_files.is_due(6, at(2 * SECOND - NANOSECOND)) && state_files.is_due(6, at(2 * SECOND)));
        assert!(!state_files.is_due(5, at(21 * SECOND - NANOSECOND)) && state_files.is_due(5, at(21 * SECOND)));
        state_files.write(&vec![b'x'; 3 << 18], 6, at(30 * SECOND));
        assert!(!state_files.is_due(7, at(34 * SECOND - NANOSECOND)) && state_files.is_due(7, at(34 * SECOND)));
        state_files.write(&vec![b'x'; 60 << 18], 7, at(40 * SECOND));
        assert!(!state_files.is_due(8, at(60 * SECOND - NANOSECOND)) && state_files.is_due(8, at(60 * SECOND)));
        paths.iter().for_each(|path| std::fs::remove_file(path).unwrap());
    }

    #[test]
    fn where_nothing_can_be_written_it_is_tried_again_later_and_the_other_file_stays() {
        let full = || OpenOptions::new().write(true).open("/dev/full").unwrap();
        let mut failing = StateFiles::new([full(), full()].map(OwnedFd::from));
        assert!(failing.left().is_err());
        failing.write(b"x", 1, at(SECOND));
        let paths = paths("full");
        let mut state_files = files_at(&paths);
        state_files.write(b"first", 1, at(SECOND));
        let second = std::mem::replace(&mut state_files.files[1], full());
        for time in [2, 22, 42] {
            assert!(state_files.is_due(2, at(time * SECOND)));
            state_files.write(b"second", 2, at(time * SECOND));
            assert!(!state_files.is_due(3, at((time + 20) * SECOND - NANOSECOND)));
            assert_eq!(std::fs::read(&paths[0]).unwrap(), b"first");
        }
        state_files.files[1] = second;
        state_files.write(b"third", 3, at(62 * SECOND));
        assert_eq!(state_files.left().unwrap(), [&b"first"[..], b"third"]);
        assert!(state_files.is_due(4, at(63 * SECOND)) && !state_files.is_due(3, at(63 * SECOND)));
        paths.iter().for_each(|path| std::fs::remove_file(path).unwrap());
    }

    /// Sixteen full networks of stations with the longest requests have room.
    #[test]
    fn what_is_longer_than_any_state_is_not_written() {
        const LONGEST_REQUEST: usize = 198;
        const NETWORKS: usize = 16;
        let (listen, request) = (u16::MAX, vec![0; LONGEST_REQUEST]);
        let station = KeptStation { address: STATION, aid: MOST_AID, listen, dozes: true, has_dozed: true, request };
        let (ssid, rates, stations) = (vec![0; 32], vec![0; 20], vec![station; usize::from(MOST_AID)]);
        let (units, waiting) = (Some(u64::MAX), usize::MAX);
        let network = NetworkState { bssid: OURS, ssid, rates, units, waiting, stations };
        let setting = Setting { phy: "phy0".to_owned(), channel: 14, interval: u16::MAX };
        let state = State { setting, written: Instant::NEVER, is_last: true, networks: vec![network; NETWORKS] };
        assert!((MOST_WRITTEN / 4..MOST_WRITTEN / 2).contains(&state.text().len()));
        let paths = paths("long");
        let mut state_files = files_at(&paths);
        state_files.write(b"first", 1, at(SECOND));
        state_files.write(&vec![b'x'; MOST_WRITTEN + 1], 2, at(2 * SECOND));
        assert_eq!(state_files.left().unwrap(), [&b"first"[..], b""]);
        paths.iter().for_each(|path| std::fs::remove_file(path).unwrap());
    }
}
