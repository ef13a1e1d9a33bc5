//! What is said to the program and what it answers, in records of octets (docs/FORMATS.md, 'Lines as they come'). All
//! else of the bridge knows events and answers alone.
use std::fmt;

use crate::formats::frames::Address;
use crate::spare::copy_of;

/// What is said to the program.
#[derive(Debug, Clone, Copy, PartialEq, Eq)]
pub enum Event<'a> {
    /// A frame was heard on the air.
    Air(&'a [u8]),
    /// A frame came over the wire of this network.
    Wire(Address, &'a [u8]),
    /// A beacon interval begins.
    Tick,
    /// The tables are asked for.
    Tables,
}

/// What the program says.
#[derive(Debug, Clone, PartialEq, Eq)]
pub enum Answer {
    /// So many networks are open.
    Ready(usize),
    /// This network sends a frame on the air.
    Air(Address, Vec<u8>),
    /// This network sends a frame on its wire.
    Wire(Address, Vec<u8>),
    /// A line for people, without its end: of a table, or of what was refused.
    Told(String),
}

/// The program said what isn't known: the begin of it.
#[derive(Debug, Clone, PartialEq, Eq)]
pub struct Unknown(String);

impl fmt::Display for Unknown {
    fn fmt(&self, to: &mut fmt::Formatter<'_>) -> fmt::Result {
        write!(to, "the program wrote what isn't known: {}", self.0)
    }
}

/// What the program answers to a mark, up to the number of its record.
const MARK_ANSWER: &str = "fault L4 record ";
const TOLD_LEN: usize = 80;
const RECORD_HEADER_LEN: usize = 9;
pub const NOBODY: Address = Address::of([0; 6]);

/// Appends the record of an event: its kind, a BSSID, a length with the low octet first, and so many octets.
pub(super) fn push_record(event: Event<'_>, to: &mut Vec<u8>) {
    let (kind, bssid, octets): (u8, Address, &[u8]) = match event {
        Event::Air(octets) => (b'A', NOBODY, octets),
        Event::Wire(bssid, octets) => (b'W', bssid, octets),
        Event::Tick => (b'T', NOBODY, &[]),
        Event::Tables => (b'I', NOBODY, &[]),
    };
    let length = u16::try_from(octets.len()).expect("frames of more than 4,096 octets are left out before");
    to.push(kind);
    to.extend(bssid.octets());
    to.extend(length.to_le_bytes());
    to.extend(octets);
}

/// Appends the record of a mark: it changes nothing, and its answer names its number among all records. It is a frame of
/// a wire of a network that there can't be, since a BSSID is no group's.
pub(super) fn push_mark(to: &mut Vec<u8>) {
    push_record(Event::Wire(Address::BROADCAST, &[]), to);
}

/// The number of the mark that a line of the program answers, if it is such a line.
pub fn answered_mark(line: &str) -> Option<u64> {
    line.strip_prefix(MARK_ANSWER)?.parse().ok()
}

/// Reads the answers of the program as they come, however they are cut.
#[derive(Debug, Default)]
pub struct Answers {
    /// What came, and room for more behind it.
    octets: Vec<u8>,
    /// Where what was not yet read of `octets` begins, and where what came ends.
    begin: usize,
    end: usize,
}

impl Answers {
    /// Room for the next piece, of so many octets.
    pub(super) fn room(&mut self, octets: usize) -> &mut [u8] {
        if self.begin > 0 {
            self.octets.copy_within(self.begin..self.end, 0);
            (self.begin, self.end) = (0, self.end - self.begin);
        }
        let most = self.end + octets;
        if self.octets.len() < most {
            self.octets.resize(most, 0);
        }
        &mut self.octets[self.end..most]
    }

    /// A piece came: the first so many octets of the room for it.
    pub(super) fn came(&mut self, octets: usize) {
        self.end += octets;
    }

    #[cfg(test)]
    pub fn take(&mut self, piece: &[u8]) {
        self.room(piece.len()).copy_from_slice(piece);
        self.came(piece.len());
    }

    /// The next whole answer, or `None` if more has to come. A record that is cut is one that the program didn't
    /// write whole.
    pub fn next(&mut self) -> Result<Option<Answer>, Unknown> {
        let found = next_record(&self.octets[self.begin..self.end])?;
        Ok(found.map(|(answer, length)| {
            self.begin += length;
            answer
        }))
    }
}

/// The begin of what isn't known.
fn unknown(octets: &[u8]) -> Unknown {
    Unknown(octets.iter().take(TOLD_LEN).flat_map(|octet| std::ascii::escape_default(*octet)).map(char::from).collect())
}

/// The answer of the first record, with the record's length.
fn next_record(octets: &[u8]) -> Result<Option<(Answer, usize)>, Unknown> {
    let kind = match octets.first() {
        None => return Ok(None),
        Some(kind @ (b'O' | b'A' | b'W' | b'N')) => *kind,
        Some(_) => return Err(unknown(octets)),
    };
    let (bssid, length) = match (Address::at(octets, 1), octets.get(7..RECORD_HEADER_LEN)) {
        (Some(bssid), Some(length)) => (bssid, usize::from(u16::from_le_bytes([length[0], length[1]]))),
        _ => return Ok(None),
    };
    let end = RECORD_HEADER_LEN + length;
    match octets.get(RECORD_HEADER_LEN..end) {
        None => Ok(None),
        Some(found) => Ok(Some((record_of(kind, bssid, found).ok_or_else(|| unknown(octets))?, end))),
    }
}

fn record_of(kind: u8, bssid: Address, octets: &[u8]) -> Option<Answer> {
    match kind {
        b'A' => Some(Answer::Air(bssid, copy_of(octets))),
        b'W' => Some(Answer::Wire(bssid, copy_of(octets))),
        b'N' if bssid == NOBODY => Some(Answer::Told(String::from_utf8_lossy(octets.strip_suffix(b"\n")?).into())),
        b'O' if octets.is_empty() && bssid.octets()[..5] == [0; 5] => Some(Answer::Ready(bssid.octets()[5].into())),
        _ => None,
    }
}

#[cfg(test)]
mod tests {
    use super::*;
    use crate::apctl::program::PIECE_LEN;
    use crate::testing::samples::{OTHER, OURS};

    /// All answers of records, in pieces of this length.
    fn read(octets: &[u8], length: usize) -> Result<Vec<Answer>, Unknown> {
        let mut answers = Answers::default();
        let mut found = Vec::new();
        for piece in octets.chunks(length) {
            answers.take(piece);
            while let Some(answer) = answers.next()? {
                found.push(answer);
            }
        }
        Ok(found)
    }

    fn record(kind: u8, bssid: Address, octets: &[u8]) -> Vec<u8> {
        let length = u16::try_from(octets.len()).unwrap().to_le_bytes();
        [&[kind][..], bssid.octets(), &length, octets].concat()
    }

    #[test]
    fn records_say_events() {
        let mut said = Vec::new();
        let long = vec![7; 0x0102];
        for event in [Event::Air(&long), Event::Wire(OURS, &[1]), Event::Tick, Event::Tables] {
            push_record(event, &mut said);
        }
        let air = [&b"A\0\0\0\0\0\0\x02\x01"[..], &long].concat();
        let rest = b"W\x02\0\0\0\x01\x01\x01\0\x01T\0\0\0\0\0\0\0\0I\0\0\0\0\0\0\0\0";
        assert_eq!(said, [&air[..], rest].concat());
    }

    /// Only the fault of a frame of a wire that no network has is the answer to a mark.
    #[test]
    fn a_mark_is_known_by_its_answer() {
        let mut said = Vec::new();
        push_mark(&mut said);
        assert_eq!(said, b"W\xff\xff\xff\xff\xff\xff\0\0");
        assert_eq!(answered_mark("fault L4 record 1234567890123"), Some(1_234_567_890_123));
        for line in ["fault L4 record x", "fault L4 record ", "fault L1 record 7", "fault L4 line 7", "end"] {
            assert_eq!(answered_mark(line), None, "{line}");
        }
    }

    /// However long the program's tables are, what is read of them in one piece has few rows.
    #[test]
    fn a_piece_has_few_rows_of_tables() {
        let row = record(b'N', NOBODY, b"station 02:aa:00:00:00:01 authenticated\n");
        let piece: Vec<u8> = row.iter().copied().cycle().take(PIECE_LEN).collect();
        assert_eq!(read(&piece, PIECE_LEN).unwrap().len(), 1337);
    }

    #[test]
    fn records_are_read_however_they_are_cut() {
        let octets = [
            record(b'O', Address::of([0, 0, 0, 0, 0, 16]), b""),
            record(b'A', OURS, &[0x80, 0xff]),
            record(b'W', OTHER, b""),
            record(b'N', NOBODY, b"fault L1 record 7\n"),
            record(b'A', OURS, &vec![9; 4096]),
            b"A\x02\0".to_vec(),
        ]
        .concat();
        let wanted = vec![
            Answer::Ready(16),
            Answer::Air(OURS, vec![0x80, 0xff]),
            Answer::Wire(OTHER, vec![]),
            Answer::Told("fault L1 record 7".into()),
            Answer::Air(OURS, vec![9; 4096]),
        ];
        for length in 1..=octets.len() {
            assert_eq!(read(&octets, length), Ok(wanted.clone()), "{length}");
        }
    }

    #[test]
    fn what_is_not_known_is_told() {
        for octets in [
            record(b'X', NOBODY, b""),
            record(b'O', OURS, b""),
            record(b'O', NOBODY, b"1"),
            record(b'N', OURS, b"a\n"),
            record(b'N', NOBODY, b"a"),
        ] {
            assert!(read(&octets, 4).is_err(), "{octets:?}");
        }
    }
}
