//! What this access point put on a wire within the last second, so that a frame that a loop or a reflecting switch brings
//! back is known as an *echo*. A wire may fill a short frame up with zeros (IEEE Std 802.3, 3.2.8), so zeros at its end
//! don't count.
use std::collections::VecDeque;
use std::hash::{BuildHasher, Hasher};

use crate::hashing::Seeds;
use crate::os::clock::{Duration, Instant, SECOND};

/// For how long a frame is known.
const KNOWN: Duration = SECOND;
/// How many frames of a wire are known at most.
const MOST: usize = 1024;
/// So much of a frame is looked at.
const LOOKED_AT: usize = 64;

/// The frames of one wire.
#[derive(Debug, Default)]
pub(super) struct Echoes {
    seeds: Seeds,
    sent: VecDeque<(Instant, u64)>,
    /// Until when a frame that isn't known may be an echo all the same, since more were put than are known.
    unsure_until: Option<Instant>,
}

impl Echoes {
    /// This access point puts a frame on the wire.
    pub(super) fn put(&mut self, frame: &[u8], now: Instant) {
        while self.sent.front().map_or(false, |(since, _)| *since + KNOWN < now) {
            self.sent.pop_front();
        }
        if self.sent.len() == MOST {
            let forgotten = self.sent.pop_front();
            self.unsure_until = forgotten.map(|(since, _)| since + KNOWN);
        }
        self.sent.push_back((now, self.mark(frame)));
    }

    /// Whether a frame that the wire brought may be an echo.
    pub(super) fn may_be(&self, frame: &[u8], now: Instant) -> bool {
        let mark = self.mark(frame);
        let lately = self.sent.iter().rev().take_while(|(since, _)| now <= *since + KNOWN);
        lately.map(|(_, sent)| *sent).any(|sent| sent == mark) || self.unsure_until.map_or(false, |until| now <= until)
    }

    fn mark(&self, frame: &[u8]) -> u64 {
        let looked_at = &frame[..frame.len().min(LOOKED_AT)];
        let end = looked_at.iter().rposition(|octet| *octet != 0).map_or(0, |last| last + 1);
        let mut hasher = self.seeds.build_hasher();
        hasher.write(&looked_at[..end]);
        hasher.finish()
    }
}

#[cfg(test)]
mod tests {
    use super::*;
    use crate::os::clock::MILLISECOND;
    use crate::testing::samples::at;

    #[test]
    fn a_frame_is_known_for_a_second_also_where_it_was_filled_up() {
        let mut echoes = Echoes::default();
        echoes.put(b"arp", at(SECOND));
        assert!(echoes.may_be(b"arp", at(SECOND)));
        assert!(echoes.may_be(b"arp\0\0\0\0", at(2 * SECOND)));
        assert!(!echoes.may_be(b"arp", at(2 * SECOND + MILLISECOND)));
        assert!(!echoes.may_be(b"arq", at(SECOND)));
        assert!(!echoes.may_be(b"", at(SECOND)));
        echoes.put(b"", at(SECOND));
        assert!(echoes.may_be(b"\0\0", at(SECOND)));
    }

    #[test]
    fn long_frames_are_told_apart_by_how_they_begin() {
        let mut echoes = Echoes::default();
        let long: Vec<u8> = (0..200).collect();
        echoes.put(&long, Instant::START);
        assert!(echoes.may_be(&long, Instant::START));
        for place in [0, LOOKED_AT - 1] {
            let mut other = long.clone();
            other[place] ^= 1;
            assert!(!echoes.may_be(&other, Instant::START), "{place}");
        }
    }

    /// If more frames go than are known, any frame may be an echo as long as one that was forgotten would be known.
    #[test]
    fn where_many_go_all_may_be_echoes() {
        let mut echoes = Echoes::default();
        let numbers = 0..=MOST as u32;
        numbers.clone().for_each(|number| echoes.put(&number.to_le_bytes(), at(number * MILLISECOND)));
        let stranger = u32::MAX.to_le_bytes();
        let mut many = Echoes::default();
        numbers.for_each(|number| many.put(&number.to_le_bytes(), at(SECOND)));
        assert!(many.may_be(&stranger, at(2 * SECOND)));
        assert!(!many.may_be(&stranger, at(2 * SECOND + MILLISECOND)));
        assert!(!echoes.may_be(&stranger, at(1024 * MILLISECOND)));
    }
}
