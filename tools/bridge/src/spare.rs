//! Room for the octets of frames. A frame that is gone leaves its room to one that comes: glibc keeps freed memory at
//! hand up to 1,032 octets alone, and to get more and to free it takes some 400 instructions a frame.
use std::cell::RefCell;
use std::rc::Rc;

/// Frames of more octets than the first and as many as the second at most are given such a room.
const SHORT: usize = 1024;
const ROOM: usize = 1600;
/// For how many frames room is kept.
const MOST_SPARE: usize = 64;

thread_local! {
    static SPARE: RefCell<Vec<Vec<u8>>> = RefCell::default();
}

pub fn copy_of(octets: &[u8]) -> Vec<u8> {
    if octets.len() <= SHORT || octets.len() > ROOM {
        return octets.to_vec();
    }
    let spare = SPARE.with(|spare| spare.borrow_mut().pop());
    let mut copy = spare.unwrap_or_else(|| Vec::with_capacity(ROOM));
    copy.extend_from_slice(octets);
    copy
}

/// A frame is gone.
pub fn give_back(mut octets: Vec<u8>) {
    if octets.capacity() != ROOM {
        return;
    }
    octets.clear();
    SPARE.with(|spare| {
        let mut spare = spare.borrow_mut();
        if spare.len() < MOST_SPARE {
            spare.push(octets);
        }
    });
}

/// A frame that others may have too is gone for one of them.
pub fn give_back_shared(octets: Rc<Vec<u8>>) {
    if let Ok(octets) = Rc::try_unwrap(octets) {
        give_back(octets);
    }
}

#[cfg(test)]
mod tests {
    use super::*;

    fn spare() -> usize {
        SPARE.with(|spare| spare.borrow().len())
    }

    #[test]
    fn one_that_is_gone_leaves_its_room_to_the_next_and_nothing_of_its_octets() {
        let first = copy_of(&[1; 1500]);
        let room = first.as_ptr();
        give_back(first);
        let next = copy_of(&[2; 1400]);
        assert_eq!((next.as_ptr(), &next[..]), (room, &[2; 1400][..]));
        give_back_shared(Rc::new(next));
        assert_eq!(spare(), 1);
        let shared = Rc::new(copy_of(&[3; ROOM]));
        give_back_shared(Rc::clone(&shared));
        assert_eq!((spare(), &shared[..]), (0, &[3; ROOM][..]));
    }

    #[test]
    fn room_is_kept_of_few_and_not_of_short_and_long_ones() {
        let many: Vec<Vec<u8>> = (0..2 * MOST_SPARE).map(|_| copy_of(&[4; 1400])).collect();
        assert!(many.iter().all(|octets| octets.len() == 1400));
        many.into_iter().for_each(give_back);
        assert_eq!(spare(), MOST_SPARE);
        for octets in [0, SHORT, ROOM + 1, 4096] {
            let other = copy_of(&vec![5; octets]);
            assert_eq!(other, vec![5; octets]);
            give_back(other);
            assert_eq!(spare(), MOST_SPARE);
        }
    }
}
