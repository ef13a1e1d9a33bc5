//! The words of the program, which the C library hands to what stands in `.init_array` before `main` begins.
use core::ptr::null_mut;
use core::sync::atomic::{AtomicPtr, AtomicUsize, Ordering};

static COUNT: AtomicUsize = AtomicUsize::new(0);
static WORDS: AtomicPtr<*const u8> = AtomicPtr::new(null_mut());

#[used]
#[link_section = ".init_array"]
static BEGIN: extern "C" fn(i32, *mut *const u8) = keep;

extern "C" fn keep(count: i32, words: *mut *const u8) {
    WORDS.store(words, Ordering::Relaxed);
    COUNT.store(usize::try_from(count).unwrap_or(0), Ordering::Relaxed);
}

/// No such word.
const NONE: isize = -1;
/// The word doesn't fit; the memory is full then.
const TOO_LONG: isize = -2;

/// Puts word `place` of the program, the first of which is its own name, to the start of `room` octets at `at`, and
/// answers how many it has. -1: there is no such word. -2: it has more.
///
/// # Safety
/// So many octets may be written there, and nobody else reads or writes them.
#[no_mangle]
pub unsafe extern "C" fn rattle_arg(place: usize, at: *mut u8, room: usize) -> isize {
    if place >= COUNT.load(Ordering::Relaxed) {
        return NONE;
    }
    let word = *WORDS.load(Ordering::Relaxed).add(place);
    if word.is_null() {
        NONE
    } else {
        copied(word, at, room)
    }
}

/// Copies a text that ends with an octet of 0, without that octet.
unsafe fn copied(text: *const u8, at: *mut u8, room: usize) -> isize {
    let mut len = 0;
    while *text.add(len) != 0 {
        if len == room {
            return TOO_LONG;
        }
        *at.add(len) = *text.add(len);
        len += 1;
    }
    len as isize
}

#[cfg(test)]
mod tests {
    use super::*;
    use std::os::unix::ffi::OsStringExt;

    const UNTOUCHED: u8 = 0xee;

    /// What a call answers, and the octets behind which nothing may be written.
    fn asked(place: usize, room: usize) -> (isize, Vec<u8>) {
        let mut octets = vec![UNTOUCHED; room + 8];
        // SAFETY: there is room for more.
        let answer = unsafe { rattle_arg(place, octets.as_mut_ptr(), room) };
        assert!(octets[room..].iter().all(|octet| *octet == UNTOUCHED));
        (answer, octets)
    }

    #[test]
    fn each_word_is_told() {
        let words: Vec<Vec<u8>> = std::env::args_os().map(OsStringExt::into_vec).collect();
        assert!(!words.is_empty());
        for (place, word) in words.iter().enumerate() {
            for room in [word.len(), word.len() + 1, word.len() + 100] {
                let (answer, octets) = asked(place, room);
                assert_eq!(answer, word.len() as isize);
                assert!(octets.starts_with(word));
                assert!(octets[word.len()..].iter().all(|octet| *octet == UNTOUCHED));
            }
        }
    }

    #[test]
    fn one_that_does_not_fit_fills_the_room() {
        let name = std::env::args_os().next().unwrap().into_vec();
        for room in 0..name.len() {
            let (answer, octets) = asked(0, room);
            assert_eq!((answer, &octets[..room]), (TOO_LONG, &name[..room]));
        }
    }

    #[test]
    fn there_are_no_more_words() {
        let count = std::env::args_os().count();
        for place in [count, count + 1, usize::MAX] {
            assert_eq!(asked(place, 50), (NONE, vec![UNTOUCHED; 58]));
        }
    }

    #[test]
    fn an_empty_word_fits_everywhere() {
        let mut octets = [UNTOUCHED; 4];
        // SAFETY: there is room, and the text ends.
        unsafe {
            assert_eq!(copied(b"\0".as_ptr(), octets.as_mut_ptr(), 0), 0);
            assert_eq!(copied(b"ab\0".as_ptr(), octets.as_mut_ptr(), 2), 2);
            assert_eq!(copied(b"abc\0".as_ptr(), octets.as_mut_ptr(), 2), TOO_LONG);
        }
        assert_eq!(octets, [b'a', b'b', UNTOUCHED, UNTOUCHED]);
    }
}
