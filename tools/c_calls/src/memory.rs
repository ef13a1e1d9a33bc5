//! The heap, which is the C library's.
use core::ffi::c_void;
use core::ptr::addr_of_mut;

extern "C" {
    fn malloc(size: usize) -> *mut c_void;
    fn realloc(at: *mut c_void, size: usize) -> *mut c_void;
    fn free(at: *mut c_void);
}

/// What became of a call for memory, as C lays it out: in two registers.
#[repr(C)]
#[derive(Clone, Copy)]
pub struct Tried {
    /// Whether there was memory.
    pub is_there: bool,
    /// Where. If there was none, a place that nobody reads or writes, since a pointer of proved code is never null.
    pub at: *mut u8,
}

static mut NOWHERE: u8 = 0;

impl Tried {
    fn of(at: *mut c_void) -> Tried {
        // SAFETY: the place is named, and neither read nor written.
        let nowhere = unsafe { addr_of_mut!(NOWHERE) };
        Tried { is_there: !at.is_null(), at: if at.is_null() { nowhere } else { at.cast() } }
    }
}

/// New memory of `size` octets, at a multiple of `align`, which divides 16. For none it takes `align` octets, so that
/// each block has a place of its own.
#[no_mangle]
pub extern "C" fn rattle_alloc(size: usize, align: usize) -> Tried {
    // SAFETY: the allocator takes any number, and aligns by 16.
    Tried::of(unsafe { malloc(if size == 0 { align } else { size }) })
}

/// A block of `size` octets in place of one, whose first `_kept` octets are as they were. It may move. Where there is
/// no memory, the block stays as it was.
///
/// # Safety
/// `at` is a block of [`rattle_alloc`] or of this function that wasn't given back, and nobody else reads or writes it.
#[no_mangle]
pub unsafe extern "C" fn rattle_realloc(at: *mut u8, _kept: usize, size: usize, align: usize) -> Tried {
    Tried::of(realloc(at.cast(), if size == 0 { align } else { size }))
}

/// Gives a block back.
///
/// # Safety
/// As of [`rattle_realloc`]; from then on nobody reads or writes the block.
#[no_mangle]
pub unsafe extern "C" fn rattle_dealloc(at: *mut u8) {
    free(at.cast());
}

#[cfg(test)]
mod tests {
    use super::*;
    use std::{ptr, slice};

    const ALIGNS: [usize; 5] = [1, 2, 4, 8, 16];
    /// The most that a contract lets be asked for; no machine has so much.
    const TOO_MUCH: usize = isize::MAX as usize;

    /// A function of which the compiler knows nothing, as proved code knows none. It knows `malloc`, and leaves it out
    /// where nobody reads the memory.
    fn unknown<F: Copy>(function: F) -> F {
        // SAFETY: the function stands there.
        unsafe { ptr::read_volatile(&function) }
    }

    fn alloc(size: usize, align: usize) -> Tried {
        unknown(rattle_alloc as extern "C" fn(usize, usize) -> Tried)(size, align)
    }

    /// The same, of a block that is the caller's alone.
    fn resized(at: *mut u8, kept: usize, size: usize, align: usize) -> Tried {
        // SAFETY: it is.
        unsafe {
            unknown(rattle_realloc as unsafe extern "C" fn(*mut u8, usize, usize, usize) -> Tried)(
                at, kept, size, align,
            )
        }
    }

    /// Gives back a block that the caller had alone.
    fn free_block(at: *mut u8) {
        // SAFETY: it did.
        unsafe { unknown(rattle_dealloc as unsafe extern "C" fn(*mut u8))(at) }
    }

    /// A block that is there, filled with octets that tell from which number on.
    fn filled(size: usize, align: usize, first: u8) -> *mut u8 {
        let tried = alloc(size, align);
        assert!(tried.is_there && !tried.at.is_null());
        assert_eq!(tried.at as usize % align, 0);
        fill(tried.at, size, first);
        tried.at
    }

    fn fill(at: *mut u8, size: usize, first: u8) {
        // SAFETY: the block has so many octets, and nobody else has it.
        let octets = unsafe { slice::from_raw_parts_mut(at, size) };
        octets.iter_mut().zip(0_usize..).for_each(|(octet, place)| *octet = first.wrapping_add(place as u8));
    }

    fn holds(at: *const u8, size: usize, first: u8) -> bool {
        // SAFETY: as above.
        let octets = unsafe { slice::from_raw_parts(at, size) };
        octets.iter().zip(0_usize..).all(|(octet, place)| *octet == first.wrapping_add(place as u8))
    }

    #[test]
    fn blocks_are_aligned_and_apart() {
        for align in ALIGNS {
            let blocks: Vec<(*mut u8, usize)> = [0, 1, 15, 16, 100, 4096, 300_000]
                .iter()
                .map(|size| (filled(*size, align, *size as u8), *size))
                .collect();
            for (at, size) in blocks {
                assert!(holds(at, size, size as u8), "{size} octets");
                free_block(at);
            }
        }
    }

    #[test]
    fn a_block_of_nothing_has_a_place_of_its_own() {
        let (one, other) = (alloc(0, 1), alloc(0, 1));
        assert!(one.is_there && other.is_there && one.at != other.at);
        free_block(one.at);
        free_block(other.at);
    }

    #[test]
    fn what_was_there_stays_as_a_block_grows_and_shrinks() {
        let mut at = filled(100, 8, 7);
        let mut kept = 100;
        for size in [1000, 200_000, 150, 20, 0, 64] {
            let tried = resized(at, kept.min(size), size, 8);
            kept = kept.min(size);
            assert!(tried.is_there && tried.at as usize % 8 == 0 && holds(tried.at, kept, 7), "{size} octets");
            at = tried.at;
            fill(at, size, 7);
            kept = size;
        }
        free_block(at);
    }

    #[test]
    fn too_much_is_refused_and_changes_nothing() {
        let refused = alloc(TOO_MUCH, 16);
        assert!(!refused.is_there && !refused.at.is_null());
        let at = filled(100, 16, 3);
        let refused = resized(at, 100, TOO_MUCH, 16);
        assert!(!refused.is_there && !refused.at.is_null() && holds(at, 100, 3));
        free_block(at);
    }

    /// As proved code takes an answer: the first register's lowest bit, and the second register.
    #[test]
    fn an_answer_comes_in_two_registers() {
        #[repr(C)]
        struct Registers {
            first: u64,
            second: u64,
        }
        let call: extern "C" fn(usize, usize) -> Tried = rattle_alloc;
        // SAFETY: C answers both records in the same two registers.
        let call: extern "C" fn(usize, usize) -> Registers = unknown(unsafe { std::mem::transmute(call) });
        let there = call(40, 8);
        assert_eq!(there.first & 1, 1);
        fill(there.second as *mut u8, 40, 1);
        assert!(holds(there.second as *const u8, 40, 1));
        free_block(there.second as *mut u8);
        let refused = call(TOO_MUCH, 8);
        assert_eq!(refused.first & 1, 0);
        assert_ne!(refused.second, 0);
    }
}
