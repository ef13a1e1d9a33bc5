//! The error of the last call of the C library, a number for each thread.

extern "C" {
    fn __errno_location() -> *mut i32;
}

/// The number.
#[no_mangle]
pub extern "C" fn rattle_errno() -> i32 {
    // SAFETY: the number stands there as long as the thread runs, and is the thread's own.
    unsafe { *__errno_location() }
}

/// Sets it.
#[no_mangle]
pub extern "C" fn rattle_set_errno(error: i32) {
    // SAFETY: as above.
    unsafe { *__errno_location() = error };
}

#[cfg(test)]
mod tests {
    use super::*;
    use std::io::Error;

    #[test]
    fn what_was_set_is_told() {
        for error in [0, 1, 34, i32::MAX, -1] {
            rattle_set_errno(error);
            assert_eq!(rattle_errno(), error);
            assert_eq!(Error::last_os_error().raw_os_error(), Some(error));
        }
    }

    #[test]
    fn a_call_that_fails_sets_it() {
        extern "C" {
            fn close(descriptor: i32) -> i32;
        }
        const BAD_DESCRIPTOR: i32 = 9;
        rattle_set_errno(0);
        // SAFETY: no file has this number.
        assert_eq!(unsafe { close(-1) }, -1);
        assert_eq!(rattle_errno(), BAD_DESCRIPTOR);
    }

    #[test]
    fn each_thread_has_its_own() {
        rattle_set_errno(5);
        let other = std::thread::spawn(|| {
            rattle_set_errno(6);
            rattle_errno()
        });
        assert_eq!(other.join().unwrap(), 6);
        assert_eq!(rattle_errno(), 5);
    }
}
