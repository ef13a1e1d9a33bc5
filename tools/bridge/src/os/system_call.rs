//! What calls of the system answer.
use std::io;

/// What a call of the system answered, or its fault, which a negative number stands for.
pub fn checked<N: Default + PartialOrd>(answer: N) -> io::Result<N> {
    if answer < N::default() {
        Err(io::Error::last_os_error())
    } else {
        Ok(answer)
    }
}
