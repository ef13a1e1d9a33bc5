//! The six functions of C that proved code calls, for a processor of which the toolchain has no library of them, as
//! arm64. They do what its `liblibc_c.a` and `libos_c.a` do on x86-64.
//!
//! The prover takes their contracts as given: those of `rattle/libc/src/heap.rt` and `rattle/os/src/c.rt` in the
//! toolchain's folder. So each function is trusted and tested, and none is proved. Nothing here panics or takes more
//! memory than it is asked for.
#![cfg_attr(not(test), no_std)]

mod error;
mod memory;
mod words;

pub use error::{rattle_errno, rattle_set_errno};
pub use memory::{rattle_alloc, rattle_dealloc, rattle_realloc, Tried};
pub use words::rattle_arg;
