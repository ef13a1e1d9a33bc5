//! What tests of several folders share.
mod mutator;
pub mod samples;
