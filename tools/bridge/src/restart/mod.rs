//! How stations stay associated over a restart, if a bridge takes the place of the one before on the same machine: the
//! state that one leaves, the files it stands in, and how the new program is told of it. What comes of stations that move
//! to another access point is in `stations::roaming`.
pub mod replay;
pub mod state;
pub mod state_draft;
pub mod state_files;
mod state_text;
