//! How octets are laid out that several folders read: frames of the air and radiotap headers.
pub mod ethernet;
pub mod frames;
pub mod radiotap;
