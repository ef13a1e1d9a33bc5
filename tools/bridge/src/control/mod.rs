//! Who starts the bridge, asks it and is told by it: its arguments, the script that started it, the clients of its
//! socket, its status, its events, its log, and the faults that end it.
pub mod arguments;
pub mod by;
pub mod clients;
pub mod events;
pub mod faults;
pub mod log;
mod network_part;
pub mod notices;
pub mod parent;
pub mod status;
pub mod status_line;
