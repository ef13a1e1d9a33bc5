//! The program, `apctl live`, as a child: how it runs, the records that it and the bridge exchange, and its tables.
pub mod feeder;
pub mod program;
pub mod protocol;
pub mod recording;
pub mod tables;
