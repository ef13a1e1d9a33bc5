//! The way of a frame from an interface to the program: the kernel's filter, what is left out, the queue before the
//! program, and batching if many frames come.
pub mod batching;
pub mod filter;
mod flow_queue;
pub mod frame;
pub mod held;
pub mod judging;
pub mod queue;
mod source_queue;
