//! The store: a `blobd` process and the connections to it.
mod appending;
pub(crate) mod calls;
pub(crate) mod client;
pub(crate) mod connection;
pub(crate) mod frames;
mod pool;
pub(crate) mod process;
pub(crate) mod reading;
pub(crate) mod undo;
