//! The commands by which the owner of a registry asks it and changes it while it runs: the socket that only the owner may open, what it
//! serves (HTTP, in JSON), and the program that a person calls.
pub(crate) mod client;
pub(crate) mod commands;
pub(crate) mod moves;
mod robots;
pub(crate) mod server;
pub(crate) mod socket;
