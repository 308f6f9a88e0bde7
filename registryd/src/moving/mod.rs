//! Moves of tenants to other registries: what a registry keeps of a move, who may write meanwhile, and the command that makes one.
mod balancer;
pub(crate) mod command;
pub(crate) mod contents;
mod copying;
mod deleting;
pub(crate) mod moves;
mod peer;
pub(crate) mod stage;
