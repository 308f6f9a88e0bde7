//! Tenants that are copies of another registry: what they ask it for, what they keep of it, and what they delete to make room.
pub(crate) mod address;
mod challenge;
pub(crate) mod client;
mod copying;
pub(crate) mod counts;
pub(crate) mod credentials;
pub(crate) mod failure;
mod fetches;
mod images;
pub(crate) mod manifests;
pub(crate) mod mirrors;
mod passing;
mod room;
pub(crate) mod spool;
mod storing;
mod tokens;
mod upstream;
