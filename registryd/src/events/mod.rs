//! Events: what was pushed, pulled, mounted and deleted, for other programs that receive it over HTTP.
//!
//! `event.rs` has their form, `reporter.rs` makes those of a request, `queue.rs` keeps them until they are delivered, `receivers.rs` reads
//! the file of the receivers, `delivery.rs` delivers in order and tries again, and `sender.rs` makes the requests.
pub(crate) mod delivery;
pub(crate) mod event;
pub(crate) mod queue;
pub(crate) mod receivers;
pub(crate) mod reporter;
mod sender;
