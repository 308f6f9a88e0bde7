//! HTTP: the connections of clients, what the head and the content of a request say, the parts of responses, and a client of other servers.
pub(crate) mod browser;
pub(crate) mod client;
pub(crate) mod conditions;
pub(crate) mod connections;
pub(crate) mod content;
pub(crate) mod exchange;
pub(crate) mod fault;
pub(crate) mod framing;
mod head_lines;
pub(crate) mod in_flight;
pub(crate) mod pages;
pub(crate) mod paths;
pub(crate) mod ranges;
pub(crate) mod responses;
pub(crate) mod server;
pub(crate) mod tls;
pub(crate) mod trace;
