//! The endpoints: the state that requests share, the routes, and one file for each resource.
mod blobs;
pub(crate) mod call;
mod catalog;
pub(crate) mod deletes;
mod entering;
pub(crate) mod manifests;
mod mirrored;
mod referrers;
pub(crate) mod registry;
mod reports;
pub(crate) mod routes;
mod signed;
mod tags;
mod transfer;
mod untagged;
mod uploads;
