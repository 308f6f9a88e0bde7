//! The start of the program: its options, the files that it reads, the launch, and the comparison of the database with the store.
pub(crate) mod capacity;
pub(crate) mod credentials;
mod default_shares;
pub(crate) mod launch;
pub(crate) mod listening;
pub(crate) mod losses;
mod opening;
pub(crate) mod option_values;
pub(crate) mod options;
pub(crate) mod provenance;
pub(crate) mod recovery;
mod settings;
pub(crate) mod start_replies;
mod tenant_options;
pub(crate) mod upstreams;
