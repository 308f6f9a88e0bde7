//! The database `registry.db` and the thread that writes it.
pub(crate) mod change;
#[cfg(test)]
mod costs;
pub(crate) mod event_rows;
pub(crate) mod lookups;
pub(crate) mod marks;
pub(crate) mod readers;
pub(crate) mod rows;
mod schema;
pub(crate) mod sqlite;
pub(crate) mod statements;
#[cfg(test)]
pub(crate) mod test_folder;
mod upload_numbers;
pub(crate) mod witness;
pub(crate) mod writer;
