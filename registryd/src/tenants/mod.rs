//! The tenants: the words and the file that name them, their bounds, and the changes of the file while the registry runs.
pub(crate) mod bounds;
mod changes;
pub(crate) mod file;
pub(crate) mod reload;
pub(crate) mod served;
pub(crate) mod words;
