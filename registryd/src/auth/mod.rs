//! Who sends a request, and what it may do.
pub(crate) mod access;
pub(crate) mod held_login;
mod issuer_keys;
mod key_set;
pub(crate) mod moved_robots;
pub(crate) mod oidc;
mod oidc_file;
mod password_queue;
pub(crate) mod public_keys;
mod reserved;
pub(crate) mod rights;
pub(crate) mod robots;
pub(crate) mod same;
pub(crate) mod tokens;
pub(crate) mod users;
