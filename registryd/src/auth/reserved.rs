//! Beginnings of names that no user of a file has.

/// What the names of robots begin with.
pub(super) const ROBOT: &str = "robot+";

/// The prefix of the names of the accounts of commands that move tenants. No robot that the owner made has such a name.
pub(super) const MOVER: &str = "robot+move+";

/// What the names of accounts of issuers begin with, and the users with whom their tokens are sent.
pub(super) const OIDC: &str = "oidc+";

/// Returns whether a name is one of a robot.
pub(super) fn is_robot(user: &str) -> bool {
    user.starts_with(ROBOT)
}

/// Returns the tenant that a command moves whose account has this name.
pub(super) fn mover_of(user: &str) -> Option<&str> {
    user.strip_prefix(MOVER)
}

/// Returns whether a client sends a token of an issuer with this user.
pub(super) fn is_oidc(user: &str) -> bool {
    user.starts_with(OIDC)
}

/// Fails if a name of a file of users or rights is kept for accounts of machines.
pub(super) fn check_unreserved(user: &str) -> Result<(), &'static str> {
    match (is_robot(user), is_oidc(user)) {
        (true, _) => Err("names that begin with `robot+` are those of `registryd robot`"),
        (_, true) => Err("names that begin with `oidc+` are those of the file of --oidc"),
        _ => Ok(()),
    }
}
