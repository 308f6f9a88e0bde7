//! When a tag was used, and tags that go and come.

/// The last push and the last pull of a tag, in seconds since 1970.
#[derive(Clone, Copy, Debug, Default, PartialEq, Eq)]
pub(crate) struct TagTimes {
    pub(crate) pushed: u64,
    /// The last pull since the push. 0 if there was none.
    pub(crate) pulled: u64,
}

/// A tag that was removed with its manifest, and may come back.
#[derive(Clone, Debug, PartialEq, Eq)]
pub(crate) struct RemovedTag {
    pub(crate) name: String,
    pub(crate) times: TagTimes,
}

/// A tag that is to be removed, unless it was pushed meanwhile.
#[derive(Clone, Debug, PartialEq, Eq)]
pub(crate) struct ExpiredTag {
    pub(crate) name: String,
    pub(crate) digest: String,
    /// The time of its last push, in seconds since 1970.
    pub(crate) pushed: u64,
}

/// The last pull of a tag, which is recorded in the database.
#[derive(Clone, Debug, PartialEq, Eq)]
pub(crate) struct Pull {
    pub(crate) repo: String,
    pub(crate) tag: String,
    /// In seconds since 1970.
    pub(crate) time: u64,
}

/// Returns the digest that a tag has in its name, by which clients name what belongs to a manifest (OCI Distribution Specification 1.1,
/// "Referrers Tag Schema"). Some add a suffix, such as `.sig`.
pub(crate) fn digest_in(tag: &str) -> Option<String> {
    let hex = tag.strip_prefix("sha256-")?.split('.').next()?;
    let is_hex = hex.len() == 64 && hex.bytes().all(|byte| matches!(byte, b'0'..=b'9' | b'a'..=b'f'));
    is_hex.then(|| format!("sha256:{hex}"))
}
