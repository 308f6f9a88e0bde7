//! What a reference names, and the conditions on which a manifest is deleted.

/// The manifest that a reference names.
#[derive(Clone, Debug, PartialEq, Eq)]
pub(crate) struct NamedManifest {
    pub(crate) digest: String,
    pub(crate) media_type: String,
    pub(crate) size: u64,
}

/// The condition on which a manifest is deleted.
#[derive(Clone, Copy, Debug)]
pub(crate) enum Removal {
    /// No index lists it: a client asked for the delete.
    Asked,
    /// None: a client asked for the delete, and may delete what an index lists.
    AskedEvenIfListed,
    /// Nothing holds it, nothing has held it since this time, in seconds since 1970, and it was pushed before.
    UnheldSince(u64),
}

/// The reason why a manifest is not deleted.
#[derive(Debug, PartialEq, Eq)]
pub(crate) enum Kept {
    /// An index lists it.
    ListedBy(String),
    /// An immutable tag names it.
    NamedBy(String),
    /// Something else holds it, or did not long ago.
    Held,
}
