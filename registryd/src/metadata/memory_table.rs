//! The data of manifests of a registry without a folder. Their rows are in memory, and each request changes them itself. A registry with a
//! folder has no such table: the thread of its database alone changes the rows.
use crate::database::change::{Change, Done};
use crate::database::readers::MemoryRows;
use crate::database::statements::{self, UploadChanges};
use crate::metadata::document::Facts;
use crate::metadata::manifest_table::ManifestTable;
use crate::metadata::tag::ExpiredTag;
use std::ops::Deref;
use std::sync::Arc;

/// A table and its rows in memory.
pub(crate) struct MemoryTable {
    pub(super) table: Arc<ManifestTable>,
    rows: MemoryRows,
}

impl Default for MemoryTable {
    /// Makes an empty table.
    fn default() -> MemoryTable {
        let rows = MemoryRows::new();
        MemoryTable { table: Arc::new(ManifestTable::over(rows.readers())), rows }
    }
}

impl Deref for MemoryTable {
    type Target = ManifestTable;

    fn deref(&self) -> &ManifestTable {
        &self.table
    }
}

impl MemoryTable {
    /// Makes a change.
    pub(super) fn make(&self, change: &Change, now: u64) -> Done {
        let outcome = self.rows.write(|rows| statements::make(rows, change, now, &mut UploadChanges::default()));
        self.made(change, outcome, now)
    }

    /// Adds a manifest that the store accepted, and its tag if it was put under one.
    pub(crate) fn put(&self, repo: &str, digest: &str, facts: Facts, tag: Option<&str>, now: u64) {
        let (repo, digest) = (repo.to_string(), digest.to_string());
        self.make(&Change::PutManifest { repo, digest, facts, tag: tag.map(str::to_string) }, now);
    }

    /// Removes a tag. Returns whether it was there.
    pub(super) fn remove_tag(&self, repo: &str, tag: &str, now: u64) -> bool {
        let removed = self.by_tag(repo, tag).map(|_| {
            let change = Change::RemoveTag { repo: repo.to_string(), tag: tag.to_string() };
            self.make(&change, now)
        });
        removed.map_or(false, |done| done != Done::Removed(Vec::new()))
    }

    /// Removes tags, but for those that were pushed meanwhile, and returns the names of those that it removed.
    pub(crate) fn expire_tags(&self, repo: &str, tags: &[ExpiredTag], now: u64) -> Vec<String> {
        match self.make(&Change::ExpireTags { repo: repo.to_string(), tags: tags.to_vec() }, now) {
            Done::Removed(names) => names,
            Done::Nothing | Done::RemovedAll(_) => Vec::new(),
        }
    }
}
