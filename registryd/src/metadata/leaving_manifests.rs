//! The manifests that the store is being asked to delete. They are hidden. Their facts stay here until the store has deleted them, because
//! the database has removed them before, and because they may come back.
use crate::metadata::document::Facts;
use crate::operation::locks::guard_of;
use std::collections::HashMap;
use std::sync::Mutex;

/// A manifest that is marked.
#[derive(Clone)]
pub(super) struct LeavingManifest {
    pub(super) facts: Facts,
    /// The last time at which it was pushed, asked for by its digest, or something ceased to hold it, in seconds since 1970.
    pub(super) since: u64,
    /// Whether its row is removed.
    pub(super) is_removed: bool,
}

/// The marked manifests, by repository and digest.
#[derive(Default)]
pub(super) struct LeavingManifests(Mutex<HashMap<String, HashMap<String, LeavingManifest>>>);

impl LeavingManifests {
    /// Calls `look` with the marked manifests of a repository, if it has any.
    fn with<T>(&self, repo: &str, look: impl FnOnce(&mut HashMap<String, LeavingManifest>) -> T) -> Option<T> {
        guard_of(self.0.lock()).get_mut(repo).map(look)
    }

    /// Marks a manifest. One that is marked stays as it is.
    pub(super) fn mark(&self, repo: &str, digest: &str, facts: Facts, since: u64) {
        let marked = LeavingManifest { facts, since, is_removed: false };
        guard_of(self.0.lock()).entry(repo.to_string()).or_default().entry(digest.to_string()).or_insert(marked);
    }

    /// Notes that the row of a manifest is removed. Returns its size if it is marked.
    pub(super) fn set_removed(&self, repo: &str, digest: &str) -> Option<u64> {
        let set = |by_digest: &mut HashMap<String, LeavingManifest>| {
            let marked = by_digest.get_mut(digest)?;
            marked.is_removed = true;
            Some(marked.facts.size)
        };
        self.with(repo, set).flatten()
    }

    /// Removes a mark, and returns the manifest that had it.
    pub(super) fn unmark(&self, repo: &str, digest: &str) -> Option<LeavingManifest> {
        let mut by_repo = guard_of(self.0.lock());
        let by_digest = by_repo.get_mut(repo)?;
        let found = by_digest.remove(digest);
        if by_digest.is_empty() {
            by_repo.remove(repo);
        }
        found
    }

    /// Returns whether a manifest is marked.
    pub(super) fn has(&self, repo: &str, digest: &str) -> bool {
        self.with(repo, |by_digest| by_digest.contains_key(digest)).unwrap_or(false)
    }

    /// Returns a marked manifest.
    pub(super) fn get(&self, repo: &str, digest: &str) -> Option<LeavingManifest> {
        self.with(repo, |by_digest| by_digest.get(digest).cloned()).flatten()
    }

    /// Returns whether a manifest of this size is marked.
    pub(super) fn has_size(&self, repo: &str, size: u64) -> bool {
        self.with(repo, |by_digest| by_digest.values().any(|marked| marked.facts.size == size)).unwrap_or(false)
    }

    /// Returns the number of marked manifests whose rows are there.
    pub(super) fn count_with_rows(&self, repo: &str) -> u64 {
        self.with(repo, |by_digest| by_digest.values().filter(|marked| !marked.is_removed).count() as u64).unwrap_or(0)
    }

    /// Returns the marked indexes that list a manifest and whose rows are removed, in order.
    pub(super) fn indexes_of(&self, repo: &str, digest: &str) -> Vec<String> {
        let lists = |by_digest: &mut HashMap<String, LeavingManifest>| {
            let list =
                by_digest.iter().filter(|(_, marked)| marked.is_removed && marked.facts.lists.iter().any(|one| one == digest));
            list.map(|(index, _)| index.clone()).collect()
        };
        let mut found: Vec<String> = self.with(repo, lists).unwrap_or_default();
        found.sort_unstable();
        found
    }
}

#[cfg(test)]
mod tests {
    use super::*;

    #[test]
    fn a_marked_manifest_holds_what_it_lists_until_it_is_unmarked() {
        let leaving = LeavingManifests::default();
        let facts =
            |size, lists: &[&str]| Facts { size, lists: lists.iter().map(|one| one.to_string()).collect(), ..Facts::default() };
        leaving.mark("r", "index", facts(7, &["a", "b"]), 5);
        leaving.mark("r", "a", facts(3, &[]), 6);
        assert_eq!((leaving.count_with_rows("r"), leaving.indexes_of("r", "a")), (2, Vec::<String>::new()));
        assert_eq!(
            (leaving.set_removed("r", "index"), leaving.set_removed("r", "none"), leaving.set_removed("q", "a")),
            (Some(7), None, None)
        );
        assert_eq!((leaving.count_with_rows("r"), leaving.indexes_of("r", "a")), (1, vec!["index".to_string()]));
        assert!(leaving.has("r", "a") && leaving.has_size("r", 3) && !leaving.has("q", "a") && !leaving.has_size("r", 4));
        assert_eq!(leaving.unmark("r", "index").map(|marked| (marked.since, marked.is_removed)), Some((5, true)));
        assert_eq!(leaving.unmark("r", "a").map(|marked| marked.is_removed), Some(false));
        assert!(leaving.unmark("r", "a").is_none() && leaving.0.lock().unwrap().is_empty());
    }
}
