//! The contents that a read or the scrub found damaged, by their digests. They are taken for missing by those who would not send them
//! otherwise, until they are stored again.
use crate::operation::locks::guard_of;
use std::collections::HashSet;
use std::sync::{Mutex, MutexGuard};

/// The digests of damaged contents.
#[derive(Default)]
pub(crate) struct DamagedContents(Mutex<HashSet<String>>);

impl DamagedContents {
    fn digests(&self) -> MutexGuard<'_, HashSet<String>> {
        guard_of(self.0.lock())
    }

    /// Returns whether a content was found damaged.
    pub(crate) fn has(&self, digest: &str) -> bool {
        self.digests().contains(digest)
    }

    /// Notes that a content is damaged.
    pub(crate) fn add(&self, digest: &str) {
        self.digests().insert(digest.to_string());
    }

    /// Notes that a content was stored again.
    pub(crate) fn remove(&self, digest: &str) {
        self.digests().remove(digest);
    }

    /// Keeps those of a list, after all contents were read.
    pub(super) fn keep(&self, found: impl Iterator<Item = String>) {
        *self.digests() = found.collect();
    }
}

#[cfg(test)]
mod tests {
    use super::*;

    #[test]
    fn a_content_is_damaged_until_it_is_stored_or_found_whole() {
        let damaged = DamagedContents::default();
        let has = || ["a", "b", "c"].map(|digest| damaged.has(digest));
        assert_eq!(has(), [false; 3]);
        ["a", "a", "b", "c"].into_iter().for_each(|digest| damaged.add(digest));
        damaged.remove("a");
        assert_eq!(has(), [false, true, true]);
        damaged.keep(["b".to_string()].into_iter());
        assert_eq!(has(), [false, true, false]);
    }
}
