//! The pushes of manifests to a repository that are in progress.

use crate::metadata::bounds::Totals;
use std::collections::HashMap;

/// A manifest or a tag that is being pushed.
#[derive(Default)]
struct Pushed {
    /// The size of a manifest.
    size: u64,
    /// The number of its pushes.
    pushes: usize,
    /// Whether the repository has it already.
    is_stored: bool,
}

/// The manifests that are being pushed, and the tags under which they are pushed.
#[derive(Default)]
pub(super) struct Pushes {
    manifests: HashMap<String, Pushed>,
    tags: HashMap<String, Pushed>,
}

impl Pushes {
    /// Adds a push of a manifest of `size` bytes, and of its tag if it is pushed under one. `are_stored` is whether the repository has the
    /// manifest, and whether it has the tag.
    pub(super) fn begin(&mut self, (digest, size): (&str, u64), tag: Option<&str>, are_stored: (bool, bool)) {
        let new = Pushed { size, pushes: 0, is_stored: are_stored.0 };
        self.manifests.entry(digest.to_string()).or_insert(new).pushes += 1;
        if let Some(tag) = tag {
            let new = Pushed { is_stored: are_stored.1, ..Pushed::default() };
            self.tags.entry(tag.to_string()).or_insert(new).pushes += 1;
        }
    }

    /// Removes a push that has ended.
    pub(super) fn end(&mut self, digest: &str, tag: Option<&str>) {
        let pushed = self.manifests.get_mut(digest).into_iter().chain(tag.and_then(|tag| self.tags.get_mut(tag)));
        pushed.for_each(|pushed| pushed.pushes -= 1);
        self.manifests.retain(|_, pushed| pushed.pushes > 0);
        self.tags.retain(|_, pushed| pushed.pushes > 0);
    }

    /// Notes whether the repository has a manifest.
    pub(super) fn set_manifest(&mut self, digest: &str, is_stored: bool) {
        self.manifests.get_mut(digest).into_iter().for_each(|pushed| pushed.is_stored = is_stored);
    }

    /// Notes whether the repository has a tag.
    pub(super) fn set_tag(&mut self, tag: &str, is_stored: bool) {
        self.tags.get_mut(tag).into_iter().for_each(|pushed| pushed.is_stored = is_stored);
    }

    /// Returns whether no push is in progress.
    pub(super) fn is_empty(&self) -> bool {
        self.manifests.is_empty() && self.tags.is_empty()
    }

    /// Returns the totals of what is pushed and the repository does not have, each once.
    pub(super) fn added(&self) -> Totals {
        let new = self.manifests.values().filter(|pushed| !pushed.is_stored);
        Totals {
            manifests: new.clone().count() as u64,
            manifest_bytes: new.map(|pushed| pushed.size).sum(),
            tags: self.tags.values().filter(|pushed| !pushed.is_stored).count() as u64,
        }
    }

    /// Returns whether a manifest of this size is being pushed.
    pub(super) fn has_size(&self, size: u64) -> bool {
        self.manifests.values().any(|pushed| pushed.size == size)
    }

    /// Returns whether a manifest is being pushed.
    pub(super) fn has_manifest(&self, digest: &str) -> bool {
        self.manifests.contains_key(digest)
    }

    /// Returns whether a manifest is being pushed under a tag.
    pub(super) fn has_tag(&self, tag: &str) -> bool {
        self.tags.contains_key(tag)
    }

    /// Returns the tags, each once.
    pub(super) fn tags(&self) -> impl Iterator<Item = &String> {
        self.tags.keys()
    }
}

#[cfg(test)]
mod tests {
    use super::*;

    fn totals(manifests: u64, manifest_bytes: u64, tags: u64) -> Totals {
        Totals { manifests, manifest_bytes, tags }
    }

    #[test]
    fn what_is_pushed_several_times_is_there_once_until_the_last_ends() {
        let mut pushes = Pushes::default();
        pushes.begin(("sha256:a", 7), Some("v1"), (false, false));
        pushes.begin(("sha256:a", 7), None, (false, false));
        pushes.begin(("sha256:b", 5), Some("v1"), (false, false));
        assert_eq!((pushes.added(), pushes.has_size(7), pushes.has_size(12)), (totals(2, 12, 1), true, false));
        pushes.end("sha256:a", Some("v1"));
        assert!(pushes.has_manifest("sha256:a") && pushes.has_tag("v1"));
        pushes.end("sha256:b", Some("v1"));
        assert!(!pushes.has_manifest("sha256:b") && !pushes.has_tag("v1") && !pushes.is_empty());
        pushes.end("sha256:a", None);
        assert!(pushes.is_empty());
    }

    #[test]
    fn what_the_repository_has_adds_nothing() {
        let mut pushes = Pushes::default();
        pushes.begin(("sha256:a", 7), Some("v1"), (false, true));
        assert_eq!(pushes.added(), totals(1, 7, 0));
        // The repository got the manifest, and its tag was deleted.
        pushes.set_manifest("sha256:a", true);
        pushes.set_tag("v1", false);
        pushes.set_tag("v2", false);
        assert_eq!(pushes.added(), totals(0, 0, 1));
        // A second push finds what is known.
        pushes.begin(("sha256:a", 7), Some("v1"), (false, true));
        assert_eq!(pushes.added(), totals(0, 0, 1));
    }
}
