//! The totals of each tenant: what its repositories have, and the pushes in progress, so that these exceed no bound together.
use crate::database::lookups;
use crate::metadata::bounds::{Bounds, Excess, Totals};
use crate::metadata::manifest_table::ManifestTable;
use crate::metadata::names::{is_tag, tenant_of};
use crate::metadata::pushes::Pushes;
use crate::operation::locks::guard_of;
use std::collections::{HashMap, HashSet};

/// What counts against the bounds of a tenant.
#[derive(Default)]
pub(super) struct Tenant {
    /// The totals of the rows, and of marked manifests whose rows are removed.
    pub(super) stored: Totals,
    /// The pushes in progress, by repository.
    pub(super) pushes: HashMap<String, Pushes>,
}

impl Tenant {
    pub(super) fn of(stored: Totals) -> Tenant {
        Tenant { stored, pushes: HashMap::new() }
    }

    /// Returns whether it has nothing, and nothing is being pushed.
    pub(super) fn is_empty(&self) -> bool {
        self.pushes.is_empty() && self.stored == Totals::default()
    }

    fn totals(&self) -> Totals {
        self.pushes.values().fold(self.stored, |sum, pushes| sum + pushes.added())
    }

    /// Removes a push that has ended.
    fn end_push(&mut self, repo: &str, digest: &str, tag: Option<&str>) {
        if let Some(pushes) = self.pushes.get_mut(repo) {
            pushes.end(digest, tag);
            if pushes.is_empty() {
                self.pushes.remove(repo);
            }
        }
    }
}

/// Room for a manifest that is being pushed, and for its tag if there is one. Dropping this returns the room that was not used.
pub(crate) struct ReservedPush<'t> {
    table: &'t ManifestTable,
    repo: &'t str,
    digest: &'t str,
    tag: Option<&'t str>,
}

impl ManifestTable {
    /// Returns the totals of a tenant's manifests and tags, with those that are being pushed.
    pub(crate) fn totals(&self, tenant: &str) -> Totals {
        let found = guard_of(self.tenants.lock()).get(tenant).cloned();
        found.map_or(Totals::default(), |tenant| guard_of(tenant.lock()).totals())
    }

    /// Checks that a repository's tenant may have a manifest whose content is not read yet. `len` is its length if it is known.
    /// If the repository may have the manifest already, only its tag is checked.
    ///
    /// # Errors
    ///
    /// Fails with the bound that would be exceeded.
    pub(crate) fn check_push(&self, repo: &str, reference: &str, len: Option<u64>, bounds: &Bounds) -> Result<(), Excess> {
        let added = self.least_added(repo, reference, len);
        bounds.check(self.totals(tenant_of(repo)), added)
    }

    /// Returns the least totals that a push adds whose content is not read yet. They have no manifest if the repository may have
    /// it already: by its digest, or by its length if it is pushed under a tag.
    fn least_added(&self, repo: &str, reference: &str, len: Option<u64>) -> Totals {
        let is_digest = !is_tag(reference);
        let is_pushed =
            |look: &dyn Fn(&Pushes) -> bool| self.with_tenant(repo, |tenant| tenant.pushes.get(repo).map_or(false, look));
        let is_new = match len {
            _ if is_digest => !self.is_known(repo, reference) && !is_pushed(&|pushes| pushes.has_manifest(reference)),
            Some(len) => !self.has_size(repo, len) && !is_pushed(&|pushes| pushes.has_size(len)),
            None => false,
        };
        let is_new_tag = !is_digest && !self.has_tag(repo, reference) && !is_pushed(&|pushes| pushes.has_tag(reference));
        let manifest_bytes = if is_new { len.unwrap_or(1) } else { 0 };
        Totals { manifests: is_new.into(), manifest_bytes, tags: is_new_tag.into() }
    }

    /// Reserves room for a manifest of `size` bytes, and for its tag if it is pushed under one. A manifest or a tag that the
    /// repository has needs no room.
    ///
    /// # Errors
    ///
    /// Fails with the bound of the repository's tenant that would be exceeded.
    pub(crate) fn reserve<'t>(
        &'t self,
        repo: &'t str,
        (digest, size): (&'t str, u64),
        tag: Option<&'t str>,
        bounds: &Bounds,
    ) -> Result<ReservedPush<'t>, Excess> {
        // No other push of the tenant comes between the check and the note, and no change is noted between the look and the note.
        self.with_tenant(repo, |tenant| {
            let are_stored = (self.is_known(repo, digest), tag.map_or(false, |tag| self.has_tag(repo, tag)));
            let before = tenant.totals();
            let pushes = tenant.pushes.entry(repo.to_string()).or_default();
            pushes.begin((digest, size), tag, are_stored);
            let checked = bounds.check(before, tenant.totals() - before);
            if checked.is_err() {
                tenant.end_push(repo, digest, tag);
            }
            checked
        })?;
        Ok(ReservedPush { table: self, repo, digest, tag })
    }

    /// Returns whether a tag of a repository is being pushed.
    pub(super) fn pushed_tags(&self, repo: &str) -> HashSet<String> {
        let tags = |pushes: &Pushes| pushes.tags().cloned().collect();
        self.with_tenant(repo, |tenant| tenant.pushes.get(repo).map(tags)).unwrap_or_default()
    }

    fn has_size(&self, repo: &str, size: u64) -> bool {
        self.leaving.has_size(repo, size) || self.rows.read(|rows| lookups::has_size(rows, repo, size))
    }

    fn has_tag(&self, repo: &str, tag: &str) -> bool {
        self.rows.read(|rows| lookups::tag_times(rows, repo, tag)).is_some()
    }
}

impl Drop for ReservedPush<'_> {
    fn drop(&mut self) {
        let ReservedPush { table, repo, digest, tag } = *self;
        table.with_tenant(repo, |tenant| tenant.end_push(repo, digest, tag));
    }
}

#[cfg(test)]
mod tests {
    use super::*;
    use crate::metadata::document::Facts;
    use crate::metadata::memory_table::MemoryTable;
    use crate::metadata::repository::Removal;
    use crate::metadata::tag::TagTimes;

    fn totals(manifests: u64, manifest_bytes: u64, tags: u64) -> Totals {
        Totals { manifests, manifest_bytes, tags }
    }

    fn of_size(size: u64) -> Facts {
        Facts { size, ..Facts::default() }
    }

    #[test]
    fn totals_are_of_what_a_tenant_has() {
        let table = MemoryTable::default();
        let acme = || table.totals("acme");
        table.put("acme/web", "sha256:a", of_size(10), Some("v1"), 1);
        table.put("acme/web", "sha256:a", of_size(10), Some("v2"), 1);
        table.put("acme/api", "sha256:a", of_size(10), None, 1);
        table.put("acmes/web", "sha256:a", of_size(1), None, 1);
        assert_eq!((acme(), table.totals("acmes"), table.totals("none")), (totals(2, 20, 2), totals(1, 1, 0), totals(0, 0, 0)));
        table.put("acme/web", "sha256:b", of_size(5), Some("v2"), 1);
        assert_eq!(acme(), totals(3, 25, 2));
        table.add_tag("acme/web", "v3", "sha256:b", TagTimes::default());
        assert!(table.remove_tag("acme/web", "v1", 2));
        assert_eq!(acme(), totals(3, 25, 2));
        // A marked manifest counts until the store has deleted it, and so do its tags.
        table.begin_removal("acme/web", "sha256:b", Removal::Asked).unwrap();
        assert_eq!(acme(), totals(3, 25, 2));
        let removed = table.take_tags_of("acme/web", "sha256:b", 1);
        assert_eq!(acme(), totals(3, 25, 0));
        table.restore("acme/web", "sha256:b", of_size(5), 1, removed);
        assert_eq!(acme(), totals(3, 25, 2));
        table.remove_manifest("acme/web", "sha256:b", 2);
        table.remove_manifest("acme/web", "sha256:a", 2);
        table.remove_manifest("acme/api", "sha256:a", 2);
        assert_eq!(acme(), totals(0, 0, 0));
    }

    #[test]
    fn pushes_at_the_same_time_exceed_no_bound_together() {
        let table = MemoryTable::default();
        let bounds = Bounds { manifests: Some(2), manifest_bytes: Some(25), tags: Some(1) };
        let first = table.reserve("acme/web", ("sha256:a", 10), Some("v1"), &bounds).ok().unwrap();
        assert_eq!(table.totals("acme"), totals(1, 10, 1));
        let excess = |repo, manifest, tag| table.reserve(repo, manifest, tag, &bounds).err();
        assert_eq!(excess("acme/api", ("sha256:a", 16), None), Some(Excess::ManifestBytes { used: 10, added: 16, most: 25 }));
        assert_eq!(excess("acme/api", ("sha256:a", 10), Some("v1")), Some(Excess::Tags { most: 1 }));
        assert_eq!(excess("other/api", ("sha256:a", 25), Some("v1")), None);
        // Pushes of the same manifest and of the same tag need room once.
        let again = table.reserve("acme/web", ("sha256:a", 10), Some("v1"), &bounds).ok().unwrap();
        let second = table.reserve("acme/web", ("sha256:b", 10), Some("v1"), &bounds).ok().unwrap();
        assert_eq!(excess("acme/web", ("sha256:c", 1), None), Some(Excess::Manifests { most: 2 }));
        table.put("acme/web", "sha256:a", of_size(10), Some("v1"), 1);
        assert_eq!(table.totals("acme"), totals(2, 20, 1));
        drop(first);
        // The place of a tag that is deleted meanwhile stays with the pushes under it.
        assert!(table.remove_tag("acme/web", "v1", 2));
        assert_eq!(excess("acme/web", ("sha256:a", 10), Some("v2")), Some(Excess::Tags { most: 1 }));
        drop((again, second));
        assert_eq!(table.totals("acme"), totals(1, 10, 0));
        assert_eq!(excess("acme/web", ("sha256:b", 15), Some("v2")), None);
    }

    #[test]
    fn a_push_that_fails_leaves_nothing() {
        let table = MemoryTable::default();
        let none = Bounds { manifests: Some(0), ..Bounds::default() };
        assert!(table.reserve("acme/web", ("sha256:a", 10), Some("v1"), &none).is_err());
        drop(table.reserve("acme/api", ("sha256:a", 10), Some("v1"), &Bounds::default()));
        assert!(table.names("", "").next().is_none() && table.tenants.lock().unwrap().is_empty());
        assert_eq!(table.totals("acme"), totals(0, 0, 0));
    }

    #[test]
    fn a_push_is_checked_before_its_content_is_read() {
        let table = MemoryTable::default();
        table.put("acme/web", "sha256:a", of_size(10), Some("v1"), 1);
        let check = |reference, len, bounds: &Bounds| table.check_push("acme/web", reference, len, bounds).is_ok();
        let manifests = Bounds { manifests: Some(1), ..Bounds::default() };
        assert!(!check("v1", Some(9), &manifests) && !check("sha256:b", Some(10), &manifests));
        // The content may be the manifest that is there.
        assert!(check("v2", Some(10), &manifests) && check("v2", None, &manifests) && check("sha256:a", Some(10), &manifests));
        let bytes = Bounds { manifest_bytes: Some(20), ..Bounds::default() };
        assert!(check("v2", Some(9), &bytes) && !check("v2", Some(11), &bytes) && !check("sha256:b", Some(11), &bytes));
        let of_tags = Bounds { tags: Some(1), ..Bounds::default() };
        assert!(check("v1", Some(9), &of_tags) && !check("v2", Some(10), &of_tags) && check("sha256:b", Some(9), &of_tags));
        assert!(table.check_push("acme/api", "v1", Some(10), &of_tags).is_err());
        let _room = table.reserve("acme/web", ("sha256:b", 9), Some("v2"), &Bounds::default());
        assert!(check("sha256:b", Some(9), &manifests) && check("v2", Some(9), &Bounds { tags: Some(2), ..manifests }));
    }
}
