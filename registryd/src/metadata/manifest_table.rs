//! The data of the manifests that the store does not have: their tags, media types, and which of them name others. They are rows of the
//! database, or of one in memory if there is no folder, and each look reads them there.
//!
//! This process has in addition what the rows do not say: which manifests are being pushed or deleted, the last uses that are not recorded,
//! and the totals of each tenant. The totals include the pushes in progress, so that these exceed no bound together.
//!
//! A manifest is added after the store accepted it. It is marked before the store is asked to delete it. A marked manifest and its tags are
//! hidden. So a visible tag names a manifest that the store has, unless the manifest was marked after the look-up.
use crate::database::change::{Change, Done};
use crate::database::lookups;
use crate::database::readers::Readers;
use crate::database::statements::Outcome;
use crate::events::event::Effect;
use crate::metadata::bounds::Totals;
use crate::metadata::document::Facts;
use crate::metadata::leaving_manifests::LeavingManifests;
use crate::metadata::names::tenant_of;
use crate::metadata::pushes::Pushes;
use crate::metadata::recent_uses::RecentUses;
use crate::metadata::repository::{Kept, NamedManifest, Removal};
use crate::metadata::reserved_pushes::Tenant;
use crate::metadata::tag::{Pull, TagTimes};
use crate::operation::locks::guard_of;
use std::collections::HashMap;
use std::sync::{Arc, Mutex};

/// The time after which a request for a manifest is recorded in the database, in seconds.
const TOUCH_RECORDED: u64 = 3600;

/// The time after which a further pull of a tag is recorded in the database, in seconds.
const PULL_RECORDED: u64 = 60;

/// The tags and manifests of all repositories.
pub(crate) struct ManifestTable {
    pub(super) rows: Arc<Readers>,
    /// What counts against the bounds of each tenant.
    pub(super) tenants: Mutex<HashMap<String, Arc<Mutex<Tenant>>>>,
    pub(super) leaving: LeavingManifests,
    /// When manifests were asked for by their digests.
    touches: RecentUses,
    /// When tags were pulled.
    pulls: RecentUses,
}

/// Returns the totals of one manifest.
fn one(size: u64) -> Totals {
    Totals { manifests: 1, manifest_bytes: size, tags: 0 }
}

impl ManifestTable {
    /// Makes the table over a database.
    pub(crate) fn over(rows: Arc<Readers>) -> ManifestTable {
        let stored = rows.read(|rows| {
            let mut stored: HashMap<String, Totals> = HashMap::new();
            lookups::repositories(rows, ("", ""), "", usize::MAX, |repo, totals| {
                let sum = stored.entry(tenant_of(&repo).to_string()).or_default();
                *sum = *sum + totals;
                None::<()>
            })?;
            Ok(stored)
        });
        let tenant = |(name, stored)| (name, Arc::new(Mutex::new(Tenant::of(stored))));
        ManifestTable {
            rows,
            tenants: Mutex::new(stored.into_iter().map(tenant).collect()),
            leaving: LeavingManifests::default(),
            touches: RecentUses::new(TOUCH_RECORDED),
            pulls: RecentUses::new(PULL_RECORDED),
        }
    }

    /// Calls `change` with the tenant of a repository. One that has nothing is forgotten: clients choose names.
    pub(super) fn with_tenant<T>(&self, repo: &str, change: impl FnOnce(&mut Tenant) -> T) -> T {
        let name = tenant_of(repo);
        let tenant = guard_of(self.tenants.lock()).entry(name.to_string()).or_default().clone();
        let (result, is_empty) = {
            let mut tenant = guard_of(tenant.lock());
            (change(&mut tenant), tenant.is_empty())
        };
        drop(tenant);
        if is_empty {
            let mut tenants = guard_of(self.tenants.lock());
            let is_unused = |tenant: &Arc<Mutex<Tenant>>| Arc::strong_count(tenant) == 1 && guard_of(tenant.lock()).is_empty();
            if tenants.get(name).map_or(false, is_unused) {
                tenants.remove(name);
            }
        }
        result
    }

    /// Notes a change that the rows have from this time on, and returns what it did.
    pub(crate) fn made(&self, change: &Change, outcome: Outcome, now: u64) -> Done {
        let Outcome { effect, removed, before, after } = outcome;
        match change {
            Change::PutManifest { repo, digest, tag, .. } => {
                self.count(repo, before + self.unmark(repo, digest), after, |pushes| {
                    pushes.set_manifest(digest, true);
                    tag.iter().for_each(|tag| pushes.set_tag(tag, true));
                });
                tag.iter().for_each(|tag| self.pulls.begin_anew(repo, tag, now));
            }
            Change::RestoreManifest { repo, digest, tags, .. } => {
                self.count(repo, before + self.unmark(repo, digest), after, |pushes| {
                    pushes.set_manifest(digest, true);
                    tags.iter().for_each(|tag| pushes.set_tag(&tag.name, true));
                });
            }
            Change::RemoveTag { repo, tag } => {
                self.count(repo, before, after, |pushes| pushes.set_tag(tag, false));
                return Done::Removed(if effect == Effect::Made { vec![tag.clone()] } else { Vec::new() });
            }
            Change::ExpireTags { repo, .. } => {
                let names = if let Effect::Tags(names) = effect { names } else { Vec::new() };
                self.count(repo, before, after, |pushes| names.iter().for_each(|tag| pushes.set_tag(tag, false)));
                return Done::Removed(names);
            }
            Change::RemoveManifest { repo, digest } => {
                let was_there = before.manifests > after.manifests;
                let held = if was_there { self.leaving.set_removed(repo, digest) } else { None };
                self.count(repo, before, after + held.map_or(Totals::default(), one), |pushes| {
                    if was_there {
                        pushes.set_manifest(digest, held.is_some());
                    }
                    removed.iter().for_each(|tag| pushes.set_tag(&tag.name, false));
                });
                return Done::RemovedAll(removed);
            }
            Change::TouchManifest { repo, digest, time } => self.touches.end(repo, digest, *time),
            Change::RecordPulls { pulls } => pulls.iter().for_each(|Pull { repo, tag, time }| self.pulls.end(repo, tag, *time)),
            _ => {}
        }
        Done::Nothing
    }

    /// Removes the mark of a manifest. Returns its totals if its row was removed.
    fn unmark(&self, repo: &str, digest: &str) -> Totals {
        let removed = self.leaving.unmark(repo, digest).filter(|marked| marked.is_removed);
        removed.map_or(Totals::default(), |marked| one(marked.facts.size))
    }

    /// Adds the change of a repository's totals to those of its tenant, and notes it in the pushes in progress.
    fn count(&self, repo: &str, before: Totals, after: Totals, note: impl FnOnce(&mut Pushes)) {
        self.with_tenant(repo, |tenant| {
            tenant.stored = tenant.stored + after - before;
            tenant.pushes.get_mut(repo).map(note)
        });
    }

    /// Returns the manifest with a digest.
    pub(crate) fn by_digest(&self, repo: &str, digest: &str) -> Option<NamedManifest> {
        let found = self.rows.read(|rows| lookups::by_digest(rows, repo, digest));
        found.filter(|_| !self.leaving.has(repo, digest))
    }

    /// Returns the manifest with a tag.
    pub(crate) fn by_tag(&self, repo: &str, tag: &str) -> Option<NamedManifest> {
        let found = self.rows.read(|rows| lookups::by_tag(rows, repo, tag))?;
        Some(found.manifest).filter(|named| !self.leaving.has(repo, &named.digest))
    }

    /// Returns the first tag of a manifest that `is_wanted` returns true for.
    pub(crate) fn find_tag_of(&self, repo: &str, digest: &str, is_wanted: impl Fn(&str) -> bool) -> Option<String> {
        self.rows.read(|rows| lookups::tags_of(rows, (repo, digest), 1, &is_wanted)).items.into_iter().next()
    }

    /// Notes that a client pulled a tag. Returns the pulls that are to be recorded.
    pub(super) fn pull(&self, repo: &str, tag: &str, now: u64) -> Vec<Pull> {
        let recorded = || self.rows.read(|rows| lookups::tag_times(rows, repo, tag)).map(|times| times.pulled);
        let due = self.pulls.note((repo, tag), now, recorded);
        due.into_iter().map(|((repo, tag), time)| Pull { repo, tag, time }).collect()
    }

    /// Returns the time of the last pull of a tag, if the database may not have it.
    pub(super) fn last_pull(&self, repo: &str, tag: &str) -> Option<u64> {
        self.pulls.time(repo, tag)
    }

    /// Returns the times of a tag with its last pull.
    pub(super) fn with_last_pull(&self, repo: &str, tag: &str, times: TagTimes) -> TagTimes {
        let pulled = self.pulls.time(repo, tag).filter(|pulled| *pulled >= times.pushed);
        TagTimes { pulled: times.pulled.max(pulled.unwrap_or(0)), ..times }
    }

    /// Returns since when a manifest is held as it is, by the time that its row has.
    pub(super) fn with_last_touch(&self, repo: &str, digest: &str, since: u64) -> u64 {
        since.max(self.touches.time(repo, digest).unwrap_or(0))
    }

    /// Returns whether a manifest is known, marked or not.
    pub(crate) fn is_known(&self, repo: &str, digest: &str) -> bool {
        self.leaving.has(repo, digest) || self.rows.read(|rows| lookups::since(rows, repo, digest)).is_some()
    }

    /// Returns the indexes of a repository that list a manifest.
    pub(crate) fn indexes_of(&self, repo: &str, digest: &str) -> Vec<String> {
        self.first_indexes_of(repo, digest, usize::MAX)
    }

    /// Returns the first indexes that list a manifest, marked or not, at most `most`.
    fn first_indexes_of(&self, repo: &str, digest: &str, most: usize) -> Vec<String> {
        let mut found = self.leaving.indexes_of(repo, digest);
        found.extend(self.rows.read(|rows| lookups::indexes_of(rows, repo, digest, most)));
        found.sort_unstable();
        found.dedup();
        found.truncate(most);
        found
    }

    /// Returns what holds a manifest other than a tag: an index that lists it, or its subject.
    pub(super) fn holder(&self, repo: &str, digest: &str) -> Option<String> {
        let index = self.first_indexes_of(repo, digest, 1).into_iter().next();
        index.or_else(|| {
            let marked = self.leaving.get(repo, digest).and_then(|marked| marked.facts.subject);
            let subject = marked.or_else(|| self.rows.read(|rows| lookups::subject(rows, repo, digest)));
            subject.filter(|subject| self.is_known(repo, subject))
        })
    }

    /// Returns how many of these manifests a repository does not have.
    pub(crate) fn count_missing(&self, repo: &str, digests: &[String]) -> usize {
        digests.iter().filter(|digest| self.by_digest(repo, digest).is_none()).count()
    }

    /// Returns the facts of a manifest, marked or not, and since when it is held as it is.
    pub(crate) fn any_facts(&self, repo: &str, digest: &str) -> Option<(Facts, u64)> {
        let marked = self.leaving.get(repo, digest).map(|marked| (marked.facts, marked.since));
        // A use ceases to be in memory after its row has it, so the row is read later.
        let touched = self.touches.time(repo, digest).unwrap_or(0);
        let (facts, since) = marked.or_else(|| self.rows.read(|rows| lookups::facts(rows, repo, digest)))?;
        Some((facts, since.max(touched)))
    }

    /// Marks a manifest before it is deleted. Fails if it is not to be deleted on this condition.
    pub(super) fn begin_removal(&self, repo: &str, digest: &str, removal: Removal) -> Result<(), Kept> {
        self.check_removal(repo, digest, removal)?;
        self.hide(repo, digest);
        Ok(())
    }

    /// Marks a manifest, if it is there.
    pub(crate) fn hide(&self, repo: &str, digest: &str) {
        if let Some((facts, since)) = self.any_facts(repo, digest) {
            self.leaving.mark(repo, digest, facts, since);
        }
    }

    /// Fails if a manifest is not to be deleted on a condition.
    fn check_removal(&self, repo: &str, digest: &str, removal: Removal) -> Result<(), Kept> {
        match removal {
            Removal::Asked => {
                self.first_indexes_of(repo, digest, 1).into_iter().next().map_or(Ok(()), |index| Err(Kept::ListedBy(index)))
            }
            Removal::AskedEvenIfListed => Ok(()),
            Removal::UnheldSince(time) => {
                let is_unheld = !self.leaving.has(repo, digest)
                    && self.any_facts(repo, digest).map_or(false, |(_, since)| since <= time)
                    && self.find_tag_of(repo, digest, |_| true).is_none()
                    && self.holder(repo, digest).is_none();
                is_unheld.then_some(()).ok_or(Kept::Held)
            }
        }
    }

    /// Removes the mark of a manifest that the store still has.
    pub(super) fn end_removal(&self, repo: &str, digest: &str) {
        let gone = self.unmark(repo, digest);
        self.count(repo, gone, Totals::default(), |_| ());
    }

    /// Notes that the store has deleted a manifest. Its row was removed before, with its tags.
    pub(super) fn finish_removal(&self, repo: &str, digest: &str) {
        let gone = self.unmark(repo, digest);
        self.count(repo, gone, Totals::default(), |pushes| pushes.set_manifest(digest, false));
    }

    /// Notes that a client asked for a manifest by its digest, and so may be about to push something that holds it. Returns the changes that
    /// are to be recorded.
    pub(super) fn touch(&self, repo: &str, digest: &str, now: u64) -> Vec<Change> {
        let recorded = || self.rows.read(|rows| lookups::since(rows, repo, digest));
        let due = self.touches.note((repo, digest), now, recorded);
        due.into_iter().map(|((repo, digest), time)| Change::TouchManifest { repo, digest, time }).collect()
    }
}

#[cfg(test)]
mod tests {
    use super::*;
    use crate::metadata::manifest_lists::Overview;
    use crate::metadata::memory_table::MemoryTable;
    use crate::metadata::tag::RemovedTag;

    const TYPE: &str = "application/vnd.oci.image.manifest.v1+json";

    fn facts(media_type: &str) -> Facts {
        Facts { media_type: media_type.to_string(), ..Facts::default() }
    }

    fn removed_tag(name: &str) -> RemovedTag {
        RemovedTag { name: name.to_string(), times: TagTimes { pushed: 1, pulled: 0 } }
    }

    impl MemoryTable {
        pub(crate) fn add(&self, digest: &str, media_type: &str, tag: Option<&str>) {
            self.put("acme/web", digest, facts(media_type), tag, 1);
        }

        /// Adds a tag of a manifest that is here.
        pub(crate) fn add_tag(&self, repo: &str, tag: &str, digest: &str, times: TagTimes) {
            let facts = self.any_facts(repo, digest).unwrap().0;
            self.restore(repo, digest, facts, 1, vec![RemovedTag { name: tag.to_string(), times }]);
        }

        /// Removes a tag, also if its manifest is marked. Returns it if it was there.
        fn take_tag(&self, repo: &str, tag: String, now: u64) -> Option<String> {
            match self.make(&Change::RemoveTag { repo: repo.to_string(), tag }, now) {
                Done::Removed(names) => names.into_iter().next(),
                done => panic!("{done:?}"),
            }
        }

        /// Removes the row of a manifest and its tags, and returns these.
        pub(crate) fn take_tags_of(&self, repo: &str, digest: &str, now: u64) -> Vec<RemovedTag> {
            match self.make(&Change::RemoveManifest { repo: repo.to_string(), digest: digest.to_string() }, now) {
                Done::RemovedAll(tags) => tags,
                done => panic!("{done:?}"),
            }
        }

        /// Adds a manifest and its tags that were removed.
        pub(crate) fn restore(&self, repo: &str, digest: &str, facts: Facts, since: u64, tags: Vec<RemovedTag>) {
            let (repo, digest) = (repo.to_string(), digest.to_string());
            self.make(&Change::RestoreManifest { repo, digest, facts, since, tags }, since);
        }

        /// Removes a manifest that the store has deleted, and its tags.
        pub(crate) fn remove_manifest(&self, repo: &str, digest: &str, now: u64) {
            self.take_tags_of(repo, digest, now);
            self.finish_removal(repo, digest);
        }
    }

    #[test]
    fn a_table_over_rows_has_the_totals_of_their_tenants() {
        let table = MemoryTable::default();
        for (repo, digest, tag) in
            [("acme/a", "a", Some("v1")), ("acme/b", "a", None), ("acme/b", "b", Some("v1")), ("other", "a", None)]
        {
            table.put(repo, digest, Facts { size: 7, ..facts(TYPE) }, tag, 1);
        }
        let again = ManifestTable::over(table.rows.clone());
        assert_eq!(again.totals("acme"), Totals { manifests: 3, manifest_bytes: 21, tags: 2 });
        assert_eq!((again.totals("other"), again.totals("none")), (one(7), Totals::default()));
    }

    #[test]
    fn a_manifests_tags_go_with_it() {
        let table = MemoryTable::default();
        table.add("sha256:a", "text/a", Some("v1"));
        table.add("sha256:b", "text/b", Some("v2"));
        table.add("sha256:a", "text/a", Some("v3"));
        let named = NamedManifest { digest: "sha256:a".to_string(), media_type: "text/a".to_string(), size: 0 };
        assert_eq!(table.by_tag("acme/web", "v1"), Some(named));
        table.remove_manifest("acme/web", "sha256:a", 2);
        assert_eq!(table.by_tag("acme/web", "v1"), None);
        assert_eq!(table.by_digest("acme/web", "sha256:a"), None);
        assert_eq!(table.by_tag("acme/web", "v2").unwrap().digest, "sha256:b");
        assert!(table.remove_tag("acme/web", "v2", 2));
        assert!(!table.remove_tag("acme/web", "v2", 2));
        assert!(table.page("acme/web", "", 1).unwrap().items.is_empty());
        table.remove_manifest("acme/web", "sha256:b", 2);
        assert_eq!(table.page("acme/web", "", 1), None);
    }

    #[test]
    fn tags_that_were_removed_come_back() {
        let table = MemoryTable::default();
        for tag in ["v1", "v2", "v3"] {
            table.add("sha256:a", TYPE, Some(tag));
        }
        table.begin_removal("acme/web", "sha256:a", Removal::Asked).unwrap();
        assert_eq!(table.take_tag("acme/web", "v3".to_string(), 2).as_deref(), Some("v3"));
        assert_eq!(table.take_tag("acme/web", "v3".to_string(), 2), None);
        let removed = table.take_tags_of("acme/web", "sha256:a", 2);
        assert_eq!(removed, ["v1", "v2"].map(removed_tag));
        assert!(table.is_known("acme/web", "sha256:a") && !table.is_known("acme/web", "sha256:b"));
        table.add("sha256:b", TYPE, Some("v2"));
        table.restore("acme/web", "sha256:a", facts(TYPE), 1, removed);
        assert_eq!(table.page("acme/web", "", 9).unwrap().items, ["v1", "v2"]);
        assert_eq!(table.by_tag("acme/web", "v1").unwrap().digest, "sha256:a");
        assert_eq!(table.by_tag("acme/web", "v2").unwrap().digest, "sha256:b");
    }

    #[test]
    fn what_holds_a_manifest_is_known() {
        let table = MemoryTable::default();
        let put = |digest: &str, subject: Option<&str>, lists: &[&str], now| {
            let lists = lists.iter().map(|digest| digest.to_string()).collect();
            let facts = Facts { subject: subject.map(str::to_string), lists, size: 7, ..facts(TYPE) };
            table.put("acme/web", digest, facts, None, now);
        };
        put("image", None, &[], 1);
        put("index", None, &["image", "missing"], 2);
        put("signature", Some("index"), &[], 3);
        let index = table.any_facts("acme/web", "index").unwrap().0;
        let held = || -> Vec<(String, u64, Option<String>)> {
            table
                .untagged(("acme/web", ""), 9, |_| true)
                .items
                .into_iter()
                .map(|one| (one.digest, one.since, one.held_by))
                .collect()
        };
        let expected = |rows: &[(&str, u64, Option<&str>)]| -> Vec<(String, u64, Option<String>)> {
            rows.iter().map(|(digest, since, by)| (digest.to_string(), *since, by.map(str::to_string))).collect()
        };
        let (by_index, by_subject) = (("image", 1, Some("index")), ("signature", 3, Some("index")));
        assert_eq!(held(), expected(&[by_index, ("index", 2, None), by_subject]));
        let remove = |digest, removal| table.begin_removal("acme/web", digest, removal);
        assert_eq!(remove("image", Removal::Asked), Err(Kept::ListedBy("index".to_string())));
        for (digest, time) in [("image", 9), ("signature", 9), ("index", 1), ("missing", 9)] {
            assert_eq!(remove(digest, Removal::UnheldSince(time)), Err(Kept::Held), "{digest}");
        }
        table.put("acme/web", "index", index, Some("v1"), 4);
        assert_eq!(remove("index", Removal::UnheldSince(9)), Err(Kept::Held));
        assert!(table.remove_tag("acme/web", "v1", 5));
        assert_eq!(remove("index", Removal::UnheldSince(4)), Err(Kept::Held));
        assert_eq!(remove("index", Removal::UnheldSince(5)), Ok(()));
        // An index that is being deleted still holds what it lists.
        assert_eq!(remove("index", Removal::UnheldSince(9)), Err(Kept::Held));
        assert_eq!(held(), expected(&[by_index, by_subject]));
        table.remove_manifest("acme/web", "index", 8);
        assert_eq!(held(), expected(&[("image", 8, None), ("signature", 8, None)]));
        assert!(table.touch("acme/web", "image", 9).is_empty());
        assert_eq!(remove("image", Removal::UnheldSince(8)), Err(Kept::Held));
        assert_eq!(remove("signature", Removal::UnheldSince(8)), Ok(()));
        assert_eq!(remove("image", Removal::Asked), Ok(()));
    }

    #[test]
    fn a_request_for_a_manifest_is_recorded_once_in_an_hour() {
        let table = MemoryTable::default();
        table.add("sha256:a", TYPE, None);
        let is_due = |repo: &str, digest: &str, now| !table.touch(repo, digest, now).is_empty();
        let times = (0..4 * TOUCH_RECORDED).step_by(600);
        let recorded: Vec<u64> = times.filter(|now| is_due("acme/web", "sha256:a", *now)).collect();
        assert_eq!(recorded, [TOUCH_RECORDED + 600, 2 * TOUCH_RECORDED + 600, 3 * TOUCH_RECORDED + 600]);
        assert_eq!(table.any_facts("acme/web", "sha256:a").unwrap().1, 4 * TOUCH_RECORDED - 600);
        assert!(!is_due("acme/web", "sha256:b", 9 * TOUCH_RECORDED) && !is_due("acme/none", "sha256:a", 9 * TOUCH_RECORDED));
        // A touch that is recorded stays with the row.
        let time = 4 * TOUCH_RECORDED + 600;
        let change = table.touch("acme/web", "sha256:a", time).pop().unwrap();
        table.make(&change, 5 * TOUCH_RECORDED);
        assert_eq!(table.touches.time("acme/web", "sha256:a"), None);
        assert_eq!(table.any_facts("acme/web", "sha256:a").unwrap().1, time);
    }

    #[test]
    fn a_manifest_that_is_leaving_is_not_seen() {
        let table = MemoryTable::default();
        table.add("sha256:a", TYPE, Some("v1"));
        table.add("sha256:b", TYPE, Some("v2"));
        table.begin_removal("acme/web", "sha256:a", Removal::Asked).unwrap();
        assert_eq!(table.by_tag("acme/web", "v1"), None);
        assert_eq!(table.by_digest("acme/web", "sha256:a"), None);
        assert_eq!(table.page("acme/web", "", 9).unwrap().items, ["v2"]);
        let overview = table.overview("acme/web", 9, 9);
        assert_eq!((overview.manifests, overview.tags.len(), &*overview.tags[0].name, overview.more), (1, 1, "v2", false));
        assert_eq!(table.overview("acme/web", 0, 9), Overview { manifests: 1, tags: vec![], more: true });
        assert_eq!(table.overview("acme/none", 9, 9), Overview::default());
        assert!(!table.remove_tag("acme/web", "v1", 2));
        // Its tag may be moved to another manifest meanwhile, and then belongs to that one.
        table.add("sha256:b", TYPE, Some("v1"));
        table.remove_manifest("acme/web", "sha256:a", 2);
        assert_eq!(table.by_tag("acme/web", "v1").unwrap().digest, "sha256:b");
        table.begin_removal("acme/web", "sha256:b", Removal::Asked).unwrap();
        assert_eq!(table.page("acme/web", "", 9), None);
        table.end_removal("acme/web", "sha256:b");
        assert_eq!(table.page("acme/web", "", 9).unwrap().items, ["v1", "v2"]);
    }
}
