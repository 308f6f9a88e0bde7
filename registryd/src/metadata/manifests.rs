//! The tags and facts of the manifests that the store has. With a database a change is durable before it is visible.
use crate::database::change::{Change, Done};
use crate::database::writer::{WriteFailure, Writer};
use crate::events::event::{Effect, Report};
use crate::events::queue::Queue;
use crate::metadata::clock::now;
use crate::metadata::document::Facts;
use crate::metadata::manifest_table::ManifestTable;
use crate::metadata::memory_table::MemoryTable;
use crate::metadata::pulls::UnrecordedPulls;
use crate::metadata::repository::{Kept, Removal};
use crate::metadata::tag::{ExpiredTag, Pull, RemovedTag};
use std::ops::Deref;
use std::sync::Arc;

/// Where the rows are, with what changes them.
enum Place {
    /// In memory. Each request changes them.
    Memory(MemoryTable),
    /// In the database. Only its thread changes them.
    Database(Arc<Writer>),
}

/// The tags, and where their rows are.
pub(crate) struct Manifests {
    table: Arc<ManifestTable>,
    place: Place,
    pulls: UnrecordedPulls,
    /// The queues of events, if there are receivers.
    queue: Option<Arc<Queue>>,
}

/// The tags of a manifest that is being deleted.
pub(crate) struct RemovedTags(Vec<RemovedTag>);

impl Deref for Manifests {
    type Target = ManifestTable;

    fn deref(&self) -> &ManifestTable {
        &self.table
    }
}

impl Manifests {
    /// Makes the manifests of a registry without a folder.
    pub(crate) fn in_memory(queue: Option<Arc<Queue>>) -> Manifests {
        let memory = MemoryTable::default();
        let table = memory.table.clone();
        Manifests { table, place: Place::Memory(memory), pulls: UnrecordedPulls::default(), queue }
    }

    /// Makes the manifests of a database, which this writer changes.
    pub(crate) fn over(table: Arc<ManifestTable>, writer: Arc<Writer>, queue: Option<Arc<Queue>>) -> Manifests {
        Manifests { table, place: Place::Database(writer), pulls: UnrecordedPulls::default(), queue }
    }

    /// Makes a change of this process alone, and adds its events.
    fn make<T>(&self, report: Option<Report>, change: impl FnOnce() -> (T, Effect)) -> T {
        match (&self.queue, report) {
            (Some(queue), Some(report)) => queue.push_after(&report, change),
            _ => change().0,
        }
    }

    /// Returns whether the manifests and tags survive the end of this program.
    pub(crate) fn is_kept(&self) -> bool {
        matches!(self.place, Place::Database(_))
    }

    /// Adds a manifest that the store accepted, and its tag if it was put under one.
    pub(crate) async fn put(
        &self,
        repo: &str,
        digest: &str,
        facts: Facts,
        tag: Option<&str>,
        report: Option<Report>,
    ) -> Result<(), WriteFailure> {
        let writer = match &self.place {
            Place::Database(writer) => writer,
            Place::Memory(table) => {
                self.make(report, || (table.put(repo, digest, facts, tag, now()), Effect::Made));
                return Ok(());
            }
        };
        let (repo, digest) = (repo.to_string(), digest.to_string());
        let change = Change::PutManifest { repo, digest, facts, tag: tag.map(str::to_string) };
        writer.write_reported(change, report).await?;
        Ok(())
    }

    /// Notes that a client asked for a manifest by its digest.
    pub(crate) fn touch(&self, repo: &str, digest: &str) {
        self.table.touch(repo, digest, now()).into_iter().for_each(|change| self.note(change));
    }

    /// Makes a change that no request waits for.
    fn note(&self, change: Change) {
        match &self.place {
            Place::Database(writer) => writer.note(change),
            Place::Memory(table) => drop(table.make(&change, now())),
        }
    }

    /// Records the time, by which the ages of manifests count.
    pub(crate) fn record_time(&self) {
        if let Place::Database(writer) = &self.place {
            writer.note(Change::KeepTime);
        }
    }

    /// Removes a tag. Returns whether it was there.
    pub(crate) async fn remove_tag(&self, repo: &str, tag: &str, report: Option<Report>) -> Result<bool, WriteFailure> {
        let writer = match &self.place {
            // No change is synced if there is no tag.
            Place::Database(_) if self.table.by_tag(repo, tag).is_none() => return Ok(false),
            Place::Database(writer) => writer,
            Place::Memory(table) => {
                return Ok(self.make(report, || match table.remove_tag(repo, tag, now()) {
                    true => (true, Effect::Made),
                    false => (false, Effect::Nothing),
                }));
            }
        };
        let change = Change::RemoveTag { repo: repo.to_string(), tag: tag.to_string() };
        let removed = writer.write_reported(change, report).await?;
        Ok(removed != Done::Removed(Vec::new()))
    }

    /// Notes that a client pulled a tag.
    pub(crate) fn pull(&self, repo: &str, tag: &str) {
        self.table.pull(repo, tag, now()).into_iter().for_each(|pull| self.pulls.add(pull));
    }

    /// Records pulls of at most `most` tags. Returns whether more wait.
    pub(crate) fn record_pulls(&self, most: usize) -> bool {
        let taken = self.pulls.take(most);
        let is_more = taken.len() == most;
        let last = |pull: Pull| Pull { time: self.table.last_pull(&pull.repo, &pull.tag).unwrap_or(0).max(pull.time), ..pull };
        let pulls: Vec<Pull> = taken.into_iter().map(last).collect();
        if !pulls.is_empty() {
            self.note(Change::RecordPulls { pulls });
        }
        is_more
    }

    /// Removes tags in one step, but for those that were pushed meanwhile. Returns the names of those that it removed.
    pub(crate) async fn expire_tags(
        &self,
        repo: &str,
        tags: Vec<ExpiredTag>,
        report: Option<Report>,
    ) -> Result<Vec<String>, WriteFailure> {
        let writer = match &self.place {
            Place::Database(writer) => writer,
            Place::Memory(table) => {
                let expire = || {
                    let removed = table.expire_tags(repo, &tags, now());
                    (removed.clone(), Effect::Tags(removed))
                };
                return Ok(self.make(report, expire));
            }
        };
        match writer.write_reported(Change::ExpireTags { repo: repo.to_string(), tags }, report).await? {
            Done::Removed(names) => Ok(names),
            Done::Nothing | Done::RemovedAll(_) => Ok(Vec::new()),
        }
    }

    /// Marks a manifest that the store is going to be asked to delete. With a database, it and its tags are removed there
    /// before the store deletes it, so that no tag names a missing manifest after a crash. The events are taken out of `report`
    /// then, and recorded with that change. Fails if it is not to be deleted on this condition.
    pub(crate) async fn begin_removal(
        &self,
        repo: &str,
        digest: &str,
        removal: Removal,
        report: &mut Option<Report>,
    ) -> Result<Result<RemovedTags, Kept>, WriteFailure> {
        if let Err(kept) = self.table.begin_removal(repo, digest, removal) {
            return Ok(Err(kept));
        }
        let writer = match &self.place {
            Place::Database(writer) if self.table.is_known(repo, digest) => writer,
            _ => return Ok(Ok(RemovedTags(Vec::new()))),
        };
        let change = Change::RemoveManifest { repo: repo.to_string(), digest: digest.to_string() };
        match writer.write_reported(change, report.take()).await {
            Ok(Done::RemovedAll(tags)) => Ok(Ok(RemovedTags(tags))),
            Ok(_) => Ok(Ok(RemovedTags(Vec::new()))),
            Err(failure) => {
                if failure == WriteFailure::NoRoom {
                    self.table.end_removal(repo, digest);
                }
                Err(failure)
            }
        }
    }

    /// Removes a manifest that the store has deleted, and records its events if they are not recorded yet.
    pub(crate) async fn finish_removal(&self, repo: &str, digest: &str, report: Option<Report>) -> Result<(), WriteFailure> {
        match &self.place {
            Place::Database(writer) => {
                self.table.finish_removal(repo, digest);
                if let Some(report) = report {
                    writer.write_reported(Change::AddEvents, Some(report)).await?;
                }
            }
            Place::Memory(table) => self.make(report, || {
                let change = Change::RemoveManifest { repo: repo.to_string(), digest: digest.to_string() };
                let tags = match table.make(&change, now()) {
                    Done::RemovedAll(tags) => tags.into_iter().map(|tag| tag.name).collect(),
                    Done::Nothing | Done::Removed(_) => Vec::new(),
                };
                (table.finish_removal(repo, digest), Effect::Tags(tags))
            }),
        }
        Ok(())
    }

    /// Shows a manifest and its tags again that the store did not delete. A tag that names another manifest by now stays.
    pub(crate) async fn undo_removal(
        &self,
        repo: &str,
        digest: &str,
        tags: RemovedTags,
        report: impl FnOnce(&Facts) -> Option<Report>,
    ) -> Result<(), WriteFailure> {
        if let (Place::Database(writer), Some((facts, since))) = (&self.place, self.table.any_facts(repo, digest)) {
            let (report, repo, digest) = (report(&facts), repo.to_string(), digest.to_string());
            writer.write_reported(Change::RestoreManifest { repo, digest, facts, since, tags: tags.0 }, report).await?;
        }
        self.table.end_removal(repo, digest);
        Ok(())
    }
}

#[cfg(test)]
mod tests {
    use super::*;
    use crate::database::test_folder::TestFolder;
    use crate::database::writer::tests::{put, started};

    /// Pushes a tag, and waits until it is visible. No other task of this thread runs meanwhile.
    fn push(writer: &Arc<Writer>, tag: &str) {
        let (writer, change) = (writer.clone(), put(tag));
        let runtime = || tokio::runtime::Builder::new_current_thread().enable_time().build().unwrap();
        let pushed = std::thread::spawn(move || runtime().block_on(writer.write(change)));
        assert_eq!(pushed.join().unwrap(), Ok(Done::Nothing));
    }

    #[tokio::test]
    async fn a_tag_that_is_pushed_during_the_look_for_it_stays() {
        let folder = TestFolder::new();
        let (writer, thread, table) = started(&folder.0);
        let manifests = Manifests::over(table.clone(), writer.clone(), None);
        // This prepares the statement of the look.
        assert_eq!(manifests.remove_tag("acme/web", "v1", None).await, Ok(false));
        let pushing = writer.clone();
        table.rows.act_in_next_look(move || push(&pushing, "v1"));
        assert_eq!(manifests.remove_tag("acme/web", "v1", None).await, Ok(false));
        assert!(table.by_tag("acme/web", "v1").is_some());
        assert_eq!(manifests.remove_tag("acme/web", "v1", None).await, Ok(true));
        assert_eq!(table.by_tag("acme/web", "v1"), None);
        assert_eq!(writer.end(thread).await, Ok(()));
    }
}
