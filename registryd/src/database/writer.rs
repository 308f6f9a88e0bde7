//! The thread that writes the database. It puts all changes that wait into one transaction, so that one sync serves many
//! requests. What a request reads is durable: SQLite shows a transaction to the connections that read after its sync.
use crate::database::change::{Change, Done};
use crate::database::event_rows::NewEvents;
use crate::database::sqlite::{Committed, Database};
use crate::database::statements::Outcome;
use crate::database::upload_numbers::UploadNumbers;
use crate::events::event::{Effect, Event, Report};
use crate::events::queue::Queue;
use crate::folder::disk_room::DiskRoom;
use crate::metadata::clock::now;
use crate::metadata::manifest_table::ManifestTable;
use crate::operation::exit::Failure;
use crate::operation::locks::guard_of;
use crate::operation::metrics::Commits;
use std::collections::{BTreeSet, HashMap};
use std::sync::{Arc, Condvar, Mutex, MutexGuard};
use std::thread::JoinHandle;
use std::time::{Duration, Instant};
use tokio::sync::{oneshot, Notify};

/// The time after which changes are written that no request waits for.
const REST: Duration = Duration::from_secs(1);

/// The time that the thread has to write the last changes.
const END_TIME: Duration = Duration::from_secs(8);

/// The maximum number of changes that wait, beyond which events that no request waits for are dropped.
const MOST_WAITING: usize = 1 << 16;

/// The reason why a change was not made.
#[derive(Debug, PartialEq, Eq)]
pub(crate) enum WriteFailure {
    /// The database has failed, is closed, or does not reply in time: the change may be there or not after a restart.
    Unavailable,
    /// The disk has no room. Nothing was changed.
    NoRoom,
}

/// The reason why no change is made any more.
#[derive(Clone, Debug, PartialEq, Eq)]
pub(crate) enum WriterFailure {
    /// Another registry has taken the folder over.
    Lost,
    /// A transaction failed, or its thread.
    Failed(String),
}

impl From<WriterFailure> for Failure {
    fn from(failure: WriterFailure) -> Failure {
        match failure {
            WriterFailure::Lost => Failure::of_lost_folder(),
            WriterFailure::Failed(why) => Failure::of_database(&why),
        }
    }
}

/// A change with its events, and the request that waits for it, if one does.
struct Waiting {
    change: Change,
    report: Option<Report>,
    reply: Option<oneshot::Sender<Result<Done, WriteFailure>>>,
}

#[derive(Default)]
struct State {
    waiting: Vec<Waiting>,
    /// Whether a request waits.
    is_awaited: bool,
    /// The time at which the first change was added that waits.
    since: Option<Instant>,
    is_closed: bool,
    failure: Option<WriterFailure>,
}

/// The changes that wait for the thread.
pub(crate) struct Writer {
    state: Mutex<State>,
    ready: Condvar,
    /// Notified after a failure.
    failed: Notify,
    commits: Commits,
    /// The time limit of a change.
    limit: Duration,
    /// The room on the disk.
    room: Arc<DiskRoom>,
    /// The events that wait for their receivers, if there are receivers.
    queue: Option<Arc<Queue>>,
}

/// The thread, and the database that it has opened.
pub(crate) struct WriterThread(JoinHandle<rusqlite::Result<()>>);

impl Writer {
    /// Makes a writer that counts its transactions. Its thread is not running yet.
    pub(crate) fn new(commits: Commits, limit: Duration, room: Arc<DiskRoom>, queue: Option<Arc<Queue>>) -> Arc<Writer> {
        let (state, ready, failed) = (Mutex::default(), Condvar::new(), Notify::new());
        Arc::new(Writer { state, ready, failed, commits, limit, room, queue })
    }

    /// Starts the thread. `recorded` has, for each tenant, the number up to which its uploads are recorded.
    pub(crate) fn start(
        self: &Arc<Writer>,
        database: Database,
        table: Arc<ManifestTable>,
        recorded: HashMap<String, u32>,
    ) -> std::io::Result<WriterThread> {
        let writer = self.clone();
        let numbers = recorded.into_iter().map(|(tenant, upto)| (tenant, UploadNumbers::after(upto))).collect();
        let thread = std::thread::Builder::new().name("database".to_string());
        thread.spawn(move || writer.run(database, &table, numbers)).map(WriterThread)
    }

    fn state(&self) -> MutexGuard<'_, State> {
        guard_of(self.state.lock())
    }

    fn add(&self, waiting: Waiting) {
        let mut state = self.state();
        if state.is_closed {
            return;
        }
        let is_first = state.waiting.is_empty();
        state.is_awaited |= waiting.reply.is_some();
        state.since.get_or_insert_with(Instant::now);
        let wakes = is_first || waiting.reply.is_some();
        state.waiting.push(waiting);
        drop(state);
        if wakes {
            self.ready.notify_one();
        }
    }

    /// Makes a change. Returns after it is durable and noted in the tables of this process. A change that is late is made
    /// nevertheless. One that fails for room is not made, unless it restores something: that is made when there is room.
    pub(crate) async fn write(&self, change: Change) -> Result<Done, WriteFailure> {
        self.write_reported(change, None).await
    }

    /// Makes a change as `write` does, and records its events in the same transaction.
    pub(crate) async fn write_reported(&self, change: Change, report: Option<Report>) -> Result<Done, WriteFailure> {
        let (reply, made) = oneshot::channel();
        self.add(Waiting { change, report, reply: Some(reply) });
        let made = tokio::time::timeout(self.limit, made).await.map_err(|_| {
            tracing::warn!("the database does not reply in time");
            WriteFailure::Unavailable
        })?;
        made.unwrap_or(Err(WriteFailure::Unavailable))
    }

    /// Makes a change at some later time. It is lost if the program or the machine stops before.
    pub(crate) fn note(&self, change: Change) {
        self.add(Waiting { change, report: None, reply: None });
    }

    /// Records events at some later time. They are lost if the program or the machine stops before. They are dropped if the thread is
    /// far behind.
    pub(crate) fn note_events(&self, report: Report) {
        match &self.queue {
            Some(queue) if self.state().waiting.len() >= MOST_WAITING => queue.drop_unkept(),
            _ => self.add(Waiting { change: Change::AddEvents, report: Some(report), reply: None }),
        }
    }

    /// Waits until a change could not be made, and returns why.
    pub(crate) async fn failure(&self) -> WriterFailure {
        loop {
            let notified = self.failed.notified();
            if let Some(failure) = self.state().failure.clone() {
                return failure;
            }
            notified.await;
        }
    }

    /// Writes the changes that wait, closes the database and ends the thread. Later changes fail.
    pub(crate) async fn end(&self, thread: WriterThread) -> Result<(), WriterFailure> {
        self.state().is_closed = true;
        self.ready.notify_one();
        let joined = tokio::task::spawn_blocking(move || thread.0.join());
        match tokio::time::timeout(END_TIME, joined).await {
            Ok(Ok(Ok(Ok(())))) => self.state().failure.clone().map_or(Ok(()), Err),
            Ok(Ok(Ok(Err(error)))) => Err(WriterFailure::Failed(error.to_string())),
            Ok(_) => Err(WriterFailure::Failed("a bug in this program stopped its thread".to_string())),
            Err(_) => Err(WriterFailure::Failed(format!("it did not end within {} s", END_TIME.as_secs()))),
        }
    }

    /// Takes the changes that wait, after a request waits for one, they are old, or the writer is closed. Returns `None` if
    /// it is closed and none waits.
    fn next(&self) -> Option<Vec<Waiting>> {
        let mut state = self.state();
        loop {
            let left = state.since.map_or(REST, |since| REST.saturating_sub(since.elapsed()));
            if !state.waiting.is_empty() && (state.is_awaited || state.is_closed || left == Duration::ZERO) {
                state.is_awaited = false;
                state.since = None;
                return Some(std::mem::take(&mut state.waiting));
            }
            if state.is_closed {
                return None;
            }
            state = match state.waiting.is_empty() {
                true => guard_of(self.ready.wait(state)),
                false => guard_of(self.ready.wait_timeout(state, left)).0,
            };
        }
    }

    /// Refuses all changes from now on. The requests that wait are not replied to.
    fn fail(&self, failure: WriterFailure) {
        let mut state = self.state();
        state.is_closed = true;
        state.failure.get_or_insert(failure);
        state.waiting.clear();
        drop(state);
        self.failed.notify_one();
    }

    /// Returns whether the disk has room for a transaction with these changes. The reserve is given up only if a request waits.
    fn has_room(&self, batch: &[Waiting]) -> bool {
        match batch.iter().any(|waiting| waiting.reply.is_some()) {
            true => self.room.make(),
            false => self.room.is_there(),
        }
    }

    /// Adds events to the queues of their receivers.
    fn push(&self, events: Vec<Event>) {
        if let Some(queue) = &self.queue {
            if queue.push(events) {
                self.note(Change::PassEvents { passed: queue.take_passed() });
            }
        }
    }

    /// Replies to the requests whose changes were not made for want of room. Their events are in memory alone if the store has done what
    /// they report. Changes that nobody waits for are tried again after a
    /// while, in front of those that came meanwhile. They are lost if the writer is closed.
    fn put_back(&self, batch: Vec<Waiting>) {
        let mut left = Vec::new();
        for Waiting { change, report, reply } in batch {
            let is_event = change.is_event();
            match report {
                Some(report) if is_event => self.push(report.events(Effect::Made)),
                report if reply.is_none() || change.stays() => left.push(Waiting { change, report, reply: None }),
                _ => {}
            }
            if let Some(reply) = reply {
                let _ = reply.send(if is_event { Ok(Done::Nothing) } else { Err(WriteFailure::NoRoom) });
            }
        }
        let mut state = self.state();
        if state.is_closed {
            if !left.is_empty() {
                tracing::warn!(count = left.len(), "the disk is full: changes that no request waited for are not recorded");
            }
            return;
        }
        left.append(&mut state.waiting);
        state.since = Some(Instant::now());
        state.waiting = left;
    }

    /// Writes changes until the writer is closed, or until one transaction fails: after a failed write or sync the system may
    /// have dropped what it could not write, so nothing is tried again. A transaction for which the disk has no room is undone
    /// instead.
    fn run(
        &self,
        mut database: Database,
        table: &ManifestTable,
        mut numbers: HashMap<String, UploadNumbers>,
    ) -> rusqlite::Result<()> {
        let _guard = FailOnPanic(self);
        let mut unrecorded = BTreeSet::new();
        while let Some(batch) = self.next() {
            unrecorded.extend(see_numbers(&mut numbers, &batch));
            let recorded: Vec<(String, u32)> =
                unrecorded.iter().map(|name: &String| (name.clone(), numbers[name].upto())).collect();
            let now = now();
            let mut events = NewEvents::from(self.queue.as_ref().map_or(0, |queue| queue.next_number()));
            let mut outcomes = Vec::with_capacity(batch.len());
            let changes = batch.iter().map(|waiting| (&waiting.change, waiting.report.as_ref()));
            let committed = match self.has_room(&batch) {
                true => database.commit_reported(changes, &recorded, now, &mut events, &mut outcomes),
                false => Ok(Committed::NoRoom),
            };
            match committed {
                Ok(Committed::Made) => {}
                Ok(Committed::NoRoom) => {
                    self.put_back(batch);
                    continue;
                }
                Ok(Committed::Lost) => {
                    self.fail(WriterFailure::Lost);
                    // Closing it may write to the files, which are another registry's.
                    std::mem::forget(database);
                    return Ok(());
                }
                Err(error) => {
                    self.fail(WriterFailure::Failed(error.to_string()));
                    return Err(error);
                }
            }
            unrecorded.clear();
            self.commits.count();
            self.apply(batch, outcomes, table, now);
            // A receiver that asks for what an event names finds it.
            self.push(events.made);
        }
        database.close()
    }

    /// Notes changes in the tables of this process, and replies to the requests that wait for them.
    fn apply(&self, batch: Vec<Waiting>, outcomes: Vec<Outcome>, table: &ManifestTable, now: u64) {
        for (Waiting { change, reply, .. }, outcome) in batch.into_iter().zip(outcomes) {
            let done = table.made(&change, outcome, now);
            if let Some(reply) = reply {
                let _ = reply.send(Ok(done));
            }
        }
    }
}

/// Refuses further changes if the thread panics.
struct FailOnPanic<'w>(&'w Writer);

impl Drop for FailOnPanic<'_> {
    fn drop(&mut self) {
        if std::thread::panicking() {
            self.0.fail(WriterFailure::Failed("a bug in this program stopped its thread".to_string()));
        }
    }
}

/// Notes the numbers of uploads in changes. Returns the tenants whose number changed up to which all are recorded.
fn see_numbers(numbers: &mut HashMap<String, UploadNumbers>, batch: &[Waiting]) -> Vec<String> {
    batch.iter().filter_map(|waiting| waiting.change.see_number(numbers).map(str::to_string)).collect()
}

#[cfg(test)]
pub(crate) mod tests {
    use super::*;
    use crate::events::event::tests::report;
    use crate::events::receivers::tests::receiver;
    use crate::metadata::document::Facts;
    use crate::operation::metrics::Metrics;
    use std::path::PathBuf;

    fn folder() -> PathBuf {
        let path = std::env::temp_dir().join(format!("registryd-{}", uuid::Uuid::new_v4()));
        std::fs::create_dir(&path).unwrap();
        path
    }

    /// Starts the thread of a folder's database. Returns it with the writer and the table over the database.
    pub(crate) fn started(folder: &std::path::Path) -> (Arc<Writer>, WriterThread, Arc<ManifestTable>) {
        let room = Arc::new(DiskRoom::new(folder.to_path_buf(), 0, 0));
        let writer = Writer::new(Commits::new(), Duration::from_secs(60), room, None);
        let mut database = Database::open(folder, true).unwrap();
        let tags = Arc::new(ManifestTable::over(database.readers().unwrap()));
        let thread = writer.start(database, tags.clone(), HashMap::new()).unwrap();
        (writer, thread, tags)
    }

    /// Returns the push of a manifest under a tag.
    pub(crate) fn put(tag: &str) -> Change {
        let (repo, digest) = ("acme/web".to_string(), "sha256:a".to_string());
        let facts = Facts { media_type: "x/a".to_string(), ..Facts::default() };
        Change::PutManifest { repo, digest, facts, tag: Some(tag.to_string()) }
    }

    #[tokio::test]
    async fn a_change_is_durable_and_visible_after_its_reply() {
        let folder = folder();
        let (writer, thread, tags) = started(&folder);
        assert_eq!(writer.write(put("v1")).await, Ok(Done::Nothing));
        assert_eq!(tags.by_tag("acme/web", "v1").unwrap().media_type, "x/a");
        writer.note(Change::OpenUpload { repo: "acme/web".to_string(), number: 1 });
        let remove = Change::RemoveTag { repo: "acme/web".to_string(), tag: "v1".to_string() };
        assert_eq!(writer.write(remove.clone()).await, Ok(Done::Removed(vec!["v1".to_string()])));
        assert_eq!(writer.write(remove).await, Ok(Done::Removed(Vec::new())));
        writer.note(Change::PassUpload { repo: "acme/web".to_string(), number: 2 });
        writer.note(Change::BeginUploads { repo: "other/web".to_string(), number: 7 });
        writer.note(Change::OpenUpload { repo: "other/web".to_string(), number: 9 });
        assert_eq!(writer.end(thread).await, Ok(()));
        assert_eq!(writer.write(put("v2")).await, Err(WriteFailure::Unavailable));
        let rows = Database::open(&folder, true).unwrap().read_all();
        assert_eq!((rows.tags.len(), rows.manifests.len(), rows.rows.uploads.len()), (0, 1, 2));
        assert_eq!(rows.rows.recorded, [("acme".to_string(), 2), ("other".to_string(), 7)].into());
        std::fs::remove_dir_all(folder).unwrap();
    }

    #[tokio::test]
    async fn a_change_that_nobody_waits_for_is_made_after_a_while() {
        let folder = folder();
        let (writer, thread, _) = started(&folder);
        writer.note(Change::OpenUpload { repo: "acme/web".to_string(), number: 1 });
        assert_eq!(writer.commits.total(), 0);
        tokio::time::sleep(REST + Duration::from_millis(500)).await;
        assert_eq!(writer.commits.total(), 1);
        assert_eq!(writer.end(thread).await, Ok(()));
        std::fs::remove_dir_all(folder).unwrap();
    }

    #[tokio::test]
    async fn a_full_disk_keeps_the_events_of_what_was_done_in_memory() {
        let queue = Arc::new(Queue::new(9, &[receiver("all", "")], &Metrics::new(), true));
        let room = Arc::new(DiskRoom::new(std::env::temp_dir(), 0, 0));
        let writer = Writer::new(Commits::new(), Duration::from_secs(60), room, Some(queue.clone()));
        let ((reply, made), (other, failed)) = (oneshot::channel(), oneshot::channel());
        let waiting = |change, reply| Waiting { change, report: Some(report()), reply };
        writer.put_back(vec![
            waiting(Change::AddEvents, Some(reply)),
            waiting(put("v1"), Some(other)),
            waiting(Change::AddEvents, None),
        ]);
        assert_eq!((made.await.unwrap(), failed.await.unwrap()), (Ok(Done::Nothing), Err(WriteFailure::NoRoom)));
        assert_eq!((queue.next_number(), writer.state().waiting.len()), (3, 0));
    }

    #[tokio::test]
    async fn nothing_is_made_after_a_failure() {
        let folder = folder();
        let (writer, thread, tags) = started(&folder);
        assert_eq!(writer.write(put("v1")).await, Ok(Done::Nothing));
        let failure = WriterFailure::Failed("the disk is full".to_string());
        writer.fail(failure.clone());
        assert_eq!(writer.write(put("v2")).await, Err(WriteFailure::Unavailable));
        assert_eq!(writer.failure().await, failure);
        assert_eq!(writer.end(thread).await, Err(failure));
        assert_eq!(tags.by_tag("acme/web", "v2"), None);
        std::fs::remove_dir_all(folder).unwrap();
    }
}
