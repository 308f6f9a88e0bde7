//! The start of a registry with a folder: reads the database, and compares it with the store.
//!
//! The store is asked about each manifest and each open upload. So after any crash no tag and no list of referrers names a
//! missing manifest, and each open upload has a name and is abandoned if nobody continues it. Empty repositories are
//! removed.
use crate::auth::robots::RobotRow;
use crate::database::change::Change;
use crate::database::rows::{IncompleteManifest, ManifestKey, Rows, UploadRow};
use crate::database::sqlite::{Committed, Database};
use crate::events::queue::EventRows;
use crate::folder::log_end::LogEnd;
use crate::folder::unsynced;
use crate::metadata::clock::now;
use crate::metadata::document::Facts;
use crate::metadata::manifest_table::ManifestTable;
use crate::metadata::names::tenant_of;
use crate::metadata::upload_names::Secret;
use crate::metadata::{clock, document};
use crate::moving::stage::MoveRow;
use crate::operation::exit::Failure;
use crate::start::losses::Loss;
use crate::start::opening::Opened;
use crate::store::client::{Store, StoreUnavailable};
use crate::store::frames::{Command, Reason, Refusal, Request};
use crate::store::undo::Undo;
use std::collections::{BTreeMap, BTreeSet, HashMap, HashSet};
use std::path::PathBuf;
use std::sync::atomic::{AtomicU64, Ordering};

/// The number of calls that are sent at once. Their replies fit into the shortest pipe, so `blobd` reads all of them.
const BATCH: usize = 64;

/// The number of manifests of the database that are compared with the store at once.
const COMPARED: usize = 4096;

/// The number of manifests that the start of this process has compared with the store.
static COMPARED_SO_FAR: AtomicU64 = AtomicU64::new(0);

/// The first and the greatest number of session numbers that are searched at once.
const SEARCHED: (u32, u32) = (128, 4096);

/// The number of session numbers that are searched if the tenant's next one cannot be found.
const MOST_SEARCHED: u32 = 65_536;

/// An upload that was opened before the start.
pub(super) struct FoundUpload {
    pub(super) repo: String,
    pub(super) number: u32,
    pub(super) received: u64,
}

/// What the database and the store have of the time before the start.
pub(super) struct Recovered {
    pub(super) database: Database,
    pub(super) secret: Secret,
    pub(super) manifests: ManifestTable,
    pub(super) repositories: Vec<String>,
    pub(super) uploads: Vec<FoundUpload>,
    /// The repositories and digests of blobs that are to be unlinked after some time.
    pub(super) loose_blobs: Vec<(String, String)>,
    pub(super) robots: Vec<RobotRow>,
    /// The time since which all pulls of tags are recorded, in seconds since 1970, if they are.
    pub(super) pulls_since: Option<u64>,
    /// The copies of mirrors, each with the time of its last use.
    pub(super) cached: Vec<(String, String, u64)>,
    /// For each tenant, a number up to which all uploads are recorded.
    pub(super) recorded: HashMap<String, u32>,
    /// The events that are not delivered yet.
    pub(super) events: EventRows,
    /// The tenants that are being moved, or were.
    pub(super) moves: Vec<MoveRow>,
}

/// What a start finds and changes.
#[derive(Default)]
struct Findings {
    changes: Vec<Change>,
    uploads: Vec<FoundUpload>,
    recorded: Vec<(String, u32)>,
    /// Whether numbers are used again, because the store has lost some.
    have_numbers_returned: bool,
}

/// Returns the number of manifests that the start of this process has compared with the store.
pub(crate) fn manifests_compared() -> u64 {
    COMPARED_SO_FAR.load(Ordering::Relaxed)
}

/// Compares the database of a folder with the store, and corrects it. Ends the start if the store has lost something that was on
/// the disk.
pub(super) async fn recover(store: &Store, opened: Opened) -> Result<Recovered, Failure> {
    let on_loss = opened.on_loss();
    let Opened { folder, mut database, is_synced, is_full, counts_pulls, most_uploads, .. } = opened;
    let (database, mut rows, incomplete) = blocking(move || {
        // The reading then has all that another registry has committed before.
        database.take()?;
        let rows = database.read()?;
        clock::begin(database.latest_time()?);
        let incomplete = database.incomplete_manifests()?;
        Ok((database, rows, incomplete))
    })
    .await?;
    let unavailable = |StoreUnavailable| not_replied();
    if is_full && !incomplete.is_empty() {
        return Err(Failure::of_database("the disk is full, and facts of manifests are missing"));
    }
    let mut findings = Findings::default();
    let pulls_since = pulls_since(&database, counts_pulls, &mut findings);
    let (database, missing) = missing_manifests(store, database).await?;
    if !missing.is_empty() {
        on_loss.meet(&Loss::of_manifests(&missing, &database.tags_of(&missing)?))?;
    }
    findings.changes.extend(missing.iter().map(removal));
    findings.changes.extend(complete(store, incomplete).await.map_err(unavailable)?);
    if !is_full {
        rows.add_probes(store);
    }
    for (tenant, repos) in by_tenant(store, &rows.repositories) {
        find_uploads(store, tenant, &repos, &rows, (is_full, most_uploads), &mut findings).await.map_err(unavailable)?;
    }
    if findings.have_numbers_returned {
        on_loss.meet(&Loss::Uploads)?;
    }
    if !is_full {
        findings.changes.extend(remove_unused(store, &mut rows.repositories).await.map_err(unavailable)?);
    }
    if !missing.is_empty() {
        tracing::warn!(count = missing.len(), "dropped manifests that the store does not have, with their tags");
    }
    let mut recorded = rows.recorded.clone();
    recorded.extend(findings.recorded.iter().cloned());
    let Findings { changes, uploads, recorded: found, have_numbers_returned } = findings;
    let correction = Correction { changes, recorded: found, have_numbers_returned, folder: is_synced.then_some(folder) };
    let known = rows.secret;
    let (database, secret) = match is_full {
        true => (database, known),
        false => blocking(move || correction.make(database, known)).await?,
    };
    let (database, manifests) = table_of(database).await?;
    if is_full {
        // Their rows stay until the next start.
        missing.iter().for_each(|(repo, digest)| manifests.hide(repo, digest));
    }
    let Rows { repositories, loose_blobs, cached, robots, events, moves, .. } = rows;
    Ok(Recovered {
        database,
        secret,
        manifests,
        repositories,
        uploads,
        loose_blobs,
        robots,
        pulls_since,
        cached,
        recorded,
        events,
        moves,
    })
}

/// Returns the time since which all pulls of tags are recorded, if they are from now on. If that changes, it is recorded.
fn pulls_since(database: &Database, counts_pulls: bool, findings: &mut Findings) -> Option<u64> {
    let recorded = database.marks().pulls_since;
    let since = counts_pulls.then(|| recorded.unwrap_or_else(now));
    if since != recorded {
        findings.changes.push(Change::CountPulls { since });
    }
    since
}

/// The changes of the database that a start makes.
struct Correction {
    changes: Vec<Change>,
    recorded: Vec<(String, u32)>,
    have_numbers_returned: bool,
    /// The folder, if each change is on the disk before its reply.
    folder: Option<PathBuf>,
}

impl Correction {
    /// Makes the changes, and returns the secret, which is another one if numbers are used again.
    fn make(mut self, mut database: Database, mut secret: Secret) -> Result<(Database, Secret), Failure> {
        let failed = |error: rusqlite::Error| Failure::of_database(&error.to_string());
        // The number is recorded after the secret is another one. If a crash comes between, the next start makes one again.
        if self.have_numbers_returned {
            secret = database.renew_secret().map_err(failed)?;
        }
        if let Some(folder) = &self.folder {
            let end = LogEnd::synced(folder).map_err(|error| Failure::of_folder("cannot sync the log", folder, &error))?;
            self.changes.extend(end.map(|end| Change::KeepLogEnd { end }));
        }
        match database.commit(self.changes.iter(), &self.recorded, now()).map_err(failed)? {
            Committed::Made => {}
            Committed::NoRoom => return Err(Failure::of_database("the disk is full")),
            Committed::Lost => return Err(Failure::of_lost_folder()),
        }
        // All changes up to now are on the disk.
        if let Some(folder) = &self.folder {
            unsynced::clear(folder)
                .map_err(|error| Failure::of_folder("cannot remove the mark of --sync never", folder, &error))?;
        }
        Ok((database, secret))
    }
}

/// Runs work that waits for the disk in a thread of its own.
pub(crate) async fn blocking<T: Send + 'static>(
    work: impl FnOnce() -> Result<T, Failure> + Send + 'static,
) -> Result<T, Failure> {
    let done = tokio::task::spawn_blocking(work).await;
    done.unwrap_or_else(|_| Err(Failure::new("a bug in this program stopped a thread that uses the folder: start again")))
}

fn removal((repo, digest): &ManifestKey) -> Change {
    Change::RemoveManifest { repo: repo.clone(), digest: digest.clone() }
}

impl Rows {
    /// Adds a repository of each tenant that has a recorded number and no repository: without one the tenant's next
    /// number cannot be found. It is empty, so it is removed again.
    fn add_probes(&mut self, store: &Store) {
        let with_repos: HashSet<&str> = self.repositories.iter().map(|repo| tenant_of(repo)).collect();
        let bare = self.recorded.keys().filter(|tenant| store.has_tenant(tenant) && !with_repos.contains(&***tenant));
        let probes: Vec<String> = bare.cloned().collect();
        self.repositories.extend(probes);
    }
}

/// Finds the facts of manifests that were put by a program which did not keep them, and returns the changes that record them. Those that
/// the store does not have are left out.
async fn complete(store: &Store, rows: Vec<IncompleteManifest>) -> Result<Vec<Change>, StoreUnavailable> {
    let mut changes = Vec::new();
    for IncompleteManifest { key: (repo, digest), media_type } in rows {
        if let Ok(content) = store.get_manifest(&repo, &digest).await? {
            let size = content.len() as u64;
            let facts = match document::read(&[content]) {
                Ok(document) => document.facts_of_stored(media_type, size),
                Err(_) => Facts { media_type, size, ..Facts::default() },
            };
            changes.push(Change::PutManifest { repo, digest, facts, tag: None });
        }
    }
    if !changes.is_empty() {
        tracing::info!(count = changes.len(), "read manifests of a database of an earlier version");
    }
    Ok(changes)
}

/// Returns the table over the rows of a database.
async fn table_of(mut database: Database) -> Result<(Database, ManifestTable), Failure> {
    blocking(move || {
        let readers = database.readers()?;
        Ok((database, ManifestTable::over(readers)))
    })
    .await
}

/// Returns the manifests of the database that the store does not have. They are compared some at a time.
async fn missing_manifests(store: &Store, mut database: Database) -> Result<(Database, Vec<ManifestKey>), Failure> {
    let (mut missing, mut last) = (Vec::new(), ManifestKey::default());
    loop {
        let (back, keys) = blocking(move || {
            let keys = database.manifest_keys(&last, COMPARED)?;
            Ok((database, keys))
        })
        .await?;
        last = match keys.last() {
            Some(key) => key.clone(),
            None => return Ok((back, missing)),
        };
        database = back;
        let see = |key: &ManifestKey, answer: Result<u64, Refusal>| {
            if is_missing(&answer) {
                missing.push(key.clone());
            }
        };
        let asked = store.ask_each(keys.iter(), stat_request, see).await;
        asked.map_err(|StoreUnavailable| not_replied())?;
        COMPARED_SO_FAR.fetch_add(keys.len() as u64, Ordering::Relaxed);
    }
}

fn stat_request((repo, digest): &ManifestKey) -> Request<'_> {
    Request { repo, digest, ..Request::new(Command::StatManifest) }
}

/// Returns whether the store replied that it does not have a manifest.
fn is_missing(answer: &Result<u64, Refusal>) -> bool {
    matches!(answer, Err(Refusal { reason: Reason::ManifestUnknown | Reason::NameUnknown, .. }))
}

fn not_replied() -> Failure {
    Failure::new("the store did not reply while the registry started")
}

/// Returns the repositories of each tenant of the store.
fn by_tenant<'r>(store: &Store, repos: &'r [String]) -> BTreeMap<&'r str, Vec<&'r str>> {
    let mut by_tenant: BTreeMap<&str, Vec<&str>> = BTreeMap::new();
    for repo in repos.iter().filter(|repo| store.has_tenant(repo)) {
        by_tenant.entry(tenant_of(repo)).or_default().push(repo);
    }
    by_tenant
}

/// Finds the open uploads of a tenant: those of the database, and those that were opened after its last transaction. The
/// numbers of these are greater than the recorded one and less than the tenant's next one. They are left to a later start if the disk
/// is full, because the next number is found by opening an upload. A tenant has at most `most` open ones.
async fn find_uploads(
    store: &Store,
    tenant: &str,
    repos: &[&str],
    rows: &Rows,
    (is_full, most): (bool, usize),
    findings: &mut Findings,
) -> Result<(), StoreUnavailable> {
    let known: Vec<&UploadRow> = rows.uploads.iter().filter(|row| tenant_of(&row.repo) == tenant).collect();
    let mut open = 0;
    let see = |row: &UploadRow, answer| match answer {
        Ok(received) => {
            open += 1;
            findings.uploads.push(FoundUpload { repo: row.repo.clone(), number: row.number, received });
        }
        Err(Refusal { reason: Reason::UploadUnknown, .. }) => {
            findings.changes.push(Change::EndUpload { repo: row.repo.clone(), number: row.number });
        }
        // It stays recorded, and the next start asks again.
        Err(refusal) => tracing::warn!(repo = %row.repo, reason = ?refusal.reason, "cannot find an upload"),
    };
    store.ask_each(known.iter().copied(), |row| status_request(&row.repo, row.number), see).await?;
    let recorded = rows.recorded.get(tenant).copied().unwrap_or(0);
    if is_full {
        return Ok(());
    }
    let next = next_number(store, repos).await?;
    findings.have_numbers_returned |= next.map_or(false, |next| next <= recorded);
    let known: HashSet<u32> = known.iter().map(|row| row.number).collect();
    let end = next.unwrap_or_else(|| recorded.saturating_add(MOST_SEARCHED));
    let (mut at, mut last, mut step) = (recorded.saturating_add(1), recorded, SEARCHED.0);
    while at < end && open < most {
        let stop = at.saturating_add(step).min(end);
        let numbers: Vec<u32> = (at..stop).filter(|number| !known.contains(number)).collect();
        for upload in search(store, repos, &numbers).await? {
            open += 1;
            last = last.max(upload.number);
            findings.changes.push(Change::OpenUpload { repo: upload.repo.clone(), number: upload.number });
            findings.uploads.push(upload);
        }
        at = stop;
        step = (2 * step).min(SEARCHED.1);
    }
    if next.is_none() && open < most {
        tracing::warn!(tenant, "the store opens no upload: open ones may be unknown until the next start");
        return Ok(());
    }
    findings.recorded.push((tenant.to_string(), next.unwrap_or(last)));
    Ok(())
}

/// Removes the repositories that are empty, or that the store does not have. A crash may leave them, and so does the
/// search for uploads. Returns the changes that remove their records. Those of other tenants stay.
async fn remove_unused(store: &Store, repos: &mut Vec<String>) -> Result<Vec<Change>, StoreUnavailable> {
    let mut removed = BTreeSet::new();
    let see = |repo: &String, answer| {
        if matches!(answer, Ok(_) | Err(Refusal { reason: Reason::NameUnknown, .. })) {
            removed.insert(repo.clone());
        }
    };
    let request = |repo| Request { repo, ..Request::new(Command::RemoveRepo) };
    let own = repos.iter().filter(|repo| store.has_tenant(repo));
    store.ask_each(own, |repo: &String| request(repo), see).await?;
    if !removed.is_empty() {
        repos.retain(|repo| !removed.contains(repo));
        tracing::info!(count = removed.len(), "removed empty repositories");
    }
    Ok(removed.into_iter().map(|repo| Change::RemoveRepository { repo }).collect())
}

fn status_request(repo: &str, number: u32) -> Request<'_> {
    Request { repo, number, ..Request::new(Command::Status) }
}

/// Returns the uploads with these numbers that are open in one of the repositories.
async fn search(store: &Store, repos: &[&str], numbers: &[u32]) -> Result<Vec<FoundUpload>, StoreUnavailable> {
    let mut found = Vec::new();
    let asked = repos.iter().flat_map(|repo| numbers.iter().map(move |number| (*repo, *number)));
    let see = |(repo, number): (&str, u32), answer| {
        if let Ok(received) = answer {
            found.push(FoundUpload { repo: repo.to_string(), number, received });
        }
    };
    store.ask_each(asked, |(repo, number)| status_request(repo, number), see).await?;
    Ok(found)
}

/// Returns a tenant's next session number, by opening a session and abandoning it. Returns `None` if the store opens none,
/// because the maximum number is open.
async fn next_number(store: &Store, repos: &[&str]) -> Result<Option<u32>, StoreUnavailable> {
    for repo in repos {
        if let Ok(number) = store.start_upload(repo).await? {
            return match store.abandon(repo, number).await? {
                Ok(()) => Ok(Some(number)),
                Err(refusal) => {
                    tracing::error!(repo, reason = ?refusal.reason, "cannot abandon an upload");
                    Err(StoreUnavailable)
                }
            };
        }
    }
    Ok(None)
}

/// Returns items in batches of at most `BATCH`.
fn batches<T>(mut items: impl Iterator<Item = T>) -> impl Iterator<Item = Vec<T>> {
    std::iter::from_fn(move || {
        let batch: Vec<T> = items.by_ref().take(BATCH).collect();
        (!batch.is_empty()).then_some(batch)
    })
}

impl Store {
    /// Makes a short call for the program itself about each of many items, and calls `see` with the first number of its reply.
    ///
    /// # Cost
    ///
    /// The calls of a batch are in memory at once.
    async fn ask_each<'r, T: Copy>(
        &self,
        items: impl Iterator<Item = T>,
        request: impl Fn(T) -> Request<'r>,
        mut see: impl FnMut(T, Result<u64, Refusal>),
    ) -> Result<(), StoreUnavailable> {
        for batch in batches(items) {
            let requests: Vec<Request<'_>> = batch.iter().map(|item| request(*item)).collect();
            let answers = self.ask_many(self.own(), self.limit, &requests, Undo::Nothing).await?;
            batch.into_iter().zip(answers).for_each(|(item, answer)| see(item, answer.map(|reply| reply.first)));
        }
        Ok(())
    }
}

#[cfg(test)]
mod tests {
    use super::*;

    #[test]
    fn batches_are_bounded_and_none_is_empty() {
        let lengths = |count: usize| batches(0..count).map(|batch| batch.len()).collect::<Vec<_>>();
        assert_eq!((lengths(0), lengths(1), lengths(BATCH)), (vec![], vec![1], vec![BATCH]));
        assert_eq!(lengths(2 * BATCH + 3), [BATCH, BATCH, 3]);
        assert_eq!(batches(0..BATCH + 1).flatten().collect::<Vec<_>>(), (0..BATCH + 1).collect::<Vec<_>>());
    }
}
