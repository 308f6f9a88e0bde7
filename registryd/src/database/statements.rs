//! The statements of SQL that make the changes of a transaction.
use crate::auth::robots::RobotRow;
use crate::database::change::Change;
use crate::database::{event_rows, lookups, marks};
use crate::events::event::Effect;
use crate::metadata::bounds::Totals;
use crate::metadata::document::Facts;
use crate::metadata::names::tenant_of;
use crate::metadata::tag::{ExpiredTag, Pull, RemovedTag, TagTimes};
use rusqlite::{params, Transaction};
use std::collections::BTreeMap;

/// What a change did to the rows.
#[derive(Debug, PartialEq, Eq)]
pub(crate) struct Outcome {
    /// What its events report.
    pub(crate) effect: Effect,
    /// The tags that were removed with a manifest.
    pub(crate) removed: Vec<RemovedTag>,
    /// The numbers of its repository's manifests and tags before it and after it.
    pub(crate) before: Totals,
    pub(crate) after: Totals,
}

/// Runs a statement.
fn run(transaction: &Transaction<'_>, query: &str, values: &[&dyn rusqlite::ToSql]) -> rusqlite::Result<()> {
    transaction.prepare_cached(query)?.execute(values).map(|_| ())
}

/// Writes a manifest. One that is there keeps the time since when it is held as it is, unless `is_put`.
fn put_manifest(
    transaction: &Transaction<'_>,
    (repo, digest): (&str, &str),
    facts: &Facts,
    since: u64,
    is_put: bool,
) -> rusqlite::Result<()> {
    let query = "INSERT INTO manifests (repository, digest, media_type, size, artifact_type, subject, since)
                 VALUES (?1, ?2, ?3, ?4, ?5, ?6, ?7)
                 ON CONFLICT DO UPDATE SET media_type = excluded.media_type, size = excluded.size,
                     artifact_type = excluded.artifact_type, subject = excluded.subject, since = excluded.since
                 WHERE ?8";
    let Facts { media_type, size, artifact_type, subject, lists } = facts;
    let (size, since) = (*size as i64, since as i64);
    run(transaction, query, params![repo, digest, media_type, size, artifact_type, subject, since, is_put])?;
    for listed in lists {
        let query = "INSERT OR IGNORE INTO listed (repository, digest, listed) VALUES (?1, ?2, ?3)";
        run(transaction, query, params![repo, digest, listed])?;
    }
    Ok(())
}

/// Notes that a tag ceases to name its manifest.
fn release_tagged(transaction: &Transaction<'_>, repo: &str, tag: &str, now: u64) -> rusqlite::Result<()> {
    let query = "UPDATE manifests SET since = ?3 WHERE repository = ?1
                 AND digest = (SELECT digest FROM tags WHERE repository = ?1 AND tag = ?2)";
    run(transaction, query, params![repo, tag, now as i64])
}

/// Removes tags, except those that were pushed meanwhile. Returns the names of those that it removed.
fn expire_tags(transaction: &Transaction<'_>, repo: &str, tags: &[ExpiredTag], now: u64) -> rusqlite::Result<Vec<String>> {
    let mut removed = Vec::new();
    for ExpiredTag { name, digest, pushed } in tags {
        let query = "DELETE FROM tags WHERE repository = ?1 AND tag = ?2 AND digest = ?3 AND pushed = ?4";
        if transaction.prepare_cached(query)?.execute(params![repo, name, digest, *pushed as i64])? > 0 {
            let query = "UPDATE manifests SET since = ?3 WHERE repository = ?1 AND digest = ?2";
            run(transaction, query, params![repo, digest, now as i64])?;
            removed.push(name.clone());
        }
    }
    Ok(removed)
}

/// Records the last pull of a tag, unless it was pushed after it.
fn record_pull(transaction: &Transaction<'_>, Pull { repo, tag, time }: &Pull) -> rusqlite::Result<()> {
    let query = "UPDATE tags SET pulled = ?3 WHERE repository = ?1 AND tag = ?2 AND pushed <= ?3 AND pulled < ?3";
    run(transaction, query, params![repo, tag, *time as i64])
}

/// Removes a manifest with its tags, which it returns. It ceases to hold what it lists, and what has it as subject.
fn remove_manifest(transaction: &Transaction<'_>, repo: &str, digest: &str, now: u64) -> rusqlite::Result<Vec<RemovedTag>> {
    let tags = lookups::tags_to_remove(transaction, repo, digest)?;
    for query in [
        "UPDATE manifests SET since = ?3 WHERE repository = ?1
         AND digest IN (SELECT listed FROM listed WHERE repository = ?1 AND digest = ?2)",
        "UPDATE manifests SET since = ?3 WHERE repository = ?1 AND subject = ?2",
    ] {
        run(transaction, query, params![repo, digest, now as i64])?;
    }
    run(transaction, "DELETE FROM manifests WHERE repository = ?1 AND digest = ?2", params![repo, digest])?;
    Ok(tags)
}

/// Writes the tags of a manifest that is restored. One that names another manifest by now stays. Returns the names of the others.
fn restore_tags(transaction: &Transaction<'_>, repo: &str, digest: &str, tags: &[RemovedTag]) -> rusqlite::Result<Vec<String>> {
    let mut restored = Vec::new();
    for RemovedTag { name, times: TagTimes { pushed, pulled } } in tags {
        let query = "INSERT OR IGNORE INTO tags (repository, tag, digest, pushed, pulled) VALUES (?1, ?2, ?3, ?4, ?5)";
        if transaction.prepare_cached(query)?.execute(params![repo, name, digest, *pushed as i64, *pulled as i64])? > 0 {
            restored.push(name.clone());
        }
    }
    Ok(restored)
}

/// Makes a change, except that of an upload, which it notes. `now` is the time. Returns what it did.
pub(crate) fn make<'c>(
    transaction: &Transaction<'_>,
    change: &'c Change,
    now: u64,
    uploads: &mut UploadChanges<'c>,
) -> rusqlite::Result<Outcome> {
    let counts = || change.counted().map_or(Ok(Totals::default()), |repo| lookups::counts(transaction, repo));
    let (before, mut removed) = (counts()?, Vec::new());
    let effect = match change {
        Change::RemoveManifest { repo, digest } => {
            removed = remove_manifest(transaction, repo, digest, now)?;
            Effect::Tags(removed.iter().map(|tag| tag.name.clone()).collect())
        }
        _ => make_effect(transaction, change, now, uploads)?,
    };
    Ok(Outcome { effect, removed, before, after: counts()? })
}

/// Makes a change that removes no manifest, and returns what its events report.
fn make_effect<'c>(
    transaction: &Transaction<'_>,
    change: &'c Change,
    now: u64,
    uploads: &mut UploadChanges<'c>,
) -> rusqlite::Result<Effect> {
    match change {
        Change::RestoreManifest { repo, digest, facts, since, tags } => {
            put_manifest(transaction, (repo, digest), facts, *since, false)?;
            restore_tags(transaction, repo, digest, tags).map(Effect::Tags)
        }
        Change::ExpireTags { repo, tags } => expire_tags(transaction, repo, tags, now).map(Effect::Tags),
        Change::RemoveTag { repo, tag } => {
            release_tagged(transaction, repo, tag, now)?;
            let query = "DELETE FROM tags WHERE repository = ?1 AND tag = ?2";
            match transaction.prepare_cached(query)?.execute(params![repo, tag])? {
                0 => Ok(Effect::Nothing),
                _ => Ok(Effect::Made),
            }
        }
        _ => make_other(transaction, change, now, uploads).map(|()| Effect::Made),
    }
}

/// Makes a change that removes and restores no tags.
fn make_other<'c>(
    transaction: &Transaction<'_>,
    change: &'c Change,
    now: u64,
    uploads: &mut UploadChanges<'c>,
) -> rusqlite::Result<()> {
    let run = |query: &str, values: &[&dyn rusqlite::ToSql]| run(transaction, query, values);
    let add_repository = |repo: &String| run("INSERT OR IGNORE INTO repositories (name) VALUES (?1)", params![repo]);
    match change {
        Change::AddRepository { repo } => add_repository(repo),
        Change::RemoveRepository { repo } => run("DELETE FROM repositories WHERE name = ?1", params![repo]),
        Change::PutManifest { repo, digest, facts, tag } => {
            add_repository(repo)?;
            put_manifest(transaction, (repo, digest), facts, now, true)?;
            match tag {
                Some(tag) => {
                    release_tagged(transaction, repo, tag, now)?;
                    // A replaced row would not run the triggers.
                    let query = "INSERT INTO tags (repository, tag, digest, pushed) VALUES (?1, ?2, ?3, ?4)
                                 ON CONFLICT DO UPDATE SET digest = excluded.digest, pushed = excluded.pushed, pulled = 0";
                    run(query, params![repo, tag, digest, now as i64])
                }
                None => Ok(()),
            }
        }
        Change::TouchManifest { repo, digest, time } => {
            let query = "UPDATE manifests SET since = ?3 WHERE repository = ?1 AND digest = ?2 AND since < ?3";
            run(query, params![repo, digest, *time as i64])
        }
        Change::RecordPulls { pulls } => pulls.iter().try_for_each(|pull| record_pull(transaction, pull)),
        Change::CountPulls { since } => marks::put_pulls_since(transaction, *since),
        Change::AddLooseBlob { repo, digest } => {
            run("INSERT OR IGNORE INTO loose_blobs (repository, digest) VALUES (?1, ?2)", params![repo, digest])
        }
        Change::RemoveLooseBlob { repo, digest } => {
            run("DELETE FROM loose_blobs WHERE repository = ?1 AND digest = ?2", params![repo, digest])
        }
        Change::AddCached { repo, digest } => {
            let query = "INSERT OR REPLACE INTO cached (repository, digest, used) VALUES (?1, ?2, ?3)";
            run(query, params![repo, digest, now as i64])
        }
        Change::UseCached { repo, digest } => {
            run("UPDATE cached SET used = ?3 WHERE repository = ?1 AND digest = ?2", params![repo, digest, now as i64])
        }
        Change::RemoveCached { repo, digest } => {
            run("DELETE FROM cached WHERE repository = ?1 AND digest = ?2", params![repo, digest])
        }
        Change::OpenUpload { repo, number } => {
            uploads.open(repo, *number);
            Ok(())
        }
        Change::EndUpload { repo, number } => {
            uploads.end(repo, *number);
            Ok(())
        }
        Change::AddRobot { row: RobotRow { name, hash, rights, made, ends } } => {
            let query = "INSERT INTO robots (name, hash, rights, made, ends) VALUES (?1, ?2, ?3, ?4, ?5)";
            run(query, params![name, hash, rights, *made as i64, *ends as i64])
        }
        Change::RemoveRobot { name } => run("DELETE FROM robots WHERE name = ?1", params![name]),
        Change::SetMove { tenant, row, robots } => {
            for RobotRow { name, hash, rights, made, ends } in robots {
                let query = "INSERT OR REPLACE INTO robots (name, hash, rights, made, ends) VALUES (?1, ?2, ?3, ?4, ?5)";
                run(query, params![name, hash, rights, *made as i64, *ends as i64])?;
            }
            marks::put_move(transaction, tenant, row.as_ref())
        }
        Change::KeepLogEnd { end } => marks::put_log_end(transaction, *end),
        Change::PassEvents { passed } => event_rows::pass(transaction, passed),
        Change::RestoreManifest { .. } | Change::RemoveTag { .. } | Change::RemoveManifest { .. } | Change::ExpireTags { .. } => {
            Ok(())
        }
        Change::PassUpload { .. } | Change::BeginUploads { .. } | Change::AddEvents | Change::KeepTime => Ok(()),
    }
}

/// The uploads that a transaction opens and ends. One that it opens and ends gets no row.
#[derive(Default)]
pub(crate) struct UploadChanges<'c> {
    /// For each tenant and number, the repository of an upload that is open at the end, or nothing if it has ended.
    by_number: BTreeMap<(&'c str, u32), Option<&'c str>>,
}

impl<'c> UploadChanges<'c> {
    fn open(&mut self, repo: &'c str, number: u32) {
        self.by_number.insert((tenant_of(repo), number), Some(repo));
    }

    fn end(&mut self, repo: &'c str, number: u32) {
        self.by_number.insert((tenant_of(repo), number), None);
    }

    pub(super) fn make(&self, transaction: &Transaction<'_>) -> rusqlite::Result<()> {
        for (&(tenant, number), repo) in &self.by_number {
            match repo {
                Some(repo) => transaction
                    .prepare_cached("INSERT OR REPLACE INTO uploads (tenant, number, repository) VALUES (?1, ?2, ?3)")?
                    .execute(params![tenant, number, repo])?,
                None => transaction
                    .prepare_cached("DELETE FROM uploads WHERE tenant = ?1 AND number = ?2")?
                    .execute(params![tenant, number])?,
            };
        }
        Ok(())
    }
}

#[cfg(test)]
mod tests {
    use super::*;
    use crate::database::test_folder::{put, since, tags, times, TestFolder};
    use crate::moving::stage::{MoveRow, Stage};

    #[test]
    fn a_tag_expires_unless_it_was_pushed_meanwhile() {
        let folder = TestFolder::new();
        let mut database = folder.open();
        let expire = |pushed, names: &[&str]| {
            let of = |name: &&str| ExpiredTag { name: name.to_string(), digest: "a".to_string(), pushed };
            Change::ExpireTags { repo: "acme/web".to_string(), tags: names.iter().map(of).collect() }
        };
        let changes = [put("a", "x/a", Some("v1")), put("a", "x/a", Some("v2")), put("a", "x/a", Some("v3"))];
        database.commit(changes.iter(), &[], 1).unwrap();
        let changes = [put("a", "x/a", Some("v1")), put("b", "x/b", Some("v2")), expire(1, &["v1", "v2", "v3", "v4"])];
        database.commit(changes.iter(), &[], 2).unwrap();
        let rows = database.read_all();
        assert_eq!((tags(&rows), times(&rows)), (vec![("v1", "a"), ("v2", "b")], vec![(2, 0), (2, 0)]));
        database.commit([expire(2, &["v1", "v2"])].iter(), &[], 9).unwrap();
        let rows = database.read_all();
        assert_eq!((tags(&rows), since(&rows)), (vec![("v2", "b")], vec![("a", 9), ("b", 2)]));
    }

    #[test]
    fn a_pull_belongs_to_the_push_before_it() {
        let folder = TestFolder::new();
        let mut database = folder.open();
        let pull = |tag: &str, time| Pull { repo: "acme/web".to_string(), tag: tag.to_string(), time };
        let pulls = |pulls: &[Pull]| Change::RecordPulls { pulls: pulls.to_vec() };
        database.commit([put("a", "x/a", Some("v1")), put("a", "x/a", Some("v2"))].iter(), &[], 5).unwrap();
        let changes = [pulls(&[pull("v1", 8), pull("v2", 7), pull("v3", 7)]), pulls(&[pull("v1", 6), pull("v2", 9)])];
        database.commit(changes.iter(), &[], 9).unwrap();
        assert_eq!(times(&folder.open().read_all()), [(5, 8), (5, 9)]);
        database.commit([put("a", "x/a", Some("v1")), pulls(&[pull("v1", 9)])].iter(), &[], 10).unwrap();
        assert_eq!(times(&folder.open().read_all()), [(10, 0), (5, 9)]);
    }

    #[test]
    fn robots_are_there_until_they_are_revoked() {
        let folder = TestFolder::new();
        let row = |name: &str, ends| RobotRow {
            name: name.to_string(),
            hash: vec![7; 32],
            rights: "read *".to_string(),
            made: 5,
            ends,
        };
        let add = |row| Change::AddRobot { row };
        folder.open().commit([add(row("robot+a", 8)), add(row("robot+b", 9))].iter(), &[], 1).unwrap();
        assert_eq!(folder.open().read().unwrap().robots, [row("robot+a", 8), row("robot+b", 9)]);
        assert!(folder.open().commit([add(row("robot+a", 9))].iter(), &[], 1).is_err());
        folder.open().commit([Change::RemoveRobot { name: "robot+a".to_string() }].iter(), &[], 1).unwrap();
        assert_eq!(folder.open().read().unwrap().robots, [row("robot+b", 9)]);
    }

    #[test]
    fn the_last_stage_of_a_move_is_kept() {
        let folder = TestFolder::new();
        let row = |tenant: &str, stage| MoveRow {
            tenant: tenant.to_string(),
            stage,
            other: "http://two".to_string(),
            robots: Vec::new(),
        };
        let set = |row: MoveRow| Change::SetMove { tenant: row.tenant.clone(), row: Some(row), robots: Vec::new() };
        let changes = [set(row("a", Stage::Closed)), set(row("b", Stage::Arriving)), set(row("a", Stage::Left))];
        folder.open().commit(changes.iter(), &[], 1).unwrap();
        assert_eq!(folder.open().read().unwrap().moves, [row("a", Stage::Left), row("b", Stage::Arriving)]);
        // The robots arrive in the transaction that ends the stage. One that is there has its rights in further tenants.
        let robot = |name: &str, rights: &str| RobotRow {
            name: name.to_string(),
            hash: vec![7; 32],
            rights: rights.to_string(),
            made: 5,
            ends: 8,
        };
        let known = Change::AddRobot { row: robot("robot+a", "read c") };
        let robots = vec![robot("robot+a", "read c\nread b"), robot("robot+b", "read b")];
        let opened = Change::SetMove { tenant: "b".to_string(), row: None, robots: robots.clone() };
        folder.open().commit([known, opened].iter(), &[], 2).unwrap();
        let rows = folder.open().read().unwrap();
        assert_eq!((rows.moves, rows.robots), (vec![row("a", Stage::Left)], robots));
    }

    #[test]
    fn the_time_since_which_pulls_are_recorded_is_kept() {
        let folder = TestFolder::new();
        for since in [Some(7), None] {
            folder.open().commit([Change::CountPulls { since }].iter(), &[], 9).unwrap();
            assert_eq!(folder.open().marks().pulls_since, since);
        }
    }
}
