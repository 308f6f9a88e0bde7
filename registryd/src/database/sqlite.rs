//! The database of a registry with a folder, `registry.db` (SQLite): tags, facts of manifests, the secret of the names of
//! uploads, and what is needed to find open uploads after a restart.
use crate::database::change::Change;
use crate::database::event_rows::{NewEvents, Reported};
use crate::database::marks::Marks;
use crate::database::readers::{self, Readers};
use crate::database::rows::{IncompleteManifest, ManifestKey, Rows, TagRow, UploadRow};
use crate::database::schema::Fault;
use crate::database::statements::{Outcome, UploadChanges};
use crate::database::witness::Witness;
use crate::database::{event_rows, marks, rows, schema, statements};
use crate::folder::ownership::Owner;
use crate::folder::unsynced;
use crate::metadata::upload_names::{Secret, SECRET_LEN};
use rusqlite::{params, Connection, ErrorCode, OpenFlags, TransactionBehavior};
use std::fs::{File, OpenOptions};
use std::os::unix::fs::OpenOptionsExt;
use std::path::{Path, PathBuf};
use std::sync::Arc;
use std::{fmt, io};

/// The name of the database's file in the folder.
pub(crate) const FILE_NAME: &str = "registry.db";

/// The flags with which the file is opened. It exists, and one thread uses a connection.
const FLAGS: OpenFlags = OpenFlags::SQLITE_OPEN_READ_WRITE.union(OpenFlags::SQLITE_OPEN_NO_MUTEX);

/// The reason why a database cannot be opened.
#[derive(Clone, Copy, Debug, PartialEq, Eq)]
pub(crate) enum Problem {
    /// The file cannot be opened, read or written.
    Unusable,
    /// Another process has it.
    Taken,
    /// It is damaged, or not a database of this program.
    Damaged,
    /// It has an earlier version, and the disk has no room to complete it.
    Earlier,
    /// A later version of this program has completed it.
    Later,
}

/// A failure to open the database.
#[derive(Debug)]
pub(crate) struct OpenError {
    pub(crate) problem: Problem,
    text: String,
}

impl fmt::Display for OpenError {
    fn fmt(&self, text: &mut fmt::Formatter) -> fmt::Result {
        text.write_str(&self.text)
    }
}

impl OpenError {
    fn new(problem: Problem, path: &Path, why: impl fmt::Display) -> OpenError {
        OpenError { problem, text: format!("cannot open the database: {}: {why}", path.display()) }
    }

    fn of_fault(path: &Path, fault: &Fault) -> OpenError {
        let problem = match fault {
            Fault::Earlier(_) => Problem::Earlier,
            Fault::Later(_) => Problem::Later,
            Fault::Damaged(_) => Problem::Damaged,
        };
        OpenError::new(problem, path, fault)
    }

    fn of_sqlite(path: &Path, error: rusqlite::Error) -> OpenError {
        let problem = match error.sqlite_error_code() {
            Some(ErrorCode::DatabaseBusy | ErrorCode::DatabaseLocked) => Problem::Taken,
            Some(ErrorCode::DatabaseCorrupt | ErrorCode::NotADatabase) | None => Problem::Damaged,
            Some(_) => Problem::Unusable,
        };
        OpenError::new(problem, path, error)
    }
}

/// The outcome of a transaction that did not fail.
#[derive(Clone, Copy, Debug, PartialEq, Eq)]
pub(crate) enum Committed {
    Made,
    /// The disk has no room: nothing was changed.
    NoRoom,
    /// Another registry has taken the folder over: nothing was changed, or nothing may be acknowledged.
    Lost,
}

/// Returns whether SQLite found no room on the disk. It has undone the transaction then.
fn is_full(error: &rusqlite::Error) -> bool {
    error.sqlite_error_code() == Some(ErrorCode::DiskFull)
}

/// Returns whether a database has the mark of this registry, if it has taken the database.
fn has_mark(connection: &Connection, mark: &Option<Secret>) -> rusqlite::Result<bool> {
    let mark = match mark {
        Some(mark) => mark,
        None => return Ok(true),
    };
    let found: Vec<Vec<u8>> = rows::all(connection, "SELECT value FROM settings WHERE name = 'owner'", |row| row.get(0))?;
    Ok(found.first().map_or(false, |found| found[..] == mark.0[..]))
}

/// An open database.
pub(crate) struct Database {
    /// The connection that writes. If nothing is written yet because the disk has no room, the readers may have it.
    connection: Connection,
    /// The connections that read, after they were asked for.
    readers: Option<Arc<Readers>>,
    path: PathBuf,
    is_synced: bool,
    /// Whether it was opened on a disk without room, and is not written yet.
    is_unwritten: bool,
    marks: Marks,
    witness: Witness,
    /// The number of transactions that the witness had when the database was opened.
    witnessed: u64,
    /// The owner of the folder, and the mark in the database of this registry, after it has taken the database.
    owner: Owner,
    mark: Option<Secret>,
}

/// Creates the file, if it does not exist, so that other users of the machine cannot read the secret. Returns whether it
/// existed.
fn create(path: &Path) -> io::Result<bool> {
    match OpenOptions::new().write(true).create_new(true).mode(0o600).open(path) {
        Ok(_) => Ok(false),
        // SQLite would open a file for reading alone that may not be written.
        Err(error) if error.kind() == io::ErrorKind::AlreadyExists => OpenOptions::new().write(true).open(path).map(|_| true),
        Err(error) => Err(error),
    }
}

impl Database {
    /// Opens the file for writing.
    fn open_writer(path: &Path) -> rusqlite::Result<Connection> {
        let connection = Connection::open_with_flags(path, FLAGS)?;
        connection.set_prepared_statement_cache_capacity(readers::STATEMENTS);
        Ok(connection)
    }

    /// Opens the database of a folder, or makes it. Each commit is on the disk when it returns, unless `is_synced` is false.
    pub(crate) fn open(folder: &Path, is_synced: bool) -> Result<Database, OpenError> {
        let path = folder.join(FILE_NAME);
        let unusable = |error: io::Error| OpenError::new(Problem::Unusable, &path, error);
        let existed = create(&path).map_err(unusable)?;
        // The witness is read first: another program may commit meanwhile.
        let witness = Witness::open(folder).map_err(unusable)?;
        let witnessed = witness.read();
        let of_sqlite = |error| OpenError::of_sqlite(&path, error);
        let mut connection = Database::open_writer(&path).map_err(of_sqlite)?;
        schema::set_up(&connection).map_err(of_sqlite)?;
        if let Some(fault) = schema::check_or_make(&mut connection).map_err(of_sqlite)? {
            return Err(OpenError::of_fault(&path, &fault));
        }
        let marks = marks::read(&connection).map_err(of_sqlite)?;
        if !is_synced {
            connection.execute_batch("PRAGMA synchronous = OFF").map_err(of_sqlite)?;
        }
        if is_synced || !existed {
            // The names of the files have to survive too.
            File::open(folder).and_then(|folder| folder.sync_all()).map_err(unusable)?;
        }
        Ok(Database {
            connection,
            readers: None,
            path,
            is_synced,
            is_unwritten: false,
            marks,
            witness,
            witnessed,
            owner: Owner::Unknown,
            mark: None,
        })
    }

    /// Opens the database of a folder on a disk without room. It is written only after the disk has room. Meanwhile no other program
    /// can read it.
    ///
    /// # Errors
    ///
    /// Those of `open`. A database of an earlier version is not of this version.
    pub(crate) fn open_without_room(folder: &Path, is_synced: bool) -> Result<Database, OpenError> {
        let path = folder.join(FILE_NAME);
        let unusable = |error: io::Error| OpenError::new(Problem::Unusable, &path, error);
        let witness = Witness::open(folder).map_err(unusable)?;
        let witnessed = witness.read();
        let of_sqlite = |error| OpenError::of_sqlite(&path, error);
        let connection = Database::open_alone(&path).map_err(of_sqlite)?;
        if let Some(fault) = schema::check(&connection).map_err(of_sqlite)? {
            return Err(OpenError::of_fault(&path, &fault));
        }
        let marks = marks::read(&connection).map_err(of_sqlite)?;
        Ok(Database {
            connection,
            readers: None,
            path,
            is_synced,
            is_unwritten: true,
            marks,
            witness,
            witnessed,
            owner: Owner::Unknown,
            mark: None,
        })
    }

    /// Opens the database as on a disk with room, if it was opened without. If this fails, requests go on to read it.
    fn begin_writing(&mut self) -> rusqlite::Result<()> {
        if !self.is_unwritten {
            return Ok(());
        }
        // The lock of the other connection would keep this one out.
        let mut others = self.readers.as_ref().map_or_else(Vec::new, |readers| readers.take_all());
        others.push(std::mem::replace(&mut self.connection, Connection::open_in_memory()?));
        let opened = close_all(others).and_then(|()| self.open_with_room());
        let (connection, readers) = match opened {
            Ok(opened) => opened,
            Err(error) => {
                let connection = Database::open_alone(&self.path)?;
                match &self.readers {
                    Some(readers) => readers.put(vec![readers::set_up(connection)?]),
                    None => self.connection = connection,
                }
                return Err(error);
            }
        };
        self.connection = connection;
        if let Some(to) = &self.readers {
            to.put(readers);
        }
        self.is_unwritten = false;
        Ok(())
    }

    /// Takes the database for this registry, whose store has started and owns the folder. From then on the transactions of another
    /// registry that had it before are refused. On a disk without room, that is from the first transaction on.
    pub(crate) fn take(&mut self) -> Result<(), OpenError> {
        let folder = self.path.parent().unwrap_or_else(|| Path::new("."));
        let unusable = |error: io::Error| OpenError::new(Problem::Unusable, &self.path, error);
        self.owner = Owner::of(folder).map_err(unusable)?;
        self.mark = Some(Secret::random().map_err(unusable)?);
        if self.is_unwritten {
            return Ok(());
        }
        // The other registry may have made transactions since the database was opened.
        let marked = self.put_mark(&self.connection).and_then(|()| marks::read(&self.connection));
        self.marks = marked.map_err(|error| OpenError::of_sqlite(&self.path, error))?;
        Ok(())
    }

    /// Writes the mark of this registry, if it has taken the database.
    fn put_mark(&self, connection: &Connection) -> rusqlite::Result<()> {
        let mark = match &self.mark {
            Some(mark) => mark,
            None => return Ok(()),
        };
        let query = "INSERT OR REPLACE INTO settings (name, value) VALUES ('owner', ?1)";
        connection.execute(query, params![&mark.0[..]]).map(|_| ())
    }

    /// Opens the connection that writes, by which it writes the mark, and those that read if they were asked for.
    fn open_with_room(&self) -> rusqlite::Result<(Connection, Vec<Connection>)> {
        let connection = Database::open_writer(&self.path)?;
        schema::set_up(&connection)?;
        if !self.is_synced {
            let folder = self.path.parent().unwrap_or_else(|| Path::new("."));
            unsynced::mark(folder).map_err(|error| rusqlite::Error::ToSqlConversionFailure(error.into()))?;
            connection.execute_batch("PRAGMA synchronous = OFF")?;
        }
        self.put_mark(&connection)?;
        let readers = match self.readers {
            Some(_) => readers::open(&self.path)?,
            None => Vec::new(),
        };
        Ok((connection, readers))
    }

    /// Opens the only connection to a database on a disk without room.
    fn open_alone(path: &Path) -> rusqlite::Result<Connection> {
        let connection = Database::open_writer(path)?;
        schema::set_up_without_room(&connection)?;
        Ok(connection)
    }

    /// Returns the connections that read the database. Before it is written for the first time on a disk without room, this is the one that
    /// has its lock.
    pub(crate) fn readers(&mut self) -> Result<Arc<Readers>, OpenError> {
        let of_sqlite = |error| OpenError::of_sqlite(&self.path, error);
        let connections = match self.is_unwritten {
            true => {
                let alone = std::mem::replace(&mut self.connection, Connection::open_in_memory().map_err(of_sqlite)?);
                vec![readers::set_up(alone).map_err(of_sqlite)?]
            }
            false => readers::open(&self.path).map_err(of_sqlite)?,
        };
        Ok(self.readers.insert(Arc::new(Readers::of(connections))).clone())
    }

    /// Returns the marks of the database.
    pub(crate) fn marks(&self) -> &Marks {
        &self.marks
    }

    /// Returns the number of transactions that a database of this folder had in addition.
    pub(crate) fn older_by(&self) -> u64 {
        self.witnessed.saturating_sub(self.marks.commits)
    }

    /// Notes that the store is about to start, which may cut the last file of the log at the end of its last whole frame. If a crash
    /// comes before the new end is recorded, the file may be shorter than the recorded one.
    pub(crate) fn loosen_log_end(&mut self) -> Result<(), OpenError> {
        let loosened = self.marks.log_end.map_or(Ok(()), |end| marks::loosen_log_end(&self.connection, end));
        loosened.map_err(|error| OpenError::of_sqlite(&self.path, error))
    }

    /// Returns the first manifests after `last` in the order of repositories and digests, at most `most`.
    pub(crate) fn manifest_keys(&self, last: &ManifestKey, most: usize) -> Result<Vec<ManifestKey>, OpenError> {
        rows::manifest_keys(&self.connection, last, most).map_err(|error| OpenError::of_sqlite(&self.path, error))
    }

    /// Returns the manifests of which only the media type is known.
    pub(crate) fn incomplete_manifests(&self) -> Result<Vec<IncompleteManifest>, OpenError> {
        rows::incomplete_manifests(&self.connection).map_err(|error| OpenError::of_sqlite(&self.path, error))
    }

    /// Returns the tags of some manifests.
    pub(crate) fn tags_of(&self, manifests: &[ManifestKey]) -> Result<Vec<TagRow>, OpenError> {
        rows::tags_of(&self.connection, manifests).map_err(|error| OpenError::of_sqlite(&self.path, error))
    }

    /// Returns the latest time that the database has, in seconds since 1970: that of its last transaction, or of a manifest.
    pub(crate) fn latest_time(&self) -> Result<Option<u64>, OpenError> {
        match self.marks.time {
            Some(time) => Ok(Some(time)),
            None => rows::latest_since(&self.connection).map_err(|error| OpenError::of_sqlite(&self.path, error)),
        }
    }

    /// Returns the content of the database, but for manifests and tags. Makes the secret if there is none.
    pub(crate) fn read(&mut self) -> Result<Rows, OpenError> {
        self.read_rows().map_err(|error| OpenError::of_sqlite(&self.path, error))
    }

    fn read_rows(&mut self) -> rusqlite::Result<Rows> {
        let secret = self.secret()?;
        let connection = &self.connection;
        let repositories = rows::all(connection, "SELECT name FROM repositories", |row| row.get(0))?;
        let uploads = rows::all(connection, "SELECT repository, number FROM uploads", |row| {
            Ok(UploadRow { repo: row.get(0)?, number: row.get(1)? })
        })?;
        let query = "SELECT repository, digest FROM loose_blobs";
        let loose_blobs = rows::all(connection, query, |row| Ok((row.get(0)?, row.get(1)?)))?;
        let cached = rows::all(connection, "SELECT repository, digest, used FROM cached", |row| {
            Ok((row.get(0)?, row.get(1)?, row.get::<_, i64>(2)? as u64))
        })?;
        let recorded = rows::all(connection, "SELECT name, recorded FROM tenants", |row| Ok((row.get(0)?, row.get(1)?)))?;
        let recorded = recorded.into_iter().collect();
        let robots = rows::robot_rows(connection)?;
        let events = event_rows::read(connection)?;
        let moves = marks::moves(connection)?;
        Ok(Rows { secret, repositories, uploads, loose_blobs, cached, robots, recorded, events, moves })
    }

    /// Returns the secret of the names of uploads, and makes it if there is none.
    fn secret(&mut self) -> rusqlite::Result<Secret> {
        let found: Vec<Vec<u8>> =
            rows::all(&self.connection, "SELECT value FROM settings WHERE name = 'secret'", |row| row.get(0))?;
        if let Some(Ok(bytes)) = found.first().map(|bytes| <[u8; SECRET_LEN]>::try_from(&bytes[..])) {
            return Ok(Secret(bytes));
        }
        self.renew_secret()
    }

    /// Makes another secret. Names that were made with the one before are unknown from now on.
    pub(crate) fn renew_secret(&mut self) -> rusqlite::Result<Secret> {
        let secret = Secret::random().map_err(|error| rusqlite::Error::ToSqlConversionFailure(error.into()))?;
        self.connection.execute("INSERT OR REPLACE INTO settings (name, value) VALUES ('secret', ?1)", params![&secret.0[..]])?;
        Ok(secret)
    }

    /// Makes changes in one transaction, in their order. `recorded` has the tenants whose number changes up to which all open
    /// sessions are recorded. `now` is the time, in seconds since 1970. Nothing is changed if it fails, or if the disk has no room.
    pub(crate) fn commit<'c>(
        &mut self,
        changes: impl Iterator<Item = &'c Change>,
        recorded: &[(String, u32)],
        now: u64,
    ) -> rusqlite::Result<Committed> {
        self.commit_reported(changes.map(|change| (change, None)), recorded, now, &mut NewEvents::from(0), &mut Vec::new())
    }

    /// Makes changes as `commit` does, together with the rows of their events, which it adds to `events`, and adds what each did to
    /// `outcomes`. These are of no use if it fails, or if the disk has no room.
    pub(crate) fn commit_reported<'c>(
        &mut self,
        changes: impl Iterator<Item = (&'c Change, Reported<'c>)>,
        recorded: &[(String, u32)],
        now: u64,
        events: &mut NewEvents,
        outcomes: &mut Vec<Outcome>,
    ) -> rusqlite::Result<Committed> {
        if !self.is_owner()? {
            return Ok(Committed::Lost);
        }
        let committed = self.begin_writing().and_then(|()| self.commit_written(changes, recorded, now, events, outcomes));
        match committed {
            // The changes on the disk count only if no other registry can have read the database before.
            Ok(true) if self.is_owner()? => Ok(Committed::Made),
            Ok(_) => Ok(Committed::Lost),
            Err(error) if is_full(&error) && self.connection.is_autocommit() => Ok(Committed::NoRoom),
            Err(error) => Err(error),
        }
    }

    /// Returns whether the store of this registry still owns the folder.
    fn is_owner(&self) -> rusqlite::Result<bool> {
        self.owner.is_current().map_err(|error| rusqlite::Error::ToSqlConversionFailure(error.into()))
    }

    /// Makes changes in one transaction. Returns `false` if the database has the mark of another registry. Nothing is changed then.
    fn commit_written<'c>(
        &mut self,
        changes: impl Iterator<Item = (&'c Change, Reported<'c>)>,
        recorded: &[(String, u32)],
        now: u64,
        events: &mut NewEvents,
        outcomes: &mut Vec<Outcome>,
    ) -> rusqlite::Result<bool> {
        let transaction = self.connection.transaction_with_behavior(TransactionBehavior::Immediate)?;
        if !has_mark(&transaction, &self.mark)? {
            return Ok(false);
        }
        let mut uploads = UploadChanges::default();
        for (change, report) in changes {
            let outcome = statements::make(&transaction, change, now, &mut uploads)?;
            for event in report.map_or_else(Vec::new, |report| report.events(outcome.effect.clone())) {
                events.add(&transaction, event)?;
            }
            outcomes.push(outcome);
        }
        uploads.make(&transaction)?;
        for (tenant, number) in recorded {
            transaction
                .prepare_cached("INSERT OR REPLACE INTO tenants (name, recorded) VALUES (?1, ?2)")?
                .execute(params![tenant, number])?;
        }
        let commits = self.marks.commits + 1;
        marks::put_commit(&transaction, commits, now)?;
        transaction.commit()?;
        // The end of the log that connections read is in a page of a file. A request that had to write it would wait for a disk that does not
        // answer, although all that it reads is in memory.
        let _ = self.connection.prepare_cached("SELECT 1 FROM settings LIMIT 1").and_then(|mut look| look.exists([]));
        self.marks.commits = commits;
        // A witness that lags only makes an older database look like this one.
        let _ = self.witness.write(commits);
        Ok(true)
    }

    /// Closes the database, so that its folder has one file of it. Requests that have not ended read that file.
    pub(super) fn close(self) -> rusqlite::Result<()> {
        self.readers.iter().try_for_each(|readers| close_all(readers.take_all()))?;
        close_all(vec![self.connection])?;
        if let Some(readers) = &self.readers {
            readers.put(vec![readers::open_last(&self.path)?]);
        }
        Ok(())
    }
}

fn close_all(connections: Vec<Connection>) -> rusqlite::Result<()> {
    connections.into_iter().try_for_each(|connection| connection.close().map_err(|(_, error)| error))
}

#[cfg(test)]
mod tests {
    use super::*;
    use crate::database::lookups;
    use crate::database::schema::{APPLICATION, FACTS, TABLES, USES, VERSION};
    use crate::database::test_folder::ManifestRow;
    use crate::database::test_folder::{put, put_facts, since, tags, times, TestFolder};
    use crate::metadata::bounds::Totals;
    use crate::metadata::clock;
    use crate::metadata::document::Facts;
    use crate::metadata::tag::{RemovedTag, TagTimes};
    use std::os::unix::fs::PermissionsExt;

    #[test]
    fn a_registry_that_lost_the_database_changes_nothing() {
        let folder = TestFolder::new();
        let (mut first, mut second) = (folder.open(), folder.open());
        first.take().unwrap();
        assert_eq!(first.commit([put("a", "x/a", Some("v1"))].iter(), &[], 1).unwrap(), Committed::Made);
        second.take().unwrap();
        assert_eq!(tags(&second.read_all()), [("v1", "a")]);
        assert_eq!(first.commit([put("b", "x/b", Some("v1"))].iter(), &[], 2).unwrap(), Committed::Lost);
        assert_eq!(second.commit([put("c", "x/c", Some("v2"))].iter(), &[], 3).unwrap(), Committed::Made);
        assert_eq!(tags(&second.read_all()), [("v1", "a"), ("v2", "c")]);
    }

    #[test]
    fn a_registry_that_takes_the_database_counts_the_transactions_of_the_other_one() {
        let folder = TestFolder::new();
        let (mut first, mut second) = (folder.open(), folder.open());
        first.take().unwrap();
        for tag in ["v1", "v2"] {
            first.commit([put("a", "x/a", Some(tag))].iter(), &[], 1).unwrap();
        }
        second.take().unwrap();
        second.commit([put("a", "x/a", Some("v3"))].iter(), &[], 2).unwrap();
        let third = folder.open();
        assert_eq!((third.marks().commits, third.older_by()), (3, 0));
    }

    #[test]
    fn a_registry_whose_store_lost_the_folder_changes_nothing() {
        let folder = TestFolder::new();
        let own = folder.0.join("owner-5");
        std::fs::create_dir(&own).unwrap();
        let mut database = folder.open();
        database.take().unwrap();
        assert_eq!(database.commit([put("a", "x/a", Some("v1"))].iter(), &[], 1).unwrap(), Committed::Made);
        std::fs::remove_dir(&own).unwrap();
        assert_eq!(database.commit([put("b", "x/b", Some("v2"))].iter(), &[], 2).unwrap(), Committed::Lost);
        assert_eq!(tags(&folder.open().read_all()), [("v1", "a")]);
    }

    #[test]
    fn changes_are_there_when_it_is_opened_again() {
        let folder = TestFolder::new();
        let mut database = folder.open();
        let secret = database.read().unwrap().secret;
        let remove = Change::RemoveTag { repo: "acme/web".to_string(), tag: "v2".to_string() };
        let changes = [put("a", "x/a", Some("v1")), put("a", "x/b", Some("v2")), put("b", "x/b", Some("v3")), remove];
        database.commit(changes.iter(), &[("acme".to_string(), 7)], 1).unwrap();
        drop(database);
        let rows = folder.open().read_all();
        assert!(rows.rows.secret == secret);
        assert_eq!(tags(&rows), [("v1", "a"), ("v3", "b")]);
        let types: Vec<(&str, &str)> = rows.manifests.iter().map(|row| (&*row.digest, &*row.facts.media_type)).collect();
        assert_eq!(types, [("a", "x/b"), ("b", "x/b")]);
        assert_eq!(
            (rows.rows.repositories, rows.rows.recorded),
            (vec!["acme/web".to_string()], [("acme".to_string(), 7)].into())
        );
    }

    #[test]
    fn a_manifest_s_tags_go_with_it_and_come_back() {
        let folder = TestFolder::new();
        let mut database = folder.open();
        let (repo, digest) = ("acme/web".to_string(), "a".to_string());
        let remove = Change::RemoveManifest { repo: repo.clone(), digest: digest.clone() };
        let changes = [put("a", "x/a", Some("v1")), put("a", "x/a", Some("v2")), remove, put("b", "x/b", Some("v2"))];
        database.commit(changes.iter(), &[], 1).unwrap();
        assert_eq!(tags(&database.read_all()), [("v2", "b")]);
        let removed = |name: &str, pushed| RemovedTag { name: name.to_string(), times: TagTimes { pushed, pulled: 7 } };
        let tags_before = vec![removed("v1", 5), removed("v2", 6)];
        let restore = Change::RestoreManifest { repo, digest, facts: Facts::default(), since: 1, tags: tags_before };
        database.commit([restore].iter(), &[], 1).unwrap();
        let rows = database.read_all();
        assert_eq!(tags(&rows), [("v1", "a"), ("v2", "b")]);
        assert_eq!(times(&rows), [(5, 7), (1, 0)]);
    }

    #[test]
    fn facts_are_there_when_it_is_opened_again() {
        let folder = TestFolder::new();
        let facts = Facts {
            media_type: "x/a".to_string(),
            size: 7,
            artifact_type: Some("c/d".to_string()),
            subject: Some("s".to_string()),
            lists: vec!["l1".to_string(), "l2".to_string()],
        };
        let mut database = folder.open();
        database.commit([put_facts("a", facts.clone(), None), put("b", "x/b", None)].iter(), &[], 5).unwrap();
        drop(database);
        let rows = folder.open().read_all().manifests;
        let expected = |digest: &str, facts| {
            let (repo, digest) = ("acme/web".to_string(), digest.to_string());
            ManifestRow { repo, digest, facts, is_complete: true, since: 5 }
        };
        let plain = Facts { media_type: "x/b".to_string(), ..Facts::default() };
        assert_eq!(rows, [expected("a", facts), expected("b", plain)]);
    }

    #[test]
    fn a_manifest_is_held_since_the_last_time_something_ceased_to_hold_it() {
        let folder = TestFolder::new();
        let mut database = folder.open();
        let index = Facts { lists: vec!["b".to_string()], ..Facts::default() };
        let referrer = Facts { subject: Some("a".to_string()), ..Facts::default() };
        let (repo, digest, tag) = ("acme/web".to_string(), "a".to_string(), "v1".to_string());
        let changes = [put("b", "x/b", Some("v1")), put_facts("a", index, None), put_facts("c", referrer, None)];
        database.commit(changes.iter(), &[], 1).unwrap();
        database.commit([put("a", "x/a", Some("v1"))].iter(), &[], 2).unwrap();
        assert_eq!(since(&database.read_all()), [("a", 2), ("b", 2), ("c", 1)]);
        database.commit([Change::RemoveTag { repo: repo.clone(), tag }].iter(), &[], 3).unwrap();
        assert_eq!(since(&database.read_all()), [("a", 3), ("b", 2), ("c", 1)]);
        database.commit([Change::RemoveManifest { repo: repo.clone(), digest }].iter(), &[], 4).unwrap();
        assert_eq!(since(&database.read_all()), [("b", 4), ("c", 4)]);
        database.commit([Change::TouchManifest { repo, digest: "c".to_string(), time: 5 }].iter(), &[], 5).unwrap();
        assert_eq!(since(&database.read_all()), [("b", 4), ("c", 5)]);
    }

    #[test]
    fn a_database_of_version_1_is_taken_over() {
        let folder = TestFolder::new();
        let old = Connection::open(folder.0.join(FILE_NAME)).unwrap();
        old.execute_batch(TABLES).unwrap();
        old.execute_batch(&format!("PRAGMA application_id = {APPLICATION}; PRAGMA user_version = 1")).unwrap();
        old.execute_batch(
            "INSERT INTO manifests VALUES ('acme/web', 'a', 'x/a'); INSERT INTO tags VALUES ('acme/web', 'v1', 'a')",
        )
        .unwrap();
        drop(old);
        let begun = clock::time_of_day();
        let rows = folder.open().read_all();
        let row = &rows.manifests[0];
        assert_eq!((&*row.facts.media_type, row.is_complete, tags(&rows)), ("x/a", false, vec![("v1", "a")]));
        assert!((begun..=clock::time_of_day()).contains(&rows.tags[0].3.pushed));
        assert_eq!(folder.open().read_all().manifests, rows.manifests);
    }

    #[test]
    fn tags_of_version_2_are_as_old_as_their_manifests() {
        let folder = TestFolder::new();
        let old = Connection::open(folder.0.join(FILE_NAME)).unwrap();
        old.execute_batch(TABLES).unwrap();
        old.execute_batch(FACTS).unwrap();
        old.execute_batch(&format!("PRAGMA application_id = {APPLICATION}; PRAGMA user_version = 2")).unwrap();
        old.execute_batch(
            "INSERT INTO manifests (repository, digest, media_type, since) VALUES ('acme/web', 'a', 'x/a', 7), ('acme/web', 'b', 'x/b', 0);
             INSERT INTO tags VALUES ('acme/web', 'v1', 'a'), ('acme/web', 'v2', 'b');
             INSERT INTO settings VALUES ('time', 9)",
        )
        .unwrap();
        drop(old);
        assert_eq!(times(&folder.open().read_all()), [(7, 0), (9, 0)]);
        assert_eq!(folder.open().marks().time, Some(9));
    }

    #[test]
    fn a_database_of_version_2_gets_the_table_of_copies() {
        let folder = TestFolder::new();
        let old = Connection::open(folder.0.join(FILE_NAME)).unwrap();
        old.execute_batch(&format!("{TABLES} {FACTS}")).unwrap();
        old.execute_batch(&format!("PRAGMA application_id = {APPLICATION}; PRAGMA user_version = 2")).unwrap();
        old.execute_batch("INSERT INTO manifests VALUES ('acme/web', 'a', 'x/a', 7, NULL, NULL, 5)").unwrap();
        drop(old);
        let rows = folder.open().read_all();
        assert_eq!((rows.manifests[0].since, rows.rows.cached.len()), (5, 0));
        assert_eq!(folder.open().read_all().manifests, rows.manifests);
    }

    /// Returns the numbers of `acme/web`: those that are kept, and those of its rows.
    fn counted(database: &mut Database) -> [Totals; 2] {
        let kept = database.readers().unwrap().read(|rows| lookups::counts(rows, "acme/web"));
        let rows = database.read_all();
        let sizes: Vec<u64> = rows.manifests.iter().filter(|row| row.repo == "acme/web").map(|row| row.facts.size).collect();
        let tags = rows.tags.iter().filter(|(repo, ..)| repo == "acme/web").count() as u64;
        [kept, Totals { manifests: sizes.len() as u64, manifest_bytes: sizes.iter().sum(), tags }]
    }

    #[test]
    fn a_database_of_version_3_gets_its_numbers() {
        let folder = TestFolder::new();
        let old = Connection::open(folder.0.join(FILE_NAME)).unwrap();
        old.execute_batch(&format!("{TABLES} {FACTS} {USES}")).unwrap();
        old.execute_batch(&format!("PRAGMA application_id = {APPLICATION}; PRAGMA user_version = 3")).unwrap();
        old.execute_batch(
            "INSERT INTO manifests (repository, digest, media_type, size) VALUES ('acme/web', 'a', 'x/a', 7), ('acme/web', 'b', 'x/b', 8),
                 ('acme/api', 'a', 'x/a', 9);
             INSERT INTO tags (repository, tag, digest) VALUES ('acme/web', 'v1', 'a'), ('acme/web', 'v2', 'a'), ('acme/web', 'v3', 'b')",
        )
        .unwrap();
        drop(old);
        let totals = Totals { manifests: 2, manifest_bytes: 15, tags: 3 };
        assert_eq!(counted(&mut folder.open()), [totals, totals]);
        let remove = Change::RemoveManifest { repo: "acme/web".to_string(), digest: "a".to_string() };
        folder.open().commit([remove].iter(), &[], 1).unwrap();
        let totals = Totals { manifests: 1, manifest_bytes: 8, tags: 1 };
        assert_eq!(counted(&mut folder.open()), [totals, totals]);
    }

    #[test]
    fn the_numbers_are_those_of_the_rows() {
        let folder = TestFolder::new();
        let mut database = folder.open();
        let sized = |digest: &str, size, tag| put_facts(digest, Facts { size, ..Facts::default() }, tag);
        let repo = || "acme/web".to_string();
        let remove = |digest: &str| Change::RemoveManifest { repo: repo(), digest: digest.to_string() };
        let untag = |tag: &str| Change::RemoveTag { repo: repo(), tag: tag.to_string() };
        let tags = |names: &[&str]| {
            names.iter().map(|name| RemovedTag { name: name.to_string(), times: TagTimes::default() }).collect::<Vec<_>>()
        };
        let restore = |digest: &str, size, names: &[&str]| {
            let facts = Facts { size, ..Facts::default() };
            Change::RestoreManifest { repo: repo(), digest: digest.to_string(), facts, since: 1, tags: tags(names) }
        };
        let steps = [
            (vec![sized("a", 5, Some("v1")), sized("a", 5, Some("v2")), sized("b", 6, None)], (2, 11, 2)),
            // The same manifest again, and another size, as after a completion.
            (vec![sized("a", 5, Some("v1")), sized("b", 7, Some("v2"))], (2, 12, 2)),
            (vec![untag("v2"), untag("v2"), untag("none")], (2, 12, 1)),
            (vec![remove("a"), remove("a"), remove("none")], (1, 7, 0)),
            (vec![sized("b", 7, Some("v9")), restore("a", 5, &["v1", "v9"])], (2, 12, 2)),
            (vec![restore("b", 7, &["v9", "v8"]), restore("a", 5, &["v1"])], (2, 12, 3)),
            (vec![remove("a"), remove("b")], (0, 0, 0)),
        ];
        for (changes, (manifests, manifest_bytes, tags)) in steps {
            database.commit(changes.iter(), &[], 1).unwrap();
            let totals = Totals { manifests, manifest_bytes, tags };
            assert_eq!(counted(&mut database), [totals, totals], "{changes:?}");
        }
        let count = |rows: &Connection| rows.query_row("SELECT count(*) FROM counts", [], |row| row.get::<_, i64>(0));
        assert_eq!(database.readers().unwrap().read(count), 0);
    }

    #[test]
    fn readers_see_what_is_committed_and_read_on_after_the_end() {
        let folder = TestFolder::new();
        let mut database = folder.open();
        let readers = database.readers().unwrap();
        let tag = || readers.read(|rows| lookups::by_tag(rows, "acme/web", "v1")).map(|found| found.manifest.digest);
        assert_eq!(tag(), None);
        database.commit([put("a", "x/a", Some("v1"))].iter(), &[], 1).unwrap();
        assert_eq!(tag().as_deref(), Some("a"));
        assert!(folder.0.join(format!("{FILE_NAME}-wal")).exists());
        database.close().unwrap();
        assert_eq!(tag().as_deref(), Some("a"));
        assert!(!folder.0.join(format!("{FILE_NAME}-wal")).exists());
    }

    #[test]
    fn readers_read_before_and_after_the_first_change_on_a_disk_without_room() {
        let folder = TestFolder::new();
        folder.open().commit([put("a", "x/a", Some("v1"))].iter(), &[], 1).unwrap();
        let mut database = Database::open_without_room(&folder.0, true).unwrap();
        let readers = database.readers().unwrap();
        let tag = |name: &str| readers.read(|rows| lookups::by_tag(rows, "acme/web", name)).map(|found| found.manifest.digest);
        assert_eq!((tag("v1").as_deref(), tag("v2")), (Some("a"), None));
        database.commit([put("b", "x/b", Some("v2"))].iter(), &[], 2).unwrap();
        assert_eq!((tag("v1").as_deref(), tag("v2").as_deref()), (Some("a"), Some("b")));
        database.close().unwrap();
        assert_eq!(tag("v2").as_deref(), Some("b"));
    }

    #[test]
    fn readers_cannot_write() {
        let folder = TestFolder::new();
        folder.open().commit([put("a", "x/a", Some("v1"))].iter(), &[], 1).unwrap();
        for has_room in [true, false] {
            let mut database = if has_room { folder.open() } else { Database::open_without_room(&folder.0, true).unwrap() };
            let readers = database.readers().unwrap();
            let deleted = readers.read(|rows| Ok(rows.execute("DELETE FROM tags", [])));
            assert_eq!(deleted.unwrap_err().sqlite_error_code(), Some(ErrorCode::ReadOnly));
            database.close().unwrap();
        }
    }

    #[test]
    fn a_mark_that_was_not_written_on_a_disk_without_room_is_written_with_the_next_change() {
        let folder = TestFolder::new();
        let mut before = folder.open();
        before.take().unwrap();
        before.close().unwrap();
        let other = Connection::open(folder.0.join(FILE_NAME)).unwrap();
        let trigger = "CREATE TRIGGER unmarked BEFORE INSERT ON settings BEGIN SELECT raise(FAIL, 'no room'); END";
        other.execute_batch(trigger).unwrap();
        drop(other);
        let mut database = Database::open_without_room(&folder.0, true).unwrap();
        database.take().unwrap();
        let readers = database.readers().unwrap();
        assert!(database.commit([put("a", "x/a", Some("v1"))].iter(), &[], 1).is_err());
        assert!(readers.read(|rows| Ok(rows.execute_batch("DROP TRIGGER unmarked"))).is_err());
        readers.read(|rows| rows.execute_batch("PRAGMA query_only = OFF; DROP TRIGGER unmarked"));
        assert_eq!(database.commit([put("a", "x/a", Some("v1"))].iter(), &[], 1).unwrap(), Committed::Made);
    }

    #[test]
    fn a_copy_has_the_time_of_its_last_use() {
        let folder = TestFolder::new();
        let mut database = folder.open();
        let (repo, digest) = ("acme/web".to_string(), |digest: &str| digest.to_string());
        let add = |name| Change::AddCached { repo: repo.clone(), digest: digest(name) };
        database.commit([add("a"), add("b"), add("c")].iter(), &[], 5).unwrap();
        let used = Change::UseCached { repo: repo.clone(), digest: digest("b") };
        let removed = Change::RemoveCached { repo: repo.clone(), digest: digest("c") };
        database.commit([used, removed].iter(), &[], 9).unwrap();
        let expected = [("a", 5), ("b", 9)].map(|(name, time)| (repo.clone(), digest(name), time));
        assert_eq!(database.read().unwrap().cached, expected);
    }

    #[test]
    fn an_upload_has_a_row_while_it_is_open() {
        let folder = TestFolder::new();
        let mut database = folder.open();
        let open = |number| Change::OpenUpload { repo: "acme/web".to_string(), number };
        let end = |number| Change::EndUpload { repo: "acme/web".to_string(), number };
        database.commit([open(1), open(2), end(1), open(3)].iter(), &[], 1).unwrap();
        database.commit([end(2), open(4)].iter(), &[], 1).unwrap();
        let numbers: Vec<u32> = database.read().unwrap().uploads.iter().map(|row| row.number).collect();
        assert_eq!(numbers, [3, 4]);
    }

    #[test]
    fn a_change_that_fails_changes_nothing() {
        let folder = TestFolder::new();
        let mut database = folder.open();
        database.connection.execute_batch("DROP TABLE uploads").unwrap();
        let open = Change::OpenUpload { repo: "acme/web".to_string(), number: 1 };
        assert!(database.commit([put("a", "x/a", Some("v1")), open].iter(), &[], 1).is_err());
        let count = |table| database.connection.query_row(&format!("SELECT count(*) FROM {table}"), [], |row| row.get(0));
        assert_eq!((count("manifests"), count("tags")), (Ok(0), Ok(0)));
    }

    #[test]
    fn a_file_that_is_no_database_of_this_program_is_refused() {
        let folder = TestFolder::new();
        let path = folder.0.join(FILE_NAME);
        let problem = || Database::open(&folder.0, true).err().map(|error| error.to_string());
        std::fs::write(&path, "x".repeat(5000)).unwrap();
        assert!(problem().unwrap().contains("not a database"));
        std::fs::remove_file(&path).unwrap();
        let other = Connection::open(&path).unwrap();
        other.execute_batch("CREATE TABLE other (name TEXT)").unwrap();
        drop(other);
        assert!(problem().unwrap().contains("not a database of registryd"));
        std::fs::remove_file(&path).unwrap();
        drop(folder.open());
        let newer = Connection::open(&path).unwrap();
        newer.execute_batch(&format!("PRAGMA user_version = {}", VERSION + 1)).unwrap();
        drop(newer);
        assert!(problem().unwrap().contains(&format!("it has version {}", VERSION + 1)));
    }

    #[test]
    fn a_database_of_an_earlier_version_needs_room() {
        let folder = TestFolder::new();
        let path = folder.0.join(FILE_NAME);
        let older = Connection::open(&path).unwrap();
        older.execute_batch(TABLES).unwrap();
        older.execute_batch(&format!("PRAGMA application_id = {APPLICATION}; PRAGMA user_version = 1")).unwrap();
        drop(older);
        let error = Database::open_without_room(&folder.0, true).err().unwrap();
        assert_eq!(error.problem, Problem::Earlier);
        assert!(error.to_string().contains("it has version 1"));
        assert!(Database::open(&folder.0, true).is_ok());
    }

    #[test]
    fn others_cannot_read_the_file() {
        let folder = TestFolder::new();
        drop(folder.open());
        assert_eq!(std::fs::metadata(folder.0.join(FILE_NAME)).unwrap().permissions().mode() & 0o777, 0o600);
    }
}
