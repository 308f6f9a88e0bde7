//! The tables of the database, its version, and how it is set up.
use crate::metadata::clock;
use rusqlite::{Connection, TransactionBehavior};
use std::fmt;
use std::time::Duration;

/// The time that the program before has to release the database.
const WAIT: Duration = Duration::from_secs(5);

/// The number in the file's head that marks it as a database of this program (`regd` in ASCII).
pub(super) const APPLICATION: i64 = 0x7265_6764;

/// The version of the tables.
pub(super) const VERSION: i64 = 4;

/// The tables of version 1.
pub(super) const TABLES: &str = "
    CREATE TABLE settings (name TEXT PRIMARY KEY, value BLOB NOT NULL) WITHOUT ROWID;
    CREATE TABLE repositories (name TEXT PRIMARY KEY) WITHOUT ROWID;
    CREATE TABLE manifests (
        repository TEXT NOT NULL, digest TEXT NOT NULL, media_type TEXT NOT NULL,
        PRIMARY KEY (repository, digest)
    ) WITHOUT ROWID;
    CREATE TABLE tags (
        repository TEXT NOT NULL, tag TEXT NOT NULL, digest TEXT NOT NULL,
        PRIMARY KEY (repository, tag),
        FOREIGN KEY (repository, digest) REFERENCES manifests ON DELETE CASCADE
    ) WITHOUT ROWID;
    CREATE INDEX tags_by_digest ON tags (repository, digest);
    CREATE TABLE uploads (
        tenant TEXT NOT NULL, number INTEGER NOT NULL, repository TEXT NOT NULL,
        PRIMARY KEY (tenant, number)
    ) WITHOUT ROWID;
    CREATE TABLE tenants (name TEXT PRIMARY KEY, recorded INTEGER NOT NULL) WITHOUT ROWID;
";

/// What version 2 adds. `size` is missing for a manifest whose other facts are not known yet.
pub(super) const FACTS: &str = "
    ALTER TABLE manifests ADD COLUMN size INTEGER;
    ALTER TABLE manifests ADD COLUMN artifact_type TEXT;
    ALTER TABLE manifests ADD COLUMN subject TEXT;
    ALTER TABLE manifests ADD COLUMN since INTEGER NOT NULL DEFAULT 0;
    CREATE INDEX manifests_by_subject ON manifests (repository, subject);
    CREATE TABLE listed (
        repository TEXT NOT NULL, digest TEXT NOT NULL, listed TEXT NOT NULL,
        PRIMARY KEY (repository, digest, listed),
        FOREIGN KEY (repository, digest) REFERENCES manifests ON DELETE CASCADE
    ) WITHOUT ROWID;
    CREATE TABLE loose_blobs (
        repository TEXT NOT NULL, digest TEXT NOT NULL,
        PRIMARY KEY (repository, digest)
    ) WITHOUT ROWID;
";

/// What version 3 adds: when tags were pushed and pulled, in seconds since 1970, the accounts of machines, events, and the manifests and
/// blobs that mirrors copied. `passed` is the number up to which a receiver has all events that it wants.
pub(super) const USES: &str = "
    ALTER TABLE tags ADD COLUMN pushed INTEGER NOT NULL DEFAULT 0;
    ALTER TABLE tags ADD COLUMN pulled INTEGER NOT NULL DEFAULT 0;
    CREATE TABLE robots (
        name TEXT PRIMARY KEY, hash BLOB NOT NULL, rights TEXT NOT NULL, made INTEGER NOT NULL, ends INTEGER NOT NULL
    ) WITHOUT ROWID;
    CREATE TABLE events (number INTEGER PRIMARY KEY, time INTEGER NOT NULL, text TEXT NOT NULL);
    CREATE TABLE receivers (name TEXT PRIMARY KEY, passed INTEGER NOT NULL) WITHOUT ROWID;
    CREATE TABLE cached (
        repository TEXT NOT NULL, digest TEXT NOT NULL, used INTEGER NOT NULL,
        PRIMARY KEY (repository, digest)
    ) WITHOUT ROWID;
";

/// What version 4 adds: the numbers of the manifests and tags of each repository that has any, which triggers keep, and indexes for the
/// manifests of a size and for the indexes that list a manifest. So each list and each number is read without its other rows.
const COUNTS: &str = "
    CREATE INDEX manifests_by_size ON manifests (repository, size);
    CREATE INDEX listed_by_manifest ON listed (repository, listed);
    CREATE TABLE counts (
        repository TEXT PRIMARY KEY, manifests INTEGER NOT NULL DEFAULT 0, manifest_bytes INTEGER NOT NULL DEFAULT 0,
        tags INTEGER NOT NULL DEFAULT 0
    ) WITHOUT ROWID;
    INSERT INTO counts SELECT repository, count(*), coalesce(sum(size), 0),
        (SELECT count(*) FROM tags WHERE tags.repository = manifests.repository) FROM manifests GROUP BY repository;
    CREATE TRIGGER manifest_added AFTER INSERT ON manifests BEGIN
        INSERT INTO counts (repository, manifests, manifest_bytes) VALUES (new.repository, 1, coalesce(new.size, 0))
            ON CONFLICT (repository) DO UPDATE SET manifests = manifests + 1, manifest_bytes = manifest_bytes + excluded.manifest_bytes;
    END;
    CREATE TRIGGER manifest_changed AFTER UPDATE OF size ON manifests WHEN old.size IS NOT new.size BEGIN
        UPDATE counts SET manifest_bytes = manifest_bytes + coalesce(new.size, 0) - coalesce(old.size, 0)
            WHERE repository = new.repository;
    END;
    CREATE TRIGGER manifest_removed AFTER DELETE ON manifests BEGIN
        UPDATE counts SET manifests = manifests - 1, manifest_bytes = manifest_bytes - coalesce(old.size, 0)
            WHERE repository = old.repository;
        DELETE FROM counts WHERE repository = old.repository AND manifests = 0 AND tags = 0;
    END;
    CREATE TRIGGER tag_added AFTER INSERT ON tags BEGIN
        INSERT INTO counts (repository, tags) VALUES (new.repository, 1)
            ON CONFLICT (repository) DO UPDATE SET tags = tags + 1;
    END;
    CREATE TRIGGER tag_removed AFTER DELETE ON tags BEGIN
        UPDATE counts SET tags = tags - 1 WHERE repository = old.repository;
        DELETE FROM counts WHERE repository = old.repository AND manifests = 0 AND tags = 0;
    END;
";

/// The time of the push of each tag that an earlier version recorded: that of its manifest, which is the same or later, or else that of
/// the last transaction, or else now.
const TIMES: &str = "
    UPDATE tags SET pushed = coalesce(
        (SELECT nullif(since, 0) FROM manifests WHERE manifests.repository = tags.repository AND manifests.digest = tags.digest),
        (SELECT value FROM settings WHERE name = 'time'),
        ?1
    )
";

/// What is wrong with a database.
#[derive(Debug, PartialEq, Eq)]
pub(super) enum Fault {
    /// It has this earlier version, and was not completed.
    Earlier(i64),
    /// It has this later version.
    Later(i64),
    /// It is not one of this program, or it is damaged. The text says which.
    Damaged(String),
}

impl fmt::Display for Fault {
    fn fmt(&self, text: &mut fmt::Formatter) -> fmt::Result {
        match self {
            Fault::Earlier(version) => {
                write!(text, "it has version {version}, and no room was left to complete it to version {VERSION}")
            }
            Fault::Later(version) => write!(text, "it has version {version}, and this registryd reads versions up to {VERSION}"),
            Fault::Damaged(why) => text.write_str(why),
        }
    }
}

/// Sets how the database writes and checks. Other programs can read it meanwhile, for a backup. The store's lock on the folder
/// keeps a second registry from writing it.
pub(super) fn set_up(connection: &Connection) -> rusqlite::Result<()> {
    connection.busy_timeout(WAIT)?;
    let word = |query: &str| connection.query_row(query, [], |row| row.get::<_, rusqlite::types::Value>(0));
    word("PRAGMA journal_mode = WAL")?;
    connection.execute_batch("PRAGMA synchronous = FULL; PRAGMA foreign_keys = ON")
}

/// Sets how a connection reads the database, with at most `cache` KiB of pages.
pub(super) fn set_up_reader(connection: &Connection, cache: usize) -> rusqlite::Result<()> {
    connection.busy_timeout(WAIT)?;
    connection.execute_batch(&format!("PRAGMA query_only = ON; PRAGMA cache_size = -{cache}"))
}

/// Lets this connection alone read the database, so that SQLite needs no file with an index of what is in its log.
pub(super) fn set_up_without_room(connection: &Connection) -> rusqlite::Result<()> {
    connection.busy_timeout(WAIT)?;
    connection.query_row("PRAGMA locking_mode = EXCLUSIVE", [], |_| Ok(()))
}

/// Checks the database, or makes its tables if it is empty, or adds to those of an earlier version. Returns what is wrong, if anything is.
pub(super) fn check_or_make(connection: &mut Connection) -> rusqlite::Result<Option<Fault>> {
    let transaction = connection.transaction_with_behavior(TransactionBehavior::Exclusive)?;
    let number = |query: &str| transaction.query_row(query, [], |row| row.get::<_, i64>(0));
    let found = (number("PRAGMA application_id")?, number("PRAGMA user_version")?);
    let is_empty = found == (0, 0) && number("SELECT count(*) FROM sqlite_schema")? == 0;
    if is_empty {
        transaction.execute_batch(TABLES)?;
    }
    if is_empty || found == (APPLICATION, 1) {
        transaction.execute_batch(FACTS)?;
    }
    let is_before = |version| is_empty || (found.0 == APPLICATION && (1..version).contains(&found.1));
    if is_before(3) {
        transaction.execute_batch(USES)?;
        transaction.execute(TIMES, [clock::time_of_day() as i64])?;
    }
    if is_before(VERSION) {
        transaction.execute_batch(COUNTS)?;
        transaction.execute_batch(&format!("PRAGMA application_id = {APPLICATION}; PRAGMA user_version = {VERSION}"))?;
    }
    let fault = check(&transaction)?;
    if fault.is_none() {
        transaction.commit()?;
    }
    Ok(fault)
}

/// Returns what is wrong with a database, if anything is.
pub(super) fn check(connection: &Connection) -> rusqlite::Result<Option<Fault>> {
    let number = |query: &str| connection.query_row(query, [], |row| row.get::<_, i64>(0));
    match (number("PRAGMA application_id")?, number("PRAGMA user_version")?) {
        (APPLICATION, VERSION) => {}
        (APPLICATION, version) if (1..VERSION).contains(&version) => return Ok(Some(Fault::Earlier(version))),
        (APPLICATION, version) if version > VERSION => return Ok(Some(Fault::Later(version))),
        _ => return Ok(Some(Fault::Damaged("not a database of registryd".to_string()))),
    }
    let checked: String = connection.query_row("PRAGMA quick_check(1)", [], |row| row.get(0))?;
    Ok((checked != "ok").then(|| Fault::Damaged(format!("damaged: {checked}"))))
}
