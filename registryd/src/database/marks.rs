//! What the database keeps in its settings about itself and about the log, by which a start finds out that one of the two was
//! lost or replaced.
use crate::folder::log_end::LogEnd;
use crate::moving::stage::MoveRow;
use rusqlite::{params, Connection, OptionalExtension};

/// The marks in a database.
#[derive(Debug, Default, PartialEq, Eq)]
pub(crate) struct Marks {
    /// An end of the log that was on the disk when it was written here.
    pub(crate) log_end: Option<LogEnd>,
    /// The number of transactions.
    pub(crate) commits: u64,
    /// The time of the last transaction, in seconds since 1970.
    pub(crate) time: Option<u64>,
    /// The time since which all pulls of tags are recorded, in seconds since 1970. Missing if they are not recorded.
    pub(crate) pulls_since: Option<u64>,
}

/// Returns a setting.
fn setting<T: rusqlite::types::FromSql>(connection: &Connection, name: &str) -> rusqlite::Result<Option<T>> {
    let query = "SELECT value FROM settings WHERE name = ?1";
    connection.prepare_cached(query)?.query_row(params![name], |row| row.get(0)).optional()
}

/// Writes a setting.
fn put(connection: &Connection, name: &str, value: &dyn rusqlite::ToSql) -> rusqlite::Result<()> {
    let query = "INSERT OR REPLACE INTO settings (name, value) VALUES (?1, ?2)";
    connection.prepare_cached(query)?.execute(params![name, value]).map(|_| ())
}

/// Returns the marks.
pub(super) fn read(connection: &Connection) -> rusqlite::Result<Marks> {
    let log_end: Option<Vec<u8>> = setting(connection, "log_end")?;
    let commits: Option<i64> = setting(connection, "commits")?;
    let time = |name| setting::<i64>(connection, name).map(|found| found.and_then(|time| u64::try_from(time).ok()));
    let (time, pulls_since) = (time("time")?, time("pulls_since")?);
    let log_end = log_end.and_then(|bytes| LogEnd::from_bytes(&bytes));
    Ok(Marks { log_end, commits: commits.unwrap_or(0) as u64, time, pulls_since })
}

/// Writes an end of the log that is on the disk.
pub(super) fn put_log_end(connection: &Connection, end: LogEnd) -> rusqlite::Result<()> {
    put(connection, "log_end", &end.to_bytes())
}

/// Keeps of the end of the log the number of its last file alone.
pub(super) fn loosen_log_end(connection: &Connection, end: LogEnd) -> rusqlite::Result<()> {
    put_log_end(connection, LogEnd { length: 0, ..end })
}

/// Writes the time since which all pulls of tags are recorded, or that they are not.
pub(super) fn put_pulls_since(connection: &Connection, since: Option<u64>) -> rusqlite::Result<()> {
    match since {
        Some(since) => put(connection, "pulls_since", &(since as i64)),
        None => connection.execute("DELETE FROM settings WHERE name = 'pulls_since'", []).map(|_| ()),
    }
}

/// Returns the name of the setting that has the stage of a tenant's move.
fn move_of(tenant: &str) -> String {
    format!("move {tenant}")
}

/// Writes the stage of a tenant's move, or that there is none.
pub(super) fn put_move(connection: &Connection, tenant: &str, row: Option<&MoveRow>) -> rusqlite::Result<()> {
    match row {
        Some(row) => put(connection, &move_of(tenant), &row.text()),
        None => connection.execute("DELETE FROM settings WHERE name = ?1", params![move_of(tenant)]).map(|_| ()),
    }
}

/// Returns the stages of the tenants that are being moved, or were.
pub(super) fn moves(connection: &Connection) -> rusqlite::Result<Vec<MoveRow>> {
    let mut select = connection.prepare("SELECT substr(name, 6), value FROM settings WHERE name GLOB 'move *'")?;
    let rows = select.query_map([], |row| Ok((row.get::<_, String>(0)?, row.get::<_, String>(1)?)))?;
    let rows = rows.collect::<rusqlite::Result<Vec<_>>>()?;
    Ok(rows.iter().filter_map(|(tenant, text)| MoveRow::of(tenant, text)).collect())
}

/// Writes the number of transactions and the time of the last one, in seconds since 1970.
pub(super) fn put_commit(connection: &Connection, commits: u64, time: u64) -> rusqlite::Result<()> {
    put(connection, "commits", &(commits as i64))?;
    put(connection, "time", &(time as i64))
}
