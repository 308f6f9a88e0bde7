//! The rows that a start reads from the database.
use crate::auth::robots::RobotRow;
use crate::events::queue::EventRows;
use crate::metadata::upload_names::Secret;
use crate::moving::stage::MoveRow;
use rusqlite::{params, Connection};
use std::collections::HashMap;

/// The repository and the digest of a manifest.
pub(crate) type ManifestKey = (String, String);

/// A manifest of which only the media type is known.
#[derive(Clone, Debug, PartialEq, Eq)]
pub(crate) struct IncompleteManifest {
    pub(crate) key: ManifestKey,
    pub(crate) media_type: String,
}

/// A tag with the digest of its manifest.
#[derive(Clone, Debug, PartialEq, Eq)]
pub(crate) struct TagRow {
    pub(crate) repo: String,
    pub(crate) tag: String,
    pub(crate) digest: String,
}

/// An open upload.
#[derive(Clone, Debug, PartialEq, Eq)]
pub(crate) struct UploadRow {
    pub(crate) repo: String,
    pub(crate) number: u32,
}

/// The content of the database at a start, but for manifests and tags.
pub(crate) struct Rows {
    pub(crate) secret: Secret,
    pub(crate) repositories: Vec<String>,
    pub(crate) uploads: Vec<UploadRow>,
    /// The repositories and digests of blobs that are to be unlinked after some time.
    pub(crate) loose_blobs: Vec<(String, String)>,
    /// The accounts of machines.
    pub(crate) robots: Vec<RobotRow>,
    /// The repositories and digests of the copies of mirrors, each with the time of its last use in seconds since 1970.
    pub(crate) cached: Vec<(String, String, u64)>,
    /// For each tenant, a number up to which all its sessions that may be open are rows of `uploads`.
    pub(crate) recorded: HashMap<String, u32>,
    /// The events that are not delivered yet.
    pub(crate) events: EventRows,
    /// The tenants that are being moved to or from other registries, or were.
    pub(crate) moves: Vec<MoveRow>,
}

/// Returns all rows of a query.
pub(super) fn all<T>(
    connection: &Connection,
    query: &str,
    read: impl FnMut(&rusqlite::Row<'_>) -> rusqlite::Result<T>,
) -> rusqlite::Result<Vec<T>> {
    connection.prepare(query)?.query_map([], read)?.collect()
}

/// Returns the first manifests after `last` in the order of repositories and digests, at most `most`.
pub(super) fn manifest_keys(connection: &Connection, last: &ManifestKey, most: usize) -> rusqlite::Result<Vec<ManifestKey>> {
    let query = "SELECT repository, digest FROM manifests WHERE (repository, digest) > (?1, ?2)
                 ORDER BY repository, digest LIMIT ?3";
    let mut select = connection.prepare_cached(query)?;
    let rows = select.query_map(params![last.0, last.1, most as i64], |row| Ok((row.get(0)?, row.get(1)?)))?;
    rows.collect()
}

/// Returns the manifests of which only the media type is known.
pub(super) fn incomplete_manifests(connection: &Connection) -> rusqlite::Result<Vec<IncompleteManifest>> {
    all(connection, "SELECT repository, digest, media_type FROM manifests WHERE size IS NULL", |row| {
        Ok(IncompleteManifest { key: (row.get(0)?, row.get(1)?), media_type: row.get(2)? })
    })
}

/// Returns the tags of some manifests.
pub(super) fn tags_of(connection: &Connection, manifests: &[ManifestKey]) -> rusqlite::Result<Vec<TagRow>> {
    let mut select = connection.prepare("SELECT tag FROM tags WHERE repository = ?1 AND digest = ?2 ORDER BY tag")?;
    let mut found = Vec::new();
    for (repo, digest) in manifests {
        for tag in select.query_map(params![repo, digest], |row| row.get(0))? {
            found.push(TagRow { repo: repo.clone(), tag: tag?, digest: digest.clone() });
        }
    }
    Ok(found)
}

/// Returns the latest time since which a manifest is held as it is, in seconds since 1970.
pub(super) fn latest_since(connection: &Connection) -> rusqlite::Result<Option<u64>> {
    let latest: Option<i64> = connection.query_row("SELECT max(since) FROM manifests", [], |row| row.get(0))?;
    Ok(latest.map(|time| time as u64))
}

/// Returns all accounts of machines.
pub(super) fn robot_rows(connection: &Connection) -> rusqlite::Result<Vec<RobotRow>> {
    all(connection, "SELECT name, hash, rights, made, ends FROM robots", |row| {
        let time = |at| row.get::<_, i64>(at).map(|time| time as u64);
        Ok(RobotRow { name: row.get(0)?, hash: row.get(1)?, rights: row.get(2)?, made: time(3)?, ends: time(4)? })
    })
}
