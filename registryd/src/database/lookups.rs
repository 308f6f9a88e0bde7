//! The queries of manifests and tags. Each list has an index that returns it in order, from the item after which it begins: no query looks at
//! more rows than it returns, but for rows that a caller leaves out.
use crate::http::pages::Page;
use crate::metadata::bounds::Totals;
use crate::metadata::document::Facts;
use crate::metadata::repository::NamedManifest;
use crate::metadata::tag::{RemovedTag, TagTimes};
use rusqlite::{params, Connection, OptionalExtension, Row, Statement, StatementStatus, ToSql};

/// A tag as the database has it, with its manifest.
#[derive(Clone, Debug, PartialEq, Eq)]
pub(crate) struct FoundTag {
    pub(crate) name: String,
    pub(crate) manifest: NamedManifest,
    pub(crate) times: TagTimes,
}

/// A manifest without a tag, as the database has it.
pub(crate) struct FoundUntagged {
    pub(crate) manifest: NamedManifest,
    pub(crate) since: u64,
    pub(crate) subject: Option<String>,
    /// The first index that lists it, or else its subject, if that is there.
    pub(crate) held_by: Option<String>,
}

/// A number of the database, which has no unsigned ones. A size that is not known is 0.
fn number(row: &Row<'_>, at: usize) -> rusqlite::Result<u64> {
    Ok(row.get::<_, Option<i64>>(at)?.unwrap_or(0) as u64)
}

/// Reads a manifest from the columns digest, media type and size, of which the first has the place `at`.
fn named(row: &Row<'_>, at: usize) -> rusqlite::Result<NamedManifest> {
    Ok(NamedManifest { digest: row.get(at)?, media_type: row.get(at + 1)?, size: number(row, at + 2)? })
}

/// Returns the first row of a query.
fn first<T>(
    connection: &Connection,
    query: &str,
    values: &[&dyn ToSql],
    read: impl FnOnce(&Row<'_>) -> rusqlite::Result<T>,
) -> rusqlite::Result<Option<T>> {
    let mut statement = connection.prepare_cached(query)?;
    let found = statement.query_row(values, read).optional()?;
    check_served(&statement);
    Ok(found)
}

/// Checks in each unit test that an index served a query: no table was read from its beginning, and no rows were sorted.
fn check_served(statement: &Statement<'_>) {
    if cfg!(test) {
        let counts = [StatementStatus::FullscanStep, StatementStatus::Sort].map(|status| statement.get_status(status));
        assert_eq!(counts, [0, 0], "{statement:?}");
    }
}

/// Returns the first items of a query, at most `most`, and whether more follow. `read` returns `None` for a row that is left out.
pub(crate) fn page<T>(
    connection: &Connection,
    query: &str,
    values: &[&dyn ToSql],
    most: usize,
    read: impl FnMut(&Row<'_>) -> rusqlite::Result<Option<T>>,
) -> rusqlite::Result<Page<T>> {
    page_of_prefix(connection, query, values, ("", most), read)
}

/// Returns a page, as `page` does, of the first rows of a query whose first column, a text, begins with a prefix.
fn page_of_prefix<T>(
    connection: &Connection,
    query: &str,
    values: &[&dyn ToSql],
    (prefix, most): (&str, usize),
    mut read: impl FnMut(&Row<'_>) -> rusqlite::Result<Option<T>>,
) -> rusqlite::Result<Page<T>> {
    let mut statement = connection.prepare_cached(query)?;
    let mut rows = statement.query(values)?;
    let mut items = Vec::new();
    while let Some(row) = rows.next()? {
        if !row.get_ref(0)?.as_str()?.starts_with(prefix) {
            break;
        }
        match read(row)? {
            Some(_) if items.len() == most => return Ok(Page { items, more: true }),
            item => items.extend(item),
        }
    }
    drop(rows);
    check_served(&statement);
    Ok(Page { items, more: false })
}

/// Returns the numbers of a repository's manifests and tags.
pub(crate) fn counts(connection: &Connection, repo: &str) -> rusqlite::Result<Totals> {
    let query = "SELECT manifests, manifest_bytes, tags FROM counts WHERE repository = ?1";
    let read = |row: &Row<'_>| totals(row, 0);
    Ok(first(connection, query, params![repo], read)?.unwrap_or_default())
}

fn totals(row: &Row<'_>, at: usize) -> rusqlite::Result<Totals> {
    Ok(Totals { manifests: number(row, at)?, manifest_bytes: number(row, at + 1)?, tags: number(row, at + 2)? })
}

/// Returns the repositories that have manifests and whose names begin with a prefix, from the first one that is not less than `begin`, except
/// `last`, with their numbers. `keep` returns what is kept of one.
pub(crate) fn repositories<T>(
    connection: &Connection,
    (begin, last): (&str, &str),
    prefix: &str,
    most: usize,
    mut keep: impl FnMut(String, Totals) -> Option<T>,
) -> rusqlite::Result<Page<T>> {
    let query = "SELECT repository, manifests, manifest_bytes, tags FROM counts
                 WHERE repository >= ?1 AND repository <> ?2 ORDER BY repository";
    page_of_prefix(connection, query, params![begin, last], (prefix, most), |row| Ok(keep(row.get(0)?, totals(row, 1)?)))
}

/// Returns the manifest with a digest.
pub(crate) fn by_digest(connection: &Connection, repo: &str, digest: &str) -> rusqlite::Result<Option<NamedManifest>> {
    let query = "SELECT digest, media_type, size FROM manifests WHERE repository = ?1 AND digest = ?2";
    first(connection, query, params![repo, digest], |row| named(row, 0))
}

/// Returns a tag with its manifest.
pub(crate) fn by_tag(connection: &Connection, repo: &str, tag: &str) -> rusqlite::Result<Option<FoundTag>> {
    let query = "SELECT tag, pushed, pulled, digest, media_type, size FROM tags JOIN manifests USING (repository, digest)
                 WHERE tags.repository = ?1 AND tag = ?2";
    first(connection, query, params![repo, tag], found_tag)
}

fn found_tag(row: &Row<'_>) -> rusqlite::Result<FoundTag> {
    let times = TagTimes { pushed: number(row, 1)?, pulled: number(row, 2)? };
    Ok(FoundTag { name: row.get(0)?, manifest: named(row, 3)?, times })
}

/// Returns the times of a tag.
pub(crate) fn tag_times(connection: &Connection, repo: &str, tag: &str) -> rusqlite::Result<Option<TagTimes>> {
    let query = "SELECT pushed, pulled FROM tags WHERE repository = ?1 AND tag = ?2";
    let read = |row: &Row<'_>| Ok(TagTimes { pushed: number(row, 0)?, pulled: number(row, 1)? });
    first(connection, query, params![repo, tag], read)
}

/// Returns the facts of a manifest, and since when it is held as it is.
pub(crate) fn facts(connection: &Connection, repo: &str, digest: &str) -> rusqlite::Result<Option<(Facts, u64)>> {
    let query = "SELECT media_type, size, artifact_type, subject, since FROM manifests WHERE repository = ?1 AND digest = ?2";
    let read = |row: &Row<'_>| {
        let (media_type, size) = (row.get(0)?, number(row, 1)?);
        let facts = Facts { media_type, size, artifact_type: row.get(2)?, subject: row.get(3)?, lists: Vec::new() };
        Ok((facts, number(row, 4)?))
    };
    match first(connection, query, params![repo, digest], read)? {
        Some((facts, since)) => Ok(Some((Facts { lists: lists(connection, repo, digest)?, ..facts }, since))),
        None => Ok(None),
    }
}

/// Returns the digests that an index lists, in order.
pub(crate) fn lists(connection: &Connection, repo: &str, digest: &str) -> rusqlite::Result<Vec<String>> {
    let query = "SELECT listed FROM listed WHERE repository = ?1 AND digest = ?2 ORDER BY listed";
    texts(connection, query, params![repo, digest])
}

/// Returns the texts of a query.
fn texts(connection: &Connection, query: &str, values: &[&dyn ToSql]) -> rusqlite::Result<Vec<String>> {
    Ok(page(connection, query, values, usize::MAX, |row| row.get(0).map(Some))?.items)
}

/// Returns since when a manifest is held as it is.
pub(crate) fn since(connection: &Connection, repo: &str, digest: &str) -> rusqlite::Result<Option<u64>> {
    let query = "SELECT since FROM manifests WHERE repository = ?1 AND digest = ?2";
    first(connection, query, params![repo, digest], |row| number(row, 0))
}

/// Returns the digest of a manifest's subject.
pub(crate) fn subject(connection: &Connection, repo: &str, digest: &str) -> rusqlite::Result<Option<String>> {
    let query = "SELECT subject FROM manifests WHERE repository = ?1 AND digest = ?2";
    Ok(first(connection, query, params![repo, digest], |row| row.get(0))?.flatten())
}

/// Returns whether a repository has a manifest of this size.
pub(crate) fn has_size(connection: &Connection, repo: &str, size: u64) -> rusqlite::Result<bool> {
    let query = "SELECT 1 FROM manifests WHERE repository = ?1 AND size = ?2 LIMIT 1";
    Ok(first(connection, query, params![repo, size as i64], |_| Ok(()))?.is_some())
}

/// Returns the indexes that list a manifest, in order, at most `most`.
pub(crate) fn indexes_of(connection: &Connection, repo: &str, digest: &str, most: usize) -> rusqlite::Result<Vec<String>> {
    let query = "SELECT digest FROM listed WHERE repository = ?1 AND listed = ?2 ORDER BY digest";
    Ok(page(connection, query, params![repo, digest], most, |row| row.get(0).map(Some))?.items)
}

/// Returns the tags of a manifest in order that `is_wanted` returns true for, at most `most`.
pub(crate) fn tags_of(
    connection: &Connection,
    (repo, digest): (&str, &str),
    most: usize,
    is_wanted: impl Fn(&str) -> bool,
) -> rusqlite::Result<Page<String>> {
    let query = "SELECT tag FROM tags WHERE repository = ?1 AND digest = ?2 ORDER BY tag";
    page(connection, query, params![repo, digest], most, |row| Ok(Some(row.get(0)?).filter(|tag: &String| is_wanted(tag))))
}

/// Returns the tags of a manifest in order with their times.
pub(super) fn tags_to_remove(connection: &Connection, repo: &str, digest: &str) -> rusqlite::Result<Vec<RemovedTag>> {
    // By itself, SQLite would look at all tags of the repository: their order is that of the names too.
    let query = "SELECT tag, pushed, pulled FROM tags INDEXED BY tags_by_digest
                 WHERE repository = ?1 AND digest = ?2 ORDER BY tag";
    let read = |row: &Row<'_>| {
        let times = TagTimes { pushed: number(row, 1)?, pulled: number(row, 2)? };
        Ok(Some(RemovedTag { name: row.get(0)?, times }))
    };
    Ok(page(connection, query, params![repo, digest], usize::MAX, read)?.items)
}

/// Returns the names of the tags after `last` in order. `is_hidden` returns whether those of a manifest are left out.
pub(crate) fn tag_names(
    connection: &Connection,
    (repo, last): (&str, &str),
    most: usize,
    is_hidden: impl Fn(&str) -> bool,
) -> rusqlite::Result<Page<String>> {
    let query = "SELECT tag, digest FROM tags WHERE repository = ?1 AND tag > ?2 ORDER BY tag";
    page(connection, query, params![repo, last], most, |row| {
        let digest = row.get_ref(1)?.as_str()?;
        if is_hidden(digest) {
            return Ok(None);
        }
        row.get(0).map(Some)
    })
}

/// Returns the tags with a prefix from the first one in order that is not less than `begin`, except `last`, with their manifests. `keep`
/// returns what is kept of one.
pub(crate) fn tags<T>(
    connection: &Connection,
    repo: &str,
    (begin, last): (&str, &str),
    prefix: &str,
    most: usize,
    mut keep: impl FnMut(FoundTag) -> Option<T>,
) -> rusqlite::Result<Page<T>> {
    let query = "SELECT tag, pushed, pulled, digest, media_type, size FROM tags JOIN manifests USING (repository, digest)
                 WHERE tags.repository = ?1 AND tag >= ?2 AND tag <> ?3 ORDER BY tag";
    page_of_prefix(connection, query, params![repo, begin, last], (prefix, most), |row| Ok(keep(found_tag(row)?)))
}

/// Calls `see` with the referrers of a subject after `last` in the order of their digests: the manifest, the type of its artifact, and since
/// when it is held as it is. Ends when `see` returns false.
pub(crate) fn referrers(
    connection: &Connection,
    (repo, subject, last): (&str, &str, &str),
    mut see: impl FnMut(NamedManifest, Option<String>, u64) -> bool,
) -> rusqlite::Result<()> {
    // By itself, SQLite would look at all manifests after `last`: their order is that of the digests too.
    let query = "SELECT digest, media_type, size, artifact_type, since FROM manifests INDEXED BY manifests_by_subject
                 WHERE repository = ?1 AND subject = ?2 AND digest > ?3 ORDER BY digest";
    let mut statement = connection.prepare_cached(query)?;
    let mut rows = statement.query(params![repo, subject, last])?;
    while let Some(row) = rows.next()? {
        if !see(named(row, 0)?, row.get(3)?, number(row, 4)?) {
            break;
        }
    }
    drop(rows);
    check_served(&statement);
    Ok(())
}

/// Returns the manifests that are no indexes and have no subject, in the order of their digests, at most `most`. `is_hidden` returns whether
/// one is left out.
///
/// # Cost
///
/// Looks at the indexes in front of the last one too.
pub(crate) fn images(
    connection: &Connection,
    repo: &str,
    most: usize,
    is_hidden: impl Fn(&str) -> bool,
) -> rusqlite::Result<Page<NamedManifest>> {
    let query = "SELECT digest, media_type, size FROM manifests AS image INDEXED BY manifests_by_subject
                 WHERE repository = ?1 AND subject IS NULL
                 AND NOT EXISTS (SELECT 1 FROM listed WHERE listed.repository = ?1 AND listed.digest = image.digest)
                 ORDER BY digest";
    page(connection, query, params![repo], most, |row| Ok(Some(named(row, 0)?).filter(|image| !is_hidden(&image.digest))))
}

/// Returns the digests of all manifests of a repository, in order.
pub(crate) fn digests(connection: &Connection, repo: &str) -> rusqlite::Result<Vec<String>> {
    texts(connection, "SELECT digest FROM manifests WHERE repository = ?1 ORDER BY digest", params![repo])
}

/// Returns the manifests after `last` in the order of their digests that have no tag, at most `most`. `keep` returns what is kept of one.
///
/// # Cost
///
/// Looks at the manifests with tags in front of the last one too.
pub(crate) fn untagged<T>(
    connection: &Connection,
    (repo, last): (&str, &str),
    most: usize,
    mut keep: impl FnMut(FoundUntagged) -> Option<T>,
) -> rusqlite::Result<Page<T>> {
    let query = "SELECT digest, media_type, size, since, subject, coalesce(
                     (SELECT listed.digest FROM listed WHERE listed.repository = ?1 AND listed.listed = found.digest
                      ORDER BY listed.digest LIMIT 1),
                     (SELECT held.digest FROM manifests AS held WHERE held.repository = ?1 AND held.digest = found.subject))
                 FROM manifests AS found WHERE repository = ?1 AND digest > ?2
                 AND NOT EXISTS (SELECT 1 FROM tags WHERE tags.repository = ?1 AND tags.digest = found.digest)
                 ORDER BY digest";
    page(connection, query, params![repo, last], most, |row| {
        let (manifest, since) = (named(row, 0)?, number(row, 3)?);
        Ok(keep(FoundUntagged { manifest, since, subject: row.get(4)?, held_by: row.get(5)? }))
    })
}
