//! What the tests of the database share: a folder with one, changes, and parts of its rows.
use crate::database::change::Change;
use crate::database::lookups;
use crate::database::rows::{self, Rows};
use crate::database::sqlite::Database;
use crate::metadata::document::Facts;
use crate::metadata::tag::TagTimes;
use std::path::PathBuf;

/// A folder that is removed after the test.
pub(crate) struct TestFolder(pub(crate) PathBuf);

impl TestFolder {
    pub(crate) fn new() -> TestFolder {
        let path = std::env::temp_dir().join(format!("registryd-{}", uuid::Uuid::new_v4()));
        std::fs::create_dir(&path).unwrap();
        TestFolder(path)
    }

    pub(super) fn open(&self) -> Database {
        Database::open(&self.0, true).unwrap()
    }
}

impl Drop for TestFolder {
    fn drop(&mut self) {
        let _ = std::fs::remove_dir_all(&self.0);
    }
}

/// Returns the push of a manifest with a media type.
pub(super) fn put(digest: &str, media_type: &str, tag: Option<&str>) -> Change {
    let facts = Facts { media_type: media_type.to_string(), ..Facts::default() };
    put_facts(digest, facts, tag)
}

/// Returns the push of a manifest with facts.
pub(super) fn put_facts(digest: &str, facts: Facts, tag: Option<&str>) -> Change {
    let (repo, digest) = ("acme/web".to_string(), digest.to_string());
    Change::PutManifest { repo, digest, facts, tag: tag.map(str::to_string) }
}

/// A manifest.
#[derive(Clone, Debug, PartialEq, Eq)]
pub(super) struct ManifestRow {
    pub(super) repo: String,
    pub(super) digest: String,
    pub(super) facts: Facts,
    /// Whether all facts are known, and not its media type alone.
    pub(super) is_complete: bool,
    pub(super) since: u64,
}

/// The content of a database.
pub(super) struct AllRows {
    pub(super) rows: Rows,
    pub(super) manifests: Vec<ManifestRow>,
    /// The repositories and names of tags, with the digests of their manifests and their times.
    pub(super) tags: Vec<(String, String, String, TagTimes)>,
}

impl Database {
    /// Returns the content of the database.
    pub(super) fn read_all(&mut self) -> AllRows {
        let rows = self.read().unwrap();
        let readers = self.readers().unwrap();
        let manifests = readers.read(|rows| {
            let query = "SELECT repository, digest, size IS NOT NULL FROM manifests ORDER BY repository, digest";
            let row = |row: &rusqlite::Row<'_>| Ok((row.get(0)?, row.get(1)?, row.get(2)?));
            let keys: Vec<(String, String, bool)> = rows::all(rows, query, row)?;
            let complete = |(repo, digest, is_complete): (String, String, bool)| -> rusqlite::Result<ManifestRow> {
                let (facts, since) = lookups::facts(rows, &repo, &digest)?.expect("the row");
                Ok(ManifestRow { repo, digest, facts, is_complete, since })
            };
            keys.into_iter().map(complete).collect()
        });
        let tags = readers.read(|rows| {
            rows::all(rows, "SELECT repository, tag, digest, pushed, pulled FROM tags", |row| {
                let times = TagTimes { pushed: row.get::<_, i64>(3)? as u64, pulled: row.get::<_, i64>(4)? as u64 };
                Ok((row.get(0)?, row.get(1)?, row.get(2)?, times))
            })
        });
        AllRows { rows, manifests, tags }
    }
}

/// Returns the tags with their digests.
pub(super) fn tags(rows: &AllRows) -> Vec<(&str, &str)> {
    rows.tags.iter().map(|(_, tag, digest, _)| (&**tag, &**digest)).collect()
}

/// Returns the times of the last push and pull of each tag.
pub(super) fn times(rows: &AllRows) -> Vec<(u64, u64)> {
    rows.tags.iter().map(|(_, _, _, times)| (times.pushed, times.pulled)).collect()
}

/// Returns the manifests, each with the time since which it is held as it is.
pub(super) fn since(rows: &AllRows) -> Vec<(&str, u64)> {
    rows.manifests.iter().map(|row| (&*row.digest, row.since)).collect()
}
