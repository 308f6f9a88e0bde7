//! Which manifests and blobs are copies that a mirror made, and when each was used last. These alone are deleted to make room.
//!
//! A copy is marked before the store has it, so that after a crash nothing counts as pushed that is not. A mark without content is
//! removed when the content is not found. A push of the same content removes the mark.
use crate::database::change::Change;
use crate::database::writer::{WriteFailure, Writer};
use crate::metadata::clock::now;
use crate::metadata::names::tenant_of;
use crate::operation::locks::guard_of;
use std::collections::HashMap;
use std::sync::{Arc, Mutex};

/// A repository, and the digest of a manifest or a blob.
pub(crate) type Key = (String, String);

/// The time after which a use is recorded in the database, in seconds.
const RECORDED: u64 = 3600;

/// When a copy was used last.
#[derive(Clone, Copy)]
struct Use {
    /// The time in seconds since 1970.
    time: u64,
    /// The place among the uses in this second.
    place: u64,
    /// The time that the database has.
    recorded: u64,
}

/// The copies that mirrors made.
#[derive(Default)]
pub(crate) struct CachedContents {
    writer: Option<Arc<Writer>>,
    table: Mutex<Table>,
}

#[derive(Default)]
struct Table {
    by_key: HashMap<Key, Use>,
    /// The place of the last use.
    last: u64,
}

impl Table {
    fn next_use(&mut self, time: u64) -> Use {
        self.last += 1;
        Use { time, place: self.last, recorded: time }
    }
}

impl CachedContents {
    /// Makes the table with the copies of a database, each with the time of its last use.
    pub(crate) fn new(writer: Option<Arc<Writer>>, known: Vec<(String, String, u64)>) -> CachedContents {
        let mut table = Table::default();
        for (repo, digest, time) in known {
            let used = table.next_use(time);
            table.by_key.insert((repo, digest), used);
        }
        CachedContents { writer, table: Mutex::new(table) }
    }

    /// Marks a copy before the store gets it. With a database, the mark is there when this returns.
    pub(crate) async fn mark(&self, repo: &str, digest: &str) -> Result<(), WriteFailure> {
        if let (Some(writer), false) = (&self.writer, self.has(repo, digest)) {
            writer.write(Change::AddCached { repo: repo.to_string(), digest: digest.to_string() }).await?;
        }
        let mut table = guard_of(self.table.lock());
        let used = table.next_use(now());
        table.by_key.insert((repo.to_string(), digest.to_string()), used);
        Ok(())
    }

    /// Returns whether it is a copy.
    pub(crate) fn has(&self, repo: &str, digest: &str) -> bool {
        guard_of(self.table.lock()).by_key.contains_key(&(repo.to_string(), digest.to_string()))
    }

    /// Notes that a copy is used. The database gets the time if the one that it has is an hour old.
    pub(crate) fn touch(&self, repo: &str, digest: &str) {
        let key = (repo.to_string(), digest.to_string());
        let mut table = guard_of(self.table.lock());
        let mut used = table.next_use(now());
        let found = match table.by_key.get_mut(&key) {
            Some(found) => found,
            None => return,
        };
        let is_old = used.time.saturating_sub(found.recorded) >= RECORDED;
        if !is_old {
            used.recorded = found.recorded;
        }
        *found = used;
        drop(table);
        if let (true, Some(writer)) = (is_old, &self.writer) {
            writer.note(Change::UseCached { repo: key.0, digest: key.1 });
        }
    }

    /// Removes a mark: the copy is deleted, or it was pushed.
    pub(crate) fn unmark(&self, repo: &str, digest: &str) {
        let removed = guard_of(self.table.lock()).by_key.remove(&(repo.to_string(), digest.to_string()));
        if let (Some(_), Some(writer)) = (removed, &self.writer) {
            writer.note(Change::RemoveCached { repo: repo.to_string(), digest: digest.to_string() });
        }
    }

    /// Returns the copies of a tenant, the least recently used first.
    pub(crate) fn by_use(&self, tenant: &str) -> Vec<Key> {
        let table = guard_of(self.table.lock());
        let own = table.by_key.iter().filter(|((repo, _), _)| tenant_of(repo) == tenant);
        let mut found: Vec<(u64, u64, Key)> = own.map(|(key, used)| (used.time, used.place, key.clone())).collect();
        drop(table);
        found.sort_unstable();
        found.into_iter().map(|(_, _, key)| key).collect()
    }

    /// Returns the number of copies of a tenant.
    pub(crate) fn count(&self, tenant: &str) -> usize {
        guard_of(self.table.lock()).by_key.keys().filter(|(repo, _)| tenant_of(repo) == tenant).count()
    }
}

#[cfg(test)]
mod tests {
    use super::*;

    fn digests(cached: &CachedContents, tenant: &str) -> Vec<String> {
        cached.by_use(tenant).into_iter().map(|(_, digest)| digest).collect()
    }

    #[tokio::test]
    async fn the_least_recently_used_comes_first() {
        let known = vec![("acme/a".to_string(), "old".to_string(), 7), ("acme/b".to_string(), "older".to_string(), 5)];
        let cached = CachedContents::new(None, known);
        for digest in ["one", "two"] {
            cached.mark("acme/a", digest).await.unwrap();
        }
        cached.mark("other/a", "three").await.unwrap();
        assert_eq!(digests(&cached, "acme"), ["older", "old", "one", "two"]);
        cached.touch("acme/b", "older");
        cached.touch("acme/a", "one");
        cached.touch("acme/a", "unknown");
        assert_eq!(digests(&cached, "acme"), ["old", "two", "older", "one"]);
        cached.unmark("acme/a", "two");
        assert_eq!((digests(&cached, "acme"), cached.count("acme")), (vec!["old".into(), "older".into(), "one".into()], 3));
        assert!(cached.has("other/a", "three") && !cached.has("acme/a", "two"));
    }
}
