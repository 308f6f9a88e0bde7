//! The last uses of tags and of manifests that the database does not have yet. Their number is bounded: if there are more, the oldest are
//! recorded. So a look at the database and at these finds the last use of each.
use crate::operation::locks::guard_of;
use std::collections::{BTreeMap, HashMap};
use std::sync::Mutex;

/// The maximum number of uses that are kept.
const MOST: usize = 1 << 14;

/// A repository, and a tag or a digest.
pub(super) type Key = (String, String);

/// A last use.
struct Use {
    /// In seconds since 1970.
    time: u64,
    /// The last use that the database has, or is going to have soon.
    recorded: u64,
    /// The place in the order in which these uses were added.
    place: u64,
}

#[derive(Default)]
struct Table {
    by_key: HashMap<Key, Use>,
    by_place: BTreeMap<u64, Key>,
    /// The place of the one that was added last.
    last: u64,
}

/// The last uses that the database does not have yet.
pub(super) struct RecentUses {
    /// The time after which a further use is recorded in the database, in seconds.
    patience: u64,
    most: usize,
    table: Mutex<Table>,
}

impl Table {
    fn remove(&mut self, key: &Key) -> Option<Use> {
        let found = self.by_key.remove(key)?;
        self.by_place.remove(&found.place);
        Some(found)
    }

    fn add(&mut self, key: Key, time: u64, recorded: u64) {
        self.last += 1;
        self.by_place.insert(self.last, key.clone());
        self.by_key.insert(key, Use { time, recorded, place: self.last });
    }

    /// Removes the use that was added first, and returns its key and its time.
    fn take_first(&mut self) -> Option<(Key, u64)> {
        let place = *self.by_place.keys().next()?;
        let key = self.by_place.remove(&place)?;
        let time = self.by_key.remove(&key)?.time;
        Some((key, time))
    }
}

impl RecentUses {
    /// Makes a table of uses. One is recorded if the one that the database has is `patience` seconds old.
    pub(super) fn new(patience: u64) -> RecentUses {
        RecentUses { patience, most: MOST, table: Mutex::default() }
    }

    /// Notes a use. `find_recorded` returns the time of the last use that the database has, or nothing if nothing is to be noted. Returns the
    /// uses that are to be recorded now, with their times.
    pub(super) fn note(
        &self,
        (repo, name): (&str, &str),
        now: u64,
        find_recorded: impl FnOnce() -> Option<u64>,
    ) -> Vec<(Key, u64)> {
        let key = (repo.to_string(), name.to_string());
        let mut due = Vec::new();
        let known = guard_of(self.table.lock()).by_key.contains_key(&key);
        let recorded = if known { Some(0) } else { find_recorded() };
        let mut table = guard_of(self.table.lock());
        match (table.by_key.get_mut(&key), recorded) {
            (None, None) => return due,
            (None, Some(recorded)) => table.add(key.clone(), now, recorded),
            (Some(found), _) => found.time = found.time.max(now),
        }
        if let Some(found) = table.by_key.get_mut(&key) {
            if now.saturating_sub(found.recorded) >= self.patience {
                found.recorded = now;
                due.push((key, now));
            }
        }
        while table.by_key.len() > self.most {
            due.extend(table.take_first());
        }
        due
    }

    /// Returns the time of a use that the database may not have.
    pub(super) fn time(&self, repo: &str, name: &str) -> Option<u64> {
        let table = guard_of(self.table.lock());
        if table.by_key.is_empty() {
            return None;
        }
        table.by_key.get(&(repo.to_string(), name.to_string())).map(|found| found.time)
    }

    /// Notes that the database has the uses up to a time.
    pub(super) fn end(&self, repo: &str, name: &str, time: u64) {
        let (mut table, key) = (guard_of(self.table.lock()), (repo.to_string(), name.to_string()));
        if table.by_key.get(&key).map_or(false, |found| found.time <= time) {
            table.remove(&key);
        }
    }

    /// Notes that uses count anew from a time on: earlier ones are forgotten, and the next one is recorded.
    pub(super) fn begin_anew(&self, repo: &str, name: &str, time: u64) {
        let (mut table, key) = (guard_of(self.table.lock()), (repo.to_string(), name.to_string()));
        match table.by_key.get_mut(&key) {
            Some(found) if found.time >= time => found.recorded = 0,
            Some(_) => {
                table.remove(&key);
            }
            None => {}
        }
    }
}

#[cfg(test)]
mod tests {
    use super::*;

    fn uses(patience: u64, most: usize) -> RecentUses {
        RecentUses { most, ..RecentUses::new(patience) }
    }

    #[test]
    fn a_use_is_recorded_once_in_a_while() {
        let uses = uses(60, 9);
        let is_due = |now, recorded| !uses.note(("r", "v1"), now, || recorded).is_empty();
        assert!(!is_due(900, None) && uses.time("r", "v1").is_none());
        assert_eq!([1000, 1030, 1059].map(|now| is_due(now, Some(0))), [true, false, false]);
        assert_eq!(uses.time("r", "v1"), Some(1059));
        assert_eq!([1060, 1061, 1300, 1301].map(|now| is_due(now, Some(0))), [true, false, true, false]);
        let is_due = |now| !uses.note(("r", "v2"), now, || Some(2000)).is_empty();
        assert!(!is_due(2059) && is_due(2060));
    }

    #[test]
    fn uses_that_the_database_has_are_forgotten() {
        let uses = uses(60, 9);
        uses.note(("r", "v1"), 1000, || Some(0));
        uses.note(("r", "v1"), 1001, || None);
        uses.end("r", "v1", 1000);
        assert_eq!(uses.time("r", "v1"), Some(1001));
        uses.end("r", "v1", 1001);
        uses.end("r", "v1", 1001);
        assert_eq!(uses.time("r", "v1"), None);
        let table = uses.table.lock().unwrap();
        assert!(table.by_key.is_empty() && table.by_place.is_empty());
    }

    #[test]
    fn a_push_begins_anew() {
        let uses = uses(60, 9);
        for now in [1000, 1010] {
            uses.note(("r", "v1"), now, || Some(0));
        }
        uses.begin_anew("r", "v1", 1010);
        assert_eq!(uses.time("r", "v1"), Some(1010));
        assert!(!uses.note(("r", "v1"), 1011, || None).is_empty());
        uses.begin_anew("r", "v1", 1012);
        assert_eq!(uses.time("r", "v1"), None);
    }

    #[test]
    fn the_oldest_use_is_recorded_if_there_are_too_many() {
        let uses = uses(60, 2);
        for (name, now) in [("a", 70), ("b", 71), ("a", 72)] {
            uses.note(("r", name), now, || Some(69));
        }
        let due = uses.note(("r", "c"), 73, || Some(69));
        assert_eq!(due, [(("r".to_string(), "a".to_string()), 72)]);
        assert_eq!(["a", "b", "c"].map(|name| uses.time("r", name)), [None, Some(71), Some(73)]);
    }
}
