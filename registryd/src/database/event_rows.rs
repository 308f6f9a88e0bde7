//! The rows of events that are not delivered yet, and of the receivers' places among them.
use crate::database::rows::all;
use crate::events::event::{Event, Report};
use crate::events::queue::{EventRows, Passed};
use rusqlite::{params, Connection, Transaction};

/// The events of a transaction.
pub(crate) struct NewEvents {
    /// The number of the first one.
    first: u64,
    pub(crate) made: Vec<Event>,
}

/// A change's events, if it has any.
pub(crate) type Reported<'c> = Option<&'c Report>;

impl NewEvents {
    /// Begins with a number.
    pub(crate) fn from(first: u64) -> NewEvents {
        NewEvents { first, made: Vec::new() }
    }

    /// Adds an event and its row.
    pub(super) fn add(&mut self, transaction: &Transaction<'_>, event: Event) -> rusqlite::Result<()> {
        let number = self.first + self.made.len() as u64;
        let query = "INSERT INTO events (number, time, text) VALUES (?1, ?2, ?3)";
        transaction.prepare_cached(query)?.execute(params![number as i64, event.time as i64, event.text])?;
        self.made.push(event);
        Ok(())
    }
}

/// Writes the place of each receiver, and removes the events that nobody waits for.
pub(super) fn pass(transaction: &Transaction<'_>, passed: &Passed) -> rusqlite::Result<()> {
    transaction.prepare_cached("DELETE FROM receivers")?.execute([])?;
    for (name, number) in &passed.by_receiver {
        let query = "INSERT INTO receivers (name, passed) VALUES (?1, ?2)";
        transaction.prepare_cached(query)?.execute(params![name, *number as i64])?;
    }
    for number in &passed.done {
        transaction.prepare_cached("DELETE FROM events WHERE number = ?1")?.execute(params![*number as i64])?;
    }
    Ok(())
}

/// Returns all rows. One whose text is no event is left out.
pub(super) fn read(connection: &Connection) -> rusqlite::Result<EventRows> {
    let query = "SELECT number, time, text FROM events ORDER BY number";
    let rows: Vec<(i64, i64, String)> = all(connection, query, |row| Ok((row.get(0)?, row.get(1)?, row.get(2)?)))?;
    let event = |(number, time, text)| Some((number as u64, Event::of_text(time as u64, text)?));
    let passed = all(connection, "SELECT name, passed FROM receivers", |row| Ok((row.get(0)?, row.get::<_, i64>(1)? as u64)))?;
    Ok(EventRows { events: rows.into_iter().filter_map(event).collect(), passed: passed.into_iter().collect() })
}

#[cfg(test)]
mod tests {
    use super::*;
    use crate::database::change::Change;
    use crate::database::sqlite::Database;
    use crate::events::event::tests::report;
    use crate::metadata::document::Facts;
    use crate::metadata::tag::{RemovedTag, TagTimes};

    /// Makes changes with the events of `report`, the first of which gets a number. Returns how many events there are.
    fn commit(database: &mut Database, changes: &[Change], first: u64) -> usize {
        let (report, mut events) = (report(), NewEvents::from(first));
        database
            .commit_reported(changes.iter().map(|change| (change, Some(&report))), &[], 1, &mut events, &mut Vec::new())
            .unwrap();
        events.made.len()
    }

    #[test]
    fn an_event_has_a_row_until_nobody_waits_for_it() {
        let folder = std::env::temp_dir().join(format!("registryd-{}", uuid::Uuid::new_v4()));
        std::fs::create_dir(&folder).unwrap();
        let mut database = Database::open(&folder, true).unwrap();
        let (repo, digest) = ("acme/web".to_string(), "a".to_string());
        let put = |tag: &str| {
            let (repo, digest, tag) = (repo.clone(), digest.clone(), Some(tag.to_string()));
            Change::PutManifest { repo, digest, facts: Facts::default(), tag }
        };
        let untag = || Change::RemoveTag { repo: repo.clone(), tag: "v1".to_string() };
        assert_eq!(commit(&mut database, &[put("v1"), put("v2"), put("v3")], 5), 3);
        // A tag that is not there is not deleted.
        assert_eq!(commit(&mut database, &[untag(), untag()], 8), 1);
        let remove = Change::RemoveManifest { repo: repo.clone(), digest: digest.clone() };
        assert_eq!(commit(&mut database, &[remove], 9), 3);
        let tags = ["v1", "v2"].map(|name| RemovedTag { name: name.to_string(), times: TagTimes::default() }).to_vec();
        let restore = Change::RestoreManifest { repo, digest, facts: Facts::default(), since: 1, tags };
        assert_eq!(commit(&mut database, &[restore, Change::AddEvents], 12), 4);
        let numbers =
            |database: &mut Database| database.read().unwrap().events.events.iter().map(|row| row.0).collect::<Vec<_>>();
        assert_eq!(numbers(&mut database), (5..16).collect::<Vec<_>>());
        let by_receiver = vec![("one".to_string(), 9), ("two".to_string(), 12)];
        let passed = Passed { by_receiver: by_receiver.clone(), done: (5..10).collect() };
        database.commit([Change::PassEvents { passed }].iter(), &[], 1).unwrap();
        assert_eq!(numbers(&mut database), (10..16).collect::<Vec<_>>());
        assert_eq!(database.read().unwrap().events.passed, by_receiver.into_iter().collect());
        let passed = Passed { by_receiver: vec![("two".to_string(), 15)], done: (10..16).collect() };
        database.commit([Change::PassEvents { passed }].iter(), &[], 1).unwrap();
        assert_eq!((numbers(&mut database), database.read().unwrap().events.passed.len()), (Vec::new(), 1));
        std::fs::remove_dir_all(folder).unwrap();
    }
}
