//! The connections that read the database. A thread has one for a short look, and others wait if all are in use. A registry without a
//! folder has one, to a database in memory, which it writes too. Only the writer's thread writes the database of a folder.
use crate::database::schema;
use crate::operation::exit::{end_with, Failure};
use crate::operation::locks::guard_of;
use rusqlite::{Connection, ErrorCode, OpenFlags, Transaction};
use std::path::Path;
use std::sync::{Arc, Condvar, Mutex};
use std::time::Duration;
use tokio::runtime::{Handle, RuntimeFlavor};

/// The flags with which the file is opened. It exists, and one thread at a time uses a connection.
const FLAGS: OpenFlags = OpenFlags::SQLITE_OPEN_READ_WRITE.union(OpenFlags::SQLITE_OPEN_NO_MUTEX);

/// The least and the greatest number of connections. Between them it is that of the processors, each of which runs one thread of requests.
const COUNTS: (usize, usize) = (2, 8);

/// The maximum size of the pages that a connection keeps, in KiB.
const CACHE: usize = 1024;

/// The number of statements that a connection keeps prepared. It is more than there are.
pub(super) const STATEMENTS: usize = 64;

/// The number of times that a look is tried again which found no memory, and the pause before each.
const TRIES: usize = 100;
const PAUSE: Duration = Duration::from_millis(10);

/// Connections that read one database.
pub(crate) struct Readers {
    state: Mutex<State>,
    /// Whether a look reads no disk.
    is_in_memory: bool,
    /// Notified when a connection is not in use any more.
    freed: Condvar,
}

#[derive(Default)]
struct State {
    idle: Vec<Connection>,
    /// The number of connections, in use or not.
    count: usize,
}

/// A connection that a thread uses. Dropping this gives it back.
struct Lent<'r> {
    readers: &'r Readers,
    connection: Option<Connection>,
}

impl Readers {
    pub(super) fn of(connections: Vec<Connection>) -> Readers {
        let readers = Readers { state: Mutex::default(), is_in_memory: false, freed: Condvar::new() };
        readers.put(connections);
        readers
    }

    fn lend(&self) -> Lent<'_> {
        let mut state = guard_of(self.state.lock());
        loop {
            if let Some(connection) = state.idle.pop() {
                return Lent { readers: self, connection: Some(connection) };
            }
            state = guard_of(self.freed.wait(state));
        }
    }

    /// Returns what `look` finds. No look begins within another one. Other requests go on while this one waits for the disk. Ends the program if
    /// the database cannot be read: no reply says then that something is missing.
    pub(crate) fn read<T>(&self, look: impl Fn(&Connection) -> rusqlite::Result<T>) -> T {
        match self.is_in_memory || !serves_requests() {
            true => self.read_here(look),
            false => tokio::task::block_in_place(|| self.read_here(look)),
        }
    }

    fn read_here<T>(&self, look: impl Fn(&Connection) -> rusqlite::Result<T>) -> T {
        let lent = self.lend();
        let connection = lent.connection.as_ref().expect("a connection until it is given back");
        let mut tries = 0;
        loop {
            match look(connection) {
                // Another program has the lock of the database.
                Err(error) if is_locked(&error) => std::thread::sleep(PAUSE),
                Err(error) if is_passing(&error) && tries < TRIES => {
                    tries += 1;
                    std::thread::sleep(PAUSE);
                }
                found => return found.unwrap_or_else(unread),
            }
        }
    }

    /// Takes all connections, after no thread uses one. Looks wait until there are some again.
    pub(super) fn take_all(&self) -> Vec<Connection> {
        let mut state = guard_of(self.state.lock());
        while state.idle.len() < state.count {
            state = guard_of(self.freed.wait(state));
        }
        state.count = 0;
        std::mem::take(&mut state.idle)
    }

    /// Adds connections.
    pub(super) fn put(&self, connections: Vec<Connection>) {
        let mut state = guard_of(self.state.lock());
        state.count += connections.len();
        state.idle.extend(connections);
        drop(state);
        self.freed.notify_all();
    }
}

impl Drop for Lent<'_> {
    fn drop(&mut self) {
        guard_of(self.readers.state.lock()).idle.extend(self.connection.take());
        // One who takes all waits in the same way as one who takes any.
        self.readers.freed.notify_all();
    }
}

/// A database in memory, which each thread may write.
pub(crate) struct MemoryRows(Arc<Readers>);

impl MemoryRows {
    /// Makes an empty database.
    ///
    /// # Panics
    ///
    /// Panics if there is no memory for it.
    pub(crate) fn new() -> MemoryRows {
        let made = Connection::open_in_memory().and_then(|mut connection| {
            schema::check_or_make(&mut connection)?;
            connection.execute_batch("PRAGMA foreign_keys = ON")?;
            connection.set_prepared_statement_cache_capacity(STATEMENTS);
            Ok(connection)
        });
        let readers = Readers::of(vec![made.expect("memory for an empty database")]);
        MemoryRows(Arc::new(Readers { is_in_memory: true, ..readers }))
    }

    /// Returns the connection that reads it.
    pub(crate) fn readers(&self) -> Arc<Readers> {
        self.0.clone()
    }

    /// Makes changes.
    pub(crate) fn write<T>(&self, change: impl FnOnce(&Transaction<'_>) -> rusqlite::Result<T>) -> T {
        let mut lent = self.0.lend();
        let connection = lent.connection.as_mut().expect("a connection until it is given back");
        let made = connection.transaction().and_then(|transaction| {
            let made = change(&transaction)?;
            transaction.commit()?;
            Ok(made)
        });
        made.unwrap_or_else(unread)
    }
}

/// Returns whether this thread runs requests, which another thread can go on with.
fn serves_requests() -> bool {
    Handle::try_current().map_or(false, |handle| handle.runtime_flavor() == RuntimeFlavor::MultiThread)
}

/// Returns whether a look fails because another program has the database. It reads or copies it, or recovers its log.
fn is_locked(error: &rusqlite::Error) -> bool {
    matches!(error.sqlite_error_code(), Some(ErrorCode::DatabaseBusy | ErrorCode::DatabaseLocked))
}

/// Returns whether a look fails for a reason that may pass.
fn is_passing(error: &rusqlite::Error) -> bool {
    matches!(error.sqlite_error_code(), Some(ErrorCode::OutOfMemory))
}

fn unread<T>(error: rusqlite::Error) -> T {
    end_with(&Failure::of_unread_database(&error.to_string()))
}

/// Opens the connections that read a database.
pub(super) fn open(path: &Path) -> rusqlite::Result<Vec<Connection>> {
    let processors = std::thread::available_parallelism().map_or(COUNTS.0, usize::from);
    let open = || Connection::open_with_flags(path, FLAGS).and_then(set_up);
    (0..processors.clamp(COUNTS.0, COUNTS.1)).map(|_| open()).collect()
}

/// Sets up a connection that reads a database. It cannot write it from then on.
pub(super) fn set_up(connection: Connection) -> rusqlite::Result<Connection> {
    schema::set_up_reader(&connection, CACHE)?;
    connection.set_prepared_statement_cache_capacity(STATEMENTS);
    Ok(connection)
}

/// Opens a database that nobody writes any more, without its log and without a lock.
pub(super) fn open_last(path: &Path) -> rusqlite::Result<Connection> {
    let escaped = path.to_string_lossy().replace('%', "%25").replace('?', "%3f").replace('#', "%23");
    let flags = OpenFlags::SQLITE_OPEN_READ_ONLY | OpenFlags::SQLITE_OPEN_NO_MUTEX | OpenFlags::SQLITE_OPEN_URI;
    Connection::open_with_flags(format!("file:{escaped}?immutable=1"), flags)
}

#[cfg(test)]
mod tests {
    use super::*;
    use std::sync::atomic::{AtomicUsize, Ordering};

    /// The number of SQLite's steps after which a look has its snapshot of the database.
    const STEPS_TO_SNAPSHOT: usize = 2;

    impl Readers {
        /// Leaves one connection, which calls `act` once, during its next look. That look does not see what `act` changes. Its statement has to be
        /// prepared before, because the steps of a preparation count too.
        pub(crate) fn act_in_next_look(&self, act: impl FnMut() + Send + 'static) {
            let connection = self.take_all().pop().expect("a connection");
            let (act, mut steps) = (Mutex::new(act), 0);
            let step = move || {
                steps += 1;
                if steps == STEPS_TO_SNAPSHOT {
                    act.lock().unwrap()();
                }
                false
            };
            connection.progress_handler(1, Some(step));
            self.put(vec![connection]);
        }
    }

    fn in_memory(count: usize) -> Readers {
        Readers::of((0..count).map(|_| Connection::open_in_memory().unwrap()).collect())
    }

    #[test]
    fn more_threads_than_connections_read_at_once() {
        let (readers, most, running) = (Arc::new(in_memory(2)), AtomicUsize::new(0), AtomicUsize::new(0));
        std::thread::scope(|scope| {
            for number in 0..16_i64 {
                let (readers, most, running) = (readers.clone(), &most, &running);
                scope.spawn(move || {
                    for _ in 0..50 {
                        let found = readers.read(|rows| {
                            most.fetch_max(running.fetch_add(1, Ordering::SeqCst) + 1, Ordering::SeqCst);
                            let found = rows.query_row("SELECT ?1", [number], |row| row.get::<_, i64>(0));
                            running.fetch_sub(1, Ordering::SeqCst);
                            found
                        });
                        assert_eq!(found, number);
                    }
                });
            }
        });
        assert!((1..=2).contains(&most.into_inner()));
    }

    #[test]
    fn a_look_waits_until_there_are_connections() {
        let readers = Arc::new(in_memory(2));
        let taken = readers.take_all();
        assert_eq!(taken.len(), 2);
        let waiting = readers.clone();
        let look = std::thread::spawn(move || waiting.read(|rows| rows.query_row("SELECT 7", [], |row| row.get::<_, i64>(0))));
        std::thread::sleep(Duration::from_millis(20));
        assert!(!look.is_finished());
        readers.put(taken);
        assert_eq!(look.join().unwrap(), 7);
        assert_eq!(readers.take_all().len(), 2);
    }

    #[test]
    fn a_look_that_panics_gives_its_connection_back() {
        let readers = Arc::new(in_memory(1));
        let other = readers.clone();
        assert!(std::thread::spawn(move || other.read(|_| -> rusqlite::Result<()> { panic!("a bug") })).join().is_err());
        assert_eq!(readers.take_all().len(), 1);
    }

    #[test]
    fn a_look_waits_for_a_database_that_is_locked() {
        let (readers, tries) = (in_memory(1), AtomicUsize::new(0));
        let busy = || rusqlite::Error::SqliteFailure(rusqlite::ffi::Error::new(rusqlite::ffi::SQLITE_BUSY), None);
        let found = readers.read(|_| if tries.fetch_add(1, Ordering::SeqCst) < TRIES + 2 { Err(busy()) } else { Ok(5) });
        assert_eq!((found, tries.into_inner()), (5, TRIES + 3));
    }

    #[tokio::test(flavor = "multi_thread", worker_threads = 1)]
    async fn a_look_that_waits_stalls_no_other_request() {
        let readers = Arc::new(in_memory(1));
        let taken = readers.take_all();
        let waiting = readers.clone();
        let look = tokio::spawn(async move { waiting.read(|rows| rows.query_row("SELECT 7", [], |row| row.get::<_, i64>(0))) });
        tokio::time::sleep(Duration::from_millis(20)).await;
        tokio::spawn(async move { readers.put(taken) }).await.unwrap();
        assert_eq!(look.await.unwrap(), 7);
    }

    #[test]
    fn a_look_that_finds_no_memory_is_tried_again() {
        let (readers, tries) = (in_memory(1), AtomicUsize::new(0));
        let full = || rusqlite::Error::SqliteFailure(rusqlite::ffi::Error::new(rusqlite::ffi::SQLITE_NOMEM), None);
        let found = readers.read(|_| if tries.fetch_add(1, Ordering::SeqCst) < 2 { Err(full()) } else { Ok(5) });
        assert_eq!((found, tries.into_inner()), (5, 3));
    }
}
