//! The pool of connections to the store. Sharers (tenants, for example) share it, so that none of them takes all
//! connections.
use crate::operation::locks::guard_of;
use crate::store::connection::{Frame, ReplyResult, StoreConnection};
use std::collections::{BTreeMap, VecDeque};
use std::io;
use std::ops::Bound::{Excluded, Unbounded};
use std::sync::{Arc, Mutex, MutexGuard};
use tokio::sync::oneshot;

/// The maximum number of calls of one sharer that wait for a connection.
const MOST_WAITING: usize = 1024;

/// The reason why no connection is returned.
#[derive(Debug, PartialEq, Eq)]
pub(super) enum PoolError {
    /// The pool is closed.
    Closed,
    /// The maximum number of calls of the sharer already waits.
    TooManyWait,
}

/// One of those that share the connections, such as a tenant.
#[derive(Default)]
struct Sharer {
    /// The number of connections that it has.
    held: usize,
    waiting: VecDeque<WaitingCall>,
}

/// A call that waits for a connection.
struct WaitingCall {
    is_long: bool,
    sender: oneshot::Sender<PooledConnection>,
}

struct State {
    idle: Vec<StoreConnection>,
    /// The number of connections that are idle or in use.
    count: usize,
    /// Those that have connections or wait for one, by their numbers.
    sharers: BTreeMap<usize, Sharer>,
    /// The sharer that got a connection last.
    last: usize,
    is_closed: bool,
}

impl State {
    /// Returns whether a sharer may get one more connection: it has fewer than are idle. So one sharer alone gets at most
    /// half of them, `n` sharers leave one share as large as theirs, and the last connection goes to a sharer that has none.
    fn may_take(&self, sharer: usize) -> bool {
        self.sharers.get(&sharer).map_or(0, |sharer| sharer.held) < self.idle.len()
    }

    /// Forgets a sharer that has no connection and waits for none.
    fn forget_idle(&mut self, sharer: usize) {
        if self.sharers.get(&sharer).map_or(false, |sharer| sharer.held == 0 && sharer.waiting.is_empty()) {
            self.sharers.remove(&sharer);
        }
    }

    /// Takes an idle connection. One that has carried a long body serves the next long one if it can, so that few become wide.
    fn pop(&mut self, is_long: bool) -> Option<StoreConnection> {
        let same = self.idle.iter().rposition(|connection| connection.is_wide == is_long);
        let mut connection = self.idle.remove(same.or_else(|| self.idle.len().checked_sub(1))?);
        connection.is_wide |= is_long;
        Some(connection)
    }

    /// Returns the waiting sharer that may get a connection and has the fewest. Sharers with equally many take turns.
    fn next(&self) -> Option<usize> {
        let turns = self.sharers.range((Excluded(self.last), Unbounded)).chain(self.sharers.range(..=self.last));
        let waiting = turns.filter(|(&sharer, calls)| !calls.waiting.is_empty() && self.may_take(sharer));
        waiting.min_by_key(|(_, sharer)| sharer.held).map(|(sharer, _)| *sharer)
    }
}

/// The pool of connections to the store.
pub(super) struct ConnectionPool(Mutex<State>);

/// A connection in use by a sharer. Dropping it returns the connection, unless its last exchange is incomplete.
pub(super) struct PooledConnection {
    connection: Option<StoreConnection>,
    is_clean: bool,
    sharer: usize,
    pool: Arc<ConnectionPool>,
}

impl ConnectionPool {
    /// Makes a pool. Its sharers have numbers, of which it knows those that use it.
    pub(super) fn new(connections: Vec<StoreConnection>) -> Arc<ConnectionPool> {
        let (count, sharers) = (connections.len(), BTreeMap::new());
        Arc::new(ConnectionPool(Mutex::new(State { idle: connections, count, sharers, last: 0, is_closed: false })))
    }

    fn state(&self) -> MutexGuard<'_, State> {
        guard_of(self.0.lock())
    }

    /// Takes a connection for a sharer after it may get one. Waiting calls of a sharer are served in order. `is_long` is whether
    /// the call has a long body.
    pub(super) async fn take(self: &Arc<Self>, sharer: usize, is_long: bool) -> Result<PooledConnection, PoolError> {
        let receiver = {
            let mut state = self.state();
            if state.is_closed {
                return Err(PoolError::Closed);
            }
            // A sharer that waits and may get a connection got one when the last was returned, so this call overtakes none.
            if state.sharers.get(&sharer).map_or(true, |sharer| sharer.waiting.is_empty()) && state.may_take(sharer) {
                if let Some(connection) = state.pop(is_long) {
                    state.sharers.entry(sharer).or_default().held += 1;
                    return Ok(PooledConnection { connection: Some(connection), is_clean: true, sharer, pool: self.clone() });
                }
            }
            let waiting = &mut state.sharers.entry(sharer).or_default().waiting;
            if waiting.len() >= MOST_WAITING {
                waiting.retain(|call| !call.sender.is_closed());
            }
            if waiting.len() >= MOST_WAITING {
                return Err(PoolError::TooManyWait);
            }
            let (sender, receiver) = oneshot::channel();
            waiting.push_back(WaitingCall { is_long, sender });
            receiver
        };
        receiver.await.map_err(|_| PoolError::Closed)
    }

    /// Gives idle connections to waiting sharers that may get one.
    fn hand_out(self: &Arc<Self>, state: &mut State) {
        while let Some(sharer) = state.next() {
            let first = state.sharers.get_mut(&sharer).and_then(|sharer| sharer.waiting.pop_front());
            let WaitingCall { is_long, sender: call } = match first {
                Some(call) => call,
                None => return,
            };
            let connection = match state.pop(is_long) {
                Some(connection) => connection,
                None => return,
            };
            let pooled = PooledConnection { connection: Some(connection), is_clean: true, sharer, pool: self.clone() };
            match call.send(pooled) {
                Ok(()) => {
                    state.sharers.entry(sharer).or_default().held += 1;
                    state.last = sharer;
                }
                // The call no longer waits.
                Err(mut pooled) => {
                    state.idle.extend(pooled.connection.take());
                    state.forget_idle(sharer);
                }
            }
        }
    }

    /// Closes the idle connections, and each other one when it is returned. Waiting calls fail.
    pub(super) fn close(&self) {
        let mut state = self.state();
        state.is_closed = true;
        state.idle.clear();
        for sharer in state.sharers.values_mut() {
            sharer.waiting.clear();
        }
    }
}

impl PooledConnection {
    /// Returns the connection for an exchange. `done` ends the exchange.
    pub(super) fn begin(&mut self) -> io::Result<&StoreConnection> {
        self.is_clean = false;
        self.connection.as_ref().ok_or_else(|| io::ErrorKind::NotConnected.into())
    }

    /// Ends an exchange in which each request got its reply.
    pub(super) fn done(&mut self) {
        self.is_clean = true;
    }

    /// Sends requests, and reads their replies.
    pub(super) async fn exchange(&mut self, frames: &[Frame]) -> io::Result<Vec<ReplyResult>> {
        let answers = self.begin()?.exchange(frames).await?;
        self.done();
        Ok(answers)
    }
}

impl Drop for PooledConnection {
    fn drop(&mut self) {
        let connection = match self.connection.take() {
            Some(connection) => connection,
            None => return,
        };
        let mut state = self.pool.state();
        if let Some(sharer) = state.sharers.get_mut(&self.sharer) {
            sharer.held -= 1;
        }
        state.forget_idle(self.sharer);
        if self.is_clean && !state.is_closed {
            state.idle.push(connection);
            self.pool.hand_out(&mut state);
            return;
        }
        state.count -= 1;
        if state.count == 0 {
            drop(state);
            self.pool.close();
        }
    }
}

#[cfg(test)]
mod tests {
    use super::*;
    use std::time::Duration;

    fn pool_of(connections: usize) -> Arc<ConnectionPool> {
        ConnectionPool::new((0..connections).map(|_| StoreConnection::new().unwrap().0).collect())
    }

    async fn soon(pool: &Arc<ConnectionPool>, sharer: usize) -> Option<PooledConnection> {
        tokio::time::timeout(Duration::from_millis(50), pool.take(sharer, false)).await.ok()?.ok()
    }

    #[tokio::test]
    async fn one_sharer_leaves_lines_for_the_others() {
        let pool = pool_of(4);
        let mine = [soon(&pool, 0).await.unwrap(), soon(&pool, 0).await.unwrap()];
        assert!(soon(&pool, 0).await.is_none());
        let other = soon(&pool, 1).await.unwrap();
        let third = soon(&pool, 2).await.unwrap();
        assert!(soon(&pool, 1).await.is_none());
        drop((mine, other, third));
        assert!(soon(&pool, 0).await.is_some());
    }

    #[tokio::test]
    async fn sharers_take_turns_and_those_without_calls_are_forgotten() {
        let (pool, served) = (pool_of(1), Arc::new(Mutex::new(Vec::new())));
        let held = soon(&pool, 7).await.unwrap();
        let waiting = [9, 1, usize::MAX, 1].map(|sharer| {
            let (pool, served) = (pool.clone(), served.clone());
            tokio::spawn(async move {
                let _pooled = pool.take(sharer, false).await.unwrap();
                served.lock().unwrap().push(sharer);
            })
        });
        assert!(soon(&pool, 8).await.is_none());
        let known: Vec<usize> = pool.state().sharers.keys().copied().collect();
        assert_eq!(known, [1, 7, 8, 9, usize::MAX]);
        drop(held);
        for task in waiting {
            task.await.unwrap();
        }
        assert_eq!(*served.lock().unwrap(), [1, 9, usize::MAX, 1]);
        assert!(pool.state().sharers.is_empty());
    }

    #[tokio::test]
    async fn a_line_that_comes_back_goes_to_who_holds_the_fewest() {
        let pool = pool_of(3);
        let (mine, second) = (soon(&pool, 0).await.unwrap(), soon(&pool, 1).await.unwrap());
        let last = soon(&pool, 0).await;
        assert!(last.is_none());
        let (greedy, modest) = (pool.clone(), pool.clone());
        let greedy = tokio::spawn(async move { greedy.take(0, false).await });
        tokio::task::yield_now().await;
        drop(second);
        let modest = soon(&modest, 1).await;
        assert!(modest.is_some());
        drop((mine, modest));
        assert!(greedy.await.unwrap().is_ok());
    }

    #[tokio::test]
    async fn long_bodies_have_lines_of_their_own_while_there_are_others() {
        let pool = pool_of(5);
        let is_wide = |pooled: &PooledConnection| pooled.connection.as_ref().unwrap().is_wide;
        let (long, short) = (pool.take(0, true).await.unwrap(), pool.take(0, false).await.unwrap());
        assert_eq!((is_wide(&long), is_wide(&short)), (true, false));
        drop((short, long));
        let (short, long) = (pool.take(0, false).await.unwrap(), pool.take(0, true).await.unwrap());
        assert_eq!((is_wide(&short), is_wide(&long)), (false, true));
        drop((short, long));
        let wide = |pool: &Arc<ConnectionPool>| pool.state().idle.iter().filter(|connection| connection.is_wide).count();
        assert_eq!(wide(&pool), 1);
        let two = [pool.take(0, true).await.unwrap(), pool.take(0, true).await.unwrap()];
        drop(two);
        assert_eq!(wide(&pool), 2);
    }

    #[tokio::test]
    async fn a_line_whose_exchange_is_broken_off_does_not_come_back() {
        let pool = pool_of(1);
        let mut pooled = soon(&pool, 0).await.unwrap();
        pooled.begin().unwrap();
        pooled.done();
        drop(pooled);
        let mut pooled = soon(&pool, 0).await.unwrap();
        pooled.begin().unwrap();
        drop(pooled);
        assert_eq!(pool.take(0, false).await.err(), Some(PoolError::Closed));
    }
}
