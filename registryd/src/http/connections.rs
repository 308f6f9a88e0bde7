//! The connections of clients: their number, and the event that each waits for.

use crate::operation::locks::guard_of;
use std::collections::HashMap;
use std::io::{self, IoSlice};
use std::net::SocketAddr;
use std::pin::Pin;
use std::sync::{Arc, Mutex, MutexGuard};
use std::task::{Context, Poll};
use std::time::{Duration, Instant};
use tokio::io::{AsyncRead, AsyncWrite, ReadBuf};
use tokio::net::TcpStream;
use tokio::sync::Notify;

/// The wait for a client after which its connection may be closed to admit a new one.
const YIELD_TIME: Duration = Duration::from_secs(5);

/// Pause between two checks of the connections' deadlines.
const WATCH_REST: Duration = Duration::from_millis(100);

/// The time over which a client's pace is measured.
const PACE_TIME: Duration = Duration::from_secs(5);

/// The bounds on connections.
#[derive(Clone, Copy, Debug)]
pub(crate) struct Limits {
    /// The number of connections at once.
    pub(crate) most: usize,
    /// The time for a request's head, from its first byte.
    pub(crate) head: Duration,
    /// The time without a byte: between requests, within a body, and while a client takes no bytes of a response.
    pub(crate) idle: Duration,
}

/// The event that a connection waits for.
#[derive(Debug)]
struct State {
    /// The number of requests that are being served.
    requests: usize,
    /// If no request is being served: the time at which the last one ended, or the next head began.
    since: Instant,
    has_head: bool,
    /// Whether a length is in the bytes of a head, or unknown because no byte of the head was looked at.
    has_length: Option<bool>,
    /// The time since which the server waits for a request's body.
    awaited: Option<Instant>,
    /// The time since which the client takes no bytes.
    stalled: Option<Instant>,
    /// The client's pace in the current request, from the first time on that the server waits for the client.
    pace: Option<Pace>,
    is_closing: bool,
}

/// The bytes that a client sends and takes, in a period and in the one before.
#[derive(Debug)]
struct Pace {
    since: Instant,
    bytes: u64,
    before: (Duration, u64),
}

impl Pace {
    fn new(now: Instant) -> Pace {
        Pace { since: now, bytes: 0, before: (Duration::ZERO, 0) }
    }

    fn add(&mut self, count: usize, now: Instant) {
        self.bytes += count as u64;
        let elapsed = now.saturating_duration_since(self.since);
        if elapsed >= PACE_TIME {
            *self = Pace { since: now, bytes: 0, before: (elapsed, self.bytes) };
        }
    }

    /// Returns the bytes a second, or `None` if the time is too short. A client may take many bytes at once after a pause, so
    /// the period before counts too, unless the current one is long.
    fn get(&self, now: Instant) -> Option<u64> {
        let current = now.saturating_duration_since(self.since);
        let before = if current >= 2 * PACE_TIME { (Duration::ZERO, 0) } else { self.before };
        let (elapsed, bytes) = (before.0 + current, before.1 + self.bytes);
        (elapsed >= PACE_TIME).then(|| (u128::from(bytes) * 1000 / elapsed.as_millis()) as u64)
    }
}

/// A connection of a client.
#[derive(Debug)]
pub(crate) struct Connection {
    /// The client's address.
    pub(crate) client: SocketAddr,
    /// The time without a byte.
    pub(super) idle: Duration,
    state: Mutex<State>,
    closing: Notify,
}

impl Connection {
    /// Makes the state of a connection on which nothing was received.
    pub(super) fn new(client: SocketAddr, idle: Duration) -> Connection {
        let since = Instant::now();
        let state = State {
            requests: 0,
            since,
            has_head: false,
            has_length: None,
            awaited: None,
            stalled: None,
            pace: None,
            is_closing: false,
        };
        Connection { client, idle, state: Mutex::new(state), closing: Notify::new() }
    }

    fn state(&self) -> MutexGuard<'_, State> {
        guard_of(self.state.lock())
    }

    /// Notes that a request's head was read. Returns whether it may have a length, by its bytes.
    pub(super) fn begin_request(&self) -> bool {
        let mut state = self.state();
        state.requests += 1;
        state.has_head = false;
        state.pace = None;
        state.has_length.take().unwrap_or(true)
    }

    /// Notes whether bytes of a request's head have a length.
    pub(super) fn note_head(&self, has_length: bool) {
        let mut state = self.state();
        state.has_length = Some(has_length || state.has_length == Some(true));
    }

    /// Notes that a response was sent.
    pub(super) fn end_request(&self) {
        let mut state = self.state();
        state.requests -= 1;
        state.since = Instant::now();
    }

    /// Notes that no byte of a request's head was received yet, also if bytes of a handshake were.
    pub(super) fn rest(&self) {
        let mut state = self.state();
        state.has_head = false;
        state.since = Instant::now();
    }

    /// Notes whether a request waits for more of its body.
    pub(super) fn await_body(&self, is_awaited: bool) {
        let mut state = self.state();
        let now = Instant::now();
        state.awaited = is_awaited.then(|| now);
        if is_awaited {
            state.pace.get_or_insert_with(|| Pace::new(now));
        }
    }

    /// Notes that `count` bytes were received.
    pub(super) fn heard(&self, count: usize) {
        let mut state = self.state();
        if let Some(pace) = &mut state.pace {
            pace.add(count, Instant::now());
        }
        if state.requests == 0 && !state.has_head {
            state.has_head = true;
            state.since = Instant::now();
        }
    }

    /// Notes that the client took `count` bytes, or that it takes none.
    fn wrote(&self, count: Option<usize>) {
        let mut state = self.state();
        let now = Instant::now();
        match count {
            Some(count) => {
                state.stalled = None;
                if let Some(pace) = &mut state.pace {
                    pace.add(count, now);
                }
                if state.requests == 0 && !state.has_head {
                    state.since = now;
                }
            }
            None => {
                state.stalled.get_or_insert(now);
                state.pace.get_or_insert_with(|| Pace::new(now));
            }
        }
    }

    /// Signals the connection's task to close it.
    pub(super) fn close(&self) {
        self.state().is_closing = true;
        self.closing.notify_one();
    }

    /// Returns whether the connection is closed, or is being closed.
    pub(super) fn is_closing(&self) -> bool {
        self.state().is_closing
    }

    /// Returns the bytes a second that the client sends or takes, if the server waits for the client and has waited before for
    /// a time that suffices.
    pub(super) fn pace(&self, now: Instant) -> Option<u64> {
        let state = self.state();
        let waits = state.stalled.is_some() || state.awaited.is_some();
        state.pace.as_ref().filter(|_| waits)?.get(now)
    }

    /// Returns whether no request is being served.
    pub(super) fn is_idle(&self) -> bool {
        self.state().requests == 0
    }

    /// Waits until the connection has to be closed.
    pub(super) async fn closed(&self) {
        self.closing.notified().await
    }

    /// Returns whether the client has exceeded a time limit.
    fn is_overdue(&self, limits: &Limits, now: Instant) -> bool {
        let state = self.state();
        let is_over = |since: Instant, time| now.saturating_duration_since(since) >= time;
        let rests = state.requests == 0 && is_over(state.since, if state.has_head { limits.head } else { limits.idle });
        // A request that waits for its body fails by itself after the same time, with a response.
        rests || state.stalled.map_or(false, |since| is_over(since, limits.idle))
    }

    /// Returns how early the connection is closed to admit another, or `None` if it has work to do. Connections without a
    /// request come first, then those that wait for the client. The longest wait comes first.
    fn readiness(&self, now: Instant) -> Option<(bool, Instant)> {
        let state = self.state();
        if state.is_closing {
            None
        } else if state.requests == 0 {
            Some((false, state.since))
        } else {
            let waits = state.awaited.into_iter().chain(state.stalled).min();
            waits.filter(|since| now.saturating_duration_since(*since) >= YIELD_TIME).map(|since| (true, since))
        }
    }
}

/// The table of connections, by number.
#[derive(Debug, Default)]
struct Open {
    next: u64,
    by_number: HashMap<u64, Arc<Connection>>,
}

/// The open connections.
#[derive(Debug)]
pub(crate) struct Connections {
    limits: Limits,
    open: Mutex<Open>,
    place_freed: Notify,
}

/// A connection's place in the table. Dropping it frees the place.
#[derive(Debug)]
pub(super) struct Admitted {
    number: u64,
    pub(super) connection: Arc<Connection>,
    table: Arc<Connections>,
}

impl Drop for Admitted {
    fn drop(&mut self) {
        self.connection.state().is_closing = true;
        self.table.open().by_number.remove(&self.number);
        self.table.place_freed.notify_one();
    }
}

impl Connections {
    /// Makes an empty table.
    pub(crate) fn new(limits: Limits) -> Arc<Connections> {
        Arc::new(Connections { limits, open: Mutex::default(), place_freed: Notify::new() })
    }

    fn open(&self) -> MutexGuard<'_, Open> {
        guard_of(self.open.lock())
    }

    /// The number of open connections.
    pub(crate) fn len(&self) -> usize {
        self.open().by_number.len()
    }

    /// Gives a connection a place. If no place is free, it closes the connection that has waited longest for its client. If
    /// none waits, it waits until a connection ends.
    pub(super) async fn admit(self: &Arc<Self>, client: SocketAddr) -> Admitted {
        loop {
            if let Some(admitted) = self.try_admit(client) {
                return admitted;
            }
            let _ = tokio::time::timeout(WATCH_REST, self.place_freed.notified()).await;
        }
    }

    fn try_admit(self: &Arc<Self>, client: SocketAddr) -> Option<Admitted> {
        let mut open = self.open();
        if open.by_number.len() < self.limits.most {
            let connection = Arc::new(Connection::new(client, self.limits.idle));
            let number = open.next;
            open.next += 1;
            open.by_number.insert(number, connection.clone());
            return Some(Admitted { number, connection, table: self.clone() });
        }
        let now = Instant::now();
        let ready = open.by_number.values().filter_map(|one| one.readiness(now).map(|readiness| (readiness, one)));
        if let Some((_, longest)) = ready.min_by_key(|(readiness, _)| *readiness) {
            longest.close();
        }
        None
    }

    /// Closes connections whose clients exceed a time limit. It never returns.
    pub(crate) async fn watch(&self) {
        loop {
            tokio::time::sleep(WATCH_REST).await;
            let now = Instant::now();
            for connection in self.open().by_number.values() {
                if connection.is_overdue(&self.limits, now) {
                    connection.close();
                }
            }
        }
    }

    /// Waits until no connection is open.
    pub(crate) async fn emptied(&self) {
        while self.len() > 0 {
            let _ = tokio::time::timeout(WATCH_REST, self.place_freed.notified()).await;
        }
    }

    /// Closes all connections.
    pub(crate) fn close_all(&self) {
        for connection in self.open().by_number.values() {
            connection.close();
        }
    }
}

/// A client's stream that reports its reads and writes to the connection.
pub(super) struct WatchedStream {
    stream: TcpStream,
    connection: Arc<Connection>,
}

impl WatchedStream {
    /// Wraps a stream.
    pub(super) fn new(stream: TcpStream, connection: Arc<Connection>) -> WatchedStream {
        WatchedStream { stream, connection }
    }

    fn note(&self, written: Poll<io::Result<usize>>) -> Poll<io::Result<usize>> {
        match written {
            Poll::Pending => self.connection.wrote(None),
            Poll::Ready(Ok(count)) if count > 0 => self.connection.wrote(Some(count)),
            Poll::Ready(_) => {}
        }
        written
    }
}

impl AsyncRead for WatchedStream {
    fn poll_read(mut self: Pin<&mut Self>, context: &mut Context<'_>, buffer: &mut ReadBuf<'_>) -> Poll<io::Result<()>> {
        let before = buffer.filled().len();
        let read = Pin::new(&mut self.stream).poll_read(context, buffer);
        let count = buffer.filled().len() - before;
        if count > 0 {
            self.connection.heard(count);
        }
        read
    }
}

impl AsyncWrite for WatchedStream {
    fn poll_write(mut self: Pin<&mut Self>, context: &mut Context<'_>, bytes: &[u8]) -> Poll<io::Result<usize>> {
        let written = Pin::new(&mut self.stream).poll_write(context, bytes);
        self.note(written)
    }

    fn poll_write_vectored(
        mut self: Pin<&mut Self>,
        context: &mut Context<'_>,
        slices: &[IoSlice<'_>],
    ) -> Poll<io::Result<usize>> {
        let written = Pin::new(&mut self.stream).poll_write_vectored(context, slices);
        self.note(written)
    }

    fn is_write_vectored(&self) -> bool {
        self.stream.is_write_vectored()
    }

    fn poll_flush(mut self: Pin<&mut Self>, context: &mut Context<'_>) -> Poll<io::Result<()>> {
        Pin::new(&mut self.stream).poll_flush(context)
    }

    fn poll_shutdown(mut self: Pin<&mut Self>, context: &mut Context<'_>) -> Poll<io::Result<()>> {
        Pin::new(&mut self.stream).poll_shutdown(context)
    }
}

#[cfg(test)]
mod tests {
    use super::*;

    const LIMITS: Limits = Limits { most: 2, head: Duration::from_secs(1), idle: Duration::from_secs(9) };

    fn client() -> SocketAddr {
        ([127, 0, 0, 1], 1).into()
    }

    fn later(seconds: u64) -> Instant {
        Instant::now() + Duration::from_secs(seconds)
    }

    #[test]
    fn a_head_and_a_pause_have_their_times() {
        let connection = Connection::new(client(), LIMITS.idle);
        assert!(!connection.is_overdue(&LIMITS, later(8)));
        assert!(connection.is_overdue(&LIMITS, later(10)));
        connection.heard(1);
        assert!(connection.is_overdue(&LIMITS, later(2)));
        connection.begin_request();
        assert!(!connection.is_overdue(&LIMITS, later(100)));
        connection.wrote(None);
        assert!(connection.is_overdue(&LIMITS, later(10)));
        connection.wrote(Some(1));
        connection.end_request();
        assert!(!connection.is_overdue(&LIMITS, later(8)));
        assert!(connection.is_overdue(&LIMITS, later(10)));
    }

    #[test]
    fn a_pace_is_that_of_the_last_seconds() {
        let begun = Instant::now();
        let at = |seconds| begun + Duration::from_secs(seconds);
        let mut pace = Pace::new(begun);
        assert_eq!((pace.get(at(4)), pace.get(at(5))), (None, Some(0)));
        pace.add(6000, at(6));
        assert_eq!((pace.get(at(6)), pace.get(at(12))), (Some(1000), Some(500)));
        assert_eq!(pace.get(at(16)), Some(0), "bytes of long ago count");
        pace.add(1, at(17));
        assert_eq!(pace.get(at(17)), Some(0));
    }

    #[test]
    fn only_a_client_for_which_the_server_waits_has_a_pace() {
        let connection = Connection::new(client(), LIMITS.idle);
        connection.begin_request();
        connection.wrote(Some(1 << 20));
        assert_eq!(connection.pace(later(9)), None);
        connection.wrote(None);
        assert_eq!(connection.pace(later(9)), Some(0));
        connection.wrote(Some(1));
        assert_eq!(connection.pace(later(9)), None);
    }

    #[test]
    fn those_without_a_request_are_closed_first() {
        let (busy, idle) = (Connection::new(client(), LIMITS.idle), Connection::new(client(), LIMITS.idle));
        busy.begin_request();
        assert_eq!(busy.readiness(later(100)), None);
        busy.await_body(true);
        assert_eq!(busy.readiness(later(1)), None);
        assert!(idle.readiness(later(6)) < busy.readiness(later(6)));
        idle.close();
        assert_eq!(idle.readiness(later(6)), None);
    }

    #[tokio::test]
    async fn a_new_client_takes_the_place_of_the_oldest_idle_one() {
        let table = Connections::new(LIMITS);
        let first = table.admit(client()).await;
        let second = table.admit(client()).await;
        first.connection.begin_request();
        assert!(table.try_admit(client()).is_none());
        second.connection.closed().await;
        drop(second);
        let third = table.admit(client()).await;
        assert_eq!(table.len(), 2);
        drop((first, third));
        table.emptied().await;
    }
}
