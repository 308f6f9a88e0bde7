//! The limit on the bytes of requests and responses in memory, shared out among the tenants.
//!
//! A request that finds no memory waits in turn. While one waits, clients that send or take almost nothing are disconnected,
//! the slowest first, so that they hold no memory that others need.
use crate::http::connections::Connection;
use crate::http::fault::Fault;
use crate::operation::locks::guard_of;
use crate::operation::memory_reserve::is_short;
use std::collections::{BTreeMap, HashMap, VecDeque};
use std::ops::Bound::{Excluded, Unbounded};
use std::sync::{Arc, Mutex, MutexGuard};
use std::time::{Duration, Instant};
use tokio::sync::{oneshot, OwnedSemaphorePermit, Semaphore};
use tokio::time::timeout;

/// The maximum time for which a request waits for memory.
const WAIT_TIME: Duration = Duration::from_secs(10);

/// Pause between two looks for slow clients while a request waits.
const LOOK_REST: Duration = Duration::from_millis(250);

/// The maximum number of requests of one sharer that wait.
const MOST_WAITING: usize = 1024;

/// The maximum number of requests at once that hold long pieces, if contents lie in files. Each takes a connection to the store whose buffer
/// grows to the longest body. In memory, a longer piece costs no less.
const LONG_AT_ONCE: usize = 4;

/// The pace below which a client may be disconnected, in bytes a second.
const SLOW_PACE: u64 = 16 << 10;

/// The part of the memory that a request is for: the number of its sharer, and its client's connection if it has one.
#[derive(Clone)]
pub(crate) struct Holder {
    pub(crate) sharer: usize,
    pub(crate) connection: Option<Arc<Connection>>,
}

/// Bytes that a request has reserved.
struct Held {
    holder: Holder,
    bytes: u64,
    /// Whether the client was disconnected, so that the bytes are returned soon.
    is_ending: bool,
}

/// A request that waits for bytes.
struct Waiting {
    holder: Holder,
    bytes: u64,
    sender: oneshot::Sender<Reserved>,
}

/// One of those that share the memory, such as a tenant.
#[derive(Default)]
struct Sharer {
    held: u64,
    waiting: VecDeque<Waiting>,
    /// The time of the last look for slow clients.
    looked: Option<Instant>,
}

/// The bytes in flight: in total, by sharer, and by request.
struct State {
    total: u64,
    used: u64,
    /// Those that hold bytes or wait for some, by their numbers.
    sharers: BTreeMap<usize, Sharer>,
    /// The sharer that got bytes last after it had waited.
    last: usize,
    by_number: HashMap<u64, Held>,
    next_number: u64,
}

/// The result of a request for bytes.
enum Entered {
    Reserved(Reserved),
    Waiting(oneshot::Receiver<Reserved>),
}

/// A limit on the bytes of requests and responses in memory.
pub(crate) struct Memory {
    state: Mutex<State>,
    /// The permits of requests that hold long pieces.
    long: Arc<Semaphore>,
}

/// Bytes that a request may hold. Dropping this returns them.
pub(crate) struct Reserved {
    bytes: u64,
    number: u64,
    memory: Arc<Memory>,
    _long: Option<OwnedSemaphorePermit>,
}

impl State {
    /// Returns the number of bytes that a sharer holds.
    fn held(&self, sharer: usize) -> u64 {
        self.sharers.get(&sharer).map_or(0, |sharer| sharer.held)
    }

    /// Returns whether a request of a sharer waits.
    fn waits(&self, sharer: usize) -> bool {
        self.sharers.get(&sharer).map_or(false, |sharer| !sharer.waiting.is_empty())
    }

    /// Returns whether a sharer may get more bytes. It may hold at most the number of bytes that it leaves for the others.
    fn has_room(&self, sharer: usize, bytes: u64) -> bool {
        self.held(sharer) + bytes <= self.total - self.used
    }

    /// Returns whether a sharer has, after it gets more bytes, at most half of what it may hold.
    fn has_plenty(&self, sharer: usize, bytes: u64) -> bool {
        let held = self.held(sharer);
        held + bytes <= (self.total - (self.used - held)) / 4
    }

    /// Notes that a request holds bytes, and returns its number.
    fn take(&mut self, holder: Holder, bytes: u64) -> u64 {
        let number = self.next_number;
        self.next_number += 1;
        self.used += bytes;
        self.sharers.entry(holder.sharer).or_default().held += bytes;
        self.by_number.insert(number, Held { holder, bytes, is_ending: false });
        number
    }

    /// Notes that a request returns the bytes above `bytes`.
    fn shrink(&mut self, number: u64, bytes: u64) {
        if let Some(held) = self.by_number.get_mut(&number) {
            let surplus = held.bytes.saturating_sub(bytes);
            held.bytes -= surplus;
            self.used -= surplus;
            let sharer = held.holder.sharer;
            if let Some(shares) = self.sharers.get_mut(&sharer) {
                shares.held -= surplus;
            }
            self.forget_idle(sharer);
        }
    }

    /// Forgets a sharer that holds nothing and waits for nothing.
    fn forget_idle(&mut self, sharer: usize) {
        if self.held(sharer) == 0 && !self.waits(sharer) {
            self.sharers.remove(&sharer);
        }
    }

    /// Returns the waiting sharer whose first request may get its bytes and that holds the fewest. Sharers with equally many
    /// take turns.
    fn next(&self) -> Option<usize> {
        let turns = self.sharers.range((Excluded(self.last), Unbounded)).chain(self.sharers.range(..=self.last));
        let may_get = |(number, sharer): &(&usize, &Sharer)| {
            sharer.waiting.front().map_or(false, |first| self.has_room(**number, first.bytes))
        };
        turns.filter(may_get).min_by_key(|(_, sharer)| sharer.held).map(|(number, _)| *number)
    }

    /// Gives bytes to the waiting requests that may get them. Returns the requests, each with its number.
    fn grant(&mut self) -> Vec<(Waiting, u64)> {
        for sharer in self.sharers.values_mut() {
            while sharer.waiting.front().map_or(false, |first| first.sender.is_closed()) {
                sharer.waiting.pop_front();
            }
        }
        self.sharers.retain(|_, sharer| sharer.held > 0 || !sharer.waiting.is_empty());
        let mut granted = Vec::new();
        while let Some(sharer) = self.next() {
            if let Some(waiting) = self.sharers.get_mut(&sharer).and_then(|sharer| sharer.waiting.pop_front()) {
                let number = self.take(waiting.holder.clone(), waiting.bytes);
                self.last = sharer;
                granted.push((waiting, number));
            }
        }
        granted
    }

    /// Disconnects clients below `SLOW_PACE` whose sharers hold at least as much as a waiting sharer, the slowest first, until
    /// the bytes that they return suffice for its requests.
    fn disconnect_slow(&mut self, sharer: usize, now: Instant) {
        let asking = match self.sharers.get_mut(&sharer) {
            Some(asking) => asking,
            None => return,
        };
        if asking.looked.map_or(false, |looked| now.saturating_duration_since(looked) < LOOK_REST) {
            return;
        }
        asking.looked = Some(now);
        let own = asking.held;
        let waiting = asking.waiting.iter().filter(|waiting| !waiting.sender.is_closed());
        let wanted: u64 = waiting.map(|waiting| waiting.bytes).sum();
        let mut ending: u64 = self.by_number.values().filter(|held| held.is_ending).map(|held| held.bytes).sum();
        let slow_one = |(number, held): (&u64, &Held)| {
            let may_end = !held.is_ending && self.held(held.holder.sharer) >= own;
            let pace = held.holder.connection.as_ref().filter(|_| may_end)?.pace(now)?;
            (pace < SLOW_PACE && held.bytes > 0).then(|| (pace, *number))
        };
        let mut slow: Vec<(u64, u64)> = self.by_number.iter().filter_map(slow_one).collect();
        slow.sort_unstable();
        for (pace, number) in slow {
            if ending >= wanted {
                break;
            }
            if let Some(held) = self.by_number.get_mut(&number) {
                held.is_ending = true;
                ending += held.bytes;
                if let Some(connection) = &held.holder.connection {
                    tracing::info!(client = %connection.client, pace, "disconnected a slow client: others wait for memory");
                    connection.close();
                }
            }
        }
    }
}

impl Memory {
    /// Makes a limit of `total` bytes. Only if contents lie in files, some requests hold long pieces.
    pub(crate) fn new(total: u64, is_on_disk: bool) -> Arc<Memory> {
        let sharers = BTreeMap::new();
        let state = State { total, used: 0, sharers, last: 0, by_number: HashMap::new(), next_number: 0 };
        let long = Semaphore::new(if is_on_disk { LONG_AT_ONCE } else { 0 });
        Arc::new(Memory { state: Mutex::new(state), long: Arc::new(long) })
    }

    fn state(&self) -> MutexGuard<'_, State> {
        guard_of(self.state.lock())
    }

    /// Reserves bytes of which a request can do with fewer, if its sharer holds little and none of its requests waits.
    pub(crate) fn try_reserve(self: &Arc<Self>, holder: &Holder, bytes: u64) -> Option<Reserved> {
        let mut state = self.state();
        let is_free = !state.waits(holder.sharer) && state.has_plenty(holder.sharer, bytes);
        (is_free && !is_short()).then(|| {
            let number = state.take(holder.clone(), bytes);
            Reserved { bytes, number, memory: self.clone(), _long: None }
        })
    }

    /// Reserves bytes as `try_reserve` does, if few requests hold long pieces.
    pub(crate) fn try_reserve_long(self: &Arc<Self>, holder: &Holder, bytes: u64) -> Option<Reserved> {
        let permit = self.long.clone().try_acquire_owned().ok()?;
        let mut reserved = self.try_reserve(holder, bytes)?;
        reserved._long = Some(permit);
        Some(reserved)
    }

    /// Reserves bytes for a request, in turn after those of its sharer that wait.
    ///
    /// # Errors
    ///
    /// - The system is out of memory.
    /// - The maximum number of requests of the sharer already waits.
    /// - The bytes are not free in time.
    pub(crate) async fn reserve(self: &Arc<Self>, holder: &Holder, bytes: u64) -> Result<Reserved, Fault> {
        let too_many = || Fault::unavailable("too many bytes in flight");
        let mut receiver = match self.enter(holder, bytes).ok_or_else(too_many)? {
            Entered::Reserved(reserved) => return Ok(reserved),
            Entered::Waiting(receiver) => receiver,
        };
        let end = Instant::now() + WAIT_TIME;
        let is_gone = || holder.connection.as_ref().map_or(false, |connection| connection.is_closing());
        while Instant::now() < end && !is_short() && !is_gone() {
            match timeout(LOOK_REST, &mut receiver).await {
                Ok(reserved) => return reserved.map_err(|_| too_many()),
                Err(_) => self.state().disconnect_slow(holder.sharer, Instant::now()),
            }
        }
        // A shorter request may be next.
        drop(receiver);
        self.hand_out();
        Err(too_many())
    }

    /// Reserves `most` bytes if the sharer of a request holds little, and else `least` bytes in turn.
    ///
    /// # Errors
    ///
    /// Fails as `reserve` does.
    pub(crate) async fn reserve_between(self: &Arc<Self>, holder: &Holder, least: u64, most: u64) -> Result<Reserved, Fault> {
        match self.try_reserve(holder, most) {
            Some(reserved) => Ok(reserved),
            None => self.reserve(holder, least).await,
        }
    }

    /// Reserves bytes, or takes a place in the queue of the sharer. Returns `None` if the queue is full.
    fn enter(self: &Arc<Self>, holder: &Holder, bytes: u64) -> Option<Entered> {
        let mut state = self.state();
        if is_short() {
            return None;
        }
        if !state.waits(holder.sharer) && state.has_room(holder.sharer, bytes) {
            let number = state.take(holder.clone(), bytes);
            return Some(Entered::Reserved(Reserved { bytes, number, memory: self.clone(), _long: None }));
        }
        let waiting = &mut state.sharers.entry(holder.sharer).or_default().waiting;
        if waiting.len() >= MOST_WAITING {
            waiting.retain(|waiting| !waiting.sender.is_closed());
        }
        if waiting.len() >= MOST_WAITING {
            return None;
        }
        let (sender, receiver) = oneshot::channel();
        waiting.push_back(Waiting { holder: holder.clone(), bytes, sender });
        Some(Entered::Waiting(receiver))
    }

    /// Gives bytes to waiting requests.
    fn hand_out(self: &Arc<Self>) {
        let granted = self.state().grant();
        for (Waiting { bytes, sender, .. }, number) in granted {
            // Bytes of a request that no longer waits are returned here, so the lock must be free.
            drop(sender.send(Reserved { bytes, number, memory: self.clone(), _long: None }));
        }
    }
}

impl Reserved {
    /// Returns the number of reserved bytes.
    pub(crate) fn bytes(&self) -> u64 {
        self.bytes
    }

    /// Returns the reserved bytes above `bytes`.
    pub(crate) fn shrink(&mut self, bytes: u64) {
        self.bytes = self.bytes.min(bytes);
        self.memory.state().shrink(self.number, bytes);
        self.memory.hand_out();
    }
}

impl Drop for Reserved {
    fn drop(&mut self) {
        {
            let mut state = self.memory.state();
            state.shrink(self.number, 0);
            state.by_number.remove(&self.number);
        }
        self.memory.hand_out();
    }
}

#[cfg(test)]
mod tests {
    use super::*;

    const NOW: Duration = Duration::ZERO;

    fn of(sharer: usize) -> Holder {
        Holder { sharer, connection: None }
    }

    async fn now(memory: &Arc<Memory>, sharer: usize, bytes: u64) -> Option<Reserved> {
        timeout(NOW, memory.reserve(&of(sharer), bytes)).await.ok()?.ok()
    }

    #[tokio::test]
    async fn a_sharer_leaves_bytes_for_the_others() {
        let memory = Memory::new(100, true);
        let mine = now(&memory, 0, 50).await;
        assert!(mine.is_some() && now(&memory, 0, 1).await.is_none());
        let other = now(&memory, 1, 25).await;
        assert!(other.is_some() && now(&memory, 2, 26).await.is_none());
        drop(other);
        assert!(now(&memory, 2, 50).await.is_some());
        drop(mine);
        assert_eq!(memory.state().used, 0);
        assert!(memory.state().by_number.is_empty());
        // The requests that waited have left the queues.
        memory.hand_out();
        assert!(memory.state().sharers.is_empty());
    }

    #[tokio::test]
    async fn a_reservation_shrinks() {
        let memory = Memory::new(100, true);
        let mut reserved = now(&memory, 0, 50).await.unwrap();
        reserved.shrink(10);
        assert_eq!((reserved.bytes(), memory.state().held(0)), (10, 10));
        reserved.shrink(20);
        assert_eq!((reserved.bytes(), memory.state().used), (10, 10));
    }

    #[tokio::test]
    async fn requests_wait_in_turn_and_the_sharer_with_fewest_bytes_is_first() {
        let memory = Memory::new(90, true);
        let (mine, second) = (now(&memory, 0, 30).await.unwrap(), now(&memory, 1, 30).await.unwrap());
        let (holder, other) = (of(0), of(1));
        let mut greedy = Box::pin(memory.reserve(&holder, 20));
        let mut next = Box::pin(memory.reserve(&holder, 1));
        let mut modest = Box::pin(memory.reserve(&other, 20));
        assert!(timeout(NOW, &mut greedy).await.is_err());
        assert!(timeout(NOW, &mut next).await.is_err(), "it overtakes a request that waits");
        assert!(timeout(NOW, &mut modest).await.is_err());
        drop(second);
        let modest = timeout(NOW, &mut modest).await.unwrap().ok();
        assert!(modest.is_some() && timeout(NOW, &mut greedy).await.is_err());
        drop(mine);
        let greedy = timeout(NOW, &mut greedy).await;
        assert!(greedy.is_ok() && timeout(NOW, &mut next).await.is_ok());
    }

    #[tokio::test]
    async fn a_request_that_leaves_the_queue_leaves_nothing() {
        let memory = Memory::new(100, true);
        let mine = now(&memory, 0, 50).await.unwrap();
        assert!(now(&memory, 0, 50).await.is_none());
        let holder = of(0);
        let mut small = Box::pin(memory.reserve(&holder, 1));
        assert!(timeout(NOW, &mut small).await.is_err());
        drop(mine);
        assert!(timeout(NOW, &mut small).await.is_ok());
        assert_eq!(memory.state().used, 0);
    }

    #[tokio::test]
    async fn bytes_ahead_are_for_sharers_that_hold_little() {
        let memory = Memory::new(800, true);
        let first = memory.reserve_between(&of(0), 10, 150).await.unwrap();
        let second = memory.reserve_between(&of(0), 10, 150).await.unwrap();
        assert_eq!((first.bytes(), second.bytes()), (150, 10));
        assert!(memory.try_reserve(&of(0), 41).is_none() && memory.try_reserve(&of(0), 40).is_some());
    }

    #[tokio::test]
    async fn the_slowest_client_is_disconnected_while_another_waits() {
        let begun = Instant::now();
        let later = |seconds| begun + Duration::from_secs(seconds);
        let connection = || Arc::new(Connection::new(([127, 0, 0, 1], 1).into(), Duration::from_secs(60)));
        let (slow, slower, quick, other) = (connection(), connection(), connection(), connection());
        let memory = Memory::new(700, true);
        let mut reserved = Vec::new();
        for (sharer, connection) in [(0, &slow), (0, &slower), (0, &quick), (1, &other)] {
            connection.begin_request();
            connection.await_body(true);
            let holder = Holder { sharer, connection: Some(connection.clone()) };
            reserved.push(memory.reserve(&holder, 100).await.ok().unwrap());
        }
        slow.heard(100);
        quick.heard(1 << 20);
        let closing = || [&slow, &slower, &quick, &other].map(|connection| connection.is_closing());
        let _waits = memory.enter(&of(0), 90);
        memory.state().disconnect_slow(0, later(3));
        assert_eq!(closing(), [false; 4], "too early");
        for seconds in [6, 7] {
            memory.state().disconnect_slow(0, later(seconds));
            assert_eq!(closing(), [false, true, false, false], "its bytes suffice");
        }
        let _waits_too = memory.enter(&of(0), 90);
        memory.state().disconnect_slow(0, later(8));
        assert_eq!(closing(), [true, true, false, false]);
    }
}
