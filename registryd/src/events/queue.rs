//! The events that are not delivered yet. They have numbers in the order in which they were recorded. Each receiver has its own queue of
//! those that it wants, in that order and with a bound: if a queue is full, its oldest event is dropped, counted and logged.
use crate::events::event::{Action, Effect, Event, Report};
use crate::events::receivers::Receiver;
use crate::metadata::clock;
use crate::operation::locks::guard_of;
use crate::operation::metrics::Metrics;
use prometheus::{IntCounterVec, IntGaugeVec, Opts};
use serde_json::{json, Value};
use std::collections::{BTreeMap, HashMap, VecDeque};
use std::sync::{Arc, Mutex, MutexGuard};
use std::time::{Duration, Instant};
use tokio::sync::Notify;

/// The pause between two log lines about events that a receiver does not get.
const LOG_REST: Duration = Duration::from_secs(10);

/// What a database has of the time before a start.
#[derive(Debug, Default)]
pub(crate) struct EventRows {
    /// The events with their numbers, in this order.
    pub(crate) events: Vec<(u64, Event)>,
    /// For each receiver, the number up to which it has all events.
    pub(crate) passed: HashMap<String, u64>,
}

/// What the receivers have, for the database.
#[derive(Clone, Debug, Default, PartialEq, Eq)]
pub(crate) struct Passed {
    /// For each receiver, the number up to which it has all events that it wants.
    pub(crate) by_receiver: Vec<(String, u64)>,
    /// The numbers of events that no receiver waits for any more.
    pub(crate) done: Vec<u64>,
}

/// An event with its number.
pub(super) type Numbered = (u64, Arc<Event>);

/// A receiver, and its first events.
type First = (Arc<Receiver>, Vec<Numbered>);

/// An event, and the number of receivers that wait for it.
struct Queued {
    event: Arc<Event>,
    receivers: usize,
}

/// The queue of a receiver.
struct Waiting {
    receiver: Arc<Receiver>,
    numbers: VecDeque<u64>,
    /// Notified after an event was added.
    added: Arc<Notify>,
    /// The number of events that were dropped since the last log line.
    unlogged: u64,
    logged: Option<Instant>,
    /// Whether the last delivery failed.
    is_failing: bool,
}

impl Waiting {
    fn new(receiver: Arc<Receiver>) -> Waiting {
        let (numbers, added) = (VecDeque::new(), Arc::default());
        Waiting { receiver, numbers, added, unlogged: 0, logged: None, is_failing: false }
    }

    /// Logs how many events were dropped since the last time, if there are any, but not too often.
    fn log_dropped(&mut self) {
        if self.unlogged > 0 && self.logged.map_or(true, |logged| logged.elapsed() >= LOG_REST) {
            tracing::warn!(receiver = %self.receiver.name, count = self.unlogged, "dropped the oldest events: the queue is full");
            self.unlogged = 0;
            self.logged = Some(Instant::now());
        }
    }
}

/// The events that at least one receiver waits for.
#[derive(Default)]
struct Events {
    by_number: BTreeMap<u64, Queued>,
    /// The numbers of those whose rows are to be removed, if they have rows.
    done: Option<Vec<u64>>,
}

impl Events {
    /// Notes that nobody waits for an event.
    fn end(&mut self, number: u64) {
        if let Some(done) = &mut self.done {
            done.push(number);
        }
    }

    /// Notes that one receiver less waits for each of some events.
    fn release(&mut self, numbers: impl Iterator<Item = u64>) {
        for number in numbers {
            if let Some(queued) = self.by_number.get_mut(&number) {
                queued.receivers -= 1;
                if queued.receivers == 0 {
                    self.by_number.remove(&number);
                    self.end(number);
                }
            }
        }
    }
}

struct State {
    /// The number of the next event.
    next: u64,
    events: Events,
    by_name: BTreeMap<String, Waiting>,
}

impl State {
    /// Adds an event to the queues of the receivers that want it, if `is_late` is true of their names.
    fn add(&mut self, number: u64, event: Event, is_late: impl Fn(&str) -> bool) {
        let mut receivers = 0;
        for (_, waiting) in self.by_name.iter_mut().filter(|(name, _)| is_late(name)) {
            if waiting.receiver.wants_event(&event) {
                waiting.numbers.push_back(number);
                waiting.added.notify_one();
                receivers += 1;
            }
        }
        match receivers {
            0 => self.events.end(number),
            _ => {
                self.events.by_number.insert(number, Queued { event: Arc::new(event), receivers });
            }
        }
    }

    /// Returns, for each receiver, the number up to which it has all events that it wants.
    fn passed(&self) -> Vec<(String, u64)> {
        let of = |waiting: &Waiting| waiting.numbers.front().map_or(self.next, |number| *number) - 1;
        self.by_name.iter().map(|(name, waiting)| (name.clone(), of(waiting))).collect()
    }

    /// Returns the age of the oldest event of a queue, in seconds.
    fn oldest(&self, waiting: &Waiting) -> Option<u64> {
        let queued = self.events.by_number.get(waiting.numbers.front()?)?;
        Some(clock::time_of_day().saturating_sub(queued.event.time))
    }
}

/// The counters of deliveries, by receiver.
struct Counters {
    delivered: IntCounterVec,
    failures: IntCounterVec,
    dropped: IntCounterVec,
    waiting: IntGaugeVec,
    oldest: IntGaugeVec,
}

impl Counters {
    fn new() -> Counters {
        let counter = |name, help| IntCounterVec::new(Opts::new(name, help), &["receiver"]).expect("a counter's name");
        let gauge = |name, help| IntGaugeVec::new(Opts::new(name, help), &["receiver"]).expect("a gauge's name");
        Counters {
            delivered: counter("registryd_events_delivered_total", "Events that a receiver has accepted."),
            failures: counter("registryd_event_failures_total", "Deliveries of events that failed, and are tried again."),
            dropped: counter("registryd_events_dropped_total", "Events that a receiver does not get."),
            waiting: gauge("registryd_events_waiting", "Events that wait for a receiver."),
            oldest: gauge("registryd_oldest_event_seconds", "Age of the oldest event that waits for a receiver, in seconds."),
        }
    }

    /// Makes the counters of a receiver, so that they are 0 and not missing.
    fn begin(&self, name: &str) {
        for counter in [&self.delivered, &self.failures, &self.dropped] {
            counter.with_label_values(&[name]);
        }
    }

    fn remove(&self, name: &str) {
        for counter in [&self.delivered, &self.failures, &self.dropped] {
            let _ = counter.remove_label_values(&[name]);
        }
        for gauge in [&self.waiting, &self.oldest] {
            let _ = gauge.remove_label_values(&[name]);
        }
    }
}

/// The queues of all receivers.
pub(crate) struct Queue {
    /// The maximum number of events of a receiver.
    bound: usize,
    state: Mutex<State>,
    counters: Counters,
}

impl Queue {
    /// Makes empty queues, and adds their metrics. With a database, an event has a row until no receiver waits for it.
    pub(crate) fn new(bound: usize, receivers: &[Arc<Receiver>], metrics: &Metrics, has_rows: bool) -> Queue {
        let counters = Counters::new();
        for counter in [&counters.delivered, &counters.failures, &counters.dropped] {
            metrics.add(Box::new(counter.clone()));
        }
        for gauge in [&counters.waiting, &counters.oldest] {
            metrics.add(Box::new(gauge.clone()));
        }
        let events = Events { done: has_rows.then(Vec::new), ..Events::default() };
        let queue = Queue { bound, state: Mutex::new(State { next: 1, events, by_name: BTreeMap::new() }), counters };
        queue.set_receivers(receivers);
        queue
    }

    fn state(&self) -> MutexGuard<'_, State> {
        guard_of(self.state.lock())
    }

    /// Adds what a database has. A receiver that it does not know gets later events only.
    pub(crate) fn restore(&self, rows: EventRows) {
        let mut state = self.state();
        let last_passed = rows.passed.values().max().copied().unwrap_or(0);
        let last = rows.events.last().map_or(0, |(number, _)| *number).max(last_passed);
        state.next = last + 1;
        for name in rows.passed.keys().filter(|name| !state.by_name.contains_key(*name)) {
            tracing::warn!(receiver = %name, "not in the file of receivers: the events that wait for it are dropped");
        }
        for (number, event) in rows.events {
            state.add(number, event, |name| number > rows.passed.get(name).copied().unwrap_or(last));
        }
        self.keep_bound(&mut state);
    }

    /// Sets the receivers. What waits for one that is gone is dropped. A new one gets later events only.
    pub(super) fn set_receivers(&self, receivers: &[Arc<Receiver>]) {
        let mut state = self.state();
        let is_gone = |name: &&String| !receivers.iter().any(|receiver| receiver.name == **name);
        let gone: Vec<String> = state.by_name.keys().filter(is_gone).cloned().collect();
        for name in gone {
            let numbers = state.by_name.remove(&name).map_or_else(VecDeque::new, |waiting| waiting.numbers);
            let count = numbers.len();
            tracing::warn!(receiver = %name, count, "not in the file of receivers any more: the events that wait for it are dropped");
            state.events.release(numbers.into_iter());
            self.counters.remove(&name);
        }
        for receiver in receivers {
            self.counters.begin(&receiver.name);
            let new = || Waiting::new(receiver.clone());
            state.by_name.entry(receiver.name.clone()).or_insert_with(new).receiver = receiver.clone();
        }
    }

    /// Returns whether a receiver gets events of this kind.
    pub(super) fn wants(&self, action: Action, media_type: Option<&str>) -> bool {
        self.state().by_name.values().any(|waiting| waiting.receiver.wants(action, media_type))
    }

    /// Returns the number of the next event. Only the thread of the database adds events if there is a database.
    pub(crate) fn next_number(&self) -> u64 {
        self.state().next
    }

    /// Returns what the receivers have. Each number of `done` is returned once.
    pub(crate) fn take_passed(&self) -> Passed {
        let mut state = self.state();
        Passed { by_receiver: state.passed(), done: state.events.done.as_mut().map_or_else(Vec::new, std::mem::take) }
    }

    /// Adds events, which get the next numbers. Returns whether one was dropped for it.
    pub(crate) fn push(&self, events: Vec<Event>) -> bool {
        self.push_locked(&mut self.state(), events)
    }

    fn push_locked(&self, state: &mut State, events: Vec<Event>) -> bool {
        for event in events {
            let number = state.next;
            state.next += 1;
            state.add(number, event, |_| true);
        }
        self.keep_bound(state)
    }

    /// Makes a change in the memory of this process, and adds its events. Changes and their events have one order.
    pub(crate) fn push_after<T>(&self, report: &Report, change: impl FnOnce() -> (T, Effect)) -> T {
        let mut state = self.state();
        let (result, effect) = change();
        self.push_locked(&mut state, report.events(effect));
        result
    }

    /// Drops the oldest events of queues that are too long. Returns whether it dropped any.
    fn keep_bound(&self, state: &mut State) -> bool {
        let mut has_dropped = false;
        for (name, waiting) in &mut state.by_name {
            let excess = waiting.numbers.len().saturating_sub(self.bound);
            if excess > 0 {
                state.events.release(waiting.numbers.drain(..excess));
                has_dropped = true;
                self.counters.dropped.with_label_values(&[name.as_str()]).inc_by(excess as u64);
                waiting.unlogged += excess as u64;
                waiting.log_dropped();
            }
        }
        has_dropped
    }

    /// Notes that an event cannot be kept, so that no receiver gets it.
    pub(crate) fn drop_unkept(&self) {
        let mut state = self.state();
        for (name, waiting) in &mut state.by_name {
            self.counters.dropped.with_label_values(&[name.as_str()]).inc();
            waiting.unlogged += 1;
            waiting.log_dropped();
        }
    }

    /// Returns at most `most` of the first events of a receiver, after there is one, and the receiver. Returns `None` if the receiver is
    /// gone.
    pub(super) async fn first(&self, name: &str, most: usize) -> Option<First> {
        loop {
            match self.try_first(name, most)? {
                Ok(first) => return Some(first),
                Err(added) => added.notified().await,
            }
        }
    }

    /// Returns what `first` returns, or what is notified when there is an event.
    fn try_first(&self, name: &str, most: usize) -> Option<Result<First, Arc<Notify>>> {
        let state = self.state();
        let waiting = state.by_name.get(name)?;
        let event = |number: &u64| Some((*number, state.events.by_number.get(number)?.event.clone()));
        let events: Vec<Numbered> = waiting.numbers.iter().take(most).filter_map(event).collect();
        Some(match events.is_empty() {
            true => Err(waiting.added.clone()),
            false => Ok((waiting.receiver.clone(), events)),
        })
    }

    /// Notes that a receiver has accepted `count` events, up to a number. Returns whether the delivery before had failed.
    pub(super) fn accepted(&self, name: &str, upto: u64, count: usize) -> bool {
        self.counters.delivered.with_label_values(&[name]).inc_by(count as u64);
        let mut state = self.state();
        let State { events, by_name, .. } = &mut *state;
        by_name.get_mut(name).map_or(false, |waiting| {
            let end = waiting.numbers.iter().take_while(|number| **number <= upto).count();
            events.release(waiting.numbers.drain(..end));
            waiting.log_dropped();
            std::mem::take(&mut waiting.is_failing)
        })
    }

    /// Notes that a delivery failed. Returns whether the one before had succeeded.
    pub(super) fn failed(&self, name: &str) -> bool {
        self.counters.failures.with_label_values(&[name]).inc();
        let mut state = self.state();
        state.by_name.get_mut(name).map_or(false, |waiting| {
            waiting.log_dropped();
            !std::mem::replace(&mut waiting.is_failing, true)
        })
    }

    /// Logs how many events each receiver does not get, because the registry ends and has no database.
    pub(crate) fn log_lost(&self) {
        for (name, waiting) in self.state().by_name.iter().filter(|(_, waiting)| !waiting.numbers.is_empty()) {
            tracing::warn!(receiver = %name, count = waiting.numbers.len(), "lost events: they were in memory alone");
        }
    }

    /// Sets the gauges.
    pub(crate) fn set_metrics(&self) {
        let state = self.state();
        for (name, waiting) in &state.by_name {
            self.counters.waiting.with_label_values(&[name.as_str()]).set(waiting.numbers.len() as i64);
            self.counters.oldest.with_label_values(&[name.as_str()]).set(state.oldest(waiting).unwrap_or(0) as i64);
        }
    }

    /// Returns the state of the queues for the administrator.
    pub(crate) fn json(&self) -> Value {
        let Counters { delivered, failures, dropped, .. } = &self.counters;
        let state = self.state();
        let of = |(name, waiting): (&String, &Waiting)| {
            json!({
                "name": name,
                "waiting": waiting.numbers.len(),
                "oldest_s": state.oldest(waiting),
                "delivered": delivered.with_label_values(&[name.as_str()]).get(),
                "failures": failures.with_label_values(&[name.as_str()]).get(),
                "dropped": dropped.with_label_values(&[name.as_str()]).get(),
                "fails": waiting.is_failing,
            })
        };
        let receivers: Vec<Value> = state.by_name.iter().map(of).collect();
        json!({ "bound": self.bound, "receivers": receivers })
    }
}

#[cfg(test)]
mod tests {
    use super::*;
    use crate::events::receivers::tests::receiver;

    fn event(action: Action) -> Event {
        Event { action, media_type: None, time: 1, text: "{}".to_string() }
    }

    fn queue(bound: usize) -> Queue {
        Queue::new(bound, &[receiver("all", ""), receiver("pushes", "\"pull\"")], &Metrics::new(), true)
    }

    async fn numbers(queue: &Queue, name: &str, most: usize) -> Vec<u64> {
        queue.first(name, most).await.unwrap().1.iter().map(|(number, _)| *number).collect()
    }

    fn passed(queue: &Queue) -> (Vec<u64>, Vec<u64>) {
        let Passed { by_receiver, done } = queue.take_passed();
        (by_receiver.into_iter().map(|(_, number)| number).collect(), done)
    }

    #[tokio::test]
    async fn each_receiver_has_what_it_wants_in_order() {
        let queue = queue(9);
        assert!(!queue.push(vec![event(Action::Pull), event(Action::Push), event(Action::Pull), event(Action::Delete)]));
        assert_eq!((numbers(&queue, "all", 3).await, numbers(&queue, "pushes", 3).await), (vec![1, 2, 3], vec![2, 4]));
        assert_eq!(passed(&queue), (vec![0, 1], vec![]));
        assert!(!queue.accepted("all", 3, 3));
        // The push waits for the other receiver, and the pulls for nobody.
        assert_eq!((numbers(&queue, "all", 3).await, passed(&queue)), (vec![4], (vec![3, 1], vec![1, 3])));
        assert!(queue.failed("all") && !queue.failed("all") && queue.accepted("all", 4, 1));
        queue.accepted("pushes", 4, 2);
        assert_eq!((passed(&queue), queue.next_number()), ((vec![4, 4], vec![2, 4]), 5));
    }

    #[tokio::test]
    async fn a_full_queue_drops_its_oldest_events_alone() {
        let queue = queue(2);
        assert!(!queue.push(vec![event(Action::Push), event(Action::Push)]));
        queue.accepted("pushes", 2, 2);
        assert!(queue.push(vec![event(Action::Push)]));
        assert_eq!((numbers(&queue, "all", 9).await, numbers(&queue, "pushes", 9).await), (vec![2, 3], vec![3]));
        assert_eq!(passed(&queue), (vec![1, 2], vec![1]));
        let form = queue.json();
        assert_eq!((&form["receivers"][0]["dropped"], &form["receivers"][1]["dropped"]), (&json!(1), &json!(0)));
        // What was dropped while it was being delivered is not removed twice.
        queue.accepted("all", 1, 1);
        assert_eq!(numbers(&queue, "all", 9).await, [2, 3]);
    }

    #[tokio::test]
    async fn a_start_goes_on_where_each_receiver_was() {
        let queue = queue(9);
        let events = vec![(5, event(Action::Push)), (6, event(Action::Pull)), (7, event(Action::Push))];
        queue.restore(EventRows { events, passed: [("all".to_string(), 6), ("gone".to_string(), 4)].into() });
        // The rows of 5 and 6 were left over.
        assert_eq!(
            (numbers(&queue, "all", 9).await, passed(&queue), queue.next_number()),
            (vec![7], (vec![6, 7], vec![5, 6]), 8)
        );
        queue.restore(EventRows { events: Vec::new(), passed: [("all".to_string(), 20)].into() });
        assert_eq!(queue.next_number(), 21);
    }

    #[tokio::test]
    async fn receivers_come_and_go() {
        let queue = queue(9);
        queue.push(vec![event(Action::Push)]);
        queue.set_receivers(&[receiver("new", ""), receiver("all", "\"push\"")]);
        assert!(queue.first("pushes", 9).await.is_none());
        queue.push(vec![event(Action::Push), event(Action::Delete)]);
        assert_eq!((numbers(&queue, "all", 9).await, numbers(&queue, "new", 9).await), (vec![1, 3], vec![2, 3]));
        assert!(queue.wants(Action::Push, None) && queue.wants(Action::Pull, None));
    }
}
