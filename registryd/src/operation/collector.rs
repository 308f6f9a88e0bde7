//! The sweeps of the store: at intervals, and at once for a request that found no free slot.
use crate::endpoints::registry::Registry;
use std::sync::atomic::{AtomicU64, Ordering};
use std::time::Duration;
use tokio::sync::{watch, Notify};
use tokio::time::timeout;

/// The minimum pause after a sweep that freed nothing. A sweep that follows at once frees nothing either, and competes with
/// the requests for a processor and the store's lock.
const NOTHING_FREED_REST: Duration = Duration::from_millis(10);

/// The requests for a sweep. One sweep serves all requests that were made before it began.
pub(crate) struct SweepRequests {
    asked: Notify,
    /// The number of sweeps that have begun.
    begun: AtomicU64,
    /// The number of sweeps that have ended.
    ended: watch::Sender<u64>,
}

impl Default for SweepRequests {
    fn default() -> SweepRequests {
        SweepRequests { asked: Notify::new(), begun: AtomicU64::new(0), ended: watch::channel(0).0 }
    }
}

impl SweepRequests {
    /// Waits until a sweep has ended that began after this call, at most for this time.
    pub(crate) async fn wait(&self, limit: Duration) {
        let mut ended = self.ended.subscribe();
        let next = self.begun.load(Ordering::SeqCst) + 1;
        self.asked.notify_one();
        let has_ended = async {
            loop {
                let seen = *ended.borrow_and_update();
                if seen >= next || ended.changed().await.is_err() {
                    break;
                }
            }
        };
        let _ = timeout(limit, has_ended).await;
    }

    /// Notes that a sweep begins.
    fn begin(&self) {
        self.begun.fetch_add(1, Ordering::SeqCst);
    }

    /// Notes that the sweep that began last has ended.
    fn end(&self) {
        self.ended.send_replace(self.begun.load(Ordering::SeqCst));
    }

    /// Pauses for `least`, and then until a request is made, but for `rest` at most.
    async fn pause(&self, least: Duration, rest: Duration) {
        tokio::time::sleep(least).await;
        let _ = timeout(rest.saturating_sub(least), self.asked.notified()).await;
    }
}

impl Registry {
    /// Sweeps the store at intervals, and for requests, until the store ends.
    pub(crate) async fn sweep(&self, rest: Duration) {
        while !self.store.has_ended() {
            self.sweep_requests.begin();
            let least = self.sweep_once().await;
            self.sweep_requests.end();
            let _ = self.note_syncs().await;
            self.sweep_requests.pause(least, rest).await;
        }
    }

    /// Sweeps the store. Returns the minimum pause before the next sweep.
    async fn sweep_once(&self) -> Duration {
        let swept = match self.store.sweep().await {
            Ok(Ok(swept)) => swept,
            _ => return NOTHING_FREED_REST,
        };
        self.metrics.count_sweep(&swept);
        self.sweeps.add(&swept);
        if swept.freed == 0 {
            return NOTHING_FREED_REST;
        }
        tracing::info!(freed = swept.freed, held = swept.held, "swept");
        Duration::ZERO
    }
}

#[cfg(test)]
mod tests {
    use super::*;
    use std::sync::Arc;

    const LONG: Duration = Duration::from_secs(60);

    /// Returns whether a request ends soon.
    async fn ends(request: &mut tokio::task::JoinHandle<()>) -> bool {
        timeout(Duration::from_millis(100), request).await.is_ok()
    }

    #[tokio::test]
    async fn a_request_waits_for_a_sweep_that_began_after_it() {
        let requests = Arc::new(SweepRequests::default());
        let wait = || {
            let requests = requests.clone();
            tokio::spawn(async move { requests.wait(LONG).await })
        };
        requests.begin();
        let mut first = wait();
        assert!(!ends(&mut first).await);
        requests.end();
        assert!(!ends(&mut first).await, "the sweep began before the request");
        let mut second = wait();
        assert!(!ends(&mut second).await);
        requests.begin();
        requests.end();
        assert!(ends(&mut first).await && ends(&mut second).await);
    }

    #[tokio::test]
    async fn a_request_ends_the_pause_but_not_its_minimum() {
        let requests = SweepRequests::default();
        requests.asked.notify_one();
        assert!(timeout(LONG, requests.pause(Duration::ZERO, LONG)).await.is_ok());
        requests.asked.notify_one();
        assert!(timeout(Duration::from_millis(50), requests.pause(LONG, LONG)).await.is_err());
        assert!(timeout(LONG, requests.pause(Duration::ZERO, Duration::ZERO)).await.is_ok());
    }

    #[tokio::test]
    async fn a_request_waits_for_a_limited_time() {
        assert!(timeout(LONG, SweepRequests::default().wait(Duration::ZERO)).await.is_ok());
    }
}
