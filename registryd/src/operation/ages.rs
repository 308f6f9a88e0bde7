//! Records what the ages of manifests and tags count by: the time, and the pulls of tags.
use crate::endpoints::registry::Registry;
use std::time::{Duration, Instant};

/// The pause between two records of the time. After a crash, manifests and tags are younger by as much as was not recorded.
const TIME_RECORDED: Duration = Duration::from_secs(60);

/// The pause between two records of pulls, and the maximum number of tags in one of them.
const PULLS_RECORDED: Duration = Duration::from_secs(1);
const MOST_PULLS: usize = 500;

impl Registry {
    /// Records the time and the pulls of tags at intervals until the store ends.
    pub(crate) async fn record_ages(&self) {
        let mut recorded = Instant::now();
        while !self.store.has_ended() {
            if recorded.elapsed() >= TIME_RECORDED {
                recorded = Instant::now();
                self.manifests.record_time();
            }
            // On a full disk they wait here, where each tag waits once.
            if self.folder.as_ref().map_or(true, |folder| folder.room.is_there()) {
                self.manifests.record_pulls(MOST_PULLS);
            }
            tokio::time::sleep(PULLS_RECORDED).await;
        }
    }

    /// Records the pulls of tags that are not recorded yet, before the end of the program.
    pub(super) fn record_last_pulls(&self) {
        while self.manifests.record_pulls(MOST_PULLS) {}
    }
}
