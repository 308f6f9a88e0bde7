//! Locks that let the writers of one manifest take turns.
use crate::operation::locks::guard_of;
use std::collections::HashMap;
use std::sync::{Arc, Mutex};
use tokio::sync::OwnedMutexGuard;

/// A repository and a manifest's digest.
type Key = (String, String);

/// The manifests that are being changed. Each has a lock that its writers take in turn.
#[derive(Default)]
pub(crate) struct Turns {
    by_key: Mutex<HashMap<Key, Arc<tokio::sync::Mutex<()>>>>,
}

/// A writer's turn, or its place in the queue. Dropping it ends the turn.
pub(crate) struct Turn<'t> {
    turns: &'t Turns,
    key: Key,
    lock: Arc<tokio::sync::Mutex<()>>,
    guard: Option<OwnedMutexGuard<()>>,
}

impl Turns {
    /// Waits until no other writer changes the manifest with this digest in this repository.
    pub(crate) async fn take(&self, repo: &str, digest: &str) -> Turn<'_> {
        let key = (repo.to_string(), digest.to_string());
        let lock = guard_of(self.by_key.lock()).entry(key.clone()).or_default().clone();
        let mut turn = Turn { turns: self, key, lock, guard: None };
        turn.guard = Some(turn.lock.clone().lock_owned().await);
        turn
    }
}

impl Drop for Turn<'_> {
    fn drop(&mut self) {
        self.guard = None;
        let mut by_key = guard_of(self.turns.by_key.lock());
        // The map has one reference and this turn another. Each waiting writer has one more.
        if Arc::strong_count(&self.lock) == 2 {
            by_key.remove(&self.key);
        }
    }
}

#[cfg(test)]
mod tests {
    use super::*;
    use std::time::Duration;
    use tokio::time::timeout;

    #[tokio::test]
    async fn writers_of_one_manifest_take_turns() {
        let turns = Turns::default();
        let turn = turns.take("acme/web", "sha256:a").await;
        let mut second = Box::pin(turns.take("acme/web", "sha256:a"));
        assert!(timeout(Duration::ZERO, &mut second).await.is_err());
        for (repo, digest) in [("acme/web", "sha256:b"), ("acme/api", "sha256:a")] {
            assert!(timeout(Duration::ZERO, turns.take(repo, digest)).await.is_ok());
        }
        drop(turn);
        assert!(timeout(Duration::ZERO, &mut second).await.is_ok());
        assert!(turns.by_key.lock().unwrap().is_empty());
    }

    #[tokio::test]
    async fn a_writer_that_leaves_the_queue_leaves_nothing() {
        let turns = Turns::default();
        let turn = turns.take("acme/web", "sha256:a").await;
        let mut second = Box::pin(turns.take("acme/web", "sha256:a"));
        assert!(timeout(Duration::ZERO, &mut second).await.is_err());
        drop(turn);
        drop(second);
        assert!(turns.by_key.lock().unwrap().is_empty());
    }
}
