//! Deletes manifests that nothing holds, and unlinks blobs to which no manifest refers, after some time.
use crate::endpoints::manifests::delete_manifest;
use crate::endpoints::registry::Registry;
use crate::http::fault::Fault;
use crate::metadata::clock::now;
use crate::metadata::manifest_lists::Untagged;
use crate::metadata::repository::Removal;
use crate::operation::audit;
use crate::store::client::StoreUnavailable;
use crate::store::frames::{Reason, Refusal};
use std::time::Duration;

impl Registry {
    /// Deletes manifests at intervals that nothing has held for this time, and blobs to which no manifest has referred for this
    /// time, until the store ends.
    pub(crate) async fn keep_untagged(&self, time: Duration) {
        let rest = (time / 60).clamp(Duration::from_millis(100), Duration::from_secs(60));
        while !self.store.has_ended() {
            if self.has_room() {
                for repo in self.manifests.names("", "") {
                    self.delete_unheld(&repo, now().saturating_sub(time.as_secs())).await;
                }
                self.unlink_loose(time).await;
            }
            tokio::time::sleep(rest).await;
        }
    }

    /// Deletes the manifests of a repository that nothing has held since a time.
    async fn delete_unheld(&self, repo: &str, since: u64) {
        let is_unheld = |one: &Untagged| one.held_by.is_none() && one.since <= since;
        for Untagged { digest, .. } in self.manifests.untagged((repo, ""), usize::MAX, is_unheld).items {
            let _changing = match self.moves.begin_own(repo) {
                Ok(changing) => changing,
                Err(_) => return,
            };
            match delete_manifest(self, repo, &digest, Removal::UnheldSince(since), self.own_reporter()).await {
                Ok(Ok(())) => {
                    tracing::info!(repo, digest = %digest, "deleted a manifest that nothing holds");
                    audit::write_own_delete("keep-untagged", repo, None, &digest);
                }
                Ok(Err(_)) => {}
                Err(fault) => log(repo, &digest, &fault),
            }
        }
    }

    /// Unlinks the blobs that nobody has asked for in this time and to which no manifest refers.
    pub(super) async fn unlink_loose(&self, time: Duration) {
        for key in self.loose.unasked(time) {
            let (repo, digest) = (&key.0, &key.1);
            let _changing = match self.moves.begin_own(repo) {
                Ok(changing) => changing,
                Err(_) => continue,
            };
            let turn = self.loose.turns.take(repo, digest).await;
            if !self.loose.begin_unlink(&key, time) {
                continue;
            }
            let deleted = self.store.delete(repo, digest).await;
            match &deleted {
                Ok(Ok(())) => {
                    tracing::info!(repo = %repo, digest = %digest, "deleted a blob that no manifest refers to");
                    self.loose.remove(repo, digest);
                    self.cached.unmark(repo, digest);
                    audit::write_own_delete("keep-untagged", repo, None, digest);
                    if let Some(reporter) = self.own_reporter() {
                        reporter.note(reporter.deleted(repo, Some(digest), None));
                    }
                }
                Ok(Err(Refusal { reason: Reason::Memory, .. })) => self.loose.undo_unlink(&key),
                Ok(Err(_)) => self.loose.keep_linked(&key, time),
                // The store may still unlink it. It stays marked, and the store is asked again.
                Err(StoreUnavailable) => {}
            }
            drop(turn);
            self.end_delete(repo, &deleted).await;
        }
    }
}

/// Logs that a manifest could not be deleted. It is tried again.
fn log(repo: &str, digest: &str, fault: &Fault) {
    tracing::warn!(repo, digest, ?fault, "cannot delete a manifest that nothing holds");
}
