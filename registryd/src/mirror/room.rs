//! Room for what a mirror copies: the copies that were used least recently are deleted. What was pushed stays.
use crate::endpoints::manifests::delete_manifest;
use crate::endpoints::registry::Registry;
use crate::http::content::MAX_MANIFEST;
use crate::http::in_flight::Holder;
use crate::metadata::cached::Key;
use crate::metadata::document;
use crate::metadata::names::tenant_of;
use crate::metadata::repository::Removal;
use crate::mirror::mirrors::Mirror;
use crate::store::frames::{Reason, Refusal};
use std::sync::atomic::Ordering;

impl Mirror {
    /// Deletes copies until the tenant of a repository may have what was promised, of which `bytes` are new. Returns whether it may.
    pub(super) async fn make_room(&self, registry: &Registry, repo: &str, bytes: u64) -> bool {
        let _turn = self.room.lock().await;
        let free = || async {
            match registry.store.usage(repo).await {
                Ok(Ok((used, quota))) => Some((quota.saturating_sub(used), quota)),
                _ => None,
            }
        };
        let wanted = self.promised.load(Ordering::SeqCst).max(bytes);
        let (mut has_free, wanted) = match free().await {
            Some((free, quota)) if bytes <= quota => (free, wanted.min(quota)),
            _ => return false,
        };
        if has_free >= wanted {
            return true;
        }
        for key in registry.cached.by_use(tenant_of(repo)) {
            if self.evict(registry, &key).await {
                has_free = free().await.map_or(0, |(free, _)| free);
            }
            if has_free >= wanted {
                break;
            }
        }
        has_free >= bytes
    }

    /// Deletes the copy of a manifest that was used least recently, of one repository or of its tenant. If there is none, a blob is
    /// deleted. Returns whether something was deleted.
    pub(super) async fn evict_one(&self, registry: &Registry, repo: &str, is_of_repository: bool) -> bool {
        let _turn = self.room.lock().await;
        let is_known = |key: &Key| registry.manifests.is_known(&key.0, &key.1);
        let all = registry.cached.by_use(tenant_of(repo));
        let (first, then): (Vec<Key>, Vec<Key>) = all.into_iter().partition(is_known);
        for key in first.iter().filter(|key| !is_of_repository || key.0 == repo) {
            if self.evict(registry, key).await {
                return true;
            }
        }
        for key in then.iter().filter(|_| !is_of_repository) {
            if self.evict(registry, key).await {
                return true;
            }
        }
        false
    }

    /// Deletes a copy, if nothing that was pushed holds it. With a manifest, its blobs are deleted that no other manifest refers to.
    /// Returns whether it was deleted.
    async fn evict(&self, registry: &Registry, key: &Key) -> bool {
        let (repo, digest) = (key.0.as_str(), key.1.as_str());
        let is_gone = match registry.manifests.is_known(repo, digest) {
            true => self.evict_manifest(registry, key).await,
            // One that is being fetched is marked before the store has it.
            false => self.fetches.find(repo, digest).is_none() && evict_blob(registry, key).await,
        };
        if is_gone {
            self.upstream.counts.evicted.inc();
            tracing::info!(repo, digest, "deleted a copy to make room");
        }
        is_gone
    }

    async fn evict_manifest(&self, registry: &Registry, key: &Key) -> bool {
        let (repo, digest) = (key.0.as_str(), key.1.as_str());
        let is_held = registry.manifests.indexes_of(repo, digest).iter().any(|index| !registry.cached.has(repo, index));
        if is_held {
            return false;
        }
        let size = registry.manifests.any_facts(repo, digest).map_or(MAX_MANIFEST as u64, |(facts, _)| facts.size);
        let holder = Holder { sharer: registry.store.sharer(repo), connection: None };
        let reserved = registry.memory.reserve(&holder, size).await;
        let content = match (reserved.is_ok(), registry.store.get_manifest(repo, digest).await) {
            (true, Ok(content)) => content.unwrap_or_default(),
            _ => return false,
        };
        if !matches!(delete_manifest(registry, repo, digest, Removal::AskedEvenIfListed, None).await, Ok(Ok(()))) {
            return false;
        }
        for blob in tokio::task::block_in_place(|| document::blobs(&content)) {
            let key = (repo.to_string(), blob);
            if registry.cached.has(&key.0, &key.1) && evict_blob(registry, &key).await {
                self.upstream.counts.evicted.inc();
            }
        }
        true
    }
}

/// Deletes the copy of a blob, unless a manifest refers to it. Returns whether it was deleted.
async fn evict_blob(registry: &Registry, (repo, digest): &Key) -> bool {
    let deleted = registry.store.delete(repo, digest).await;
    registry.end_delete(repo, &deleted).await;
    match deleted {
        Ok(Ok(())) => {
            registry.cached.unmark(repo, digest);
            registry.loose.remove(repo, digest);
            true
        }
        Ok(Err(Refusal { reason: Reason::BlobUnknown | Reason::NameUnknown, .. })) => {
            registry.cached.unmark(repo, digest);
            false
        }
        _ => false,
    }
}
