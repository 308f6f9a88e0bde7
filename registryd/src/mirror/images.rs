//! Images of a mirror: their blobs are fetched, and then their manifests are stored as those of a push.
use crate::endpoints::manifests::{self, NewManifest};
use crate::endpoints::registry::Registry;
use crate::http::fault::Fault;
use crate::metadata::document;
use crate::metadata::media_type::media_type_of;
use crate::mirror::failure::UpstreamError;
use crate::mirror::mirrors::Mirror;
use crate::mirror::upstream::FetchedManifest;
use crate::operation::locks::guard_of;
use std::collections::HashSet;
use std::slice::from_ref;
use std::sync::{Arc, Mutex};
use tokio::sync::Semaphore;

/// The maximum number of images whose blobs are fetched at once, and of those that wait.
const IMAGES: (usize, usize) = (8, 256);

/// How often the store of a manifest is tried, each time after room was made.
const TRIES: usize = 8;

/// The images of which the blobs are being fetched.
pub(super) struct Images {
    by_key: Mutex<HashSet<(String, String)>>,
    permits: Semaphore,
}

impl Default for Images {
    fn default() -> Images {
        Images { by_key: Mutex::default(), permits: Semaphore::new(IMAGES.0) }
    }
}

impl Mirror {
    /// Begins to fetch the blobs of an image, unless that has begun or too many images wait.
    pub(super) fn begin_image(self: &Arc<Self>, registry: &Arc<Registry>, repo: &str, manifest: &Arc<FetchedManifest>) {
        let key = (repo.to_string(), manifest.digest.clone());
        let mut by_key = guard_of(self.images.by_key.lock());
        if by_key.len() >= IMAGES.1 || !by_key.insert(key.clone()) {
            return;
        }
        drop(by_key);
        let (mirror, registry, manifest) = (self.clone(), registry.clone(), manifest.clone());
        tokio::spawn(async move {
            let _end = EndOfImage { mirror: &mirror, key: &key };
            let _permit = mirror.images.permits.acquire().await;
            if let Err(why) = mirror.complete(&registry, &key.0, &manifest).await {
                tracing::warn!(repo = %key.0, digest = %key.1, why = %why, "an image of the upstream is not kept");
            }
        });
    }

    /// Fetches the blobs of an image that are missing, and stores its manifest.
    pub(super) async fn complete(
        self: &Arc<Self>,
        registry: &Arc<Registry>,
        repo: &str,
        manifest: &FetchedManifest,
    ) -> Result<(), String> {
        for digest in blobs_of(manifest) {
            if registry.store.stat(repo, &digest).await.map_err(|_| "the store does not reply")?.is_ok() {
                registry.cached.touch(repo, &digest);
                continue;
            }
            let fetch = self.join_fetch(registry, repo, &digest);
            let ended = fetch.wait(|progress| progress.is_stored.is_some()).await;
            if ended.is_stored != Some(true) {
                let why =
                    ended.outcome.and_then(Result::err).as_ref().map_or("the store does not keep it".into(), UpstreamError::text);
                return Err(format!("blob {digest}: {why}"));
            }
        }
        self.store(registry, repo, manifest).await.map_err(|fault| fault.message().to_string())
    }

    /// Returns whether a repository has all blobs of a manifest.
    pub(super) async fn has_blobs(&self, registry: &Registry, repo: &str, manifest: &FetchedManifest) -> bool {
        for digest in blobs_of(manifest) {
            if !matches!(registry.store.stat(repo, &digest).await, Ok(Ok(_))) {
                return false;
            }
        }
        true
    }

    /// Stores a manifest whose blobs are here, under the tags that the upstream named it by. If the tenant has too many, older copies
    /// are deleted.
    pub(super) async fn store(&self, registry: &Registry, repo: &str, manifest: &FetchedManifest) -> Result<(), Fault> {
        registry.folder.as_ref().map_or(Ok(()), |folder| folder.room.check_content())?;
        let digest = &manifest.digest;
        let is_pushed = registry.manifests.is_known(repo, digest) && !registry.cached.has(repo, digest);
        if !is_pushed {
            registry.cached.mark(repo, digest).await?;
        }
        let tags = self.tags.of(repo, digest);
        let references: Vec<Option<&str>> =
            if tags.is_empty() { vec![None] } else { tags.iter().map(|tag| Some(tag.as_str())).collect() };
        for tag in references {
            let mut stored = put(registry, repo, manifest, tag).await;
            for _ in 0..TRIES {
                match &stored {
                    Err(fault) if fault.is_of_bound() => {
                        if !self.evict_one(registry, repo, fault.is_of_repository()).await {
                            break;
                        }
                    }
                    _ => break,
                }
                stored = put(registry, repo, manifest, tag).await;
            }
            if let Err(fault) = stored {
                if !registry.manifests.is_known(repo, digest) {
                    registry.cached.unmark(repo, digest);
                }
                return Err(fault);
            }
        }
        if !is_pushed && !registry.cached.has(repo, digest) {
            // The mark was taken for one without content meanwhile.
            registry.cached.mark(repo, digest).await?;
        }
        self.passing.remove(repo, digest);
        Ok(())
    }
}

/// The end of the fetch of an image, also if a bug ends it.
struct EndOfImage<'i> {
    mirror: &'i Mirror,
    key: &'i (String, String),
}

impl Drop for EndOfImage<'_> {
    fn drop(&mut self) {
        guard_of(self.mirror.images.by_key.lock()).remove(self.key);
    }
}

/// Returns the blobs of a manifest, each once.
fn blobs_of(manifest: &FetchedManifest) -> Vec<String> {
    let mut seen = HashSet::new();
    let all = tokio::task::block_in_place(|| document::blobs(&manifest.content));
    all.into_iter().filter(|digest| seen.insert(digest.clone())).collect()
}

/// Stores a manifest as a push does, under a tag if there is one. The tag of a manifest that was pushed here, and an immutable one, stay.
async fn put(registry: &Registry, repo: &str, manifest: &FetchedManifest, tag: Option<&str>) -> Result<(), Fault> {
    let content = from_ref(&manifest.content);
    let document = document::read(content)?;
    let given = media_type_of(manifest.content_type.as_deref(), &document)?;
    let named = tag.and_then(|tag| registry.manifests.by_tag(repo, tag));
    let stays = |named: &str, tag: &str| {
        named != manifest.digest && (registry.is_immutable(repo, tag) || !registry.cached.has(repo, named))
    };
    let tag = tag.filter(|tag| !named.as_ref().map_or(false, |named| stays(&named.digest, tag)));
    let new = NewManifest { digest: &manifest.digest, document, given, content };
    manifests::store(registry, repo, new, tag, |_| None).await.map(|_| ())
}
