//! Manifests of a mirror: what a request for one finds, after the upstream was asked if it had to be.
use crate::endpoints::manifests::is_digest;
use crate::endpoints::registry::Registry;
use crate::http::fault::Fault;
use crate::metadata::document;
use crate::metadata::media_type::{check_inert, media_type_of};
use crate::metadata::names::is_tag;
use crate::mirror::failure::UpstreamError;
use crate::mirror::mirrors::Mirror;
pub(crate) use crate::mirror::upstream::FetchedManifest;
use std::slice::from_ref;
use std::sync::Arc;
use std::time::Instant;

/// Where the manifest of a request is.
pub(crate) enum Found {
    /// It is served as that of any tenant.
    Stored,
    /// It came from the upstream, and its blobs are not all here.
    Passing(Arc<FetchedManifest>),
}

/// What a request does with a manifest.
#[derive(Clone, Copy, Debug, PartialEq, Eq)]
pub(crate) enum Purpose {
    /// It looks whether it is there.
    Look,
    /// It pulls the image, so its blobs are fetched too.
    Pull,
    /// It copies what the upstream has now, also if a tag was asked for not long ago.
    Copy,
}

/// What the mirror has of a reference.
enum Known {
    Stored(String),
    Passing(Arc<FetchedManifest>),
}

impl Known {
    fn digest(&self) -> &str {
        match self {
            Known::Stored(digest) => digest,
            Known::Passing(manifest) => &manifest.digest,
        }
    }
}

impl FetchedManifest {
    /// Returns the media type of the manifest, by the rules of a push.
    pub(crate) fn media_type(&self) -> Result<String, Fault> {
        let document = document::read(from_ref(&self.content))?;
        let media_type = media_type_of(self.content_type.as_deref(), &document)?;
        check_inert(&media_type.text)?;
        Ok(media_type.text)
    }
}

impl Mirror {
    /// Finds the manifest of a reference. Asks the upstream if the mirror does not have it, or if it is a tag that was asked for too
    /// long ago. If the upstream fails then, what the mirror has is found.
    ///
    /// # Errors
    ///
    /// - The upstream has no such manifest.
    /// - It fails, and the mirror has no such manifest.
    pub(crate) async fn find(
        self: &Arc<Self>,
        registry: &Arc<Registry>,
        repo: &str,
        reference: &str,
        purpose: Purpose,
    ) -> Result<Found, Fault> {
        if let Some(found) = self.find_here(registry, repo, reference, purpose) {
            return Ok(found);
        }
        let name = match self.upstream.address.name_of(repo) {
            Some(name) if is_tag(reference) || is_sha256(reference) => name,
            _ => return Ok(Found::Stored),
        };
        let begun = Instant::now();
        let _turn = self.turns.take(repo, reference).await;
        // Another request may have asked meanwhile.
        if let Some(found) = self.find_here(registry, repo, reference, purpose) {
            return Ok(found);
        }
        let known = self.known(registry, repo, reference);
        match self.ask_once(registry, repo, (&name, reference), known.as_ref(), begun).await {
            Ok(Some(manifest)) => {
                self.upstream.counts.misses.inc();
                self.take(registry, repo, (reference, purpose), manifest).await
            }
            Ok(None) => Ok(self.hit(registry, repo, known, purpose)),
            Err(UpstreamError::Unknown) => Err(Fault::manifest_unknown()),
            Err(error) if known.is_some() => {
                tracing::info!(repo, reference, why = %error.text(), "served a manifest without its upstream");
                Ok(self.hit(registry, repo, known, purpose))
            }
            Err(error) => {
                self.upstream.counts.misses.inc();
                Err(error.into_fault(Fault::manifest_unknown()))
            }
        }
    }

    /// Finds the manifest of a reference without the upstream, if that is not to be asked.
    fn find_here(self: &Arc<Self>, registry: &Arc<Registry>, repo: &str, reference: &str, purpose: Purpose) -> Option<Found> {
        let known = self.known(registry, repo, reference)?;
        let is_own = |digest: &str| matches!(known, Known::Stored(_)) && !registry.cached.has(repo, digest);
        let is_believed = is_digest(reference)
            || is_own(known.digest())
            || registry.is_immutable(repo, reference)
            || (purpose != Purpose::Copy
                && self.tags.fresh(repo, reference, self.settings.tag_time).as_deref() == Some(known.digest()));
        is_believed.then(|| self.hit(registry, repo, Some(known), purpose))
    }

    /// Returns what the mirror has of a reference.
    fn known(&self, registry: &Registry, repo: &str, reference: &str) -> Option<Known> {
        let stored = match is_digest(reference) {
            true => registry.manifests.by_digest(repo, reference),
            false => registry.manifests.by_tag(repo, reference),
        };
        let passing = |digest: String| self.passing.find(repo, &digest).map(Known::Passing);
        let digest = match is_digest(reference) {
            true => Some(reference.to_string()),
            false => self.tags.last(repo, reference),
        };
        // What the upstream said last about a tag is newer than what is stored.
        digest.and_then(passing).or_else(|| stored.map(|named| Known::Stored(named.digest)))
    }

    /// Counts a request that is served from here, and begins to fetch the blobs of an image that is pulled.
    fn hit(self: &Arc<Self>, registry: &Arc<Registry>, repo: &str, known: Option<Known>, purpose: Purpose) -> Found {
        if purpose != Purpose::Copy {
            self.upstream.counts.hits.inc();
        }
        match known {
            Some(Known::Passing(manifest)) => {
                if purpose == Purpose::Pull {
                    self.begin_image(registry, repo, &manifest);
                }
                Found::Passing(manifest)
            }
            Some(Known::Stored(digest)) => {
                registry.cached.touch(repo, &digest);
                Found::Stored
            }
            None => Found::Stored,
        }
    }

    /// Asks the upstream for a manifest as `ask` does, unless it has failed for another request since `begun`.
    async fn ask_once(
        &self,
        registry: &Arc<Registry>,
        repo: &str,
        (name, reference): (&str, &str),
        known: Option<&Known>,
        begun: Instant,
    ) -> Result<Option<Arc<FetchedManifest>>, UpstreamError> {
        if let Some(error) = self.failures.since(repo, reference, begun) {
            return Err(error);
        }
        let asked = self.ask(registry, repo, (name, reference), known).await;
        asked.map_err(|error| self.failures.note(repo, reference, error))
    }

    /// Asks the upstream for a manifest. Returns `None` if it is the one that the mirror has.
    async fn ask(
        &self,
        registry: &Arc<Registry>,
        repo: &str,
        (name, reference): (&str, &str),
        known: Option<&Known>,
    ) -> Result<Option<Arc<FetchedManifest>>, UpstreamError> {
        if let Some(known) = known {
            let digest = self.upstream.digest_of_tag(name, reference).await?;
            if digest.as_deref() == Some(known.digest()) {
                self.tags.put(repo, reference, known.digest());
                return Ok(None);
            }
            if let Some(manifest) = digest.and_then(|digest| self.passing.find(repo, &digest)) {
                return Ok(Some(manifest));
            }
        }
        let manifest = Arc::new(self.upstream.manifest(name, reference).await?);
        let is_same = known.map_or(false, |known| known.digest() == manifest.digest);
        if is_same {
            self.tags.put(repo, reference, &manifest.digest);
        }
        if registry.manifests.by_digest(repo, &manifest.digest).is_none() || !is_same {
            return Ok(Some(manifest));
        }
        Ok(None)
    }

    /// Takes a manifest that came from the upstream. It is stored if its blobs are here.
    async fn take(
        self: &Arc<Self>,
        registry: &Arc<Registry>,
        repo: &str,
        (reference, purpose): (&str, Purpose),
        manifest: Arc<FetchedManifest>,
    ) -> Result<Found, Fault> {
        let wrong = |_| UpstreamError::failed("it sent something that is no manifest").into_fault(Fault::manifest_unknown());
        tokio::task::block_in_place(|| manifest.media_type()).map_err(wrong)?;
        if !is_digest(reference) {
            self.tags.put(repo, reference, &manifest.digest);
        }
        let is_whole = self.has_blobs(registry, repo, &manifest).await;
        if is_whole && self.store(registry, repo, &manifest).await.is_ok() {
            return Ok(Found::Stored);
        }
        self.passing.put(repo, manifest.clone());
        if purpose == Purpose::Pull {
            self.begin_image(registry, repo, &manifest);
        }
        Ok(Found::Passing(manifest))
    }
}

/// Returns whether a reference is a digest by which the store has manifests.
fn is_sha256(reference: &str) -> bool {
    reference.starts_with("sha256:") && document::is_digest(reference)
}
