//! What follows a delete: an empty repository is removed, and the blobs of a manifest may be unlinked later.
use crate::endpoints::registry::Registry;
use crate::http::content::MAX_MANIFEST;
use crate::http::fault::Fault;
use crate::http::in_flight::Holder;
use crate::metadata::document;
use crate::store::client::{Answer, StoreUnavailable};
use crate::store::frames::{Reason, Refusal};

impl Registry {
    /// Removes a repository if it has no blob, manifest or upload, so that its name no longer counts for the tenant's
    /// limit.
    ///
    /// A session, a link or a manifest keeps the repository, and a request that needs none of them creates it. So another
    /// request fails because of the removal only if the tenant has the maximum number of repositories by then. If a
    /// failure leaves an empty repository, the next delete in it or the next start removes it.
    pub(super) async fn remove_if_unused(&self, repo: &str) {
        let removing = self.repositories.begin_removal(repo);
        match self.store.remove_repo(repo).await {
            Ok(Ok(())) => {
                tracing::info!(repo, "removed an empty repository");
                removing.removed();
            }
            Ok(Err(Refusal { reason: Reason::NameUnknown, .. })) => removing.removed(),
            Ok(Err(_)) | Err(StoreUnavailable) => {}
        }
    }

    /// Removes a repository that may have become empty by a delete. A thing that the store did not know may have been
    /// deleted before a crash.
    pub(crate) async fn end_delete(&self, repo: &str, deleted: &Answer<()>) {
        let is_gone = match deleted {
            Ok(Ok(())) => true,
            Ok(Err(Refusal { reason, .. })) => {
                matches!(reason, Reason::BlobUnknown | Reason::ManifestUnknown | Reason::UploadUnknown)
            }
            Err(StoreUnavailable) => false,
        };
        if is_gone {
            self.remove_if_unused(repo).await;
        }
    }

    /// Abandons a session, and removes its repository if it is empty then.
    pub(crate) async fn abandon_session(&self, repo: &str, session: u32) -> Answer<()> {
        let abandoned = self.store.abandon(repo, session).await;
        self.end_delete(repo, &abandoned).await;
        abandoned
    }

    /// Returns the blobs of a manifest that is going to be deleted, if blobs are unlinked after some time.
    pub(super) async fn blobs_to_loosen(&self, repo: &str, digest: &str) -> Result<Vec<String>, Fault> {
        if !self.loose.is_on {
            return Ok(Vec::new());
        }
        let size = self.manifests.any_facts(repo, digest).map_or(MAX_MANIFEST as u64, |(facts, _)| facts.size);
        let holder = Holder { sharer: self.store.sharer(repo), connection: None };
        let _reserved = self.memory.reserve(&holder, size).await?;
        match self.store.get_manifest(repo, digest).await? {
            Ok(content) => Ok(tokio::task::block_in_place(|| document::blobs(&content))),
            Err(Refusal { reason: Reason::ManifestUnknown, .. }) => Ok(Vec::new()),
            Err(refusal) => Err(refusal.into()),
        }
    }

    /// Adds the blobs of a manifest that was deleted. One that is being unlinked stays marked.
    pub(super) fn loosen(&self, repo: &str, blobs: &[String]) {
        blobs.iter().for_each(|digest| self.loose.loosen(repo, digest));
    }
}
