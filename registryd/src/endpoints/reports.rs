//! The events of requests.
use crate::endpoints::call::Call;
use crate::endpoints::manifests::is_digest;
use crate::events::event::{Action, Report};
use crate::events::reporter::{Manifest, Reporter};
use crate::http::exchange::Exchange;
use crate::http::fault::Fault;
use std::sync::Arc;

impl Call {
    /// Returns the reporter of this request, if there are receivers of events.
    pub(super) fn reporter(&self) -> Option<Reporter> {
        let client = self.head.extensions.get::<Arc<Exchange>>().map(|exchange| exchange.connection.client);
        self.registry.events.as_ref().map(|events| events.of_request(&self.head, client, self.caller.user()))
    }

    /// Returns the event of a manifest that this request pushes.
    pub(super) fn manifest_push(&self, digest: &str, media_type: &str, size: u64, tag: Option<&str>) -> Option<Report> {
        self.reporter()?.manifest(Action::Push, &self.repo, (digest, media_type, size), tag)
    }

    /// Records that this request reads a manifest by a reference.
    pub(super) fn note_manifest_pull(&self, manifest: Manifest<'_>, reference: &str) {
        if let Some(reporter) = self.reporter() {
            let tag = Some(reference).filter(|reference| !is_digest(reference));
            reporter.note(reporter.manifest(Action::Pull, &self.repo, manifest, tag));
        }
    }

    /// Records that this request reads a blob of `size` bytes, if that is known, or a part of it.
    pub(super) fn note_blob_pull(&self, digest: &str, size: impl Into<Option<u64>>) {
        if let Some(reporter) = self.reporter() {
            reporter.note(reporter.blob(Action::Pull, &self.repo, digest, size, None));
        }
    }

    /// Records that this request has stored a blob of `size` bytes.
    pub(super) async fn record_blob_push(&self, digest: &str, size: u64) -> Result<(), Fault> {
        if let Some(reporter) = self.reporter() {
            reporter.add(reporter.blob(Action::Push, &self.repo, digest, size, None)).await?;
        }
        Ok(())
    }

    /// Records that this request has mounted a blob.
    pub(super) async fn record_mount(&self, digest: &str) -> Result<(), Fault> {
        if let Some(reporter) = self.reporter().filter(|reporter| reporter.wants_blob(Action::Mount)) {
            let size = self.registry.store.stat(&self.repo, digest).await??;
            let from = self.query("from");
            reporter.add(reporter.blob(Action::Mount, &self.repo, digest, size, from.as_deref())).await?;
        }
        Ok(())
    }

    /// Records that this request has deleted a blob.
    pub(super) async fn record_blob_delete(&self, digest: &str) -> Result<(), Fault> {
        if let Some(reporter) = self.reporter() {
            reporter.add(reporter.deleted(&self.repo, Some(digest), None)).await?;
        }
        Ok(())
    }
}
