//! Abandons uploads that nobody continues.
use crate::endpoints::registry::Registry;
use crate::metadata::open_uploads::{Upload, UploadTimeouts};
use crate::store::client::StoreUnavailable;
use crate::store::frames::{Reason, Refusal};
use std::time::Duration;
use uuid::Uuid;

impl Registry {
    /// Abandons unused uploads at intervals until the store ends.
    pub(crate) async fn expire(&self, patience: UploadTimeouts) {
        let rest = (patience.least() / 10).clamp(Duration::from_millis(100), Duration::from_secs(60));
        while !self.store.has_ended() {
            let _ = self.expire_once(patience).await;
            tokio::time::sleep(rest).await;
        }
    }

    async fn expire_once(&self, patience: UploadTimeouts) -> Result<(), StoreUnavailable> {
        if !self.has_room() {
            return Ok(());
        }
        for name in self.uploads.unused(patience) {
            if let Some(upload) = self.uploads.take_unused(&name, patience) {
                self.abandon(name, upload).await?;
            }
        }
        Ok(())
    }

    /// Abandons uploads that nothing continues any more.
    pub(crate) async fn abandon_all(&self, names: Vec<Uuid>) -> Result<(), StoreUnavailable> {
        let now = UploadTimeouts { begun: Duration::ZERO, empty: Duration::ZERO };
        for name in names {
            if let Some(upload) = self.uploads.take_unused(&name, now) {
                self.abandon(name, upload).await?;
            }
        }
        Ok(())
    }

    /// Abandons an upload. If the store fails to, the upload is tried again later.
    async fn abandon(&self, name: Uuid, upload: Upload) -> Result<(), StoreUnavailable> {
        let repo = &upload.repo;
        match self.abandon_session(repo, upload.session).await {
            Ok(Ok(())) => {
                tracing::info!(repo, "abandoned an unused upload");
                self.uploads.forget(upload);
            }
            Ok(Err(Refusal { reason: Reason::UploadUnknown, .. })) => {
                tracing::warn!(repo, "dropped an upload that the store does not know");
                self.uploads.forget(upload);
            }
            Ok(Err(_)) => self.uploads.put_back(name, upload),
            Err(error) => {
                self.uploads.put_back(name, upload);
                return Err(error);
            }
        }
        Ok(())
    }
}
