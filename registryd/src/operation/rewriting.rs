//! Asks the store to rewrite its log after a signal.
use crate::endpoints::registry::Registry;
use crate::folder::files::Folder;
use std::sync::Arc;
use std::time::{Duration, Instant};
use tokio::signal::unix::Signal;

/// The time that the store has to see a request to rewrite its log, and the pause between two looks.
const CLOSE_TIME: Duration = Duration::from_secs(10);

const CLOSE_REST: Duration = Duration::from_millis(100);

/// Asks the store to rewrite its log after each signal. A signal that arrives during the start is obeyed after it.
pub(crate) async fn rewrite_on_signal(mut asked: Signal, registry: Arc<Registry>) {
    while asked.recv().await.is_some() {
        match registry.folder.as_ref().map(Folder::ask_for_rewriting) {
            Some(Ok(())) => {
                tracing::info!("asked the store to rewrite its log");
                registry.close_last_file().await;
            }
            Some(Err(error)) => tracing::error!("cannot ask the store to rewrite its log: {error}"),
            None => tracing::warn!("there is no log to rewrite: start with --data"),
        }
    }
}

impl Registry {
    /// Lets the store close the last file of its log after it was asked to rewrite it: it does so at the next change. An upload is opened
    /// and abandoned for that.
    pub(super) async fn close_last_file(&self) {
        let folder = match &self.folder {
            Some(folder) if self.has_room() => folder,
            _ => return tracing::warn!("the disk has no room: the last file of the log is not closed"),
        };
        let end = Instant::now() + CLOSE_TIME;
        while folder.is_rewriting_asked() && Instant::now() < end {
            tokio::time::sleep(CLOSE_REST).await;
        }
        tokio::time::sleep(CLOSE_REST).await;
        let repo = self.tenants.names().iter().find_map(|tenant| self.repositories.page(tenant, "", 1).0.pop());
        if let Some(repo) = repo {
            if let Ok(Ok(session)) = self.store.start_upload(&repo).await {
                let name = self.uploads.add(&repo, session);
                if let Ok(Ok(())) = self.abandon_session(&repo, session).await {
                    self.uploads.remove(&name);
                }
            }
        }
    }
}
