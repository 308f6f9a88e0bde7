//! A blob that is being copied into the store: an upload that no client knows.
use crate::endpoints::registry::Registry;
use crate::http::content::PIECE_LEN;
use crate::metadata::limits::Limit;
use crate::metadata::open_uploads::UploadInUse;
use crate::mirror::mirrors::Mirror;
use crate::store::client::Answer;
use crate::store::frames::{Reason, Refusal};
use bytes::Bytes;
use std::sync::atomic::Ordering;
use std::sync::Arc;

/// How often a close is tried after room was made.
const TRIES: usize = 8;

/// An upload of a fetch. If the store refuses it, the fetch goes on without it: those who wait for the blob get it.
pub(super) struct Storing<'r> {
    mirror: &'r Arc<Mirror>,
    registry: &'r Arc<Registry>,
    repo: &'r str,
    /// The upload, which is not abandoned while it is here. It is missing until it is opened.
    upload: Option<UploadInUse<'r>>,
    session: u32,
    /// The number of bytes that the store has.
    sent: u64,
    /// The bytes that are sent with the next piece.
    piece: Vec<Bytes>,
    piece_len: usize,
    /// The bytes for which room was made and that the store does not have.
    promised: u64,
    is_refused: bool,
}

impl Drop for Storing<'_> {
    fn drop(&mut self) {
        self.mirror.promised.fetch_sub(self.promised, Ordering::SeqCst);
    }
}

impl<'r> Storing<'r> {
    /// Makes room for a blob, and opens an upload. Returns `None` if the tenant cannot have the blob.
    pub(super) async fn begin(
        mirror: &'r Arc<Mirror>,
        registry: &'r Arc<Registry>,
        repo: &'r str,
        len: Option<u64>,
    ) -> Option<Storing<'r>> {
        let promised = len.unwrap_or(0);
        mirror.promised.fetch_add(promised, Ordering::SeqCst);
        let mut storing = Storing {
            mirror,
            registry,
            repo,
            upload: None,
            session: 0,
            sent: 0,
            piece: Vec::new(),
            piece_len: 0,
            promised,
            is_refused: false,
        };
        if !mirror.make_room(registry, repo, promised).await {
            tracing::warn!(repo, bytes = promised, "a blob of the upstream does not fit into the quota: it is not kept");
            return None;
        }
        let mut entering = registry.enter_repository(repo).await.ok()?;
        let answer = registry.store.start_upload(repo).await.ok()?;
        storing.session = registry.check_entered(repo, answer, &mut entering, Limit::Uploads).ok()?;
        drop(entering);
        let upload = registry.uploads.enter(repo, registry.uploads.add(repo, storing.session)).ok()?;
        upload.begin();
        storing.upload = Some(upload);
        Some(storing)
    }

    /// Adds bytes. Whole pieces are sent to the store.
    pub(super) async fn add(&mut self, mut bytes: Bytes) {
        while !self.is_refused && !bytes.is_empty() {
            let part = bytes.split_to((PIECE_LEN - self.piece_len).min(bytes.len()));
            self.piece_len += part.len();
            self.piece.push(part);
            if self.piece_len == PIECE_LEN {
                self.send().await;
            }
        }
    }

    /// Sends a piece. If the quota is exceeded, room is made once more.
    async fn send(&mut self) {
        let piece = std::mem::take(&mut self.piece);
        let len = std::mem::take(&mut self.piece_len) as u64;
        let (registry, repo) = (self.registry, self.repo);
        let mut answer = registry.store.append(repo, self.session, self.sent, &piece).await;
        if let Ok(Err(Refusal { reason: Reason::Quota, .. })) = answer {
            if self.mirror.make_room(registry, repo, len).await {
                answer = registry.store.append(repo, self.session, self.sent, &piece).await;
            }
        }
        match answer {
            Ok(Ok(sent)) => {
                self.sent = sent;
                let kept = len.min(self.promised);
                self.promised -= kept;
                self.mirror.promised.fetch_sub(kept, Ordering::SeqCst);
            }
            refused => self.refuse(&refused.err().map_or_else(|| "it refused the bytes".to_string(), |_| "no reply".to_string())),
        }
    }

    /// Notes that the store does not take the blob.
    fn refuse(&mut self, why: &str) {
        self.is_refused = true;
        self.piece.clear();
        tracing::warn!(repo = self.repo, why, "the store does not keep a blob of the upstream");
    }

    /// Takes the bytes that were not sent.
    pub(super) fn take_rest(&mut self) -> Vec<Bytes> {
        std::mem::take(&mut self.piece)
    }

    /// Makes the upload a blob, with its last bytes. Returns whether the store has it.
    pub(super) async fn close(mut self, digest: &str, last: Vec<Bytes>) -> bool {
        let (registry, repo) = (self.registry, self.repo);
        if self.is_refused || registry.cached.mark(repo, digest).await.is_err() {
            self.abandon().await;
            return false;
        }
        let turn = registry.loose.begin_link(repo, digest).await;
        let closed = self.close_with_room(digest, &last).await;
        registry.loose.end_link(repo, digest, &closed);
        drop(turn);
        if let Ok(Ok(_)) = closed {
            registry.damaged.remove(digest);
            self.forget();
            if !registry.cached.has(repo, digest) {
                // The mark was taken for one without content meanwhile.
                let _ = registry.cached.mark(repo, digest).await;
            }
            return true;
        }
        if let Ok(Err(refusal)) = &closed {
            self.refuse(&format!("{:?}", refusal.reason));
            registry.cached.unmark(repo, digest);
        }
        self.abandon().await;
        false
    }

    /// Closes the upload. If there is no room for the blob, copies are deleted, and it is closed again.
    async fn close_with_room(&self, digest: &str, last: &[Bytes]) -> Answer<u64> {
        let (registry, repo) = (self.registry, self.repo);
        let mut closed = registry.store.close(repo, self.session, digest, self.sent, last).await;
        for _ in 0..TRIES {
            let is_helped = match &closed {
                Ok(Err(Refusal { reason: Reason::StoreFull, .. })) => {
                    self.mirror.evict_one(registry, repo, false).await;
                    registry.sweep_requests.wait(registry.store.limit).await;
                    true
                }
                Ok(Err(Refusal { reason: Reason::LimitReached | Reason::Quota, .. })) => {
                    self.mirror.evict_one(registry, repo, false).await
                }
                _ => false,
            };
            if !is_helped {
                break;
            }
            closed = registry.store.close(repo, self.session, digest, self.sent, last).await;
        }
        closed
    }

    /// Abandons the upload.
    pub(super) async fn abandon(self) {
        if let Ok(Ok(())) = self.registry.abandon_session(self.repo, self.session).await {
            self.forget();
        }
    }

    /// Removes the upload from the table.
    fn forget(&self) {
        if let Some(upload) = &self.upload {
            self.registry.uploads.remove(&upload.name);
        }
    }
}
