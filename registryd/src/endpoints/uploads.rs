//! Uploads: opens, appends to, closes and abandons them.
use crate::endpoints::call::Call;
use crate::endpoints::registry::Registry;
use crate::http::content::{Piece, RequestContent, Then};
use crate::http::fault::{range_text, Fault};
use crate::http::ranges::content_range;
use crate::http::responses::{empty, HandlerResult};
use crate::metadata::limits::Limit;
use crate::metadata::names::{is_repository, tenant_of};
use crate::metadata::open_uploads::{AppendingRequest, UploadInUse};
use crate::operation::memory_reserve::is_short;
use crate::store::calls::{MountResult, SlotUse};
use crate::store::client::{Answer, StoreUnavailable};
use crate::store::frames::{Reason, Refusal};
use bytes::Bytes;
use hyper::StatusCode;
use std::time::Duration;
use tokio::sync::mpsc;
use tokio::task::JoinHandle;
use tokio::time::timeout;
use uuid::Uuid;

/// end-4, end-11: opens an upload, stores a blob in one request, or mounts one.
pub(super) async fn open(call: &Call, content: &mut RequestContent) -> HandlerResult {
    let store = &call.registry.store;
    // A content that was found damaged is not linked, but sent again.
    if let Some(digest) = call.query("mount").filter(|digest| !call.registry.damaged.has(digest)) {
        return mount(call, &digest).await;
    }
    let digest = call.query("digest");
    if digest.is_none() {
        check_room(call)?;
    }
    let mut entering = call.enter_repository().await?;
    let session = call.check_entered(store.start_upload(&call.repo).await?, &mut entering)?;
    drop(entering);
    let digest = match digest {
        Some(digest) => digest,
        None => return opened_response(call, session).await,
    };
    // No other request knows this upload. It is abandoned if it does not become a blob, or later if the store cannot do so
    // now.
    let uploads = &call.registry.uploads;
    let mut adding = uploads.enter(&call.repo, uploads.add(&call.repo, session))?.add();
    let closed = take_and_close(call, &mut adding, Place { start: 0, len: content.len }, &digest, content).await;
    if closed.is_ok() || call.registry.abandon_session(&call.repo, session).await?.is_ok() {
        uploads.remove(&adding.upload.name);
    }
    closed?;
    stored_response(call, &digest)
}

/// end-11: links a blob of another repository, or opens an upload.
async fn mount(call: &Call, digest: &str) -> HandlerResult {
    let Registry { store, loose, .. } = &*call.registry;
    let mut entering = call.enter_repository().await?;
    let turn = loose.begin_link(&call.repo, digest).await;
    let mounted = store.mount(&call.repo, digest, &call.mount_source()).await;
    if let Ok(Ok(MountResult::Linked)) = mounted {
        loose.end_link(&call.repo, digest, &mounted);
        call.registry.moves.note_blob(&call.repo, digest);
        call.registry.cached.unmark(&call.repo, digest);
    }
    drop(turn);
    let mounted = call.check_entered(mounted?, &mut entering)?;
    drop(entering);
    match mounted {
        MountResult::Linked => {
            call.record_mount(digest).await?;
            stored_response(call, digest)
        }
        MountResult::Session(session) => opened_response(call, session).await,
    }
}

/// end-13: returns the number of bytes of an upload that were received.
pub(super) async fn status(call: &Call, name: &str) -> HandlerResult {
    let upload = find(call, name)?;
    let received = call.registry.store.status(&call.repo, upload.session).await??;
    progress_response(call, StatusCode::NO_CONTENT, &upload.name, received)
}

/// end-5: appends a chunk.
pub(super) async fn append(call: &Call, name: &str, content: &mut RequestContent) -> HandlerResult {
    let mut adding = find(call, name)?.add();
    let place = place(call, &adding, content).await?;
    let (start, rest) = take_all_but_last(call, &mut adding, place, content).await?;
    let mut received = start;
    if !rest.is_empty() {
        adding.send();
        let appended = call.registry.store.append(&call.repo, adding.upload.session, start, &rest).await?;
        received = appended.map_err(|refusal| call.refused(refusal))?;
        adding.accepted(received);
    }
    progress_response(call, StatusCode::ACCEPTED, &adding.upload.name, received)
}

/// end-6: appends the last chunk, if any, and makes the upload a blob. If this fails, the upload remains, with the bytes
/// that were appended.
pub(super) async fn close(call: &Call, name: &str, content: &mut RequestContent) -> HandlerResult {
    let mut adding = find(call, name)?.add();
    let digest =
        call.query("digest").ok_or_else(|| Fault::new(StatusCode::BAD_REQUEST, "DIGEST_INVALID", "the query names no digest"))?;
    let place = place(call, &adding, content).await?;
    take_and_close(call, &mut adding, place, &digest, content).await?;
    call.registry.uploads.remove(&adding.upload.name);
    stored_response(call, &digest)
}

/// end-14: abandons an upload.
pub(super) async fn abandon(call: &Call, name: &str) -> HandlerResult {
    let upload = find(call, name)?;
    call.registry.abandon_session(&call.repo, upload.session).await??;
    call.registry.uploads.remove(&upload.name);
    empty(StatusCode::NO_CONTENT, &[])
}

/// Begins to use the upload with a name.
fn find<'c>(call: &'c Call, name: &str) -> Result<UploadInUse<'c>, Fault> {
    let name = Uuid::parse_str(name).map_err(|_| Fault::upload_unknown())?;
    call.registry.uploads.enter(&call.repo, name)
}

/// Fails if no upload of the tenant can stay open, before one is opened. The store checks the name of the repository.
fn check_room(call: &Call) -> Result<(), Fault> {
    match !is_repository(&call.repo) || call.registry.uploads.have_room(tenant_of(&call.repo)) {
        true => Ok(()),
        false => Err(call.registry.reached_limit(&call.repo, Limit::LastingUploads)),
    }
}

/// Returns the response for an upload that was opened and stays open. It is abandoned instead if the tenant has the maximum number of
/// them, or if the disk is almost full, which is not checked before a mount.
async fn opened_response(call: &Call, session: u32) -> HandlerResult {
    let uploads = &call.registry.uploads;
    let name = uploads.add(&call.repo, session);
    let checked = match uploads.keep_open(&name) {
        true => call.check_disk(),
        false => Err(Fault::limit(Limit::LastingUploads, call.registry.limits.lasting_uploads(), &call.repo)),
    };
    if let Err(fault) = checked {
        if call.registry.abandon_session(&call.repo, session).await?.is_ok() {
            uploads.remove(&name);
        }
        return Err(fault);
    }
    progress_response(call, StatusCode::ACCEPTED, &name, 0)
}

/// Returns a response with the range of the bytes received.
fn progress_response(call: &Call, status: StatusCode, name: &Uuid, received: u64) -> HandlerResult {
    let name = name.to_string();
    let location = format!("/v2/{}/blobs/uploads/{name}", call.repo);
    let range = range_text(received);
    empty(status, &[("Location", &location), ("Range", &range), ("Docker-Upload-UUID", &name)])
}

/// Returns the response for a blob that was stored or linked.
fn stored_response(call: &Call, digest: &str) -> HandlerResult {
    let location = format!("/v2/{}/blobs/{digest}", call.repo);
    empty(StatusCode::CREATED, &[("Location", &location), ("Docker-Content-Digest", digest)])
}

/// The offset of a chunk, and its length if the client sent it.
struct Place {
    start: u64,
    len: Option<u64>,
}

/// Returns the place of a chunk. It begins at the end of the upload, and its range has to begin there if it has one. The
/// store is asked for the length if the length is unknown or the range begins elsewhere, so that the client learns the right
/// one. A chunk that would make the blob too long fails before a byte of it is read.
async fn place(call: &Call, adding: &AppendingRequest<'_>, content: &RequestContent) -> Result<Place, Fault> {
    let mut len = content.len;
    let mut first = None;
    if let Some(text) = call.header("content-range") {
        let (named, last) = content_range(text).ok_or_else(Fault::content_range)?;
        if len.map_or(false, |len| len != last - named + 1) {
            return Err(Fault::content_range());
        }
        (first, len) = (Some(named), Some(last - named + 1));
    }
    let start = match adding.length() {
        Some(length) if first.unwrap_or(length) == length => length,
        _ => call.registry.store.status(&call.repo, adding.upload.session).await??,
    };
    if first.unwrap_or(start) != start {
        return Err(Fault::out_of_order(start));
    }
    check_len(call, start, len)?;
    Ok(Place { start, len })
}

/// Fails if a chunk of `len` bytes at `start` would make the blob too long.
pub(super) fn check_len(call: &Call, start: u64, len: Option<u64>) -> Result<(), Fault> {
    let most = call.registry.max_blob;
    match start.checked_add(len.unwrap_or(0)) {
        Some(end) if end <= most => Ok(()),
        _ => Err(Fault::too_long(most)),
    }
}

/// Reads the content, and closes the session with its last piece.
///
/// If no slot is free, it waits for a sweep and tries once more. The store has refused the piece together with the close, so it
/// is sent again.
async fn take_and_close(
    call: &Call,
    adding: &mut AppendingRequest<'_>,
    place: Place,
    digest: &str,
    content: &mut RequestContent,
) -> Result<(), Fault> {
    let (start, rest) = take_all_but_last(call, adding, place, content).await?;
    adding.send();
    let Registry { store, loose, sweep_requests, .. } = &*call.registry;
    let _turn = loose.begin_link(&call.repo, digest).await;
    let close = || store.close(&call.repo, adding.upload.session, digest, start, &rest);
    let mut closed = close().await;
    if let Ok(Err(Refusal { reason: Reason::StoreFull, .. })) = closed {
        sweep_requests.wait(store.limit).await;
        closed = close().await;
    }
    loose.end_link(&call.repo, digest, &closed);
    match closed? {
        Err(Refusal { reason: Reason::LimitReached, .. }) => Err(full_share(call).await?),
        Err(refusal) => Err(refused_close(call, refusal, digest)),
        Ok(size) => {
            call.registry.damaged.remove(digest);
            call.registry.moves.note_blob(&call.repo, digest);
            call.registry.cached.unmark(&call.repo, digest);
            call.record_blob_push(digest, size).await
        }
    }
}

/// Returns the failure of a close that the store refused. Without memory or room for the content, it also refuses a digest by SHA-512 of a
/// content in a file, of which it has the hash by SHA-256 alone if it was started so.
fn refused_close(call: &Call, refusal: Refusal, digest: &str) -> Fault {
    let is_unhashed = refusal.reason == Reason::Memory && call.registry.hashes_once && digest.starts_with("sha512:");
    let fault = call.refused(refusal);
    match is_unhashed && fault.status() == StatusCode::SERVICE_UNAVAILABLE && !is_short() {
        true => Fault::unhashed(),
        false => fault,
    }
}

/// Returns the failure of a close for which the tenant has too many blobs.
async fn full_share(call: &Call) -> Result<Fault, Fault> {
    let SlotUse { blobs, share } = call.registry.store.slot_use(&call.repo).await??;
    Ok(Fault::full_share(tenant_of(&call.repo), share.unwrap_or(blobs)))
}

/// A task that appends pieces to a session.
struct AppendTask {
    limit: Duration,
    pieces: mpsc::Sender<Vec<Bytes>>,
    appended: JoinHandle<Answer<u64>>,
}

impl AppendTask {
    /// Starts a task that appends pieces to a session, from an offset on.
    fn begin(call: &Call, session: u32, start: u64) -> AppendTask {
        let (pieces, mut coming) = mpsc::channel(1);
        let (registry, repo) = (call.registry.clone(), call.repo.clone());
        let appended = tokio::spawn(async move { registry.store.append_all(&repo, session, start, &mut coming).await });
        AppendTask { limit: call.registry.store.limit, pieces, appended }
    }

    /// Waits until the task has room for a piece, or takes no more of them.
    async fn ready(&self) -> Result<(), StoreUnavailable> {
        // Only this task sends, so the room stays.
        timeout(self.limit, self.pieces.reserve()).await.map(drop).map_err(|_| StoreUnavailable)
    }

    /// Sends a piece after the task has room for it. Returns false if the task takes no more pieces because one failed.
    /// Fails if the store makes no room in time; the task still appends the pieces that were sent if the store continues.
    async fn send(&self, piece: Vec<Bytes>) -> Result<bool, StoreUnavailable> {
        let sent = timeout(self.limit, self.pieces.send(piece)).await;
        Ok(sent.map_err(|_| StoreUnavailable)?.is_ok())
    }

    /// Waits until all pieces are appended, and returns the number of bytes that the session has received.
    async fn end(self, call: &Call) -> Result<u64, Fault> {
        drop(self.pieces);
        let appended = timeout(self.limit, self.appended).await.map_err(|_| StoreUnavailable)?;
        appended.map_err(|_| StoreUnavailable)??.map_err(|refusal| call.refused(refusal))
    }
}

impl Place {
    /// Subtracts a piece from the remaining length. Fails if the piece is longer, or is the last and shorter.
    fn count(&mut self, piece: &Piece) -> Result<(), Fault> {
        let count = piece.parts.iter().map(|part| part.len() as u64).sum();
        if let Some(left) = self.len {
            self.len = Some(left.checked_sub(count).ok_or_else(Fault::content_range)?);
        }
        match (self.len, piece.then) {
            (Some(1..), Then::End) => Err(Fault::content_range()),
            _ => Ok(()),
        }
    }
}

/// Appends the content except its last piece, which it returns with its offset. Each piece has its offset, so that it fails
/// if another request has appended to the upload. The next pieces are read and sent while one is hashed: no piece is read before
/// there is room for it, so that one is sent and one waits or is read.
///
/// If the client disconnects, or the content is longer or shorter than its range, the upload keeps the bytes received,
/// except the last piece of such a range, and can be resumed.
async fn take_all_but_last(
    call: &Call,
    adding: &mut AppendingRequest<'_>,
    mut place: Place,
    content: &mut RequestContent,
) -> Result<(u64, Vec<Bytes>), Fault> {
    let mut sending: Option<AppendTask> = None;
    loop {
        if let Some(sending) = &sending {
            sending.ready().await?;
        }
        let piece = content.next().await;
        if !piece.parts.is_empty() {
            adding.upload.begin();
        }
        let counted = place.count(&piece);
        if counted.is_err() || piece.then == Then::End {
            let received = received(call, adding, sending, &place).await?;
            return counted.map(|()| (received, piece.parts));
        }
        if let Err(fault) = call.check_disk() {
            received(call, adding, sending, &place).await?;
            return Err(fault);
        }
        let is_taken = match piece.parts.is_empty() {
            true => true,
            false => {
                adding.send();
                let sending = sending.get_or_insert_with(|| AppendTask::begin(call, adding.upload.session, place.start));
                sending.send(piece.parts).await?
            }
        };
        if !is_taken || piece.then == Then::CutOff {
            received(call, adding, sending, &place).await?;
            return Err(if is_taken { Fault::cut_off() } else { StoreUnavailable.into() });
        }
    }
}

/// Waits until all sent pieces are appended, if any were sent. Returns the number of bytes that the upload has received.
async fn received(
    call: &Call,
    adding: &mut AppendingRequest<'_>,
    sending: Option<AppendTask>,
    place: &Place,
) -> Result<u64, Fault> {
    match sending {
        Some(sending) => {
            let received = sending.end(call).await?;
            adding.accepted(received);
            Ok(received)
        }
        None => Ok(place.start),
    }
}
