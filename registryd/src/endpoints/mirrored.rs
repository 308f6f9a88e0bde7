//! Reads of a tenant that is a mirror: what the store has is served as that of any tenant, and the rest while it comes.
use crate::endpoints::blobs::{headers_of, unsatisfiable, Slice};
use crate::endpoints::call::Call;
use crate::endpoints::transfer::LEAST_HELD;
use crate::endpoints::{blobs, manifests, tags};
use crate::http::conditions::{check_match, entity_tag, has_content, is_range_wanted, not_modified};
use crate::http::fault::Fault;
use crate::http::pages::{page_response, WantedPage};
use crate::http::ranges::{requested_ranges, RequestedRange};
use crate::http::responses::{empty, with_body, HandlerResult};
use crate::mirror::failure::UpstreamError;
use crate::mirror::manifests::{FetchedManifest, Found, Purpose};
use crate::mirror::mirrors::Mirror;
use crate::mirror::spool::{Head, Progress, Spool};
use crate::operation::metrics::Metrics;
use crate::store::frames::{Reason, Refusal};
use hyper::body::Sender;
use hyper::{Body, StatusCode};
use serde_json::json;
use std::sync::Arc;
use std::time::Duration;
use tokio::task::block_in_place;

/// The number of bytes for which a response waits before it begins. So a blob that is not longer fails with a status.
const AWAITED: u64 = 1 << 20;

/// The time for which it waits if the upstream is slow.
const BEGIN_TIME: Duration = Duration::from_secs(5);

/// The maximum length of a piece, and of those for a tenant that holds much memory.
const PIECE_LENS: (u64, u64) = (256 << 10, LEAST_HELD / 4);

/// The memory of a response, in bytes: the pieces that are read and that are sent.
const HELD: u64 = 4 * PIECE_LENS.0;

/// The time for which a client may take no byte of a piece.
const IDLE_TIME: Duration = Duration::from_secs(300);

/// How often the store is asked again for what was stored, or deleted to make room, meanwhile.
const LOOK_UPS: usize = 3;

/// Returns the failure of a request for a blob that the upstream does not have.
fn blob_unknown() -> Fault {
    Refusal::of(Reason::BlobUnknown).into()
}

/// end-3: returns a manifest, or its headers if `is_head`.
pub(super) async fn manifest(call: &Call, mirror: &Arc<Mirror>, reference: &str, is_head: bool) -> HandlerResult {
    let purpose = if is_head { Purpose::Look } else { Purpose::Pull };
    let mut result = Err(Fault::manifest_unknown());
    for _ in 0..LOOK_UPS {
        match mirror.find(&call.registry, &call.repo, reference, purpose).await? {
            Found::Passing(manifest) => return passing(call, &manifest, reference, is_head).await,
            Found::Stored if is_head => result = manifests::head(call, reference).await,
            Found::Stored => result = manifests::get(call, reference).await,
        }
        // It may have been deleted to make room after it was found.
        if !matches!(&result, Err(fault) if fault.is_unknown()) {
            break;
        }
    }
    result
}

/// Returns the manifest of a reference that is not stored, or its headers if `is_head`.
async fn passing(call: &Call, manifest: &FetchedManifest, reference: &str, is_head: bool) -> HandlerResult {
    let digest = manifest.digest.as_str();
    call.check_signed(reference, digest).await?;
    check_match(call, Some(digest))?;
    if has_content(call, digest) {
        return not_modified(digest);
    }
    let media_type = block_in_place(|| manifest.media_type())?;
    let size = manifest.content.len() as u64;
    call.note_manifest_pull((digest, &media_type, size), reference);
    let (tag, len) = (entity_tag(digest), size.to_string());
    let headers = [("Content-Type", &*media_type), ("Docker-Content-Digest", digest), ("ETag", &*tag), ("Content-Length", &*len)];
    if is_head {
        return empty(StatusCode::OK, &headers);
    }
    let reserved = call.reserve(size).await?;
    let mut response = with_body(StatusCode::OK, &headers, Body::from(manifest.content.clone()))?;
    response.extensions_mut().insert(reserved);
    Ok(response)
}

/// end-8: returns a page of the tags: those of the upstream, and those that were pushed here. If the upstream fails, it returns those
/// that are here.
pub(super) async fn tags(call: &Call, mirror: &Mirror) -> HandlerResult {
    let wanted = WantedPage::of(call.head.uri.query())?;
    let name = match mirror.upstream.address.name_of(&call.repo) {
        Some(name) => name,
        None => return tags::list(call).await,
    };
    let manifests = &call.registry.manifests;
    let (mut names, mut more) = match mirror.upstream.tags(&name, &wanted.last, wanted.most).await {
        Ok(found) => found,
        Err(_) => return tags::list(call).await,
    };
    if let Some(page) = manifests.page(&call.repo, &wanted.last, wanted.most) {
        let is_pushed = |tag: &String| {
            manifests.by_tag(&call.repo, tag).map_or(false, |named| !call.registry.cached.has(&call.repo, &named.digest))
        };
        names.extend(page.items.into_iter().filter(is_pushed));
        more |= page.more;
    }
    names.retain(|tag| *tag > wanted.last);
    names.sort_unstable();
    names.dedup();
    more |= names.len() > wanted.most;
    names.truncate(wanted.most);
    let last = names.last().filter(|_| more);
    let link = last.map(|last| wanted.next(&format!("/v2/{}/tags/list", call.repo), last, &[]));
    page_response(&json!({ "name": call.repo, "tags": names }), link)
}

/// end-2: returns the headers of a blob, with its length. Nothing is fetched for it.
pub(super) async fn blob_head(call: &Call, mirror: &Arc<Mirror>, digest: &str) -> HandlerResult {
    match blobs::head(call, digest).await {
        Err(fault) if fault.is_unknown() => {}
        here => return hit(call, mirror, digest, here),
    }
    let fetch = mirror.fetch_of(&call.repo, digest).map(|fetch| fetch.progress());
    let len = match fetch.and_then(|progress| progress.head) {
        Some(Head::Comes(Some(len))) => len,
        _ => {
            let name = mirror.upstream.address.name_of(&call.repo).ok_or_else(blob_unknown)?;
            let asked = mirror.upstream.blob_length(&name, digest).await;
            let unknown = || UpstreamError::Failed("it does not say how long a blob is".to_string());
            asked.and_then(|len| len.ok_or_else(unknown)).map_err(|error| error.into_fault(blob_unknown()))?
        }
    };
    mirror.upstream.counts.misses.inc();
    check_match(call, Some(digest))?;
    if has_content(call, digest) {
        return not_modified(digest);
    }
    call.note_blob_pull(digest, len);
    empty(StatusCode::OK, &headers_of(digest, &entity_tag(digest), &len.to_string()))
}

/// Notes that a request is served from the store, if it does not fail.
fn hit(call: &Call, mirror: &Mirror, digest: &str, result: HandlerResult) -> HandlerResult {
    if result.is_ok() {
        mirror.upstream.counts.hits.inc();
        call.registry.cached.touch(&call.repo, digest);
    }
    result
}

/// end-2: returns a blob or a part of it. One that the store does not have is fetched, once for all who ask for it.
pub(super) async fn blob(call: &Call, mirror: &Arc<Mirror>, digest: &str) -> HandlerResult {
    for _ in 0..LOOK_UPS {
        // One that was found damaged is fetched again.
        if !call.registry.damaged.has(digest) {
            match blobs::get(call, digest).await {
                Err(fault) if fault.is_unknown() => {}
                here => return hit(call, mirror, digest, here),
            }
        }
        let fetch = mirror.join_fetch(&call.registry, &call.repo, digest);
        let progress = begun(&fetch).await;
        match (progress.head, progress.outcome) {
            (Some(Head::IsStored), _) => {}
            (_, Some(Err(error))) => return Err(error.into_fault(blob_unknown())),
            (Some(Head::Comes(len)), _) => {
                mirror.upstream.counts.misses.inc();
                return coming(call, fetch, digest, len).await;
            }
            (None, _) => {}
        }
    }
    Err(Fault::unavailable("the blob was deleted while it was read"))
}

/// Waits until a response for a blob can begin.
async fn begun(fetch: &Spool) -> Progress {
    let is_begun = |progress: &Progress| match progress.head {
        Some(Head::Comes(_)) => progress.outcome.is_some() || progress.received >= AWAITED,
        Some(Head::IsStored) => true,
        None => progress.outcome.is_some(),
    };
    match tokio::time::timeout(BEGIN_TIME, fetch.wait(is_begun)).await {
        Ok(progress) => progress,
        Err(_) => fetch.wait(|progress| progress.head.is_some() || progress.outcome.is_some()).await,
    }
}

/// Returns a response with a blob or a part of it that is being fetched.
async fn coming(call: &Call, fetch: Arc<Spool>, digest: &str, len: Option<u64>) -> HandlerResult {
    check_match(call, Some(digest))?;
    if has_content(call, digest) {
        return not_modified(digest);
    }
    // The length may be known by now.
    let progress = fetch.progress();
    let len = len.or_else(|| matches!(progress.outcome, Some(Ok(()))).then_some(progress.received));
    let reserved = call.registry.memory.reserve_between(&call.holder(), LEAST_HELD, HELD).await?;
    let piece_len = if reserved.bytes() == HELD { PIECE_LENS.0 } else { PIECE_LENS.1 };
    let (sender, body) = Body::channel();
    let begin = |start: u64, end: Option<u64>| {
        let sending = Sending { fetch, start, end, piece_len, metrics: call.registry.metrics.clone() };
        tokio::spawn(sending.run(sender));
    };
    let mut response = match len {
        Some(len) => match Slice::of(requested(call, digest), len) {
            Some(slice) => {
                begin(slice.start, Some(slice.end));
                slice.response(call, digest, body, None)?
            }
            None => return unsatisfiable(len),
        },
        None => {
            begin(0, None);
            call.note_blob_pull(digest, None);
            let tag = entity_tag(digest);
            with_body(StatusCode::OK, &headers_of(digest, &tag, "")[..4], body)?
        }
    };
    response.extensions_mut().insert(reserved);
    Ok(response)
}

/// Returns the range of a request. All of the blob is served for several ranges (RFC 9110, 14.2).
fn requested(call: &Call, digest: &str) -> RequestedRange {
    let range = call.header("range").filter(|_| is_range_wanted(call, digest));
    match range.map_or_else(|| vec![RequestedRange::All], requested_ranges)[..] {
        [requested] => requested,
        _ => RequestedRange::All,
    }
}

/// A response that is sent while its blob comes.
struct Sending {
    fetch: Arc<Spool>,
    /// The place of the next byte.
    start: u64,
    /// The end of the response, or that of the blob.
    end: Option<u64>,
    piece_len: u64,
    metrics: Metrics,
}

impl Sending {
    /// Sends the bytes as they come, the last one after the digest was found to be right. If it is wrong, the response is cut.
    async fn run(mut self, mut sender: Sender) {
        if !self.send(&mut sender).await {
            sender.abort();
        }
    }

    /// Sends the bytes. Returns whether all were sent.
    async fn send(&mut self, sender: &mut Sender) -> bool {
        loop {
            let (start, end) = (self.start, self.end);
            let progress = self.fetch.wait(|progress| progress.sendable(end) > start || progress.outcome.is_some()).await;
            let sendable = progress.sendable(end);
            if sendable <= start {
                return matches!(progress.outcome, Some(Ok(())));
            }
            let stop = sendable.min(start + self.piece_len);
            let bytes = match block_in_place(|| self.fetch.read(start, stop)) {
                Ok(bytes) => bytes,
                Err(_) => return false,
            };
            let count = bytes.len();
            match tokio::time::timeout(IDLE_TIME, sender.send_data(bytes.into())).await {
                Ok(Ok(())) => self.metrics.sent(count),
                Ok(Err(_)) | Err(_) => return false,
            }
            self.start = stop;
        }
    }
}
