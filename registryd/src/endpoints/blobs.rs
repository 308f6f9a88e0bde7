//! Reading and deleting blobs.
use crate::endpoints::call::Call;
use crate::endpoints::transfer::{Pace, Span, Transfer, LEAST_HELD, PIECE_LEN};
use crate::folder::content_pieces::MAX_PIECE;
use crate::http::conditions::{check_match, entity_tag, has_content, is_range_wanted, not_modified};
use crate::http::content::HELD_LEN;
use crate::http::fault::Fault;
use crate::http::in_flight::Reserved;
use crate::http::ranges::{parts, requested_ranges, Part, RequestedRange, MAX_PLACE};
use crate::http::responses::{empty, with_body, HandlerResult};
use crate::store::calls::{FetchResult, LeasedBlob, MAX_FETCHED};
use crate::store::frames::{Reason, Refusal};
use hyper::{Body, StatusCode};
use std::collections::VecDeque;
use uuid::Uuid;

const OCTETS: (&str, &str) = ("Content-Type", "application/octet-stream");

/// Returns the headers of a response with `len` bytes of a blob.
pub(super) fn headers_of<'h>(digest: &'h str, tag: &'h str, len: &'h str) -> [(&'static str, &'h str); 5] {
    [OCTETS, ("Docker-Content-Digest", digest), ("ETag", tag), ("Accept-Ranges", "bytes"), ("Content-Length", len)]
}

/// end-2: returns the headers of a blob, with its length. One that was found damaged is taken for missing, so that a client that asks before
/// it pushes sends it again.
pub(super) async fn head(call: &Call, digest: &str) -> HandlerResult {
    call.registry.loose.ask(&call.repo, digest)?;
    let size = call.registry.store.stat(&call.repo, digest).await??;
    if call.registry.damaged.has(digest) {
        return Err(Refusal::of(Reason::BlobUnknown).into());
    }
    // A client that finds a blob does not push it before the manifest.
    call.registry.moves.note_blob(&call.repo, digest);
    check_match(call, Some(digest))?;
    if has_content(call, digest) {
        return not_modified(digest);
    }
    call.note_blob_pull(digest, size);
    let size = size.to_string();
    empty(StatusCode::OK, &headers_of(digest, &entity_tag(digest), &size))
}

/// end-2: returns a blob or a part of it.
pub(super) async fn get(call: &Call, digest: &str) -> HandlerResult {
    call.registry.loose.ask(&call.repo, digest)?;
    let matched = check_match(call, Some(digest));
    if matched.is_err() || has_content(call, digest) {
        call.registry.store.stat(&call.repo, digest).await??;
        matched?;
        return not_modified(digest);
    }
    let range = call.header("range").filter(|_| is_range_wanted(call, digest));
    match range.map_or_else(|| vec![RequestedRange::All], requested_ranges)[..] {
        [requested] => get_part(call, digest, requested).await,
        ref ranges => get_parts(call, digest, ranges).await,
    }
}

/// Returns a response with a blob or one part of it.
async fn get_part(call: &Call, digest: &str, requested: RequestedRange) -> HandlerResult {
    match fetch(call, digest, requested).await? {
        (FetchResult::LeasedBlob(leased), _) => get_leased(call, digest, requested, leased).await,
        (FetchResult::Piece { size, bytes }, reserved) => match Slice::of(requested, size) {
            Some(slice) => {
                call.registry.metrics.sent(bytes.len());
                slice.response(call, digest, bytes.into(), reserved)
            }
            None => unsatisfiable(size),
        },
    }
}

/// Fetches the requested bytes, with memory reserved for them. It leases the blob instead in three cases: the bytes are more
/// than a fetch returns, their place depends on the blob's size, or the tenant holds too much memory to reserve the longest
/// possible piece.
async fn fetch(call: &Call, digest: &str, requested: RequestedRange) -> Result<(FetchResult, Option<Reserved>), Fault> {
    let store = &call.registry.store;
    let asked = match requested {
        RequestedRange::All => Some((None, MAX_FETCHED)),
        RequestedRange::Between(start, last) => {
            let (start, last) = (start.min(MAX_PLACE), last.min(MAX_PLACE));
            Some((Some((start, last)), MAX_FETCHED.min(last - start + 1)))
        }
        RequestedRange::Last(_) => None,
    };
    let asked = asked.and_then(|(range, most)| Some((range, call.registry.memory.try_reserve(&call.holder(), most)?)));
    let (range, mut reserved) = match asked {
        Some(asked) => asked,
        None => return Ok((FetchResult::LeasedBlob(store.lease(&call.repo, digest).await??), None)),
    };
    let fetched = store.fetch(&call.repo, digest, range).await?;
    let fetched = call.registry.check_read(&call.repo, digest, fetched)?;
    if let FetchResult::Piece { bytes, .. } = &fetched {
        reserved.shrink(bytes.len() as u64);
        return Ok((fetched, Some(reserved)));
    }
    Ok((fetched, None))
}

/// Returns a response with the requested bytes of a leased blob. The lease is released after the last read, or if the client
/// disconnects.
async fn get_leased(call: &Call, digest: &str, requested: RequestedRange, leased: LeasedBlob) -> HandlerResult {
    let slice = match Slice::of(requested, leased.size) {
        Some(slice) => slice,
        None => {
            call.registry.store.give_back(leased.number).await??;
            return unsatisfiable(leased.size);
        }
    };
    let (start, end) = (slice.start, slice.end);
    let (least, most) = ((end - start).min(LEAST_HELD), slice.most_held());
    let reserved = match call.registry.memory.reserve_between(&call.holder(), least, most).await {
        Ok(reserved) => reserved,
        Err(fault) => {
            call.registry.store.give_back(leased.number).await??;
            return Err(fault);
        }
    };
    let has_most = reserved.bytes() == most;
    let body = match end - start {
        0..=PIECE_LEN if has_most => short_body(call, leased, digest, start, end).await?,
        _ => {
            let spans = [Span::Content(start, end)].into();
            Transfer::begin(call, leased, digest, spans, Pace::of(has_most)).await?
        }
    };
    slice.response(call, digest, body, Some(reserved))
}

/// Returns a response with several parts of a blob (RFC 9110, 14.6), or with one if the ranges have no two parts.
async fn get_parts(call: &Call, digest: &str, ranges: &[RequestedRange]) -> HandlerResult {
    let leased = call.registry.store.lease(&call.repo, digest).await??;
    let parts = match parts(ranges, leased.size) {
        Ok(parts) => parts,
        Err(requested) => return get_leased(call, digest, requested, leased).await,
    };
    let boundary = Uuid::new_v4().to_string();
    let size = leased.size;
    let spans = multipart(&parts, size, &boundary);
    let len: u64 = spans.iter().map(Span::len).sum();
    let (least, most) = (len.min(LEAST_HELD), len.min(HELD_LEN));
    let reserved = match call.registry.memory.reserve_between(&call.holder(), least, most).await {
        Ok(reserved) => reserved,
        Err(fault) => {
            call.registry.store.give_back(leased.number).await??;
            return Err(fault);
        }
    };
    let (tag, len, media_type) = (entity_tag(digest), len.to_string(), format!("multipart/byteranges; boundary={boundary}"));
    let mut headers = headers_of(digest, &tag, &len);
    headers[0] = ("Content-Type", &media_type);
    let body = Transfer::begin(call, leased, digest, spans, Pace::of(reserved.bytes() == most)).await?;
    let mut response = with_body(StatusCode::PARTIAL_CONTENT, &headers, body)?;
    response.extensions_mut().insert(reserved);
    call.note_blob_pull(digest, size);
    Ok(response)
}

/// Returns the content of a response with several parts of a blob of `size` bytes, each with its first and its last offset.
fn multipart(parts: &[(u64, u64)], size: u64, boundary: &str) -> VecDeque<Span> {
    let mut spans = VecDeque::with_capacity(2 * parts.len() + 1);
    for (start, last) in parts {
        let (name, media_type) = OCTETS;
        let head = format!("\r\n--{boundary}\r\n{name}: {media_type}\r\nContent-Range: bytes {start}-{last}/{size}\r\n\r\n");
        spans.push_back(Span::Text(head.into()));
        spans.push_back(Span::Content(*start, last + 1));
    }
    spans.push_back(Span::Text(format!("\r\n--{boundary}--\r\n").into()));
    spans
}

/// The bytes of a blob from `start` to `end` exclusive, and the status of the response that carries them.
pub(super) struct Slice {
    status: StatusCode,
    pub(super) start: u64,
    pub(super) end: u64,
    /// The blob's size.
    size: u64,
}

impl Slice {
    /// Returns the requested bytes of a blob of `size` bytes, or `None` if the range has no byte of it.
    pub(super) fn of(requested: RequestedRange, size: u64) -> Option<Slice> {
        match requested.part(size) {
            Part::All => Some(Slice { status: StatusCode::OK, start: 0, end: size, size }),
            Part::Some(start, last) => Some(Slice { status: StatusCode::PARTIAL_CONTENT, start, end: last + 1, size }),
            Part::Unsatisfiable => None,
        }
    }

    /// Returns the maximum number of bytes that a transfer of them holds. A part of a blob may be read with all of its first and its last
    /// piece.
    fn most_held(&self) -> u64 {
        match self.end - self.start {
            len @ 0..=PIECE_LEN => len,
            len if len == self.size => len.min(HELD_LEN),
            len => (len + 2 * MAX_PIECE).min(HELD_LEN),
        }
    }

    /// Returns the response with these bytes, and records the pull. It holds the reserved memory until they are sent.
    pub(super) fn response(&self, call: &Call, digest: &str, body: Body, reserved: Option<Reserved>) -> HandlerResult {
        let Slice { status, start, end, size } = *self;
        call.note_blob_pull(digest, size);
        let len = (end - start).to_string();
        let mut response = with_body(status, &headers_of(digest, &entity_tag(digest), &len), body)?;
        if let Some(reserved) = reserved {
            response.extensions_mut().insert(reserved);
        }
        if status == StatusCode::PARTIAL_CONTENT {
            let range = format!("bytes {start}-{}/{size}", end - 1);
            if let Ok(value) = range.parse() {
                response.headers_mut().insert("Content-Range", value);
            }
        }
        Ok(response)
    }
}

/// Returns the response to a range that has no byte of a blob of `size` bytes.
pub(super) fn unsatisfiable(size: u64) -> HandlerResult {
    empty(StatusCode::RANGE_NOT_SATISFIABLE, &[("Content-Range", &format!("bytes */{size}"))])
}

/// Reads the bytes of a leased blob from `start` to `end` exclusive, at most one piece, and releases the lease.
async fn short_body(call: &Call, leased: LeasedBlob, digest: &str, start: u64, end: u64) -> Result<Body, Fault> {
    let range = (start < end).then(|| (start, end - 1));
    let bytes = call.registry.store.read_last(leased.number, digest, range).await?;
    let bytes = call.registry.check_read(&call.repo, digest, bytes)?;
    call.registry.metrics.sent(bytes.len());
    Ok(Body::from(bytes))
}

/// end-10: removes a blob from a repository.
pub(super) async fn delete(call: &Call, digest: &str) -> HandlerResult {
    if let Err(fault) = check_match(call, Some(digest)) {
        call.registry.store.stat(&call.repo, digest).await??;
        return Err(fault);
    }
    let deleted = call.registry.store.delete(&call.repo, digest).await;
    call.registry.end_delete(&call.repo, &deleted).await;
    deleted??;
    call.registry.cached.unmark(&call.repo, digest);
    call.record_blob_delete(digest).await?;
    empty(StatusCode::ACCEPTED, &[])
}
