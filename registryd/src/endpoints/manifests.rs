//! Manifests: reads, pushes and deletes.
use crate::database::writer::WriteFailure;
use crate::endpoints::call::Call;
use crate::endpoints::registry::Registry;
use crate::events::event::Report;
use crate::events::reporter::Reporter;
use crate::http::conditions::{check_match, entity_tag, has_content, not_modified};
use crate::http::content::RequestContent;
use crate::http::fault::Fault;
use crate::http::responses::{empty, with_body, HandlerResult};
use crate::metadata::document;
use crate::metadata::document::{Document, Facts};
use crate::metadata::limits::Limit;
use crate::metadata::media_type::{check_inert, media_type_of, MediaType};
use crate::metadata::names::{is_tag, tenant_of};
use crate::metadata::repository::{Kept, NamedManifest, Removal};
use crate::metadata::turns::Turn;
use crate::store::client::StoreUnavailable;
use crate::store::frames::{Reason, Refusal};
use bytes::Bytes;
use hyper::header::IF_MATCH;
use hyper::{Body, StatusCode};
use sha2::{Digest, Sha256};
use std::future::Future;

/// The maximum number of look-ups of a reference before the client is asked to retry.
const LOOK_UPS: usize = 8;

/// Returns whether a reference is a digest and not a tag.
pub(crate) fn is_digest(reference: &str) -> bool {
    reference.contains(':')
}

/// Finds the manifest of a reference.
async fn look_up(call: &Call, reference: &str) -> Result<NamedManifest, Fault> {
    let manifests = &call.registry.manifests;
    if !is_digest(reference) {
        let unknown = || if call.has_tenant() { Fault::manifest_unknown() } else { Fault::tenant_unknown(&call.repo) };
        return manifests.by_tag(&call.repo, reference).ok_or_else(unknown);
    }
    if let Some(named) = manifests.by_digest(&call.repo, reference) {
        manifests.touch(&call.repo, reference);
        return Ok(named);
    }
    // The store checks the name and the digest. A manifest that it has is being put or deleted at this moment, or it was put
    // when the program or the machine stopped.
    let size = call.registry.store.stat_manifest(&call.repo, reference).await??;
    if !manifests.is_kept() || manifests.is_known(&call.repo, reference) {
        return Err(Fault::manifest_unknown());
    }
    adopt(call, reference, size).await
}

/// Adds a manifest of `size` bytes that the store has and the table has not: the program stopped before it was added. Its
/// media type is that of its content.
async fn adopt(call: &Call, digest: &str, size: u64) -> Result<NamedManifest, Fault> {
    let manifests = &call.registry.manifests;
    let _reserved = call.reserve(size).await?;
    let _turn = call.registry.turns.take(&call.repo, digest).await;
    if !manifests.is_known(&call.repo, digest) {
        let content = [call.registry.store.get_manifest(&call.repo, digest).await??];
        let facts = tokio::task::block_in_place(|| facts_of_stored(&content)).ok_or_else(Fault::manifest_unknown)?;
        match manifests.put(&call.repo, digest, facts.clone(), None, None).await {
            // It is added by a later request.
            Err(WriteFailure::NoRoom) => {
                return Ok(NamedManifest { digest: digest.to_string(), media_type: facts.media_type, size });
            }
            added => added?,
        }
        call.registry.repositories.add(&call.repo);
        tracing::info!(repo = %call.repo, digest, "found a manifest whose push was interrupted");
    }
    manifests.by_digest(&call.repo, digest).ok_or_else(Fault::manifest_unknown)
}

/// Returns the facts of a manifest that the store has, by its content alone.
fn facts_of_stored(content: &[Bytes]) -> Option<Facts> {
    let document = document::read(content).ok()?;
    let media_type = media_type_of(None, &document).ok()?.text;
    Some(document.facts_of_stored(media_type, size_of(content)))
}

/// Finds the manifest of a reference, and asks the store about it. Fails if it is a tag whose image lacks a signature. The manifest may
/// be deleted after the look-up while its tag moves to another one. Then the reference is looked up again.
async fn read<T, A>(call: &Call, reference: &str, ask: impl Fn(NamedManifest) -> A) -> Result<(NamedManifest, T), Fault>
where
    A: Future<Output = Result<Result<T, Refusal>, Fault>>,
{
    for _ in 0..LOOK_UPS {
        let named = look_up(call, reference).await?;
        call.check_signed(reference, &named.digest).await?;
        match ask(named.clone()).await? {
            Err(Refusal { reason: Reason::ManifestUnknown, .. }) => {}
            answer => return Ok((named, answer?)),
        }
    }
    Err(Fault::tag_changing())
}

/// Notes that a client pulled a tag, if rules may ask when that was. A client that asks for the head alone may have the manifest.
fn note_pull(call: &Call, reference: &str) {
    if call.registry.pulls_since.is_some() && !is_digest(reference) {
        call.registry.manifests.pull(&call.repo, reference);
    }
}

/// Checks the conditions of a request for a manifest, and notes the pull. Returns whether the client has the manifest already.
fn is_known(call: &Call, reference: &str, named: &NamedManifest) -> Result<bool, Fault> {
    check_match(call, Some(&named.digest))?;
    note_pull(call, reference);
    if has_content(call, &named.digest) {
        return Ok(true);
    }
    call.note_manifest_pull((&named.digest, &named.media_type, named.size), reference);
    Ok(false)
}

/// end-3: returns a manifest. The response holds memory for its content until it is sent.
pub(super) async fn get(call: &Call, reference: &str) -> HandlerResult {
    let ask = |named: NamedManifest| async move {
        let reserved = call.reserve(named.size).await?;
        let content = call.registry.store.get_manifest(&call.repo, &named.digest).await?;
        Ok(content.map(|bytes| (bytes, reserved)))
    };
    let (named, (bytes, reserved)) = read(call, reference, ask).await?;
    if is_known(call, reference, &named)? {
        return not_modified(&named.digest);
    }
    let NamedManifest { digest, media_type, .. } = named;
    let headers = [("Content-Type", &*media_type), ("Docker-Content-Digest", &*digest), ("ETag", &*entity_tag(&digest))];
    let mut response = with_body(StatusCode::OK, &headers, Body::from(bytes))?;
    response.extensions_mut().insert(reserved);
    Ok(response)
}

/// end-3: returns the headers of a manifest, with its length.
pub(super) async fn head(call: &Call, reference: &str) -> HandlerResult {
    let ask = |named: NamedManifest| async move { Ok(call.registry.store.stat_manifest(&call.repo, &named.digest).await?) };
    let (named, size) = read(call, reference, ask).await?;
    if is_known(call, reference, &named)? {
        return not_modified(&named.digest);
    }
    let NamedManifest { digest, media_type, .. } = named;
    let (size, tag) = (size.to_string(), entity_tag(&digest));
    let headers =
        [("Content-Type", &*media_type), ("Docker-Content-Digest", &*digest), ("ETag", &*tag), ("Content-Length", &*size)];
    empty(StatusCode::OK, &headers)
}

/// end-7: puts a manifest under a tag or by its digest.
pub(super) async fn put(call: &Call, reference: &str, content: &mut RequestContent) -> HandlerResult {
    if !is_digest(reference) && !is_tag(reference) {
        return Err(Fault::manifest_invalid("the reference is neither a tag nor a digest"));
    }
    let (manifests, bounds) = (&call.registry.manifests, &call.registry.bounds_of(&call.repo));
    let exceeds = |excess| Fault::bound(excess, tenant_of(&call.repo));
    manifests.check_push(&call.repo, reference, content.len, bounds).map_err(exceeds)?;
    let bytes = content.manifest().await?;
    // Parsing a long manifest takes long, so it runs in a blocking thread.
    let (digest, document) = tokio::task::block_in_place(|| (digest_of(&bytes), document::read(&bytes)));
    if is_digest(reference) {
        check_digest(&digest, reference)?;
    }
    let document = document?;
    let given = media_type_of(call.header("content-type"), &document)?;
    check_inert(&given.text)?;
    let tag = Some(reference).filter(|reference| !is_digest(reference));
    let condition = match tag {
        Some(tag) => turn_of_tag(call, tag, &digest).await?,
        None => check_match(call, current(call, reference).as_deref()).map(|()| None)?,
    };
    let new = NewManifest { digest: &digest, document, given, content: &bytes };
    let report = |facts: &Facts| call.manifest_push(&digest, &facts.media_type, facts.size, tag);
    let stored = store(&call.registry, &call.repo, new, tag, report).await?;
    call.registry.cached.unmark(&call.repo, &digest);
    drop(condition);
    accepted(call, &digest, &stored)
}

/// A manifest that is going to be stored.
pub(crate) struct NewManifest<'m> {
    pub(crate) digest: &'m str,
    pub(crate) document: Document,
    pub(crate) given: MediaType,
    pub(crate) content: &'m [Bytes],
}

/// What a manifest names that was stored.
pub(crate) struct StoredManifest {
    subject: Option<String>,
    /// The number of the manifests that it lists and that the repository does not have.
    missing: usize,
}

/// Stores a manifest in its turn, under a tag if there is one, and records its events. Its blobs have to be in the repository.
pub(crate) async fn store(
    registry: &Registry,
    repo: &str,
    new: NewManifest<'_>,
    tag: Option<&str>,
    report: impl FnOnce(&Facts) -> Option<Report>,
) -> Result<StoredManifest, Fault> {
    let NewManifest { digest, document, given, content } = new;
    let manifests = &registry.manifests;
    let turn = registry.turns.take(repo, digest).await;
    let facts = facts_to_store(registry, repo, digest, document, given, size_of(content))?;
    let room = manifests.reserve(repo, (digest, facts.size), tag, &registry.bounds_of(repo));
    let room = room.map_err(|excess| Fault::bound(excess, tenant_of(repo)))?;
    let changing = registry.repositories.begin_change(repo);
    registry.check_limit(repo, registry.store.put_manifest(repo, content).await?, Limit::Manifests)?;
    let stored = StoredManifest { subject: facts.subject.clone(), missing: manifests.count_missing(repo, &facts.lists) };
    let report = report(&facts);
    manifests.put(repo, digest, facts, tag, report).await?;
    drop(room);
    // With a database, the repository is recorded there from now on.
    registry.repositories.add(repo);
    drop((changing, turn));
    Ok(stored)
}

/// Returns the digest of the manifest that a reference names now.
fn current(call: &Call, reference: &str) -> Option<String> {
    let manifests = &call.registry.manifests;
    let named =
        if is_digest(reference) { manifests.by_digest(&call.repo, reference) } else { manifests.by_tag(&call.repo, reference) };
    named.map(|named| named.digest)
}

/// Checks that a push may put a manifest under a tag: by its header `If-Match`, and by the immutable tags. Pushes to one tag take turns if
/// they have the header or if there are immutable tags, so that each checks what the last one put. Others do not wait.
async fn turn_of_tag<'c>(call: &'c Call, tag: &str, digest: &str) -> Result<Option<Turn<'c>>, Fault> {
    let Registry { turns, immutable_tags, .. } = &*call.registry;
    let has_turn = call.head.headers.contains_key(IF_MATCH) || immutable_tags.is_some();
    let turn = if has_turn { Some(turns.take(&call.repo, tag).await) } else { None };
    let named = current(call, tag);
    check_match(call, named.as_deref())?;
    match named {
        Some(named) if named != digest && call.registry.is_immutable(&call.repo, tag) => Err(immutable(call, tag, &named)),
        _ => Ok(turn),
    }
}

/// Counts a request that is refused because an immutable tag names the manifest with a digest, and returns its failure.
fn immutable(call: &Call, tag: &str, digest: &str) -> Fault {
    if let Some(tags) = &call.registry.immutable_tags {
        tags.refusals.inc();
    }
    Fault::immutable(tag, digest)
}

/// Returns the response to a manifest that was put.
fn accepted(call: &Call, digest: &str, stored: &StoredManifest) -> HandlerResult {
    let StoredManifest { subject, missing } = stored;
    let location = format!("/v2/{}/manifests/{digest}", call.repo);
    let mut headers = vec![("Location", &*location), ("Docker-Content-Digest", digest)];
    headers.extend(subject.iter().map(|subject| ("OCI-Subject", subject.as_str())));
    let sparse = warning(&format!("the repository lacks {missing} of the manifests that the index lists"));
    if *missing > 0 {
        headers.push(("Warning", &sparse));
    }
    let volatile = warning("the registry keeps this in memory: it is lost when the registry ends");
    if !call.registry.manifests.is_kept() {
        headers.push(("Warning", &volatile));
    }
    empty(StatusCode::CREATED, &headers)
}

/// Returns the value of a header `Warning` (OCI Distribution Specification 1.1, "Warnings").
fn warning(text: &str) -> String {
    format!("299 - \"{text}\"")
}

/// Returns the length of a manifest, in bytes.
fn size_of(parts: &[Bytes]) -> u64 {
    parts.iter().map(|part| part.len() as u64).sum()
}

/// Returns the digest by which the store stores a manifest.
fn digest_of(parts: &[Bytes]) -> String {
    let mut hash = Sha256::new();
    for part in parts {
        hash.update(part);
    }
    format!("sha256:{:x}", hash.finalize())
}

/// Fails if the reference is a digest other than the manifest's. The store uses only SHA-256 for manifests.
fn check_digest(digest: &str, reference: &str) -> Result<(), Fault> {
    let fault = |message| Err(Fault::new(StatusCode::BAD_REQUEST, "DIGEST_INVALID", message));
    if !reference.starts_with("sha256:") {
        return fault("manifests are stored by sha256 only");
    }
    if digest != reference {
        return fault("the digest differs from the manifest's");
    }
    Ok(())
}

/// Returns the facts of a manifest. Its media type is the stored one if the repository already has the manifest, and else the
/// given one. Fails if they differ.
fn facts_to_store(
    registry: &Registry,
    repo: &str,
    digest: &str,
    document: Document,
    given: MediaType,
    size: u64,
) -> Result<Facts, Fault> {
    let media_type = match registry.manifests.by_digest(repo, digest) {
        Some(stored) if given.is_given && !stored.media_type.eq_ignore_ascii_case(&given.text) => {
            let message = format!("the repository has the manifest with media type {}, not {}", stored.media_type, given.text);
            return Err(Fault::manifest_invalid(message));
        }
        Some(stored) => stored.media_type,
        None => given.text,
    };
    document.facts(media_type, size)
}

/// end-9: deletes a manifest and its tags, or one tag.
pub(super) async fn delete(call: &Call, reference: &str) -> HandlerResult {
    if let Some(digest) = current(call, reference) {
        check_match(call, Some(&digest))?;
    }
    if is_digest(reference) {
        match delete_manifest(&call.registry, &call.repo, reference, call.registry.asked_removal, call.reporter()).await? {
            Err(Kept::ListedBy(index)) => {
                call.registry.store.stat_manifest(&call.repo, reference).await??;
                return Err(Fault::listed(&index));
            }
            Err(Kept::NamedBy(tag)) => return Err(immutable(call, &tag, reference)),
            Ok(()) | Err(Kept::Held) => {}
        }
    } else {
        delete_tag(call, reference).await?;
    }
    empty(StatusCode::ACCEPTED, &[])
}

/// Deletes a tag. With immutable tags, it waits for the other writers of the tag.
async fn delete_tag(call: &Call, tag: &str) -> Result<(), Fault> {
    let Registry { manifests, turns, immutable_tags, .. } = &*call.registry;
    let _turn = if immutable_tags.is_some() { Some(turns.take(&call.repo, tag).await) } else { None };
    if let Some(digest) = current(call, tag).filter(|_| call.registry.is_immutable(&call.repo, tag)) {
        return Err(immutable(call, tag, &digest));
    }
    let report = call.reporter().and_then(|reporter| reporter.deleted(&call.repo, None, Some(tag)));
    match manifests.remove_tag(&call.repo, tag, report).await? {
        true => Ok(()),
        false => Err(Fault::manifest_unknown()),
    }
}

/// Deletes a manifest and its tags. They are hidden from now on, and are shown again if the store does not delete it. Nothing
/// is deleted if the manifest is to be kept. The repository is removed if it is empty then.
pub(crate) async fn delete_manifest(
    registry: &Registry,
    repo: &str,
    digest: &str,
    removal: Removal,
    reporter: Option<Reporter>,
) -> Result<Result<(), Kept>, Fault> {
    let Registry { store, manifests, turns, .. } = registry;
    let turn = turns.take(repo, digest).await;
    if let Some(tag) = manifests.find_tag_of(repo, digest, |tag| registry.is_immutable(repo, tag)) {
        return Ok(Err(Kept::NamedBy(tag)));
    }
    let blobs = registry.blobs_to_loosen(repo, digest).await?;
    let mut report = reporter.as_ref().and_then(|reporter| reporter.deleted_manifest(repo, digest));
    let removed = match manifests.begin_removal(repo, digest, removal, &mut report).await? {
        Ok(removed) => removed,
        Err(kept) => return Ok(Err(kept)),
    };
    let deleted = store.delete_manifest(repo, digest).await;
    match &deleted {
        Ok(Ok(())) => {
            manifests.finish_removal(repo, digest, report).await?;
            registry.cached.unmark(repo, digest);
            registry.loosen(repo, &blobs);
        }
        Ok(Err(Refusal { reason: Reason::ManifestUnknown, .. })) => manifests.finish_removal(repo, digest, None).await?,
        Ok(Err(_)) => {
            let of = |facts: &Facts| reporter.as_ref()?.restored(repo, (digest, &*facts.media_type, facts.size));
            manifests.undo_removal(repo, digest, removed, of).await?;
        }
        Err(StoreUnavailable) => {}
    }
    drop(turn);
    registry.end_delete(repo, &deleted).await;
    Ok(Ok(deleted??))
}
