//! The manifests that have a subject (OCI Distribution Specification 1.1, "Listing Referrers").
use crate::endpoints::call::Call;
use crate::http::content::MAX_MANIFEST;
use crate::http::fault::Fault;
use crate::http::pages::WantedPage;
use crate::http::responses::{with_body, HandlerResult};
use crate::metadata::document::{annotations, is_digest};
use crate::metadata::manifest_lists::Referrer;
use crate::metadata::media_type::INDEX_TYPE;
use crate::metadata::names::is_repository;
use crate::store::frames::{Reason, Refusal};
use hyper::body::HttpBody;
use hyper::{Body, StatusCode};
use serde_json::json;
use std::fmt::Write;

/// The maximum sum of the lengths of the manifests of a page, if they are several. A descriptor has the annotations of its
/// manifest, so this bounds the length of a page too.
const PAGE_BYTES: u64 = MAX_MANIFEST as u64 / 2;

/// The maximum length of a descriptor without its annotations, in bytes.
const DESCRIPTOR_LEN: u64 = 1 << 10;

/// end-12: returns a page of the manifests whose subject is a digest, as an image index.
pub(super) async fn list(call: &Call, subject: &str) -> HandlerResult {
    if !is_repository(&call.repo) {
        return Err(Refusal::of(Reason::NameInvalid).into());
    }
    if !is_digest(subject) {
        return Err(Refusal::of(Reason::DigestInvalid).into());
    }
    let wanted = WantedPage::of(call.head.uri.query())?;
    // A `+` that is not encoded is read as a space, which no media type has.
    let artifact_type = call.query("artifactType").filter(|text| !text.is_empty()).map(|text| text.replace(' ', "+"));
    let manifests = &call.registry.manifests;
    let most = (wanted.most, PAGE_BYTES);
    let page = manifests.referrers(&call.repo, subject, artifact_type.as_deref(), &wanted.last, most);
    let mut reserved = call.reserve(page_room(&page.items)).await?;
    let body = Body::from(index_of(call, &page.items).await?);
    let path = format!("/v2/{}/referrers/{subject}", call.repo);
    let filter: Vec<(&str, &str)> = artifact_type.iter().map(|text| ("artifactType", &**text)).collect();
    let last = page.items.last().filter(|_| page.more);
    let link = last.map(|last| wanted.next(&path, &last.digest, &filter));
    let mut headers = vec![("Content-Type", INDEX_TYPE)];
    headers.extend(link.as_deref().map(|link| ("Link", link)));
    headers.extend(artifact_type.as_ref().map(|_| ("OCI-Filters-Applied", "artifactType")));
    reserved.shrink(body.size_hint().lower());
    let mut answer = with_body(StatusCode::OK, &headers, body)?;
    answer.extensions_mut().insert(reserved);
    Ok(answer)
}

/// Returns the memory for a page: the text of each descriptor, and a manifest.
fn page_room(referrers: &[Referrer]) -> u64 {
    let room = referrers.iter().map(|referrer| 2 * referrer.size + DESCRIPTOR_LEN).sum::<u64>();
    room.clamp(DESCRIPTOR_LEN, MAX_MANIFEST as u64)
}

/// Returns the text of an image index with the descriptors of manifests. One that was deleted meanwhile is left out.
async fn index_of(call: &Call, referrers: &[Referrer]) -> Result<String, Fault> {
    let mut text = format!("{{\"schemaVersion\":2,\"mediaType\":\"{INDEX_TYPE}\",\"manifests\":[");
    let mut is_first = true;
    for referrer in referrers {
        let content = match call.registry.store.get_manifest(&call.repo, &referrer.digest).await? {
            Err(Refusal { reason: Reason::ManifestUnknown, .. }) => continue,
            content => content?,
        };
        if !std::mem::take(&mut is_first) {
            text.push(',');
        }
        tokio::task::block_in_place(|| describe(referrer, &content, &mut text));
    }
    text.push_str("]}\n");
    Ok(text)
}

/// Appends the descriptor of a manifest to a text, with the annotations of its content.
fn describe(referrer: &Referrer, content: &[u8], text: &mut String) {
    let Referrer { digest, media_type, artifact_type, size } = referrer;
    let mut descriptor = json!({ "mediaType": media_type, "digest": digest, "size": size });
    if let Some(artifact_type) = artifact_type {
        descriptor["artifactType"] = json!(artifact_type);
    }
    text.push_str(&descriptor.to_string());
    if let Some(annotations) = annotations(content) {
        text.pop();
        let _ = write!(text, ",\"annotations\":{annotations}}}");
    }
}

#[cfg(test)]
mod tests {
    use super::*;
    use serde_json::Value;

    #[test]
    fn a_descriptor_has_the_annotations_of_its_manifest() {
        let described = |artifact_type: Option<&str>, content: &str| {
            let (digest, media_type) = ("sha256:0".to_string(), "a/b".to_string());
            let referrer = Referrer { digest, media_type, artifact_type: artifact_type.map(str::to_string), size: 7 };
            let mut text = String::new();
            describe(&referrer, content.as_bytes(), &mut text);
            serde_json::from_str::<Value>(&text).unwrap()
        };
        let plain = json!({ "mediaType": "a/b", "digest": "sha256:0", "size": 7 });
        assert_eq!(described(None, "{}"), plain);
        let full = json!({
            "mediaType": "a/b", "digest": "sha256:0", "size": 7, "artifactType": "c/d", "annotations": { "e": "f" }
        });
        assert_eq!(described(Some("c/d"), r#"{"annotations":{"e":"f"}}"#), full);
    }
}
