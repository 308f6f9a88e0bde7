//! What a mirror asks its upstream for: manifests, blobs, and lists of tags and repositories.
use crate::metadata::document;
use crate::mirror::client::{header, Upstream};
use crate::mirror::failure::UpstreamError;
use bytes::Bytes;
use hyper::header::{CONTENT_LENGTH, CONTENT_TYPE, LINK};
use hyper::{Body, Method, Response};
use serde::Deserialize;
use sha2::{Digest, Sha256};

/// The media types of manifests that a mirror takes.
const MANIFESTS: &str = "application/vnd.oci.image.index.v1+json, application/vnd.oci.image.manifest.v1+json, \
                         application/vnd.docker.distribution.manifest.list.v2+json, \
                         application/vnd.docker.distribution.manifest.v2+json";

/// A manifest that an upstream sent. Its content has its digest.
#[derive(Clone, Debug)]
pub(crate) struct FetchedManifest {
    pub(crate) digest: String,
    /// The header `Content-Type`, if there is one.
    pub(crate) content_type: Option<String>,
    pub(crate) content: Bytes,
}

/// A blob of which an upstream sends the content.
pub(super) struct FetchedBlob {
    pub(super) len: Option<u64>,
    pub(super) body: Body,
}

/// A page of a list, and the path of the next one.
pub(super) struct ListPage {
    pub(super) names: Vec<String>,
    pub(super) next: Option<String>,
}

/// The lists of an upstream. A repository without tags may have none.
#[derive(Deserialize)]
struct Lists {
    repositories: Option<Vec<String>>,
    tags: Option<Vec<String>>,
}

/// Returns the header `Docker-Content-Digest` of a response, if it has one by SHA-256.
fn digest_of(response: &Response<Body>) -> Option<String> {
    let text = header(response.headers(), "docker-content-digest")?;
    (text.starts_with("sha256:") && document::is_digest(text)).then(|| text.to_string())
}

/// Returns the length that a response has, if it has one header with it.
fn length_of(response: &Response<Body>) -> Option<u64> {
    header(response.headers(), CONTENT_LENGTH.as_str())?.parse().ok()
}

/// Returns the path of the next page of a list, by a header `Link` (RFC 8288).
fn next_of(text: &str) -> Option<String> {
    let (target, parameters) = text.trim().strip_prefix('<')?.split_once('>')?;
    let is_next = parameters.split(';').any(|one| matches!(one.trim(), "rel=next" | "rel=\"next\""));
    let path = match target.split_once("://") {
        Some((_, rest)) => &rest[rest.find('/')?..],
        None => target,
    };
    (is_next && path.starts_with("/v2/")).then(|| path.to_string())
}

/// Returns the path of a page of tags.
fn tags_path(name: &str, last: &str, most: usize) -> String {
    let mut query = form_urlencoded::Serializer::new(String::new());
    query.append_pair("n", &most.max(1).to_string());
    if !last.is_empty() {
        query.append_pair("last", last);
    }
    format!("/v2/{name}/tags/list?{}", query.finish())
}

impl Upstream {
    /// Returns a manifest. Its content has the digest of its reference, or of the response.
    pub(super) async fn manifest(&self, name: &str, reference: &str) -> Result<FetchedManifest, UpstreamError> {
        let path = format!("/v2/{name}/manifests/{reference}");
        let response = self.ask(&Method::GET, name, &path, MANIFESTS).await?;
        let told = digest_of(&response);
        let content_type = header(response.headers(), CONTENT_TYPE.as_str()).map(str::to_string);
        let content: Bytes = self.read_short(response.into_body()).await?.into();
        let digest = format!("sha256:{:x}", Sha256::digest(&content));
        let asked = Some(reference).filter(|reference| reference.contains(':'));
        if asked.or(told.as_deref()).map_or(false, |expected| expected != digest) {
            return Err(self.failed(UpstreamError::failed("a manifest has another digest than its own")));
        }
        Ok(FetchedManifest { digest, content_type, content })
    }

    /// Returns the digest of the manifest that a tag names, if the upstream says it without the content.
    pub(super) async fn digest_of_tag(&self, name: &str, tag: &str) -> Result<Option<String>, UpstreamError> {
        let path = format!("/v2/{name}/manifests/{tag}");
        Ok(digest_of(&self.ask(&Method::HEAD, name, &path, MANIFESTS).await?))
    }

    /// Returns the length of a blob, if the upstream says it.
    pub(crate) async fn blob_length(&self, name: &str, digest: &str) -> Result<Option<u64>, UpstreamError> {
        let path = format!("/v2/{name}/blobs/{digest}");
        Ok(length_of(&self.ask(&Method::HEAD, name, &path, "").await?))
    }

    /// Begins to fetch a blob.
    pub(super) async fn blob(&self, name: &str, digest: &str) -> Result<FetchedBlob, UpstreamError> {
        let path = format!("/v2/{name}/blobs/{digest}");
        let response = self.ask(&Method::GET, name, &path, "").await?;
        Ok(FetchedBlob { len: length_of(&response), body: response.into_body() })
    }

    /// Returns the tags of a repository after `last`, about `most` of them, and whether more follow. Some registries return all.
    pub(crate) async fn tags(&self, name: &str, last: &str, most: usize) -> Result<(Vec<String>, bool), UpstreamError> {
        let page = self.list(name, &tags_path(name, last, most)).await?;
        Ok((page.names, page.next.is_some()))
    }

    /// Returns a page of the tags of a repository, or of the repositories, by its path.
    pub(super) async fn list(&self, name: &str, path: &str) -> Result<ListPage, UpstreamError> {
        let response = self.ask(&Method::GET, name, path, "application/json").await?;
        let next = header(response.headers(), LINK.as_str()).and_then(next_of);
        let text = self.read_short(response.into_body()).await?;
        let wrong = |_| self.failed(UpstreamError::failed("a list is malformed"));
        let lists: Lists = serde_json::from_slice(&text).map_err(wrong)?;
        Ok(ListPage { names: lists.repositories.or(lists.tags).unwrap_or_default(), next })
    }
}

#[cfg(test)]
mod tests {
    use super::*;

    #[test]
    fn a_list_names_its_next_page() {
        for (text, next) in [
            ("</v2/_catalog?last=b&n=2>; rel=\"next\"", Some("/v2/_catalog?last=b&n=2")),
            ("<https://a:1/v2/x/tags/list?n=1>;rel=next", Some("/v2/x/tags/list?n=1")),
            ("</v2/_catalog>; rel=\"prev\"", None),
            ("</other>; rel=\"next\"", None),
            ("/v2/_catalog; rel=\"next\"", None),
            ("<https://a>; rel=next", None),
            ("", None),
        ] {
            assert_eq!(next_of(text).as_deref(), next, "{text}");
        }
    }

    #[test]
    fn a_digest_is_by_sha_256() {
        let of = |text: &str| digest_of(&Response::builder().header("Docker-Content-Digest", text).body(Body::empty()).unwrap());
        let digest = format!("sha256:{}", "0".repeat(64));
        assert_eq!(of(&digest), Some(digest));
        for text in ["sha256:0", "sha512:0", "", "x"] {
            assert_eq!(of(text), None, "{text}");
        }
    }
}
