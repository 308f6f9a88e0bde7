//! Conditional requests (RFC 9110, 13). The digest of the content is its entity tag.
use crate::endpoints::call::Call;
use crate::http::fault::Fault;
use crate::http::responses::{empty, HandlerResult};
use hyper::header::{HeaderMap, IF_MATCH, IF_NONE_MATCH, IF_RANGE};
use hyper::StatusCode;

/// Returns the strong entity tag of the content with a digest (RFC 9110, 8.8.3).
pub(crate) fn entity_tag(digest: &str) -> String {
    format!("\"{digest}\"")
}

/// Returns whether the client already has the content, by its header `If-None-Match`.
pub(crate) fn has_content(call: &Call, digest: &str) -> bool {
    is_listed(&call.head.headers, digest)
}

/// Returns the response to a client that already has the content.
pub(crate) fn not_modified(digest: &str) -> HandlerResult {
    empty(StatusCode::NOT_MODIFIED, &[("ETag", &entity_tag(digest)), ("Docker-Content-Digest", digest)])
}

/// Checks the header `If-Match`, if there is one: it is `*`, or lists the entity tag of the content by strong comparison (RFC 9110,
/// 13.1.1). There is no content if `digest` is missing.
///
/// # Errors
///
/// Fails if the header names other content only.
pub(crate) fn check_match(call: &Call, digest: Option<&str>) -> Result<(), Fault> {
    match is_matched(&call.head.headers, digest) {
        true => Ok(()),
        false => Err(Fault::new(StatusCode::PRECONDITION_FAILED, "DENIED", "the content is not that of If-Match")),
    }
}

fn is_matched(headers: &HeaderMap, digest: Option<&str>) -> bool {
    let tag = digest.map(entity_tag);
    let is_it = |text: &str| tag.as_deref().map_or(false, |tag| text.trim() == "*" || text.trim() == tag);
    let mut lists = headers.get_all(IF_MATCH).iter();
    !headers.contains_key(IF_MATCH) || lists.any(|list| list.to_str().map_or(false, |list| list.split(',').any(is_it)))
}

/// Returns whether a header `Range` applies: it does unless `If-Range` names other content (RFC 9110, 13.1.5).
pub(crate) fn is_range_wanted(call: &Call, digest: &str) -> bool {
    call.head.headers.get(IF_RANGE).map_or(true, |tag| tag.as_bytes() == entity_tag(digest).as_bytes())
}

/// Returns whether `If-None-Match` lists the tag by weak comparison, or is `*` (RFC 9110, 13.1.2). A digest without quotes
/// is accepted too, as by other registries.
fn is_listed(headers: &HeaderMap, digest: &str) -> bool {
    let is_it = |text: &str| {
        let text = text.trim();
        let tag = text.strip_prefix("W/").unwrap_or(text);
        tag == "*" || tag == digest || tag == entity_tag(digest)
    };
    let mut lists = headers.get_all(IF_NONE_MATCH).iter().filter_map(|list| list.to_str().ok());
    lists.any(|list| list.split(',').any(is_it))
}

#[cfg(test)]
mod tests {
    use super::*;

    #[test]
    fn a_tag_is_matched_by_strong_comparison() {
        let is_in = |list: &str, digest| is_matched(&[(IF_MATCH, list.parse().unwrap())].into_iter().collect(), digest);
        for list in ["\"sha256:0\"", "*", "\"x\", \"sha256:0\""] {
            assert!(is_in(list, Some("sha256:0")) && !is_in(list, None), "{list}");
        }
        for list in ["\"x\"", "W/\"sha256:0\"", "sha256:0", "", "\"sha256:00\""] {
            assert!(!is_in(list, Some("sha256:0")), "{list}");
        }
        assert!(is_matched(&HeaderMap::new(), None));
    }

    #[test]
    fn a_tag_is_found_in_a_list() {
        let is_in = |lists: &[&str]| {
            let mut headers = HeaderMap::new();
            for list in lists {
                headers.append(IF_NONE_MATCH, list.parse().unwrap());
            }
            is_listed(&headers, "sha256:0")
        };
        for lists in [&["\"sha256:0\""][..], &["\"x\", W/\"sha256:0\""], &["\"x\"", "\"sha256:0\""], &["*"], &["sha256:0"]] {
            assert!(is_in(lists), "{lists:?}");
        }
        for lists in [&[][..], &["\"sha256:1\""], &["\"sha256:0"], &["\"sha256:00\""], &[""]] {
            assert!(!is_in(lists), "{lists:?}");
        }
    }
}
