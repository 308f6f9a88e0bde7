//! What a browser may do with a response: the content of users is no page of the registry's origin.
use hyper::header::{HeaderValue, CONTENT_SECURITY_POLICY, X_CONTENT_TYPE_OPTIONS};
use hyper::{Body, Response};

/// The policy of each response but the pages: a document has an origin of its own, runs no script, and loads nothing (Content
/// Security Policy Level 3, 6.3.2).
const POLICY: &str = "default-src 'none'; sandbox";

/// Adds the headers by which a browser takes a response as its type alone, and runs nothing that is in it. The pages have
/// policies of their own, which stay.
pub(crate) fn restrict(mut response: Response<Body>) -> Response<Body> {
    let headers = response.headers_mut();
    headers.insert(X_CONTENT_TYPE_OPTIONS, HeaderValue::from_static("nosniff"));
    headers.entry(CONTENT_SECURITY_POLICY).or_insert(HeaderValue::from_static(POLICY));
    response
}

#[cfg(test)]
mod tests {
    use super::*;

    #[test]
    fn a_policy_is_added_and_none_is_replaced() {
        let policy = |response: Response<Body>| response.headers()[CONTENT_SECURITY_POLICY].to_str().unwrap().to_string();
        assert_eq!(policy(restrict(Response::new(Body::empty()))), POLICY);
        let own = Response::builder().header(CONTENT_SECURITY_POLICY, "script-src 'self'").body(Body::empty()).unwrap();
        let restricted = restrict(own);
        assert_eq!(restricted.headers()[X_CONTENT_TYPE_OPTIONS], "nosniff");
        assert_eq!(policy(restricted), "script-src 'self'");
    }
}
