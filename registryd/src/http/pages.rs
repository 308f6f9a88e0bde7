//! Pages of lists: which page a request asks for, and the link to the next one (OCI Distribution Specification 1.1, "Listing
//! Tags"; RFC 8288).
use crate::http::fault::Fault;
use crate::http::paths::query_value;
use crate::http::responses::{with_body, HandlerResult};
use hyper::{Body, StatusCode};
use serde_json::Value;

/// The maximum number of items of a page.
pub(crate) const MAX_PAGE: usize = 1000;

/// A page of a list.
#[derive(Debug, PartialEq, Eq)]
pub(crate) struct Page<T> {
    pub(crate) items: Vec<T>,
    /// Whether more items follow.
    pub(crate) more: bool,
}

impl<T> Page<T> {
    /// Returns the first items of a list, at most `most`.
    pub(crate) fn of(mut items: impl Iterator<Item = T>, most: usize) -> Page<T> {
        let first = items.by_ref().take(most).collect();
        Page { items: first, more: items.next().is_some() }
    }
}

/// The page that a request asks for by its query.
#[derive(Debug, PartialEq, Eq)]
pub(crate) struct WantedPage {
    /// The item after which the page begins. It need not exist.
    pub(crate) last: String,
    /// The maximum number of items.
    pub(crate) most: usize,
}

impl WantedPage {
    /// Returns the page that a query asks for by `n` and `last`. Fails if `n` is not a number.
    pub(crate) fn of(query: Option<&str>) -> Result<WantedPage, Fault> {
        let most = match query_value(query, "n") {
            None => MAX_PAGE,
            Some(text) => text.parse().map_err(|_| Fault::new(StatusCode::BAD_REQUEST, "UNSUPPORTED", "n must be a number"))?,
        };
        Ok(WantedPage { last: query_value(query, "last").unwrap_or_default(), most: most.min(MAX_PAGE) })
    }

    /// Returns the value of `Link` that names the page after `last`. `more` is the rest of its query.
    pub(crate) fn next(&self, path: &str, last: &str, more: &[(&str, &str)]) -> String {
        let mut query = form_urlencoded::Serializer::new(String::new());
        query.append_pair("n", &self.most.to_string()).append_pair("last", last).extend_pairs(more);
        format!("<{path}?{}>; rel=\"next\"", query.finish())
    }
}

/// Returns a response with a page as JSON. `link` names the next page, if there is one.
pub(crate) fn page_response(page: &Value, link: Option<String>) -> HandlerResult {
    let headers = [("Content-Type", "application/json"), ("Link", link.as_deref().unwrap_or_default())];
    let shown = if link.is_some() { 2 } else { 1 };
    with_body(StatusCode::OK, &headers[..shown], Body::from(page.to_string() + "\n"))
}

#[cfg(test)]
mod tests {
    use super::*;

    #[test]
    fn a_query_names_a_page() {
        let wanted = |query| WantedPage::of(query).ok().map(|page| (page.last, page.most));
        assert_eq!(wanted(None), Some((String::new(), MAX_PAGE)));
        assert_eq!(wanted(Some("n=2&last=a%2Fb")), Some(("a/b".to_string(), 2)));
        assert_eq!(wanted(Some("n=5000")), Some((String::new(), MAX_PAGE)));
        for query in ["n=", "n=-1", "n=x", "n=1.5"] {
            assert_eq!(wanted(Some(query)), None, "{query}");
        }
    }

    #[test]
    fn a_link_is_read_as_it_was_meant() {
        let page = WantedPage { last: String::new(), most: 2 };
        let link = page.next("/v2/a/tags/list", "v1", &[("artifactType", "a/b+c&d")]);
        assert_eq!(link, "</v2/a/tags/list?n=2&last=v1&artifactType=a%2Fb%2Bc%26d>; rel=\"next\"");
        let query = link.split(['?', '>']).nth(1);
        assert_eq!(query_value(query, "artifactType").as_deref(), Some("a/b+c&d"));
    }

    #[test]
    fn a_page_knows_whether_more_follow() {
        assert_eq!(Page::of(0..3, 2), Page { items: vec![0, 1], more: true });
        assert_eq!(Page::of(0..3, 3), Page { items: vec![0, 1, 2], more: false });
        assert_eq!(Page::of(0..3, 0), Page { items: vec![], more: true });
        assert_eq!(Page::of(0..0, 0), Page { items: vec![], more: false });
    }
}
