//! The list of the tags of a repository.
use crate::endpoints::call::Call;
use crate::http::fault::Fault;
use crate::http::pages::{page_response, WantedPage};
use crate::http::responses::HandlerResult;
use hyper::StatusCode;
use serde_json::json;

/// end-8: returns a page of the tags.
pub(super) async fn list(call: &Call) -> HandlerResult {
    let wanted = WantedPage::of(call.head.uri.query())?;
    let page = call.registry.manifests.page(&call.repo, &wanted.last, wanted.most);
    let unknown = || Fault::new(StatusCode::NOT_FOUND, "NAME_UNKNOWN", "the repository has no manifests");
    let page = page.ok_or_else(|| if call.has_tenant() { unknown() } else { Fault::tenant_unknown(&call.repo) })?;
    let last = page.items.last().filter(|_| page.more);
    let link = last.map(|last| wanted.next(&format!("/v2/{}/tags/list", call.repo), last, &[]));
    page_response(&json!({ "name": call.repo, "tags": page.items }), link)
}
