//! The list of repositories, an extension that many registries and clients have.
use crate::auth::access::Caller;
use crate::endpoints::registry::Registry;
use crate::http::pages::{page_response, WantedPage};
use crate::http::responses::HandlerResult;
use serde_json::json;

/// Returns a page of the repositories that have manifests and that the list shows to the caller.
pub(super) fn list(registry: &Registry, caller: &Caller, query: Option<&str>) -> HandlerResult {
    let wanted = WantedPage::of(query)?;
    let page = registry.manifests.repositories(&wanted.last, wanted.most, |repo: &str| caller.may_list(repo));
    let link = page.items.last().filter(|_| page.more).map(|last| wanted.next("/v2/_catalog", last, &[]));
    page_response(&json!({ "repositories": page.items }), link)
}
