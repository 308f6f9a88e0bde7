//! The list of the manifests without a tag.
use crate::endpoints::registry::Registry;
use crate::http::pages::{page_response, Page, WantedPage};
use crate::http::responses::HandlerResult;
use crate::metadata::clock;
use crate::metadata::manifest_lists::Untagged;
use serde_json::{json, Value};

/// Returns the position of a manifest in the list of all repositories' manifests.
fn position(untagged: &Untagged) -> String {
    format!("{}@{}", untagged.repo, untagged.digest)
}

/// Returns the description of a manifest for the list.
fn description(untagged: &Untagged) -> Value {
    let Untagged { repo, digest, media_type, size, since, held_by } = untagged;
    let since = clock::of_day(*since);
    json!({
        "repository": repo, "digest": digest, "mediaType": media_type, "size": size, "since": since, "heldBy": held_by
    })
}

/// Returns a page of the manifests without a tag, of all repositories.
pub(super) fn list(registry: &Registry, query: Option<&str>) -> HandlerResult {
    let wanted = WantedPage::of(query)?;
    let (last_repo, last_digest) = wanted.last.split_once('@').unwrap_or((&wanted.last, ""));
    let all = registry.manifests.names("", last_repo).flat_map(|name| {
        let last = if name == last_repo { last_digest } else { "" };
        registry.manifests.untagged((&name, last), wanted.most.saturating_add(1), |_| true).items
    });
    let page = Page::of(all, wanted.most);
    let link = page.items.last().filter(|_| page.more).map(|last| wanted.next("/untagged", &position(last), &[]));
    let items: Vec<Value> = page.items.iter().map(description).collect();
    page_response(&json!({ "untagged": items }), link)
}
