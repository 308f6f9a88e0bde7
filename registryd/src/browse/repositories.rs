//! The repositories of a tenant.
use crate::browse::html::{html, Html};
use crate::browse::layout::{filter, link, pager, table, Document};
use crate::browse::places::Place;
use crate::browse::shown::count;
use crate::browse::visit::{unseen, Visit};
use crate::http::fault::Fault;
use crate::http::pages::Page;
use crate::metadata::manifest_lists::RepositoryRow;
use crate::metadata::names::tenant_of;

/// The number of repositories of a page.
const MOST: usize = 50;

fn row(repo: &RepositoryRow) -> Vec<Html> {
    let name = link(Place::Repository(&repo.name), html!("{}", repo.name));
    vec![name, html!("{}", count(repo.tags, "tag")), html!("{}", count(repo.manifests, "manifest"))]
}

/// Returns what the names of a tenant's repositories begin with, if a person writes this. A repository may have the name of its tenant.
fn beginning(tenant: &str, prefix: &str) -> String {
    let is_whole = prefix.is_empty() || prefix == tenant || prefix.starts_with(&format!("{tenant}/"));
    match (is_whole, prefix.is_empty()) {
        (true, true) => tenant.to_string(),
        (true, false) => prefix.to_string(),
        (false, _) => format!("{tenant}/{prefix}"),
    }
}

/// Makes the list of the repositories of a tenant that the sender may see.
///
/// # Errors
///
/// Fails if there is no such tenant, or the sender may read nothing of it.
pub(super) fn page(visit: &Visit, tenant: &str) -> Result<Document, Fault> {
    if !visit.registry.tenants.has(tenant) || !visit.caller.may_read_some_of(tenant) {
        return Err(unseen());
    }
    let (prefix, last) = (visit.query("prefix"), visit.query("last"));
    let begin = beginning(tenant, &prefix);
    let may_list = |repo: &str| tenant_of(repo) == tenant && visit.may_see(repo);
    let Page { items, more } = visit.registry.manifests.repository_rows(&begin, &last, MOST, may_list);
    let place = Place::Tenant(tenant);
    let next = items.last().filter(|_| more).map(|row| place.with(&[("prefix", &prefix), ("last", &row.name)]));
    let list = match items.is_empty() {
        true if prefix.is_empty() => html!("<p class=\"empty\">This tenant has no repository that you may see.</p>"),
        true => html!("<p class=\"empty\">No repository begins with {}.</p>", begin),
        false => table("Repositories", &["Repository", "Tags", "Manifests"], items.iter().map(row)),
    };
    let first = if prefix.is_empty() { place.to_string() } else { place.with(&[("prefix", &prefix)]) };
    let body = html!("{}{}{}", filter(&place, "Names that begin with", &prefix), list, pager(last.is_empty(), &first, next));
    let trail = vec![("Tenants".to_string(), Place::Tenants.to_string())];
    Ok(Document { title: tenant.to_string(), trail, body })
}

#[cfg(test)]
mod tests {
    use super::*;

    #[test]
    fn a_prefix_is_one_of_the_tenant() {
        for (prefix, expected) in
            [("", "acme"), ("acme", "acme"), ("acme/we", "acme/we"), ("we", "acme/we"), ("acmes", "acme/acmes")]
        {
            assert_eq!(beginning("acme", prefix), expected);
        }
    }
}
