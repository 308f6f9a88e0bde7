//! The list of tenants.
use crate::auth::rights::Right;
use crate::browse::html::{html, Html};
use crate::browse::layout::{link, pager, table, Document};
use crate::browse::places::Place;
use crate::browse::shown::size;
use crate::browse::visit::Visit;
use crate::http::pages::Page;

/// The number of tenants of a page.
const MOST: usize = 100;

/// Returns what a tenant uses of its quota, for those who may push into it.
async fn usage(visit: &Visit, tenant: &str) -> Html {
    if !visit.caller.may_in_tenant(Right::Write, tenant) {
        return html!("–");
    }
    match visit.registry.store.usage(tenant).await {
        Ok(Ok((used, quota))) => html!("{} of {}", size(used), size(quota)),
        _ => html!("unknown"),
    }
}

/// Makes the list of the tenants of which the sender may read something.
pub(super) async fn page(visit: &Visit) -> Document {
    let (last, mut names) = (visit.query("last"), visit.registry.tenants.names().to_vec());
    names.sort_unstable();
    let seen = names.into_iter().filter(|name| *name > last && visit.caller.may_read_some_of(name));
    let Page { items, more } = Page::of(seen, MOST);
    let mut rows = Vec::with_capacity(items.len());
    for name in &items {
        let used = usage(visit, name).await;
        rows.push(vec![link(Place::Tenant(name), html!("{}", name)), used]);
    }
    let next = items.last().filter(|_| more).map(|last| Place::Tenants.with(&[("last", last)]));
    let body = match items.is_empty() {
        true => html!("<p class=\"empty\">There is no tenant that you may see.</p>"),
        false => html!(
            "{}{}",
            table("Tenants", &["Tenant", "In use"], rows),
            pager(last.is_empty(), &Place::Tenants.to_string(), next)
        ),
    };
    Document { title: "Tenants".to_string(), trail: Vec::new(), body }
}
