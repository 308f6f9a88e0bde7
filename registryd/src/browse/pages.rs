//! The pages of a registry: what they share, and which of them replies to a request.
use crate::browse::forms::Form;
use crate::browse::layout::{asset, failure, go_to, respond, Document};
use crate::browse::places::Place;
use crate::browse::sessions::Sessions;
use crate::browse::visit::{unseen, Visit};
use crate::browse::{deletion, images, login, repositories, tags, tenants, texts};
use crate::endpoints::registry::Registry;
use crate::http::content::RequestContent;
use crate::http::fault::Fault;
use crate::http::paths::decoded;
use crate::http::responses::HandlerResult;
use hyper::http::request::Parts;
use hyper::{Method, StatusCode};
use std::io;
use std::sync::Arc;
use tokio::sync::Semaphore;

/// The number of comparisons of images that run at once. A page is shown without one if there are more.
const MOST_COMPARISONS: usize = 4;

/// What the pages share.
pub(crate) struct Pages {
    pub(super) sessions: Sessions,
    pub(super) is_tls: bool,
    pub(super) comparisons: Semaphore,
}

impl Pages {
    /// Makes the pages of a registry without sessions.
    ///
    /// # Errors
    ///
    /// Fails if the system has no random bytes.
    pub(crate) fn new(is_tls: bool) -> io::Result<Pages> {
        Ok(Pages { sessions: Sessions::new()?, is_tls, comparisons: Semaphore::new(MOST_COMPARISONS) })
    }
}

/// Makes the page of a place.
async fn document(visit: &Visit, place: Place<'_>) -> Result<Document, Fault> {
    match place {
        Place::Tenants => Ok(tenants::page(visit).await),
        Place::Tenant(tenant) => repositories::page(visit, tenant),
        Place::Repository(repo) => tags::page(visit, repo).await,
        Place::Image(image) => images::page(visit, image).await,
        Place::Delete(image) => deletion::question(visit, image),
        Place::Text(image) => texts::page(visit, image).await,
        Place::Login => login::page(visit),
        Place::Logout | Place::Style | Place::Script | Place::Icon => Err(unseen()),
    }
}

/// Replies to a form.
async fn submit(visit: Visit, place: Place<'_>, form: &Form, content: &mut RequestContent) -> HandlerResult {
    match place {
        Place::Login => login::log_in(&visit, form).await,
        Place::Logout => login::log_out(&visit, form),
        Place::Delete(image) => deletion::delete(visit, image, form, content).await,
        _ => Err(unseen()),
    }
}

impl Registry {
    /// Serves a request for a page. A failure of a form that was not read is that of the API.
    pub(crate) async fn browse(self: Arc<Self>, pages: Arc<Pages>, head: Parts, content: &mut RequestContent) -> HandlerResult {
        let path = decoded(head.uri.path()).unwrap_or_default().into_owned();
        let place = Place::of(&path);
        let allowed = place.map_or("GET, HEAD", Place::methods);
        if !allowed.split(", ").any(|method| method == head.method.as_str()) {
            return Err(Fault::method(allowed));
        }
        match place {
            Some(Place::Style) => return asset("text/css; charset=utf-8", include_str!("style.css")),
            Some(Place::Script) => return asset("text/javascript; charset=utf-8", include_str!("copy.js")),
            Some(Place::Icon) => return asset("image/svg+xml", include_str!("icon.svg")),
            None if !path.ends_with('/') && Place::of(&format!("{path}/")).is_some() => return go_to(&format!("{path}/"), None),
            _ => {}
        }
        let sent = if head.method == Method::POST { Some(content.form().await?) } else { None };
        let visit = Visit::new(self, pages, head);
        let shown = match (place, sent) {
            (None, _) => Err(unseen()),
            (Some(place), None) => document(&visit, place).await.and_then(|document| respond(&visit, StatusCode::OK, &document)),
            (Some(place), Some(sent)) => match Form::of(&visit.head.headers, &sent) {
                Ok(form) => return submit(visit, place, &form, content).await,
                Err(fault) => Err(fault),
            },
        };
        shown.or_else(|fault| failure(&visit, &fault))
    }
}
