//! A request for a page: who sends it, and what it may take of the registry.
use crate::auth::access::Caller;
use crate::auth::rights::Right;
use crate::browse::forms::Form;
use crate::browse::pages::Pages;
use crate::browse::places::Place;
use crate::browse::sessions::Session;
use crate::endpoints::registry::Registry;
use crate::http::exchange::Exchange;
use crate::http::fault::Fault;
use crate::http::in_flight::{Holder, Reserved};
use crate::http::paths::query_value;
use hyper::header::{COOKIE, HOST, IF_MATCH, IF_NONE_MATCH};
use hyper::http::request::Parts;
use hyper::{Method, Request, StatusCode};
use std::net::IpAddr;
use std::sync::Arc;
use std::time::Instant;

/// The names of the cookie. With TLS a browser takes the first from this host alone (RFC 6265bis, 4.1.3.2).
const SECURE_COOKIE: &str = "__Host-registryd";
const PLAIN_COOKIE: &str = "registryd";

/// The header in which a proxy says how its client came.
const PROXY_SCHEME: &str = "x-forwarded-proto";

/// A request for a page.
pub(super) struct Visit {
    pub(super) registry: Arc<Registry>,
    pub(super) pages: Arc<Pages>,
    pub(super) head: Parts,
    pub(super) caller: Caller,
    pub(super) session: Option<Arc<Session>>,
    exchange: Option<Arc<Exchange>>,
}

/// Returns the value of a cookie of a request.
fn cookie_of(head: &Parts, name: &str) -> Option<String> {
    let all = head.headers.get_all(COOKIE).iter().filter_map(|value| value.to_str().ok());
    let mut pairs = all.flat_map(|text| text.split(';')).filter_map(|pair| pair.trim().split_once('='));
    pairs.find(|(key, _)| *key == name).map(|(_, value)| value.to_string())
}

/// Returns whether the client of a request uses TLS.
fn is_secure(pages: &Pages, head: &Parts) -> bool {
    pages.is_tls || head.headers.get(PROXY_SCHEME).map_or(false, |scheme| scheme == "https")
}

fn cookie_name(is_secure: bool) -> &'static str {
    if is_secure {
        SECURE_COOKIE
    } else {
        PLAIN_COOKIE
    }
}

impl Visit {
    /// Finds who sends a request. A session ends if what it was begun with holds no more.
    pub(super) fn new(registry: Arc<Registry>, pages: Arc<Pages>, head: Parts) -> Visit {
        let exchange = head.extensions.get::<Arc<Exchange>>().cloned();
        let cookie = cookie_of(&head, cookie_name(is_secure(&pages, &head)));
        let session = cookie.as_ref().and_then(|cookie| pages.sessions.find(cookie, Instant::now()));
        let caller = session.as_ref().and_then(|session| registry.access.caller_of(&session.login));
        if let (None, Some(cookie)) = (&caller, &cookie) {
            pages.sessions.end(cookie);
        }
        if let (Some(exchange), Some(user)) = (&exchange, caller.as_ref().and_then(Caller::user)) {
            exchange.set_user(user);
        }
        let session = session.filter(|_| caller.is_some());
        let caller = caller.unwrap_or_else(|| registry.access.unknown_caller());
        Visit { registry, pages, head, caller, session, exchange }
    }

    /// Returns the head of the request to delete that this one stands for.
    pub(super) fn head_of_delete(&self) -> Parts {
        let (mut head, ()) = Request::new(()).into_parts();
        head.method = Method::DELETE;
        head.uri = self.head.uri.clone();
        head.headers = self.head.headers.clone();
        // A page has no condition.
        head.headers.remove(IF_MATCH);
        head.headers.remove(IF_NONE_MATCH);
        if let Some(exchange) = &self.exchange {
            head.extensions.insert(exchange.clone());
        }
        head
    }

    /// Returns the first value of a name in the query, or nothing.
    pub(super) fn query(&self, name: &str) -> String {
        query_value(self.head.uri.query(), name).unwrap_or_default()
    }

    /// Returns the path and the query of the request.
    pub(super) fn path(&self) -> &str {
        self.head.uri.path_and_query().map_or("/", |path| path.as_str())
    }

    /// Returns whether the request is for a place.
    pub(super) fn is_at(&self, place: Place<'_>) -> bool {
        self.head.uri.path() == place.to_string()
    }

    /// Returns the host by which the client calls the registry.
    pub(super) fn host(&self) -> &str {
        let host = self.head.headers.get(HOST).and_then(|host| host.to_str().ok());
        host.filter(|host| !host.is_empty()).unwrap_or("REGISTRY")
    }

    /// Returns the address of the client.
    pub(super) fn client(&self) -> Option<IpAddr> {
        self.exchange.as_ref().map(|exchange| exchange.connection.client.ip())
    }

    /// Notes the user in the log record of the request.
    pub(super) fn note_user(&self, user: &str) {
        if let Some(exchange) = &self.exchange {
            exchange.set_user(user);
        }
    }

    /// Returns the text that a form has to send back.
    pub(super) fn token(&self) -> &str {
        self.pages.sessions.token(self.session.as_deref())
    }

    /// Fails if a form does not come from a page of the sender's session.
    pub(super) fn check_token(&self, form: &Form) -> Result<(), Fault> {
        match self.pages.sessions.is_token(self.session.as_deref(), form.value("token")) {
            true => Ok(()),
            false => Err(Fault::new(StatusCode::FORBIDDEN, "DENIED", "this page is of an older session: open it again")),
        }
    }

    /// Returns the cookie of the request.
    pub(super) fn cookie(&self) -> Option<String> {
        cookie_of(&self.head, cookie_name(is_secure(&self.pages, &self.head)))
    }

    /// Returns the header that sets the cookie, or that removes it if it is empty.
    pub(super) fn set_cookie(&self, value: &str) -> String {
        let is_secure = is_secure(&self.pages, &self.head);
        let name = cookie_name(is_secure);
        let end = if value.is_empty() { "; Max-Age=0" } else { "" };
        let secure = if is_secure { "; Secure" } else { "" };
        format!("{name}={value}; Path=/; HttpOnly; SameSite=Strict{secure}{end}")
    }

    /// Returns whether the sender may see a repository.
    pub(super) fn may_see(&self, repo: &str) -> bool {
        self.caller.may(Right::Read, repo)
    }

    /// Fails if the sender may not see a repository, as if it were not there.
    pub(super) fn check_seen(&self, repo: &str) -> Result<(), Fault> {
        match self.may_see(repo) {
            true => Ok(()),
            false => Err(unseen()),
        }
    }

    /// Returns whether the sender may delete in a repository.
    pub(super) fn may_delete(&self, repo: &str) -> bool {
        self.caller.may(Right::Delete, repo)
    }

    /// Reserves memory for what is read of a repository.
    pub(super) async fn reserve(&self, repo: &str, bytes: u64) -> Result<Reserved, Fault> {
        let connection = self.exchange.as_ref().map(|exchange| exchange.connection.clone());
        let holder = Holder { sharer: self.registry.store.sharer(repo), connection };
        self.registry.memory.reserve(&holder, bytes).await
    }
}

/// The failure for what is not there, or may not be seen.
pub(super) fn unseen() -> Fault {
    Fault::new(StatusCode::NOT_FOUND, "NAME_UNKNOWN", "There is no such page, or you may not see it.")
}

#[cfg(test)]
mod tests {
    use super::*;
    use hyper::Body;

    #[test]
    fn a_cookie_is_found_by_its_whole_name() {
        let of = |lines: &[&str]| {
            let mut request = Request::builder();
            for line in lines {
                request = request.header("cookie", *line);
            }
            cookie_of(&request.body(Body::empty()).unwrap().into_parts().0, "registryd")
        };
        assert_eq!(of(&["a=b; registryd=x; registryd=y"]).as_deref(), Some("x"));
        assert_eq!(of(&["a=registryd=z", "registryd=x"]).as_deref(), Some("x"));
        assert_eq!((of(&["xregistryd=x", "__Host-registryd=y", "registryd"]), of(&[])), (None, None));
    }
}
