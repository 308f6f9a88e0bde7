//! Dispatches each request to its endpoint, after the checks that all have in common.
use crate::auth::access::Caller;
use crate::auth::rights::{Demand, Scope};
use crate::browse::is_page;
use crate::endpoints::call::Call;
use crate::endpoints::registry::{MetricsAccess, Registry};
use crate::endpoints::{blobs, catalog, manifests, mirrored, referrers, tags, untagged, uploads};
use crate::http::browser::restrict;
use crate::http::content::RequestContent;
use crate::http::exchange::{shortened, Exchange};
use crate::http::fault::Fault;
use crate::http::framing;
use crate::http::paths::{decoded, Target};
use crate::http::responses::{empty, HandlerResult};
use crate::metadata::names::tenant_of;
use crate::moving::moves::Kind;
use crate::operation::health::{ALIVE, HEALTH, READY};
use crate::operation::log::shown_headers;
use crate::operation::status::View;
use hyper::header::{HeaderValue, CONNECTION, EXPECT, HOST};
use hyper::http::request::Parts;
use hyper::http::uri::Authority;
use hyper::{Body, Method, Request, Response, StatusCode, Version};
use std::sync::Arc;
use std::time::Instant;
use tracing::Instrument;

/// The maximum number of bytes of a request's target in a detailed message.
const MOST_SHOWN: usize = 1024;

/// Returns whether a text is a host, with or without a port (RFC 9110, 7.2).
fn is_host(text: &[u8]) -> bool {
    !text.contains(&b'@') && Authority::try_from(text).is_ok()
}

/// Fails if a request has no host or several (RFC 9112, 3.2).
fn check_host(head: &Parts) -> Result<(), Fault> {
    let mut hosts = head.headers.get_all(HOST).iter();
    let is_good = match (hosts.next(), hosts.next()) {
        (Some(host), None) => host.is_empty() || is_host(host.as_bytes()),
        (None, _) => head.version < Version::HTTP_11,
        (Some(_), Some(_)) => false,
    };
    match is_good {
        true => Ok(()),
        false => Err(Fault::new(StatusCode::BAD_REQUEST, "UNSUPPORTED", "the request needs one valid header Host")),
    }
}

/// Returns whether a request adds bytes to the store. A mount adds none, unless it opens an upload.
fn adds_content(method: &Method, target: &Target<'_>, is_mount: bool) -> bool {
    match target {
        Target::Upload { .. } => matches!(*method, Method::PATCH | Method::PUT),
        Target::Uploads { .. } => !is_mount,
        Target::Manifest { .. } => *method == Method::PUT,
        _ => false,
    }
}

/// Returns how a request changes its tenant, if it may.
fn change_of(method: &Method, target: &Target<'_>) -> Option<Kind> {
    match target {
        _ if matches!(*method, Method::GET | Method::HEAD) => None,
        Target::Upload { .. } => Some(Kind::Upload),
        _ => Some(Kind::Other),
    }
}

/// Fails if a request would push into a tenant that is a mirror.
fn check_no_mirror(registry: &Registry, repo: &str, method: &Method, target: &Target<'_>) -> Result<(), Fault> {
    let allowed = match (method, target) {
        (&Method::PUT, Target::Manifest { .. }) => "GET, HEAD, DELETE",
        (&Method::POST, Target::Uploads { .. }) => "",
        (&Method::PATCH | &Method::PUT, Target::Upload { .. }) => "GET, DELETE",
        _ => return Ok(()),
    };
    match registry.mirrors.of(repo) {
        Some(mirror) => Err(Fault::mirror(repo, &mirror.upstream.address.text(), allowed)),
        None => Ok(()),
    }
}

impl Registry {
    /// Serves a request in a task of its own, so that a client that disconnects interrupts no call to the store.
    pub(crate) async fn serve(self: Arc<Self>, request: Request<Body>) -> Response<Body> {
        let begun = Instant::now();
        let method = request.method().clone();
        let metrics = self.metrics.clone();
        let trace = request.extensions().get::<Arc<Exchange>>().map(|exchange| exchange.trace.to_string());
        // Each log line of the request has the id of its trace.
        let span = tracing::error_span!("request", trace = trace.as_deref().unwrap_or("-"));
        let answered = tokio::spawn(self.answer(request).instrument(span)).await;
        let response = answered.unwrap_or_else(|_| Fault::internal().into_response());
        metrics.count_request(&method, response.status(), begun.elapsed());
        restrict(response)
    }

    async fn answer(self: Arc<Self>, request: Request<Body>) -> Response<Body> {
        let (head, body) = request.into_parts();
        let is_awaited = head.headers.contains_key(EXPECT);
        let exchange = head.extensions.get::<Arc<Exchange>>().cloned();
        let is_last = framing::is_last(&head.headers, exchange.as_ref().map_or(false, |exchange| exchange.may_have_length));
        let mut content = RequestContent::new(body, is_awaited, self.metrics.clone()).of(exchange);
        let is_debugged = self.is_debugged(&head);
        let mut answer = self.route(head, &mut content).await.unwrap_or_else(|fault| {
            let fault = if content.is_short { Fault::unavailable("out of memory") } else { fault };
            if is_debugged {
                tracing::debug!(?fault, "the request failed");
            }
            let mut answer = fault.into_response();
            content.drain(&mut answer);
            answer
        });
        if is_last {
            answer.headers_mut().insert(CONNECTION, HeaderValue::from_static("close"));
        }
        answer
    }

    /// Logs the head of a request if its repository is logged in detail, and returns whether it is.
    fn is_debugged(&self, head: &Parts) -> bool {
        let path = decoded(head.uri.path());
        let is_debugged = self.debug.has(path.as_deref().and_then(Target::of).and_then(|target| target.repo()));
        if is_debugged {
            let (target, headers) = (shortened(&head.uri.to_string(), MOST_SHOWN), shown_headers(&head.headers));
            tracing::debug!(method = %head.method, target, headers, "a request");
        }
        is_debugged
    }

    async fn route(self: Arc<Self>, head: Parts, content: &mut RequestContent) -> HandlerResult {
        let path = head.uri.path().to_string();
        check_host(&head)?;
        framing::check(&head.headers)?;
        if path == ALIVE {
            return empty(StatusCode::OK, &[]);
        }
        if path == HEALTH {
            return self.health().await;
        }
        if path == READY {
            return self.readiness().await;
        }
        if let Some(pages) = self.pages.clone().filter(|_| is_page(&path)) {
            return self.browse(pages, head, content).await;
        }
        let decoded = decoded(&path);
        let target = decoded.as_deref().and_then(Target::of);
        let demand = target.as_ref().and_then(|target| Demand::of(&head.method, target));
        let scope = Scope::of(target.as_ref(), demand);
        let client = content.exchange.as_ref().map(|exchange| exchange.connection.client.ip());
        let caller = self.access.caller(&head.headers, scope, client).await?;
        if let (Some(exchange), Some(user)) = (&content.exchange, caller.user()) {
            exchange.set_user(user);
        }
        if demand.is_none() {
            caller.check_known(scope)?;
        }
        if let Some(view) = View::of(&path).filter(|_| self.metrics_access != MetricsAccess::Elsewhere) {
            self.metrics_access.check(&caller)?;
            return self.view(view, &head.method, head.uri.query()).await;
        }
        if path == "/untagged" && self.metrics_access != MetricsAccess::Elsewhere {
            self.metrics_access.check(&caller)?;
            return untagged::list(&self, head.uri.query());
        }
        let target = target.ok_or_else(Fault::path)?;
        let allowed = target.methods();
        if !allowed.split(", ").any(|method| method == head.method.as_str()) {
            return Err(Fault::method(allowed));
        }
        match target {
            Target::Catalog => catalog::list(&self, &caller, head.uri.query()),
            Target::Base => self.probe(&[("Docker-Distribution-API-Version", "registry/2.0")]).await,
            target => self.serve_target(head, caller, target, content).await,
        }
    }

    /// Serves a request to a resource of a repository, whose sender is known. The method is one of the resource.
    pub(crate) async fn serve_target(
        self: Arc<Self>,
        head: Parts,
        caller: Caller,
        target: Target<'_>,
        content: &mut RequestContent,
    ) -> HandlerResult {
        let demand = Demand::of(&head.method, &target).ok_or_else(Fault::path)?;
        if self.debug.has(Some(demand.repo)) {
            let (user, right, allowed) = (caller.user(), demand.word(), caller.check(&demand).is_ok());
            tracing::debug!(repo = demand.repo, user = user.unwrap_or("-"), right, allowed, "its rights");
        }
        caller.check(&demand)?;
        check_no_mirror(&self, demand.repo, &head.method, &target)?;
        let is_mover = caller.is_mover_of(tenant_of(demand.repo));
        let change = change_of(&head.method, &target).map(|kind| self.moves.begin(demand.repo, kind, is_mover));
        let _changing = change.transpose()?;
        let repo = demand.repo.to_string();
        let method = head.method.clone();
        let call = Call { registry: self, head, repo, caller };
        if adds_content(&method, &target, call.query("mount").is_some()) {
            call.check_disk()?;
        } else if !matches!(method, Method::GET | Method::HEAD) {
            call.check_change()?;
        }
        if content.is_any() {
            let is_charged = matches!(target, Target::Uploads { .. } | Target::Upload { .. });
            call.admit(content, is_charged).await?;
        }
        if let Some(mirror) = call.registry.mirrors.of(&call.repo).cloned() {
            match (&method, &target) {
                (&Method::GET | &Method::HEAD, Target::Manifest { reference, .. }) => {
                    return mirrored::manifest(&call, &mirror, reference, method == Method::HEAD).await;
                }
                (&Method::GET | &Method::HEAD, Target::Tags { .. }) => return mirrored::tags(&call, &mirror).await,
                (&Method::GET, Target::Blob { digest, .. }) => return mirrored::blob(&call, &mirror, digest).await,
                (&Method::HEAD, Target::Blob { digest, .. }) => return mirrored::blob_head(&call, &mirror, digest).await,
                _ => {}
            }
        }
        match (&method, target) {
            (&Method::GET | &Method::HEAD, Target::Tags { .. }) => tags::list(&call).await,
            (&Method::GET | &Method::HEAD, Target::Referrers { digest, .. }) => referrers::list(&call, digest).await,
            (&Method::GET, Target::Manifest { reference, .. }) => manifests::get(&call, reference).await,
            (&Method::HEAD, Target::Manifest { reference, .. }) => manifests::head(&call, reference).await,
            (&Method::PUT, Target::Manifest { reference, .. }) => manifests::put(&call, reference, content).await,
            (&Method::DELETE, Target::Manifest { reference, .. }) => manifests::delete(&call, reference).await,
            (&Method::POST, Target::Uploads { .. }) => uploads::open(&call, content).await,
            (&Method::GET, Target::Upload { name, .. }) => uploads::status(&call, name).await,
            (&Method::PATCH, Target::Upload { name, .. }) => uploads::append(&call, name, content).await,
            (&Method::PUT, Target::Upload { name, .. }) => uploads::close(&call, name, content).await,
            (&Method::DELETE, Target::Upload { name, .. }) => uploads::abandon(&call, name).await,
            (&Method::GET, Target::Blob { digest, .. }) => blobs::get(&call, digest).await,
            (&Method::HEAD, Target::Blob { digest, .. }) => blobs::head(&call, digest).await,
            (&Method::DELETE, Target::Blob { digest, .. }) => blobs::delete(&call, digest).await,
            (_, target) => Err(Fault::method(target.methods())),
        }
    }

    /// Serves a request on the metrics address.
    pub(crate) async fn serve_metrics(self: Arc<Self>, request: Request<Body>) -> Response<Body> {
        let answered = tokio::spawn(async move {
            let (method, path) = (request.method(), request.uri().path());
            match View::of(path) {
                Some(view) => self.view(view, method, request.uri().query()).await,
                None if method == Method::GET && path == "/untagged" => untagged::list(&self, request.uri().query()),
                None if method == Method::GET && path == ALIVE => empty(StatusCode::OK, &[]),
                None if method == Method::GET && path == HEALTH => self.health().await,
                None if method == Method::GET && path == READY => self.readiness().await,
                None => Err(Fault::path()),
            }
        });
        restrict(answered.await.unwrap_or_else(|_| Err(Fault::internal())).unwrap_or_else(Fault::into_response))
    }
}
