//! What the socket of the owner's commands serves.
use crate::control::{moves, robots};
use crate::endpoints::registry::Registry;
use crate::http::fault::Fault;
use crate::http::paths::decoded;
use crate::http::responses::HandlerResult;
use crate::metadata::retention_rules::RetentionRules;
use bytes::Bytes;
use hyper::body::HttpBody;
use hyper::server::conn::Http;
use hyper::service::service_fn;
use hyper::{Body, Method, Request, StatusCode};
use std::convert::Infallible;
use std::os::unix::net::UnixListener;
use std::sync::Arc;
use std::time::Duration;
use tokio::net::UnixStream;
use tokio::sync::Semaphore;
use tokio::time::{sleep, timeout};

/// The path of the tags that rules would remove.
pub(super) const PREVIEW: &str = "/retention/preview";

/// The path of the accounts of machines.
pub(crate) const ROBOTS: &str = "/robots";

/// The path of the moves of tenants, and the end of the path of a tenant's contents.
pub(crate) const MOVES: &str = "/moves";
pub(crate) const CONTENTS: &str = "/contents";

/// The maximum number of connections at once.
const MOST_CONNECTIONS: usize = 8;

/// The time limits of the head of a request, and of a connection.
const HEAD_TIME: Duration = Duration::from_secs(10);
const CONNECTION_TIME: Duration = Duration::from_secs(600);

/// The maximum length of the content of a request, and of one that has the robots of a tenant, in bytes, and the time limit of both.
const MAX_CONTENT: usize = 1 << 20;
const MAX_ROBOTS: usize = 16 << 20;
const CONTENT_TIME: Duration = Duration::from_secs(10);

/// The pause after a connection could not be accepted.
const REST: Duration = Duration::from_secs(1);

/// Accepts connections of the owner and of root, and serves their commands. It never returns.
pub(super) async fn serve(listener: UnixListener, registry: Arc<Registry>) {
    let places = Arc::new(Semaphore::new(MOST_CONNECTIONS));
    let listener = match tokio::net::UnixListener::from_std(listener) {
        Ok(listener) => listener,
        Err(error) => return tracing::error!(%error, "cannot listen for commands"),
    };
    loop {
        let place = places.clone().acquire_owned().await;
        match listener.accept().await {
            Ok((stream, _)) if is_of_owner(&stream) => {
                let registry = registry.clone();
                tokio::spawn(async move {
                    let _place = place;
                    let _ = timeout(CONNECTION_TIME, serve_one(stream, registry)).await;
                });
            }
            Ok(_) => tracing::warn!("refused a command of another user"),
            Err(error) => {
                tracing::warn!(%error, "cannot accept a command");
                sleep(REST).await;
            }
        }
    }
}

/// Returns whether the other end of a connection is of this user or of root.
fn is_of_owner(stream: &UnixStream) -> bool {
    // SAFETY: the call only returns a number.
    let own = unsafe { libc::geteuid() };
    stream.peer_cred().map_or(false, |peer| peer.uid() == own || peer.uid() == 0)
}

/// Serves the requests of a connection.
async fn serve_one(stream: UnixStream, registry: Arc<Registry>) {
    let service = service_fn(move |request| {
        let registry = registry.clone();
        async move { Ok::<_, Infallible>(reply(registry, request).await.unwrap_or_else(Fault::into_response)) }
    });
    let mut http = Http::new();
    http.http1_only(true).http1_keep_alive(false).http1_header_read_timeout(HEAD_TIME);
    if let Err(error) = http.serve_connection(stream, service).await {
        tracing::info!(%error, "a command was not served to its end");
    }
}

/// Replies to a request.
async fn reply(registry: Arc<Registry>, request: Request<Body>) -> HandlerResult {
    let (head, body) = request.into_parts();
    let path = head.uri.path();
    let name = path.strip_prefix(ROBOTS).and_then(|rest| rest.strip_prefix('/')).and_then(decoded);
    match (&head.method, path, name) {
        (&Method::POST, PREVIEW, _) => preview(registry, &content(body, MAX_CONTENT).await?),
        (&Method::GET, ROBOTS, _) => robots::list(&registry),
        (&Method::POST, ROBOTS, _) => robots::add(&registry, &content(body, MAX_CONTENT).await?).await,
        (&Method::DELETE, _, Some(name)) => robots::revoke(&registry, &name).await,
        (method, path, _) => match path.strip_prefix(MOVES).and_then(|rest| rest.strip_prefix('/')) {
            Some(rest) => reply_on_move(registry, method, rest, body).await,
            None => Err(Fault::path()),
        },
    }
}

/// Replies to a request about a tenant's move. `rest` is the end of its path.
async fn reply_on_move(registry: Arc<Registry>, method: &Method, rest: &str, body: Body) -> HandlerResult {
    match (method, rest.strip_suffix(CONTENTS)) {
        (&Method::GET, Some(tenant)) => registry.contents(tenant.to_string()),
        (&Method::GET, None) => moves::show(&registry, rest).await,
        (&Method::POST, None) => moves::step(&registry, rest, &content(body, MAX_ROBOTS).await?).await,
        _ => Err(Fault::path()),
    }
}

/// Returns the failure of a request whose content is wrong.
pub(super) fn invalid(why: &str) -> Fault {
    Fault::new(StatusCode::BAD_REQUEST, "UNSUPPORTED", why)
}

/// Reads the content of a request, which has this number of bytes at most.
async fn content(mut body: Body, most: usize) -> Result<Vec<u8>, Fault> {
    let read = async {
        let mut content = Vec::new();
        while let Some(part) = body.data().await {
            let part: Bytes = part.map_err(|_| Fault::cut_off())?;
            if content.len() + part.len() > most {
                let text = format!("the content is longer than {} MiB", most >> 20);
                return Err(Fault::new(StatusCode::PAYLOAD_TOO_LARGE, "SIZE_INVALID", text));
            }
            content.extend_from_slice(&part);
        }
        Ok(content)
    };
    timeout(CONTENT_TIME, read).await.unwrap_or_else(|_| Err(Fault::cut_off()))
}

/// Returns the tags that rules would remove: those of the content, or those that hold if it is empty.
fn preview(registry: Arc<Registry>, content: &[u8]) -> HandlerResult {
    let text = std::str::from_utf8(content).map_err(|_| invalid("the rules are not UTF-8"))?;
    match text.is_empty() {
        true if registry.retention.is_none() => Err(invalid("no rules hold: give --retention to the registry, or --rules")),
        true => registry.preview(None),
        false => {
            let rules = RetentionRules::parse(text).map_err(|why| invalid(&why))?;
            registry.preview(Some(rules))
        }
    }
}
