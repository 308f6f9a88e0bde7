//! A request in progress: its client, its user, its byte counts, and its log record.
use crate::http::connections::Connection;
use crate::http::trace::TraceId;
use crate::operation::audit::{Asked, Ended};
use crate::operation::locks::guard_of;
use bytes::Bytes;
use hyper::body::{HttpBody, SizeHint};
use hyper::header::HeaderValue;
use hyper::{Body, HeaderMap, Request, Response, StatusCode};
use std::pin::Pin;
use std::sync::atomic::{AtomicU64, Ordering};
use std::sync::{Arc, Mutex};
use std::task::{Context, Poll};
use std::time::{Duration, Instant};

/// The maximum number of bytes of a path, a user and a method in a log record.
const LOGGED: (usize, usize, usize) = (512, 128, 32);

/// Returns a text, or its beginning and its length if it has more than `most` bytes.
pub(crate) fn shortened(text: &str, most: usize) -> String {
    match (0..=most).rev().find(|end| text.is_char_boundary(*end)) {
        Some(end) if text.len() > most => format!("{}... ({} bytes)", &text[..end], text.len()),
        _ => text.to_string(),
    }
}

/// A request that is being served. Its connection counts it until the last copy is dropped.
#[derive(Debug)]
pub(crate) struct Exchange {
    pub(crate) connection: Arc<Connection>,
    pub(crate) trace: TraceId,
    user: Mutex<Option<String>>,
    received: AtomicU64,
    /// Whether the bytes of the head may have a length.
    pub(crate) may_have_length: bool,
}

impl Drop for Exchange {
    fn drop(&mut self) {
        self.connection.end_request();
    }
}

impl Exchange {
    /// Begins a request on a connection.
    pub(super) fn begin(connection: Arc<Connection>, trace: TraceId) -> Arc<Exchange> {
        let may_have_length = connection.begin_request();
        Arc::new(Exchange { connection, trace, user: Mutex::default(), received: AtomicU64::new(0), may_have_length })
    }

    /// Returns the time for which a client may send nothing.
    pub(super) fn idle(&self) -> Duration {
        self.connection.idle
    }

    /// Notes whether the request waits for more of its body.
    pub(super) fn await_body(&self, is_awaited: bool) {
        self.connection.await_body(is_awaited);
    }

    /// Adds `count` to the number of body bytes received.
    pub(super) fn received(&self, count: usize) {
        self.received.fetch_add(count as u64, Ordering::Relaxed);
    }

    /// Notes the user of the request.
    pub(crate) fn set_user(&self, user: &str) {
        *guard_of(self.user.lock()) = Some(shortened(user, LOGGED.1));
    }
}

/// The log record of a request. It is written when this is dropped.
#[derive(Debug)]
struct Record {
    exchange: Arc<Exchange>,
    method: String,
    path: String,
    begun: Instant,
    status: StatusCode,
    digest: Option<HeaderValue>,
    sent: u64,
    /// What the audit log has of it, if there is one.
    asked: Option<Asked>,
}

impl Drop for Record {
    fn drop(&mut self) {
        let Record { exchange, method, path, begun, status, digest, sent, asked } = self;
        let user = guard_of(exchange.user.lock()).take();
        let digest = digest.as_ref().and_then(|digest| digest.to_str().ok());
        if let Some(asked) = asked {
            asked.end(&Ended {
                trace: exchange.trace.to_string(),
                client: exchange.connection.client.to_string(),
                user: user.as_deref(),
                method,
                status: status.as_u16(),
                digest,
                received: exchange.received.load(Ordering::Relaxed),
                sent: *sent,
            });
        }
        tracing::info!(
            %method,
            path,
            status = status.as_u16(),
            client = %exchange.connection.client,
            user = user.as_deref().unwrap_or("-"),
            received = exchange.received.load(Ordering::Relaxed),
            sent = *sent,
            digest = digest.unwrap_or("-"),
            trace = %exchange.trace,
            micros = begun.elapsed().as_micros() as u64,
        );
    }
}

/// A log record before the response exists.
pub(super) struct OpenRecord {
    exchange: Arc<Exchange>,
    method: String,
    path: String,
    begun: Instant,
    asked: Option<Asked>,
}

impl OpenRecord {
    /// Begins the record of a request, and attaches its exchange to the request.
    pub(super) fn note(request: &mut Request<Body>, connection: Arc<Connection>) -> OpenRecord {
        let method = shortened(request.method().as_str(), LOGGED.2);
        let path = shortened(request.uri().path(), LOGGED.0);
        let (exchange, asked) = (Exchange::begin(connection, TraceId::of(request.headers())), Asked::of(request));
        request.extensions_mut().insert(exchange.clone());
        OpenRecord { exchange, method, path, begun: Instant::now(), asked }
    }

    /// Returns the response with a body that counts the bytes sent.
    pub(super) fn into_counted(self, response: Response<Body>) -> Response<CountedBody> {
        let (mut head, body) = response.into_parts();
        let OpenRecord { exchange, method, path, begun, asked } = self;
        let digest = head.headers.get("docker-content-digest").cloned();
        let record = Record { exchange, method, path, begun, status: head.status, digest, sent: 0, asked };
        let extensions = std::mem::take(&mut head.extensions);
        Response::from_parts(head, CountedBody { body, is_begun: false, record, _extensions: extensions })
    }
}

/// The body of a response. It is dropped after all but the last bytes were passed to the client's socket.
pub(super) struct CountedBody {
    body: Body,
    is_begun: bool,
    record: Record,
    /// Values that are dropped after the response is sent.
    _extensions: hyper::http::Extensions,
}

impl HttpBody for CountedBody {
    type Data = Bytes;
    type Error = hyper::Error;

    fn poll_data(mut self: Pin<&mut Self>, context: &mut Context<'_>) -> Poll<Option<hyper::Result<Bytes>>> {
        self.is_begun = true;
        let data = Pin::new(&mut self.body).poll_data(context);
        if let Poll::Ready(Some(Ok(bytes))) = &data {
            self.record.sent += bytes.len() as u64;
        }
        data
    }

    fn poll_trailers(mut self: Pin<&mut Self>, context: &mut Context<'_>) -> Poll<hyper::Result<Option<HeaderMap>>> {
        Pin::new(&mut self.body).poll_trailers(context)
    }

    /// Returns whether the body has no bytes. After the first byte it returns false, and `hyper` finds the end by asking for
    /// more, which it does only after it has written all it has.
    fn is_end_stream(&self) -> bool {
        !self.is_begun && self.body.is_end_stream()
    }

    fn size_hint(&self) -> SizeHint {
        self.body.size_hint()
    }
}

#[cfg(test)]
mod tests {
    use super::*;

    #[test]
    fn a_long_text_is_cut_between_two_letters() {
        assert_eq!(shortened("abcd", 4), "abcd");
        assert_eq!(shortened("abcde", 4), "abcd... (5 bytes)");
        assert_eq!(shortened("abcäe", 4), "abc... (6 bytes)");
        assert_eq!(shortened("", 4), "");
    }
}
