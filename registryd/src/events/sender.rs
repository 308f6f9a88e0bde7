//! A request to a receiver: over HTTP/1.1, with TLS if its URL has it, on a connection of its own.
use crate::events::event::MEDIA_TYPE;
use crate::events::receivers::Receiver;
use crate::http::client::AGENT;
use hyper::body::HttpBody;
use hyper::header::{CONTENT_TYPE, HOST, USER_AGENT};
use hyper::{Body, Request, StatusCode};
use std::sync::Arc;
use tokio::io::{AsyncRead, AsyncWrite};
use tokio::net::TcpStream;
use tokio::task::JoinHandle;
use tokio_rustls::TlsConnector;

/// The maximum number of bytes of a reply that are read.
const MAX_REPLY: usize = 64 << 10;

/// Sends an envelope. The receiver has accepted it if the status is from 200 to 299.
///
/// # Errors
///
/// Fails with a message, without any header or URL, if the receiver cannot be reached, has another status, or does not reply in time.
pub(super) async fn send(receiver: &Receiver, envelope: String) -> Result<(), String> {
    let sent = tokio::time::timeout(receiver.limit, exchange(receiver, envelope)).await;
    match sent.unwrap_or_else(|_| Err(format!("no reply within {} s", receiver.limit.as_secs())))? {
        status if status.is_success() => Ok(()),
        status => Err(format!("status {}", status.as_u16())),
    }
}

/// Connects, sends the request, and returns the status of the reply.
async fn exchange(receiver: &Receiver, envelope: String) -> Result<StatusCode, String> {
    let request = request(receiver, envelope)?;
    let connected = TcpStream::connect((&*receiver.host, receiver.port)).await;
    let stream = connected.map_err(|error| format!("cannot connect: {error}"))?;
    match &receiver.tls {
        None => exchange_on(stream, request).await,
        Some((config, name)) => {
            let connected = TlsConnector::from(Arc::clone(config)).connect(name.clone(), stream).await;
            exchange_on(connected.map_err(|error| format!("no TLS handshake: {error}"))?, request).await
        }
    }
}

/// Returns the request with an envelope.
fn request(receiver: &Receiver, envelope: String) -> Result<Request<Body>, String> {
    let mut request = Request::post(receiver.path.as_str())
        .header(HOST, receiver.authority.as_str())
        .header(USER_AGENT, AGENT)
        .header(CONTENT_TYPE, MEDIA_TYPE)
        .body(envelope.into())
        .map_err(|_| "the URL is invalid".to_string())?;
    for (name, value) in &receiver.headers {
        request.headers_mut().insert(name, value.clone());
    }
    Ok(request)
}

/// The task of a connection, which ends with this.
struct Driver(JoinHandle<()>);

impl Drop for Driver {
    fn drop(&mut self) {
        self.0.abort();
    }
}

/// Sends a request on a stream, and returns the status of the reply, whose content is read up to a bound.
async fn exchange_on<S>(stream: S, request: Request<Body>) -> Result<StatusCode, String>
where
    S: AsyncRead + AsyncWrite + Unpin + Send + 'static,
{
    let fault = |error: hyper::Error| format!("no reply: {error}");
    let (mut sender, connection) = hyper::client::conn::handshake(stream).await.map_err(fault)?;
    let _driver = Driver(tokio::spawn(async move {
        let _ = connection.await;
    }));
    let mut reply = sender.send_request(request).await.map_err(fault)?;
    let mut read = 0;
    while let Some(Ok(bytes)) = reply.body_mut().data().await {
        read += bytes.len();
        if read > MAX_REPLY {
            break;
        }
    }
    Ok(reply.status())
}
