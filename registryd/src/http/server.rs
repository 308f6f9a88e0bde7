//! Accepts connections and serves their requests, within the limits on connections.
use crate::http::connections::{Admitted, Connections, WatchedStream};
use crate::http::exchange::{CountedBody, OpenRecord};
use crate::http::head_lines::HeadLines;
use crate::http::tls::Tls;
use hyper::server::conn::Http;
use hyper::service::service_fn;
use hyper::{Body, Request, Response};
use io::ErrorKind::{ConnectionAborted, ConnectionRefused, ConnectionReset, Interrupted};
use std::convert::Infallible;
use std::future::Future;
use std::io;
use std::sync::Arc;
use std::time::Duration;
use tokio::io::{AsyncRead, AsyncWrite};
use tokio::net::{TcpListener, TcpStream};
use tokio::sync::watch;

/// The maximum length of a request's head, in bytes.
const MAX_HEAD: usize = 64 << 10;

/// The first and the longest pause after a connection could not be accepted.
const REST: (Duration, Duration) = (Duration::from_millis(10), Duration::from_secs(1));

/// Raises the limit on open files of this process to the system's maximum, and returns the limit.
pub(crate) fn raise_file_limit() -> io::Result<u64> {
    let mut limit = libc::rlimit { rlim_cur: 0, rlim_max: 0 };
    // SAFETY: `limit` has room for the struct that the call writes.
    if unsafe { libc::getrlimit(libc::RLIMIT_NOFILE, &mut limit) } != 0 {
        return Err(io::Error::last_os_error());
    }
    let raised = libc::rlimit { rlim_cur: limit.rlim_max, ..limit };
    // SAFETY: the call only reads `raised`.
    match unsafe { libc::setrlimit(libc::RLIMIT_NOFILE, &raised) } {
        0 => Ok(raised.rlim_cur),
        _ => Ok(limit.rlim_cur),
    }
}

/// Returns whether an error of `accept` concerns one client only, so that the next can be accepted at once.
fn is_of_one_client(error: &io::Error) -> bool {
    matches!(error.kind(), ConnectionAborted | ConnectionRefused | ConnectionReset | Interrupted)
}

/// Accepts the next connection. After an error of this machine it pauses, longer each time, and tries again.
async fn accept(listener: &TcpListener) -> (TcpStream, std::net::SocketAddr) {
    let (mut rest, longest) = REST;
    loop {
        match listener.accept().await {
            Ok(accepted) => return accepted,
            Err(error) if is_of_one_client(&error) => {}
            Err(error) => {
                tracing::warn!(%error, "cannot accept a connection");
                tokio::time::sleep(rest).await;
                rest = (2 * rest).min(longest);
            }
        }
    }
}

/// Accepts connections and serves their requests until the sender of `stop` is dropped. Then it accepts no more, and each
/// connection ends with its current request. With `tls`, each connection begins with a handshake in its own task.
pub(crate) async fn serve<A, F>(
    listener: TcpListener,
    tls: Option<Tls>,
    connections: Arc<Connections>,
    stop: watch::Receiver<()>,
    answer: A,
) where
    A: Fn(Request<Body>) -> F + Clone + Send + Sync + 'static,
    F: Future<Output = Response<Body>> + Send + 'static,
{
    let mut stopped = stop.clone();
    let accepting = async {
        loop {
            let (stream, client) = accept(&listener).await;
            let admitted = connections.admit(client).await;
            let _ = stream.set_nodelay(true);
            tokio::spawn(begin(stream, tls.clone(), admitted, stop.clone(), answer.clone()));
        }
    };
    tokio::select! {
        () = accepting => {}
        _ = stopped.changed() => {}
    }
}

/// Serves a connection, after a handshake if there is TLS.
async fn begin<A, F>(stream: TcpStream, tls: Option<Tls>, admitted: Admitted, mut stop: watch::Receiver<()>, answer: A)
where
    A: Fn(Request<Body>) -> F + Clone + Send + Sync + 'static,
    F: Future<Output = Response<Body>> + Send + 'static,
{
    let connection = admitted.connection.clone();
    let stream = WatchedStream::new(stream, connection.clone());
    let tls = match tls {
        Some(tls) => tls,
        None => return serve_one(stream, admitted, stop, answer).await,
    };
    let begun = tokio::select! {
        begun = tls.accept(stream) => begun,
        () = connection.closed() => return,
        _ = stop.changed() => return,
    };
    match begun {
        Ok(stream) => {
            connection.rest();
            serve_one(stream, admitted, stop, answer).await
        }
        Err(error) => tracing::info!(client = %connection.client, %error, "no TLS handshake"),
    }
}

/// Serves the requests of a connection until it ends or has to be closed.
async fn serve_one<S, A, F>(stream: S, admitted: Admitted, mut stop: watch::Receiver<()>, answer: A)
where
    S: AsyncRead + AsyncWrite + Unpin + Send + 'static,
    A: Fn(Request<Body>) -> F + Clone + Send + Sync + 'static,
    F: Future<Output = Response<Body>> + Send + 'static,
{
    let connection = admitted.connection.clone();
    let stream = HeadLines::new(stream, connection.clone());
    let noted = connection.clone();
    let service = service_fn(move |mut request: Request<Body>| {
        let begun = OpenRecord::note(&mut request, noted.clone());
        let answer = answer.clone();
        async move { Ok::<Response<CountedBody>, Infallible>(begun.into_counted(answer(request).await)) }
    });
    let mut http = Http::new();
    let serving = http.http1_only(true).max_buf_size(MAX_HEAD).serve_connection(stream, service);
    tokio::pin!(serving);
    tokio::select! {
        _ = &mut serving => return,
        () = connection.closed() => return,
        _ = stop.changed() => {}
    }
    if connection.is_idle() {
        return;
    }
    serving.as_mut().graceful_shutdown();
    tokio::select! {
        _ = &mut serving => {}
        () = connection.closed() => {}
    }
}
