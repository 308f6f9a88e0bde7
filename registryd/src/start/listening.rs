//! The addresses that are served, and the limits of their connections.
use crate::http::connections::{Connections, Limits};
use crate::http::server;
use crate::http::tls::Tls;
use crate::operation::background;
use crate::operation::exit::Failure;
use crate::start::options::Options;
use crate::start::start_replies::Service;
use std::net::SocketAddr;
use std::sync::Arc;
use std::time::Duration;
use tokio::net::TcpListener;
use tokio::sync::watch;
use tokio::task::JoinHandle;

/// The server of the clients, which accepts connections from the begin of the start.
pub(crate) struct Serving {
    pub(crate) connections: Arc<Connections>,
    pub(crate) server: JoinHandle<()>,
    /// Dropping it ends the server.
    pub(crate) stop: watch::Sender<()>,
}

impl Serving {
    /// Begins to accept connections.
    pub(super) fn begin(
        listener: TcpListener,
        tls: Option<Tls>,
        connections: Arc<Connections>,
        service: Arc<Service>,
    ) -> Serving {
        let (stop, stopped) = watch::channel(());
        let answer = move |request| service.clone().serve(request);
        let server = tokio::spawn(server::serve(listener, tls, connections.clone(), stopped, answer));
        let watched = connections.clone();
        background::run(async move { watched.watch().await });
        Serving { connections, server, stop }
    }
}

/// The maximum number of connections to the metrics address.
const METRICS_CONNECTIONS: usize = 16;

/// An upper bound on the number of open files other than connections of clients and to the store.
const OTHER_FILES: u64 = 64;

/// The number of open files of one connection to the store during the start: both ends of two pipes.
const FILES_PER_STORE_CONNECTION: u64 = 4;

/// The maximum number of open files of a mirror other than those that its clients keep open: of its fetches, each with a connection,
/// and of unused connections.
const FILES_PER_MIRROR: u64 = 128;

/// What serves the addresses.
pub(crate) struct Listening {
    pub(crate) service: Arc<Service>,
    pub(crate) serving: Serving,
    pub(crate) address: SocketAddr,
    pub(crate) metrics_address: Option<SocketAddr>,
}

/// Listens on the addresses of the options. What is served there are the replies of a start, until it ends.
pub(crate) async fn listen(options: &Options, tls: Option<Tls>, connections: Arc<Connections>) -> Result<Listening, Failure> {
    let listener = bind(options.listen).await?;
    let address = listener.local_addr()?;
    let metrics = match options.metrics_listen {
        Some(address) => Some(bind(address).await?),
        None => None,
    };
    let metrics_address = metrics.as_ref().map(TcpListener::local_addr).transpose()?;
    let service = Service::new(options.data.as_deref());
    if let Some(listener) = metrics {
        serve_metrics(&service, listener, options);
    }
    let serving = Serving::begin(listener, tls, connections, service.clone());
    Ok(Listening { service, serving, address, metrics_address })
}

/// Listens on an address.
async fn bind(address: SocketAddr) -> Result<TcpListener, Failure> {
    Ok(TcpListener::bind(address).await.map_err(|error| format!("cannot listen: {address}: {error}"))?)
}

/// Serves the metrics on an address of their own until the program ends.
fn serve_metrics(service: &Arc<Service>, listener: TcpListener, options: &Options) {
    let (head, idle) = (Duration::from_secs(options.head_s), Duration::from_secs(options.idle_s));
    let connections = Connections::new(Limits { most: METRICS_CONNECTIONS, head, idle });
    let (watched, service) = (connections.clone(), service.clone());
    background::run(async move { watched.watch().await });
    background::run(async move {
        let (_stop, stopped) = watch::channel(());
        server::serve(listener, None, connections, stopped, move |request| service.clone().serve_metrics(request)).await
    });
}

/// Returns the limits of client connections. The number of open files limits their number too.
pub(crate) fn limits(options: &Options) -> Result<Limits, Failure> {
    let files = server::raise_file_limit()?;
    let others = OTHER_FILES + FILES_PER_STORE_CONNECTION * u64::from(options.lines) + FILES_PER_MIRROR * options.mirror_count();
    // A client of a mirror may also keep the file of a fetch open.
    let room = files.saturating_sub(others) / if options.mirror_count() > 0 { 2 } else { 1 };
    if room == 0 {
        return Err(format!("cannot connect to the store: --lines {}: RLIMIT_NOFILE is {files}", options.lines).into());
    }
    let most = room.min(u64::from(options.connections));
    if most < u64::from(options.connections) {
        tracing::warn!(files, connections = most, "the limit on open files reduces the number of client connections");
    }
    let (head, idle) = (Duration::from_secs(options.head_s), Duration::from_secs(options.idle_s));
    Ok(Limits { most: most as usize, head, idle })
}
