//! The store: a `blobd` process and the connections to it.
use crate::database::writer::Writer;
use crate::metadata::names::tenant_of;
use crate::operation::exit::Failure;
use crate::store::appending::len_of;
use crate::store::connection::{Frame, PeerEnds, StoreConnection, PIPE_LEN, WHOLE_LEN};
use crate::store::frames::{Command, Refusal, Reply, Request};
use crate::store::pool::{ConnectionPool, PoolError, PooledConnection};
use crate::store::undo::{undo_on, Undo};
use crate::store::{connection, process};
use crate::tenants::served::{ServedTenants, OWN_SHARER};
use std::ffi::OsString;
use std::io;
use std::os::unix::io::AsRawFd;
use std::path::Path;
use std::sync::atomic::{AtomicBool, Ordering};
use std::sync::Arc;
use std::time::Duration;
use tokio::process::Child;
use tokio::sync::Notify;
use tokio::time::{timeout_at, Instant};

/// The time limit of a health probe.
const PROBE_TIME: Duration = Duration::from_secs(5);

/// The parameters of a store.
pub(crate) struct Setup<'a> {
    pub(crate) blobd: &'a Path,
    /// The options of `blobd`.
    pub(crate) words: Vec<OsString>,
    /// The table that records uploads which are undone, if there is one.
    pub(crate) writer: Option<Arc<Writer>>,
    pub(crate) slots: u32,
    pub(crate) max_blob: u64,
    /// Arguments of the form `TENANT=QUOTA` or `TENANT=QUOTA,BLOBS`.
    pub(crate) tenants: &'a [String],
    pub(crate) served: Arc<ServedTenants>,
    /// The number of connections, which is the maximum number of calls at once.
    pub(crate) connections: usize,
    /// The time limit of a call.
    pub(crate) call: Duration,
}

/// The store. A call uses one connection, and waits until its sharer may get one.
pub(crate) struct Store {
    pool: Arc<ConnectionPool>,
    /// The tenants, which share the connections.
    served: Arc<ServedTenants>,
    /// The time limit of a call.
    pub(crate) limit: Duration,
    writer: Option<Arc<Writer>>,
    end_notice: Notify,
    has_ended: AtomicBool,
}

/// A call to the store was not made, or its reply is late: the store has ended or hangs.
#[derive(Debug)]
pub(crate) struct StoreUnavailable;

/// The result of a call.
pub(crate) type Answer<T> = Result<Result<T, Refusal>, StoreUnavailable>;

/// The reason why a call has no reply.
pub(crate) enum NoReply {
    /// It was not made.
    NotMade,
    /// It was made, and its reply is late.
    Late,
}

impl From<NoReply> for StoreUnavailable {
    fn from(_: NoReply) -> StoreUnavailable {
        StoreUnavailable
    }
}

impl Store {
    /// Starts `blobd`, and greets it on every connection.
    pub(crate) async fn start(setup: Setup<'_>) -> Result<(Store, Child), Failure> {
        let own = std::process::id();
        let mut command = tokio::process::Command::new(setup.blobd);
        command.args(&setup.words).arg(setup.slots.to_string()).arg(setup.max_blob.to_string()).args(setup.tenants).arg("--");
        let mut connections = Vec::new();
        let mut peer_ends = Vec::new();
        for _ in 0..setup.connections {
            let (connection, peer) = StoreConnection::new()?;
            // `blobd` opens its ends by their names in this process, so that it inherits no descriptor.
            let PeerEnds { requests, replies } = &peer;
            command.arg(format!("/proc/{own}/fd/{}", requests.as_raw_fd()));
            command.arg(format!("/proc/{own}/fd/{}", replies.as_raw_fd()));
            connections.push(connection);
            peer_ends.push(peer);
        }
        let shortest = connections.iter().map(|connection| connection.room).min().unwrap_or(PIPE_LEN);
        if shortest < PIPE_LEN {
            tracing::warn!(
                bytes = shortest,
                wanted = PIPE_LEN,
                "pipes to the store are short: see pipe-user-pages-soft, --lines"
            );
        }
        let failed = |error| Failure::new(format!("cannot start the store: {}: {error}", setup.blobd.display()));
        let mut child = process::spawn(command).map_err(failed)?;
        let greeted = async {
            for connection in &mut connections {
                connection.greet().await?;
            }
            io::Result::Ok(())
        };
        tokio::select! {
            result = greeted => result.map_err(failed)?,
            status = child.wait() => {
                let what = format!("cannot start the store: {}", setup.blobd.display());
                return Err(Failure::of_blobd(&what, status?));
            }
        }
        // From here on only the other side has its ends, so that this side sees when they are closed.
        drop(peer_ends);
        let pool = ConnectionPool::new(connections);
        let (end_notice, has_ended) = (Notify::new(), AtomicBool::new(false));
        Ok((Store { pool, served: setup.served, limit: setup.call, writer: setup.writer, end_notice, has_ended }, child))
    }

    /// Waits until the store has ended.
    pub(crate) async fn ended(&self) {
        self.end_notice.notified().await
    }

    /// Returns whether the store has ended.
    pub(crate) fn has_ended(&self) -> bool {
        self.has_ended.load(Ordering::Relaxed)
    }

    /// Returns the sharer number of a repository's tenant.
    pub(crate) fn sharer(&self, repo: &str) -> usize {
        self.served.sharer(tenant_of(repo))
    }

    /// Returns whether a repository's tenant exists.
    pub(crate) fn has_tenant(&self, repo: &str) -> bool {
        self.served.has(tenant_of(repo))
    }

    /// Returns the sharer number of the program itself.
    pub(crate) fn own(&self) -> usize {
        OWN_SHARER
    }

    /// Handles a failed connection: the store has ended.
    pub(super) fn connection_failed(&self, error: io::Error) {
        tracing::error!(%error, "the store is gone");
        self.has_ended.store(true, Ordering::Relaxed);
        self.pool.close();
        self.end_notice.notify_one();
    }

    /// Takes a connection for a sharer, if one is available in time. `is_long` is whether it carries a body longer than `WHOLE_LEN`.
    pub(super) async fn take(&self, sharer: usize, is_long: bool, end: Instant) -> Result<PooledConnection, StoreUnavailable> {
        match timeout_at(end, self.pool.take(sharer, is_long)).await {
            Ok(Ok(pooled)) => Ok(pooled),
            Ok(Err(PoolError::Closed)) => Err(StoreUnavailable),
            Ok(Err(PoolError::TooManyWait)) | Err(_) => {
                tracing::warn!("no connection to the store is available in time");
                Err(StoreUnavailable)
            }
        }
    }

    /// Makes a fixed number of calls as `ask_many` does.
    pub(super) async fn ask_all<const N: usize>(
        &self,
        sharer: usize,
        limit: Duration,
        requests: [Request<'_>; N],
        undo: Undo,
    ) -> Result<[connection::ReplyResult; N], NoReply> {
        self.ask_many(sharer, limit, &requests, undo).await?.try_into().map_err(|_| NoReply::NotMade)
    }

    /// Makes calls of a sharer on one connection. All but the last have to be short. A call whose reply is late continues in
    /// the background, so that its connection can be used again, and is undone after the reply.
    pub(crate) async fn ask_many(
        &self,
        sharer: usize,
        limit: Duration,
        requests: &[Request<'_>],
        undo: Undo,
    ) -> Result<Vec<connection::ReplyResult>, NoReply> {
        let end = Instant::now() + limit;
        let is_long = requests.iter().any(|request| len_of(request.body) > WHOLE_LEN as u64);
        let mut pooled = self.take(sharer, is_long, end).await.map_err(|StoreUnavailable| NoReply::NotMade)?;
        let frames: Vec<Frame> = requests.iter().map(Frame::from).collect();
        let mut call = Box::pin(async move { (pooled.exchange(&frames).await, pooled) });
        match timeout_at(end, &mut call).await {
            Ok((Ok(answers), _taken)) => Ok(answers),
            Ok((Err(error), _taken)) => {
                self.connection_failed(error);
                Err(NoReply::NotMade)
            }
            Err(_) => {
                tracing::warn!(command = ?requests[0].command, "the store does not reply in time");
                let (repo, writer) = (requests[0].repo.to_string(), self.writer.clone());
                tokio::spawn(async move {
                    if let (Ok(answers), mut pooled) = call.await {
                        let undone = undo_on(&mut pooled, undo, &repo, &answers).await;
                        if let (Some(writer), Some(change)) = (writer, undone) {
                            writer.note(change);
                        }
                    }
                });
                Err(NoReply::Late)
            }
        }
    }

    /// Makes a call that needs no undo.
    pub(super) async fn ask(&self, request: Request<'_>) -> Answer<Reply> {
        self.ask_with(request, Undo::Nothing).await
    }

    /// Makes a call for its repository's tenant.
    pub(super) async fn ask_with(&self, request: Request<'_>, undo: Undo) -> Answer<Reply> {
        let [answer] = self.ask_all(self.sharer(request.repo), self.limit, [request], undo).await?;
        Ok(answer)
    }

    /// Makes a call for the program itself.
    pub(super) async fn ask_own(&self, limit: Duration, request: Request<'_>) -> Answer<Reply> {
        let [answer] = self.ask_all(self.own(), limit, [request], Undo::Nothing).await?;
        Ok(answer)
    }

    /// Returns whether the store replies in a short time.
    pub(crate) async fn replies(&self) -> bool {
        let names = self.served.names();
        let tenant = names.first().map_or("", String::as_str);
        let request = Request { repo: tenant, ..Request::new(Command::Usage) };
        self.ask_own(self.limit.min(PROBE_TIME), request).await.is_ok()
    }

    /// Closes the connections and waits for `blobd`, which ends then. It writes its totals to the standard error of this
    /// process. Fails if `blobd` fails, or does not end in time. Then it is killed.
    pub(crate) async fn end(&self, child: Child) -> Result<(), Failure> {
        self.pool.close();
        process::wait_for(child).await
    }
}
