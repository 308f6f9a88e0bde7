//! A request to a repository: its head, its sender, and what it may take of the registry.
use crate::auth::access::Caller;
use crate::auth::rights::Right;
use crate::endpoints::registry::Registry;
use crate::endpoints::uploads;
use crate::http::content::{RequestContent, LONG_PIECE_LEN};
use crate::http::exchange::Exchange;
use crate::http::fault::Fault;
use crate::http::in_flight::{Holder, Reserved};
use crate::http::paths::query_value;
use crate::metadata::limits::Limit;
use crate::metadata::names::tenant_of;
use crate::metadata::repositories::Entering;
use crate::store::frames::{Reason, Refusal};
use hyper::http::request::Parts;
use hyper::Method;
use std::sync::Arc;

/// A request without its content, its repository, and its sender.
pub(crate) struct Call {
    pub(super) registry: Arc<Registry>,
    pub(crate) head: Parts,
    pub(super) repo: String,
    pub(super) caller: Caller,
}

impl Call {
    /// Returns the first value of a name in the query.
    pub(super) fn query(&self, name: &str) -> Option<String> {
        query_value(self.head.uri.query(), name)
    }

    /// Returns the repository from which a blob is mounted, or nothing if it may be any of the tenant. It is the request's own
    /// repository if the sender may not read the other, so that the reply is that for a blob that the other does not have.
    pub(super) fn mount_source(&self) -> String {
        let source = self.query("from").unwrap_or_default();
        let may_read = match source.is_empty() {
            true => self.caller.may_in_tenant(Right::Read, tenant_of(&self.repo)),
            false => self.caller.may(Right::Read, &source),
        };
        match may_read {
            true => source,
            false => self.repo.clone(),
        }
    }

    /// Returns whether the repository's tenant exists.
    pub(super) fn has_tenant(&self) -> bool {
        self.registry.store.has_tenant(&self.repo)
    }

    /// Fails if the disk of the folder has less free than its minimum.
    pub(super) fn check_disk(&self) -> Result<(), Fault> {
        self.registry.folder.as_ref().map_or(Ok(()), |folder| folder.room.check_content())
    }

    /// Fails if the disk of the folder has no room for a change without content.
    pub(super) fn check_change(&self) -> Result<(), Fault> {
        self.registry.folder.as_ref().map_or(Ok(()), |folder| folder.room.check_change())
    }

    /// Returns the failure of a call with content that the store refused. A content that it cannot write to a file is refused as if
    /// there were no memory.
    pub(super) fn refused(&self, refusal: Refusal) -> Fault {
        let folder = self.registry.folder.as_ref().filter(|_| refusal.reason == Reason::Memory);
        match folder.map(|folder| folder.room.check_write(LONG_PIECE_LEN as u64)) {
            Some(Err(fault)) => fault,
            _ => refusal.into(),
        }
    }

    /// Begins a call that may create the repository. If no tenant can have it, the store refuses the call.
    pub(super) async fn enter_repository(&self) -> Result<Option<Entering<'_>>, Fault> {
        self.registry.enter_repository(&self.repo).await
    }

    /// Returns the result of a call that opens an upload and that `enter_repository` began.
    pub(super) fn check_entered<T>(&self, answer: Result<T, Refusal>, entering: &mut Option<Entering<'_>>) -> Result<T, Fault> {
        self.registry.check_entered(&self.repo, answer, entering, Limit::Uploads)
    }

    /// Admits the content of a request before it is read.
    ///
    /// # Errors
    ///
    /// - The content is charged to the tenant and longer than a blob may be.
    /// - The tenant is unknown.
    /// - The content is charged and exceeds the rest of the tenant's quota.
    /// - The memory for it is not free in time.
    pub(super) async fn admit(&self, content: &mut RequestContent, is_charged: bool) -> Result<(), Fault> {
        if is_charged {
            uploads::check_len(self, 0, content.len)?;
        }
        let (used, quota) = self.registry.store.usage(&self.repo).await??;
        // A request that closes an upload may have an empty body in chunked coding.
        let least = content.len.unwrap_or_else(|| u64::from(self.head.method != Method::PUT));
        if is_charged && least > quota.saturating_sub(used) {
            return Err(Refusal { reason: Reason::Quota, first: used, second: quota, digest: String::new() }.into());
        }
        content.reserve(&self.registry.memory, &self.holder()).await
    }

    /// Returns the tenant and the client that hold the memory of the request.
    pub(super) fn holder(&self) -> Holder {
        let exchange = self.head.extensions.get::<Arc<Exchange>>();
        let connection = exchange.map(|exchange| exchange.connection.clone());
        Holder { sharer: self.registry.store.sharer(&self.repo), connection }
    }

    /// Reserves memory for the response.
    pub(super) async fn reserve(&self, bytes: u64) -> Result<Reserved, Fault> {
        self.registry.memory.reserve(&self.holder(), bytes).await
    }

    /// Returns the text of a header.
    pub(super) fn header(&self, name: &str) -> Option<&str> {
        self.head.headers.get(name)?.to_str().ok()
    }
}
