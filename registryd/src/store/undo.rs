//! Calls whose replies arrive after their callers stopped waiting are undone.
use crate::database::change::Change;
use crate::store::connection::{Frame, ReplyResult};
use crate::store::frames::{Command, Reply, Request};
use crate::store::pool::PooledConnection;

/// The action that undoes a call if its reply arrives after the caller stopped waiting.
#[derive(Clone, Copy)]
pub(crate) enum Undo {
    Nothing,
    /// Abandons the session that was opened in the call's repository.
    Session,
    /// Releases the lease, if there is one.
    Lease,
}

impl Undo {
    /// Returns the request that undoes a call with this reply, if there is one.
    fn request<'a>(self, repo: &'a str, reply: &Reply) -> Option<Request<'a>> {
        match self {
            Undo::Session if reply.first != 0 => {
                Some(Request { repo, number: reply.first as u32, ..Request::new(Command::Abandon) })
            }
            Undo::Lease if reply.second != 0 => Some(Request { number: reply.second as u32, ..Request::new(Command::GiveBack) }),
            _ => None,
        }
    }
}

/// Undoes the call of the first reply, on its connection. Returns what to record about the session that the call opened, if it
/// opened one.
pub(super) async fn undo_on(pooled: &mut PooledConnection, undo: Undo, repo: &str, answers: &[ReplyResult]) -> Option<Change> {
    let reply = answers.first().and_then(|answer| answer.as_ref().ok())?;
    let request = undo.request(repo, reply)?;
    let answers = pooled.exchange(&[Frame::from(&request)]).await.ok()?;
    let (repo, number) = (repo.to_string(), request.number);
    match (undo, answers.first()) {
        (Undo::Session, Some(Ok(_))) => Some(Change::PassUpload { repo, number }),
        (Undo::Session, Some(Err(_))) => Some(Change::OpenUpload { repo, number }),
        _ => None,
    }
}
