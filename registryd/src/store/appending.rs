//! Appends pieces to a session, one after the other, on one connection.
use crate::store::connection::{Frame, ReplyResult, StoreConnection};
use crate::store::frames::{Command, Request};
use crate::store::pool::PooledConnection;
use bytes::Bytes;
use std::io;
use tokio::sync::mpsc::Receiver;

/// Appends a piece to a session at an offset, and then those that arrive while one is in progress. Returns the last reply,
/// or the first that is a failure. A piece that was sent is no longer in memory.
pub(super) async fn append_on(
    pooled: &mut PooledConnection,
    repo: &str,
    number: u32,
    mut start: u64,
    body: Vec<Bytes>,
    pieces: &mut Receiver<Vec<Bytes>>,
) -> io::Result<ReplyResult> {
    let connection = pooled.begin()?;
    start += send(connection, repo, number, start, body).await?;
    let last = loop {
        let answer = connection.answer();
        tokio::pin!(answer);
        let next = tokio::select! {
            biased;
            answer = &mut answer => break answer?,
            next = pieces.recv() => match next {
                Some(next) => next,
                None => break answer.await?,
            },
        };
        start += send(connection, repo, number, start, next).await?;
        if let Err(refusal) = answer.await? {
            // The next piece was already sent, so its reply is read from the connection.
            let _ = connection.answer().await?;
            break Err(refusal);
        }
    };
    pooled.done();
    Ok(last)
}

/// Sends the request that appends a piece, drops the piece, and returns its length.
async fn send(connection: &StoreConnection, repo: &str, number: u32, start: u64, body: Vec<Bytes>) -> io::Result<u64> {
    connection.send(&[Frame::from(&append_request(repo, number, start, &body))]).await?;
    Ok(len_of(&body))
}

/// Returns the request that appends a body at an offset.
pub(super) fn append_request<'a>(repo: &'a str, number: u32, start: u64, body: &'a [Bytes]) -> Request<'a> {
    Request { repo, number, range: range_of(start, body), body, ..Request::new(Command::Append) }
}

/// Returns the range of a body that begins at an offset, or `None` if the body is empty.
pub(super) fn range_of(start: u64, body: &[Bytes]) -> Option<(u64, u64)> {
    let len = len_of(body);
    (len > 0).then(|| (start, start + len - 1))
}

/// Returns the number of bytes of a body.
pub(super) fn len_of(body: &[Bytes]) -> u64 {
    body.iter().map(|part| part.len() as u64).sum()
}
