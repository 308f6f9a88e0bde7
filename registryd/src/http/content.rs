//! The content of a request, read in pieces of bounded length.
use crate::http::exchange::Exchange;
use crate::http::fault::Fault;
use crate::http::in_flight::{Holder, Memory, Reserved};
use crate::operation::memory_reserve;
use crate::operation::metrics::Metrics;
use crate::store::connection::WHOLE_LEN;
use bytes::Bytes;
use hyper::body::HttpBody;
use hyper::{Body, Response, StatusCode};
use std::sync::Arc;
use std::time::Duration;

/// The maximum length of a piece. A request holds the piece that is being sent, and one that waits or is being read.
pub(crate) const PIECE_LEN: usize = WHOLE_LEN;

/// The maximum length of a piece of a long content. The store syncs each piece, which costs less for each byte of a longer one. No request
/// may have a longer body (docs/PROTOCOL.md).
pub(crate) const LONG_PIECE_LEN: usize = 2 << 20;

/// The maximum number of bytes of a request that are held in memory.
pub(crate) const HELD_LEN: u64 = 4 * PIECE_LEN as u64;

/// The same with long pieces: two of them, and what the server has read ahead.
const LONG_HELD_LEN: u64 = 2 * LONG_PIECE_LEN as u64 + PIECE_LEN as u64;

/// The longest manifest, in bytes (the specification asks for at least 4 MiB).
pub(crate) const MAX_MANIFEST: usize = 4_194_304;

/// The longest content of a form, in bytes.
const MAX_FORM: usize = 16 << 10;

/// The time for which a client may send nothing, if its connection has no other limit.
const IDLE_TIME: Duration = Duration::from_secs(60);

/// The maximum number of bytes that are read and dropped after a request failed, so that the client can read the response.
const DRAIN_LEN: usize = 64 << 20;

/// The time limit for reading and dropping them.
const DRAIN_TIME: Duration = Duration::from_secs(60);

/// The event after a piece.
#[derive(Clone, Copy, Debug, PartialEq, Eq)]
pub(crate) enum Then {
    /// Possibly another piece.
    More,
    /// The end of the content.
    End,
    /// A premature end: the client disconnected or stopped sending, or the system is out of memory.
    CutOff,
}

/// A piece of the content, in parts.
pub(crate) struct Piece {
    pub(crate) parts: Vec<Bytes>,
    pub(crate) then: Then,
}

/// The part of a request's content that was not read yet.
pub(crate) struct RequestContent {
    body: Body,
    /// The length of the content, if the client sent it.
    pub(crate) len: Option<u64>,
    rest: Bytes,
    piece_len: usize,
    is_awaited: bool,
    is_begun: bool,
    metrics: Metrics,
    pub(crate) exchange: Option<Arc<Exchange>>,
    reserved: Option<Reserved>,
    /// Whether reading stopped because the system is out of memory.
    pub(crate) is_short: bool,
}

impl RequestContent {
    /// Makes the content of a request. If `is_awaited`, the client sends nothing before a 100 response (RFC 9110, 10.1.1).
    pub(crate) fn new(body: Body, is_awaited: bool, metrics: Metrics) -> RequestContent {
        let len = body.size_hint().exact();
        let (rest, piece_len, exchange, reserved) = (Bytes::new(), PIECE_LEN, None, None);
        RequestContent { body, len, rest, piece_len, is_awaited, is_begun: false, metrics, exchange, reserved, is_short: false }
    }

    /// Adds the exchange, whose connection is notified of waits for the body.
    pub(crate) fn of(self, exchange: Option<Arc<Exchange>>) -> RequestContent {
        RequestContent { exchange, ..self }
    }

    /// Returns whether the content may have bytes.
    pub(crate) fn is_any(&self) -> bool {
        self.len != Some(0)
    }

    /// Reserves the memory for the pieces. They are long ones if the content is, and there is memory for them.
    pub(crate) async fn reserve(&mut self, memory: &Arc<Memory>, holder: &Holder) -> Result<(), Fault> {
        let len = self.len.unwrap_or(u64::MAX);
        if let Some(reserved) = (len > HELD_LEN).then(|| memory.try_reserve_long(holder, len.min(LONG_HELD_LEN))).flatten() {
            self.reserved = Some(reserved);
            self.piece_len = LONG_PIECE_LEN;
            return Ok(());
        }
        self.reserved = Some(memory.reserve(holder, len.min(HELD_LEN)).await?);
        Ok(())
    }

    fn await_body(&self, is_awaited: bool) {
        if let Some(exchange) = &self.exchange {
            exchange.await_body(is_awaited);
        }
    }

    /// Reads the next bytes into `rest`. Returns the event if there are none.
    async fn fill(&mut self) -> Option<Then> {
        if memory_reserve::is_short() {
            self.is_short = true;
            return Some(Then::CutOff);
        }
        self.is_begun = true;
        let idle = self.exchange.as_ref().map_or(IDLE_TIME, |exchange| exchange.idle());
        self.await_body(true);
        let came = tokio::time::timeout(idle, self.body.data()).await;
        self.await_body(false);
        match came {
            Ok(Some(Ok(bytes))) => {
                self.metrics.received(bytes.len());
                if let Some(exchange) = &self.exchange {
                    exchange.received(bytes.len());
                }
                self.rest = bytes;
                None
            }
            Ok(None) => Some(Then::End),
            Ok(Some(Err(_))) | Err(_) => Some(Then::CutOff),
        }
    }

    /// Returns the next piece. Only the last is shorter than the others.
    pub(crate) async fn next(&mut self) -> Piece {
        let mut parts = Vec::new();
        let mut room = self.piece_len;
        loop {
            let count = room.min(self.rest.len());
            if count > 0 {
                parts.push(self.rest.split_to(count));
                room -= count;
            }
            if room == 0 {
                let is_end = self.rest.is_empty() && self.body.is_end_stream();
                return Piece { parts, then: if is_end { Then::End } else { Then::More } };
            }
            if let Some(then) = self.fill().await {
                return Piece { parts, then };
            }
        }
    }

    /// Returns the content of a manifest. Fails if it is longer than `MAX_MANIFEST`.
    pub(crate) async fn manifest(&mut self) -> Result<Vec<Bytes>, Fault> {
        self.all(MAX_MANIFEST, "manifest").await
    }

    /// Returns the content of a form as text. Fails if its length is not given, or is more than `MAX_FORM`.
    pub(crate) async fn form(&mut self) -> Result<String, Fault> {
        if self.len.is_none() {
            let message = "a form needs the header Content-Length";
            return Err(Fault::new(StatusCode::LENGTH_REQUIRED, "SIZE_INVALID", message));
        }
        let bytes = self.all(MAX_FORM, "form").await?.concat();
        String::from_utf8(bytes).map_err(|_| Fault::new(StatusCode::BAD_REQUEST, "UNSUPPORTED", "the form is not UTF-8"))
    }

    /// Returns the content. Fails if it is longer than `most` bytes. `what` names it in the message.
    async fn all(&mut self, most: usize, what: &str) -> Result<Vec<Bytes>, Fault> {
        let too_long =
            || Fault::new(StatusCode::PAYLOAD_TOO_LARGE, "SIZE_INVALID", format!("the {what} is longer than {most} bytes"));
        if self.len.map_or(false, |len| len > most as u64) {
            return Err(too_long());
        }
        let mut all_parts = Vec::new();
        let mut len = 0;
        loop {
            let Piece { parts, then } = self.next().await;
            len += parts.iter().map(Bytes::len).sum::<usize>();
            all_parts.extend(parts);
            match then {
                _ if len > most => return Err(too_long()),
                Then::End => return Ok(all_parts),
                Then::CutOff => return Err(Fault::cut_off()),
                Then::More => {}
            }
        }
    }

    /// Reads and drops the rest of the content of a failed request, within bounds. If the client still waits for a 100
    /// response, the content stays with the response instead: dropping it earlier would ask the client to send.
    pub(crate) fn drain(mut self, answer: &mut Response<Body>) {
        if self.body.is_end_stream() {
            return;
        }
        if self.is_awaited && !self.is_begun {
            answer.extensions_mut().insert(self.body);
            return;
        }
        self.reserved = None;
        tokio::spawn(tokio::time::timeout(DRAIN_TIME, async move {
            let mut left = DRAIN_LEN;
            while left > 0 && self.fill().await.is_none() {
                left = left.saturating_sub(self.rest.len());
            }
        }));
    }
}

#[cfg(test)]
mod tests {
    use super::*;

    async fn lens(mut content: RequestContent) -> (Vec<usize>, Then) {
        let mut lens = Vec::new();
        loop {
            let Piece { parts, then } = content.next().await;
            lens.push(parts.iter().map(Bytes::len).sum());
            if then != Then::More {
                return (lens, then);
            }
        }
    }

    #[tokio::test]
    async fn content_is_cut_into_pieces() {
        let content_of = |len: usize| RequestContent::new(Body::from(vec![1; len]), false, Metrics::new());
        assert_eq!(lens(content_of(0)).await, (vec![0], Then::End));
        assert_eq!(lens(content_of(3)).await, (vec![3], Then::End));
        assert_eq!(lens(content_of(PIECE_LEN)).await, (vec![PIECE_LEN], Then::End));
        assert_eq!(lens(content_of(2 * PIECE_LEN + 1)).await, (vec![PIECE_LEN, PIECE_LEN, 1], Then::End));
    }

    #[tokio::test]
    async fn long_content_is_cut_into_long_pieces_while_few_requests_have_some() {
        let (memory, without_files) = (Memory::new(1 << 30, true), Memory::new(1 << 30, false));
        let holder = Holder { sharer: 0, connection: None };
        let begun_in = |memory: &Arc<Memory>, len: u64| {
            let (memory, holder) = (memory.clone(), holder.clone());
            async move {
                let mut content = RequestContent::new(Body::from(vec![1; 3 << 20]), false, Metrics::new());
                content.len = Some(len);
                content.reserve(&memory, &holder).await.unwrap();
                content.piece_len
            }
        };
        let begun = |len| begun_in(&memory, len);
        assert_eq!(begun_in(&without_files, u64::MAX).await, PIECE_LEN);
        assert_eq!((begun(HELD_LEN).await, begun(HELD_LEN + 1).await), (PIECE_LEN, LONG_PIECE_LEN));
        let mut held: Vec<Reserved> = (0..4).map(|_| memory.try_reserve_long(&holder, 1).unwrap()).collect();
        assert_eq!(begun(u64::MAX).await, PIECE_LEN);
        held.pop();
        assert_eq!(begun(u64::MAX).await, LONG_PIECE_LEN);
    }

    #[tokio::test]
    async fn a_client_that_breaks_off_leaves_what_came() {
        let (mut sender, body) = Body::channel();
        tokio::spawn(async move {
            sender.send_data(Bytes::from_static(b"abc")).await.unwrap();
            sender.abort();
        });
        let content = RequestContent::new(body, false, Metrics::new());
        assert_eq!(lens(content).await, (vec![3], Then::CutOff));
    }

    #[tokio::test]
    async fn a_manifest_has_a_limit() {
        for (len, is_kept) in [(MAX_MANIFEST, true), (MAX_MANIFEST + 1, false)] {
            let (mut sender, body) = Body::channel();
            tokio::spawn(async move { sender.send_data(vec![1; len].into()).await });
            let mut content = RequestContent::new(body, false, Metrics::new());
            assert_eq!(content.manifest().await.is_ok(), is_kept);
        }
    }
}
