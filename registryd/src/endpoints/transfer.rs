//! The transfer of a leased blob to a client, in pieces. A blob in a file is read here. What the file does not give as the store noted it
//! is asked of the store, which decides what is damaged.
use crate::endpoints::call::Call;
use crate::endpoints::registry::Registry;
use crate::folder::content_pieces::{ContentPieces, PieceRead, MAX_PIECE};
use crate::http::fault::Fault;
use crate::store::calls::LeasedBlob;
use crate::store::client::{Answer, StoreUnavailable};
use crate::store::connection::WHOLE_LEN;
use crate::store::frames::Refusal;
use bytes::Bytes;
use hyper::body::Sender;
use hyper::Body;
use std::collections::VecDeque;
use std::sync::Arc;
use std::time::Duration;
use tokio::task::JoinHandle;
use tracing::Instrument;

/// The maximum number of bytes that one read returns.
pub(super) const PIECE_LEN: u64 = WHOLE_LEN as u64;

/// The number of pieces that are read at once, while another one is being sent. The store reads each on a connection of its own: one is
/// taken out of its pipe while the next is written into another.
const READS_AT_ONCE: usize = 2;

/// The number of bytes that a transfer holds if its tenant holds much.
pub(super) const LEAST_HELD: u64 = 128 << 10;

/// The length of the pieces of such a transfer. It reads one at a time. The piece that is read, the one that is sent, and the server's buffer
/// of 64 KiB are within `LEAST_HELD`.
const SHORT_PIECE_LEN: u64 = LEAST_HELD / 8;

/// The maximum number of bytes whose place is asked of the store at once.
const LOCATED_LEN: u64 = 8 << 20;

/// The maximum number of pieces of these bytes. A content that came in many small chunks is read by the store, so that no transfer holds many
/// notes.
const MOST_PIECES: usize = 1024;

/// The time for which a client may take no byte of a piece.
const IDLE_TIME: Duration = Duration::from_secs(300);

/// A part of a response's content.
#[derive(Debug, PartialEq, Eq)]
pub(super) enum Span {
    Text(Bytes),
    /// The bytes of the blob from one offset to another exclusive.
    Content(u64, u64),
}

impl Span {
    /// Returns the number of bytes.
    pub(super) fn len(&self) -> u64 {
        match self {
            Span::Text(text) => text.len() as u64,
            Span::Content(start, end) => end - start,
        }
    }
}

/// How much of a blob a transfer reads ahead of its client.
pub(super) struct Pace {
    /// The maximum lengths of a piece that the store reads, and of one that is read from a file.
    piece_len: u64,
    part_len: u64,
    /// The number of pieces that are read at once.
    reads_at_once: usize,
}

impl Pace {
    /// Returns the pace of a transfer that holds memory for long pieces, or only `LEAST_HELD` bytes.
    pub(super) fn of(has_most: bool) -> Pace {
        match has_most {
            true => Pace { piece_len: PIECE_LEN, part_len: MAX_PIECE, reads_at_once: READS_AT_ONCE },
            false => Pace { piece_len: SHORT_PIECE_LEN, part_len: SHORT_PIECE_LEN, reads_at_once: 1 },
        }
    }
}

/// A piece of a response's content.
enum Piece {
    Text(Bytes),
    /// A read in progress.
    Read(JoinHandle<Answer<Bytes>>),
}

/// Who reads the bytes of a transfer.
enum Source {
    Store,
    /// This program, from the content's file: the pieces whose places are known.
    File(Option<ContentPieces>),
}

/// The transfer of a leased blob to a client.
pub(super) struct Transfer {
    registry: Arc<Registry>,
    leased: LeasedBlob,
    repo: String,
    digest: String,
    /// The spans from the next piece on.
    spans: VecDeque<Span>,
    pace: Pace,
    source: Source,
    /// The pieces that are being read, in order.
    pieces: VecDeque<Piece>,
}

/// The reason why a transfer stopped early.
enum TransferError {
    StoreUnavailable,
    Refused(Refusal),
    /// The client disconnected, or takes no bytes.
    Left,
}

impl From<StoreUnavailable> for TransferError {
    fn from(_: StoreUnavailable) -> TransferError {
        TransferError::StoreUnavailable
    }
}

impl Transfer {
    /// Begins a transfer, and returns the body that it fills. The lease is released after the last read, or if the client
    /// disconnects. If it has one span of content and the registry has a folder, it reads the file itself.
    ///
    /// # Errors
    ///
    /// Fails if the first read does, so that the client gets a status. The lease is released.
    pub(super) async fn begin(
        call: &Call,
        leased: LeasedBlob,
        digest: &str,
        spans: VecDeque<Span>,
        pace: Pace,
    ) -> Result<Body, Fault> {
        let (sender, body) = Body::channel();
        let (registry, repo, digest, pieces) = (call.registry.clone(), call.repo.clone(), digest.to_string(), VecDeque::new());
        let source = match (&registry.folder, spans.len()) {
            (Some(_), 1) => Source::File(None),
            _ => Source::Store,
        };
        let mut transfer = Transfer { registry, leased, repo, digest, spans, pace, source, pieces };
        if let Err(fault) = transfer.read_first().await {
            transfer.end().await;
            return Err(fault);
        }
        tokio::spawn(transfer.send(sender).in_current_span());
        Ok(body)
    }

    /// Begins the first reads, and waits for the first of them.
    async fn read_first(&mut self) -> Result<(), Fault> {
        for _ in 0..self.pace.reads_at_once {
            self.read_next().await?;
        }
        // In front of the first bytes of the blob may be a text.
        let first = self.pieces.iter().position(|piece| matches!(piece, Piece::Read(_)));
        let taken = first.map(|at| (at, std::mem::replace(&mut self.pieces[at], Piece::Text(Bytes::new()))));
        if let Some((at, Piece::Read(read))) = taken {
            let read = read.await.map_err(|_| StoreUnavailable)??;
            self.pieces[at] = Piece::Text(self.registry.check_read(&self.repo, &self.digest, read)?);
        }
        Ok(())
    }

    /// Sends the bytes, and releases the lease after its last read.
    async fn send(mut self, mut sender: Sender) {
        if let Err(stopped) = self.send_pieces(&mut sender).await {
            if let TransferError::Refused(refusal) = stopped {
                tracing::error!(reason = ?refusal.reason, "cannot read a leased blob");
            }
            sender.abort();
        }
        self.end().await;
    }

    /// Waits for the reads in progress, and releases the lease.
    async fn end(mut self) {
        for piece in self.pieces.drain(..) {
            if let Piece::Read(read) = piece {
                let _ = read.await;
            }
        }
        let number = self.leased.number;
        if let Ok(Err(refusal)) = self.registry.store.give_back(number).await {
            tracing::error!(reason = ?refusal.reason, "cannot release a lease");
        }
    }

    /// Begins to read the next piece, if there is one.
    async fn read_next(&mut self) -> Result<(), StoreUnavailable> {
        let piece = match self.spans.pop_front() {
            None => return Ok(()),
            Some(Span::Text(text)) => Piece::Text(text),
            Some(Span::Content(start, end)) => {
                let in_file = self.next_in_file(start, end).await?;
                let next = in_file.as_ref().map_or(end.min(start + self.pace.piece_len), |read| read.end);
                if next < end {
                    self.spans.push_front(Span::Content(next, end));
                }
                let (registry, digest, number) = (self.registry.clone(), self.digest.clone(), self.leased.number);
                Piece::Read(tokio::spawn(async move {
                    match run(in_file).await {
                        Some(bytes) => Ok(Ok(bytes)),
                        None => registry.store.read(number, &digest, start, next - 1).await,
                    }
                }))
            }
        };
        self.pieces.push_back(piece);
        Ok(())
    }

    /// Returns the read of the next bytes of the content's file, or `None` if the store reads them.
    async fn next_in_file(&mut self, start: u64, end: u64) -> Result<Option<PieceRead>, StoreUnavailable> {
        let known = match &mut self.source {
            Source::Store => return Ok(None),
            Source::File(pieces) => pieces.as_mut().and_then(|pieces| pieces.next(start, end)),
        };
        if known.is_some() {
            return Ok(known);
        }
        let last = end.min(start + LOCATED_LEN) - 1;
        let place = self.registry.store.locate(self.leased.number, &self.digest, start, last).await?;
        let place = place.ok().flatten().filter(|place| place.notes.len() <= MOST_PIECES);
        let folder = self.registry.folder.as_ref();
        match place.and_then(|place| Some((folder?.content_file(place.tenant, place.number)?, place))) {
            Some((path, place)) => {
                let mut pieces = ContentPieces::new(path, self.pace.part_len, place.offset, place.notes);
                let read = pieces.next(start, end);
                self.source = Source::File(Some(pieces));
                Ok(read)
            }
            None => {
                self.source = Source::Store;
                Ok(None)
            }
        }
    }

    /// Sends the bytes piece by piece. It begins to read a piece after the client has taken another one, and holds no connection to the
    /// store while it waits for the client.
    async fn send_pieces(&mut self, sender: &mut Sender) -> Result<(), TransferError> {
        while let Some(piece) = self.pieces.pop_front() {
            let bytes = match piece {
                Piece::Text(text) => text,
                Piece::Read(read) => {
                    let read = read.await.map_err(|_| StoreUnavailable)??;
                    self.registry.check_read(&self.repo, &self.digest, read).map_err(TransferError::Refused)?
                }
            };
            let count = bytes.len();
            match tokio::time::timeout(IDLE_TIME, sender.send_data(bytes)).await {
                Ok(Ok(())) => self.registry.metrics.sent(count),
                Ok(Err(_)) | Err(_) => return Err(TransferError::Left),
            }
            self.read_next().await?;
        }
        Ok(())
    }
}

/// Reads bytes of a content's file, on a thread that may wait for the disk.
async fn run(read: Option<PieceRead>) -> Option<Bytes> {
    let read = read?;
    tokio::task::spawn_blocking(move || read.run()).await.ok()?
}
