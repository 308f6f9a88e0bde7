//! Looks at the bytes of requests' heads for what the library for HTTP drops: a `Content-Length` after a `Transfer-Encoding`.
use crate::http::connections::Connection;
use std::io::{self, IoSlice};
use std::pin::Pin;
use std::sync::Arc;
use std::task::{Context, Poll};
use tokio::io::{AsyncRead, AsyncWrite, ReadBuf};

/// The beginning of a line with a length, after the end of the line before, in lower case.
const LENGTH_LINE: &[u8] = b"\ncontent-length";

/// Finds lines with a length in bytes that arrive in pieces.
#[derive(Default)]
struct LengthLines {
    /// The number of bytes of `LENGTH_LINE` that were read last.
    matched: usize,
}

impl LengthLines {
    /// Returns whether a line with a length is found within the next bytes.
    fn find(&mut self, bytes: &[u8]) -> bool {
        let mut is_found = false;
        for byte in bytes {
            let byte = byte.to_ascii_lowercase();
            self.matched = if byte == LENGTH_LINE[self.matched] { self.matched + 1 } else { usize::from(byte == b'\n') };
            if self.matched == LENGTH_LINE.len() {
                (is_found, self.matched) = (true, 0);
            }
        }
        is_found
    }
}

/// A client's stream, without TLS if there is any, that tells its connection whether a head has a length. Bytes that arrive while a
/// request is being served are no head, except those of a client that sends the next request before the reply.
pub(super) struct HeadLines<S> {
    stream: S,
    connection: Arc<Connection>,
    lines: LengthLines,
}

impl<S> HeadLines<S> {
    /// Wraps a stream.
    pub(super) fn new(stream: S, connection: Arc<Connection>) -> HeadLines<S> {
        HeadLines { stream, connection, lines: LengthLines::default() }
    }
}

impl<S: AsyncRead + Unpin> AsyncRead for HeadLines<S> {
    fn poll_read(mut self: Pin<&mut Self>, context: &mut Context<'_>, buffer: &mut ReadBuf<'_>) -> Poll<io::Result<()>> {
        let before = buffer.filled().len();
        let read = Pin::new(&mut self.stream).poll_read(context, buffer);
        let bytes = &buffer.filled()[before..];
        if !bytes.is_empty() && self.connection.is_idle() {
            let has_length = self.lines.find(bytes);
            self.connection.note_head(has_length);
        }
        read
    }
}

impl<S: AsyncWrite + Unpin> AsyncWrite for HeadLines<S> {
    fn poll_write(mut self: Pin<&mut Self>, context: &mut Context<'_>, bytes: &[u8]) -> Poll<io::Result<usize>> {
        Pin::new(&mut self.stream).poll_write(context, bytes)
    }

    fn poll_write_vectored(
        mut self: Pin<&mut Self>,
        context: &mut Context<'_>,
        slices: &[IoSlice<'_>],
    ) -> Poll<io::Result<usize>> {
        Pin::new(&mut self.stream).poll_write_vectored(context, slices)
    }

    fn is_write_vectored(&self) -> bool {
        self.stream.is_write_vectored()
    }

    fn poll_flush(mut self: Pin<&mut Self>, context: &mut Context<'_>) -> Poll<io::Result<()>> {
        Pin::new(&mut self.stream).poll_flush(context)
    }

    fn poll_shutdown(mut self: Pin<&mut Self>, context: &mut Context<'_>) -> Poll<io::Result<()>> {
        Pin::new(&mut self.stream).poll_shutdown(context)
    }
}

#[cfg(test)]
mod tests {
    use super::*;

    #[test]
    fn a_line_is_found_in_pieces() {
        let find = |pieces: &[&str]| {
            let mut lines = LengthLines::default();
            pieces.iter().fold(false, |is_found, piece| lines.find(piece.as_bytes()) || is_found)
        };
        for pieces in
            [&["GET / HTTP/1.1\r\nContent-Length: 5\r\n\r\n"][..], &["x\n", "CONTENT", "-length"], &["\n\ncontent-length"]]
        {
            assert!(find(pieces), "{pieces:?}");
        }
        for pieces in
            [&["GET /content-length HTTP/1.1\r\nX: content-length\r\n"][..], &["\ncontent", "\n-length"], &["\n content-length"]]
        {
            assert!(!find(pieces), "{pieces:?}");
        }
    }
}
