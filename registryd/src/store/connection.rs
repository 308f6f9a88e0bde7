//! A connection to `blobd`: a pair of pipes. Replies are in the order of their requests.
use crate::store::frames::{Reason, Refusal, Reply, ReplyHead, Request, GREETING, HEAD_LEN};
use crate::store::reading::{read_on, room_for};
use bytes::Bytes;
use std::fs::File;
use std::io::{self, IoSlice, Read, Write};
use std::os::unix::io::{AsRawFd, FromRawFd};
use tokio::io::unix::AsyncFd;

/// The preferred capacity of a pipe, in bytes.
pub(super) const PIPE_LEN: usize = 1 << 20;

/// The smallest capacity that is requested for a pipe, in bytes.
const LEAST_PIPE_LEN: usize = 64 << 10;

/// The longest body that fits into a pipe together with the pages of its head. The writer of such a body never waits for the
/// reader.
pub(crate) const WHOLE_LEN: usize = PIPE_LEN - (8 << 10);

/// The maximum length of a digest that `blobd` sends, in bytes.
const MAX_DIGEST: u32 = 256;

/// Returns the reading end of a new pipe, its writing end, and its capacity in bytes. Child processes inherit neither end.
fn pipe() -> io::Result<(File, File, usize)> {
    let mut ends = [0; 2];
    // SAFETY: `ends` has room for the two numbers that the call writes.
    if unsafe { libc::pipe2(ends.as_mut_ptr(), libc::O_CLOEXEC) } != 0 {
        return Err(io::Error::last_os_error());
    }
    // SAFETY: both descriptors are new and have no other owner.
    let (reader, writer) = unsafe { (File::from_raw_fd(ends[0]), File::from_raw_fd(ends[1])) };
    let len = enlarge(&writer);
    Ok((reader, writer, len))
}

/// Enlarges a pipe as far as the system's limit for a user's pipes permits (pipe(7), "/proc files"), and returns its
/// capacity in bytes. A smaller pipe is slower but works.
fn enlarge(pipe: &File) -> usize {
    let mut len = PIPE_LEN;
    while len >= LEAST_PIPE_LEN {
        // SAFETY: the call takes no pointer.
        if unsafe { libc::fcntl(pipe.as_raw_fd(), libc::F_SETPIPE_SZ, len as libc::c_int) } >= 0 {
            return len;
        }
        len /= 2;
    }
    // SAFETY: the call takes no pointer.
    let len = unsafe { libc::fcntl(pipe.as_raw_fd(), libc::F_GETPIPE_SZ) };
    len.max(0) as usize
}

/// Makes the reads and writes of a file non-blocking.
fn nonblocking(file: File) -> io::Result<AsyncFd<File>> {
    // SAFETY: the calls take no pointer.
    let done = unsafe {
        let flags = libc::fcntl(file.as_raw_fd(), libc::F_GETFL);
        flags >= 0 && libc::fcntl(file.as_raw_fd(), libc::F_SETFL, flags | libc::O_NONBLOCK) == 0
    };
    if done {
        AsyncFd::new(file)
    } else {
        Err(io::Error::last_os_error())
    }
}

/// The reply to a request.
pub(super) type ReplyResult = Result<Reply, Refusal>;

/// An encoded request: its head and the pieces of its body.
pub(super) struct Frame {
    head: Vec<u8>,
    body: Vec<Bytes>,
}

impl From<&Request<'_>> for Frame {
    fn from(request: &Request<'_>) -> Frame {
        Frame { head: request.head(), body: request.body.to_vec() }
    }
}

/// A connection: this side's ends of its pipes.
pub(super) struct StoreConnection {
    to: AsyncFd<File>,
    from: AsyncFd<File>,
    /// The capacity of the smaller pipe, in bytes.
    pub(super) room: usize,
    /// Whether it has carried a body longer than `WHOLE_LEN`. The store keeps a buffer of that length for it.
    pub(super) is_wide: bool,
}

/// The other side's ends of the pipes: one to read requests, one to write replies.
pub(super) struct PeerEnds {
    pub(super) requests: File,
    pub(super) replies: File,
}

impl StoreConnection {
    /// Makes a connection, and returns it with the other side's ends.
    pub(super) fn new() -> io::Result<(StoreConnection, PeerEnds)> {
        let (requests, to, room) = pipe()?;
        let (from, replies, back) = pipe()?;
        let connection = StoreConnection { to: nonblocking(to)?, from: nonblocking(from)?, room: room.min(back), is_wide: false };
        Ok((connection, PeerEnds { requests, replies }))
    }

    /// Sends the greeting, and reads that of the other side.
    pub(super) async fn greet(&mut self) -> io::Result<()> {
        self.write(vec![&GREETING]).await?;
        let mut greeting = [0; GREETING.len()];
        self.read(&mut greeting).await?;
        if greeting != GREETING {
            return Err(io::Error::new(io::ErrorKind::InvalidData, "blobd uses another protocol version"));
        }
        Ok(())
    }

    /// Sends requests, and then reads their replies. All requests but the last have to be short, because no reply is read
    /// before all are sent. After an error, or if the future is dropped early, the connection must not be used again.
    pub(super) async fn exchange(&self, frames: &[Frame]) -> io::Result<Vec<ReplyResult>> {
        self.send(frames).await?;
        let mut answers = Vec::with_capacity(frames.len());
        for _ in frames {
            answers.push(self.answer().await?);
        }
        Ok(answers)
    }

    /// Sends requests. `answer` reads their replies, in order.
    pub(super) async fn send(&self, frames: &[Frame]) -> io::Result<()> {
        let mut slices: Vec<&[u8]> = Vec::new();
        for Frame { head, body } in frames {
            slices.push(head);
            slices.extend(body.iter().map(|piece| &piece[..]));
        }
        self.write(slices).await
    }

    /// Reads the next reply. If the future is dropped early, the connection must not be used again.
    pub(super) async fn answer(&self) -> io::Result<ReplyResult> {
        let mut head = [0; HEAD_LEN];
        self.read(&mut head).await?;
        let head = ReplyHead::parse(&head);
        if head.digest_len > MAX_DIGEST {
            return Err(io::Error::new(io::ErrorKind::InvalidData, "blobd sent a digest that is too long"));
        }
        let digest = self.take(u64::from(head.digest_len)).await?;
        let digest = String::from_utf8_lossy(&digest).into_owned();
        let ReplyHead { status, first, second, body_len, .. } = head;
        let body = match room_for(body_len) {
            Some(mut body) => {
                self.read_into(&mut body, body_len as usize).await?;
                Bytes::from(body)
            }
            None => {
                self.skip(body_len).await?;
                return Ok(Err(Refusal { reason: Reason::Memory, first: 0, second: 0, digest }));
            }
        };
        Ok(match status {
            0 => Ok(Reply { first, second, digest, body }),
            _ => Err(Refusal { reason: Reason::of_status(status), first, second, digest }),
        })
    }

    /// Writes slices one after the other. Each call writes as many bytes as the pipe accepts.
    async fn write(&self, mut slices: Vec<&[u8]>) -> io::Result<()> {
        let mut first = 0;
        while first < slices.len() {
            let mut ready = self.to.writable().await?;
            let left: Vec<IoSlice> = slices[first..].iter().map(|slice| IoSlice::new(slice)).collect();
            let mut count = match ready.try_io(|to| to.get_ref().write_vectored(&left)) {
                Ok(Err(error)) if error.kind() == io::ErrorKind::Interrupted => 0,
                Ok(written) => written?,
                Err(_not_ready) => 0,
            };
            while first < slices.len() && count >= slices[first].len() {
                count -= slices[first].len();
                first += 1;
            }
            if count > 0 {
                slices[first] = &slices[first][count..];
            }
        }
        Ok(())
    }

    /// Reads when data is available, and returns the number of bytes.
    async fn await_read(&self, mut read: impl FnMut(&File) -> io::Result<usize>) -> io::Result<usize> {
        loop {
            let mut ready = self.from.readable().await?;
            match ready.try_io(|from| read(from.get_ref())) {
                Ok(Err(error)) if error.kind() == io::ErrorKind::Interrupted => {}
                Ok(Ok(0)) => return Err(io::ErrorKind::UnexpectedEof.into()),
                Ok(count) => return count,
                Err(_not_ready) => {}
            }
        }
    }

    async fn read(&self, mut bytes: &mut [u8]) -> io::Result<()> {
        while !bytes.is_empty() {
            let count = self.await_read(|mut from| from.read(bytes)).await?;
            bytes = &mut bytes[count..];
        }
        Ok(())
    }

    /// Reads a small number of bytes.
    async fn take(&self, len: u64) -> io::Result<Vec<u8>> {
        let mut bytes = Vec::with_capacity(len as usize);
        self.read_into(&mut bytes, len as usize).await?;
        Ok(bytes)
    }

    /// Reads `len` bytes into a vector that has room for them. The room is not initialized first.
    async fn read_into(&self, bytes: &mut Vec<u8>, len: usize) -> io::Result<()> {
        while bytes.len() < len {
            let left = len - bytes.len();
            self.await_read(|from| read_on(from, bytes, left)).await?;
        }
        Ok(())
    }

    /// Reads and drops bytes that memory has no room for.
    async fn skip(&self, mut len: u64) -> io::Result<()> {
        let mut bytes = [0; 4096];
        while len > 0 {
            let most = len.min(bytes.len() as u64) as usize;
            len -= self.await_read(|mut from| from.read(&mut bytes[..most])).await? as u64;
        }
        Ok(())
    }
}
