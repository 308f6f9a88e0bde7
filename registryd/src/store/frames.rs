//! The frames of a connection to `blobd` (docs/PROTOCOL.md).

use bytes::Bytes;

/// The first bytes that each side sends: the name and the version.
pub(super) const GREETING: [u8; 8] = *b"blobd\0\x01\0";

/// The length of the fixed head of a request and of a reply, in bytes.
pub(super) const HEAD_LEN: usize = 32;

/// The length at which a repository name or a digest is cut, in bytes. A longer text is invalid, and stays invalid when it
/// is cut.
const MAX_TEXT: usize = 1024;

/// The command of a request.
#[derive(Clone, Copy, Debug, PartialEq, Eq)]
#[repr(u8)]
pub(crate) enum Command {
    Start = 1,
    Status = 2,
    Append = 3,
    Close = 4,
    Abandon = 5,
    Mount = 6,
    Delete = 7,
    PutManifest = 8,
    GetManifest = 9,
    DeleteManifest = 10,
    Lease = 11,
    Read = 12,
    GiveBack = 13,
    Sweep = 14,
    Stat = 17,
    StatManifest = 18,
    FreeSlots = 19,
    Usage = 20,
    Fetch = 21,
    RemoveRepo = 22,
    SlotUse = 23,
    SyncCount = 25,
    Locate = 26,
}

/// A request.
#[derive(Clone, Debug)]
pub(crate) struct Request<'a> {
    pub(crate) command: Command,
    pub(crate) repo: &'a str,
    pub(crate) digest: &'a str,
    pub(crate) source: &'a str,
    /// The number of a session or a lease.
    pub(crate) number: u32,
    /// The offsets of the first and the last byte.
    pub(crate) range: Option<(u64, u64)>,
    /// The pieces of the body, in order.
    pub(crate) body: &'a [Bytes],
}

impl<'a> Request<'a> {
    /// Makes a request whose fields are empty.
    pub(crate) fn new(command: Command) -> Request<'a> {
        Request { command, repo: "", digest: "", source: "", number: 0, range: None, body: &[] }
    }

    /// Encodes the frame without its body.
    pub(super) fn head(&self) -> Vec<u8> {
        let texts = [self.repo, self.digest, self.source].map(|text| &text.as_bytes()[..text.len().min(MAX_TEXT)]);
        let body_len: usize = self.body.iter().map(Bytes::len).sum();
        let (start, end) = self.range.unwrap_or((0, 0));
        let mut head = Vec::with_capacity(HEAD_LEN + texts.iter().map(|text| text.len()).sum::<usize>());
        head.push(self.command as u8);
        head.push(self.range.is_some() as u8);
        for text in texts {
            head.extend_from_slice(&(text.len() as u16).to_le_bytes());
        }
        head.extend_from_slice(&self.number.to_le_bytes());
        head.extend_from_slice(&(body_len as u32).to_le_bytes());
        head.extend_from_slice(&start.to_le_bytes());
        head.extend_from_slice(&end.to_le_bytes());
        for text in texts {
            head.extend_from_slice(text);
        }
        head
    }
}

/// The fixed head of a reply.
#[derive(Clone, Copy, Debug, PartialEq, Eq)]
pub(super) struct ReplyHead {
    pub(super) status: u32,
    pub(super) digest_len: u32,
    pub(super) first: u64,
    pub(super) second: u64,
    pub(super) body_len: u64,
}

impl ReplyHead {
    pub(super) fn parse(head: &[u8; HEAD_LEN]) -> ReplyHead {
        let short = |at: usize| u32::from_le_bytes([head[at], head[at + 1], head[at + 2], head[at + 3]]);
        let long = |at: usize| short(at) as u64 | (short(at + 4) as u64) << 32;
        ReplyHead { status: short(0), digest_len: short(4), first: long(8), second: long(16), body_len: long(24) }
    }
}

/// A reply of success.
#[derive(Clone, Debug, Default)]
pub(crate) struct Reply {
    pub(crate) first: u64,
    pub(super) second: u64,
    pub(super) digest: String,
    pub(super) body: Bytes,
}

/// The reason why the store refused a request.
#[derive(Clone, Copy, Debug, PartialEq, Eq)]
pub(crate) enum Reason {
    NameInvalid,
    DigestInvalid,
    NameUnknown,
    UploadUnknown,
    SizeInvalid,
    RangeInvalid,
    BlobUnknown,
    ManifestInvalid,
    ManifestUnknown,
    ManifestBlobUnknown,
    Quota,
    Referenced,
    StoreFull,
    TooManyReaders,
    LimitReached,
    WeightSpent,
    Memory,
    Busy,
    RepoInUse,
    /// The bytes lie in a file that has others, or that cannot be read.
    Unreadable,
    /// A status that this program does not know.
    Other(u32),
}

impl Reason {
    /// Returns the reason for a status other than 0.
    pub(super) fn of_status(status: u32) -> Reason {
        match status {
            1 => Reason::NameInvalid,
            2 => Reason::DigestInvalid,
            3 => Reason::NameUnknown,
            4 => Reason::UploadUnknown,
            5 => Reason::SizeInvalid,
            6 => Reason::RangeInvalid,
            7 => Reason::BlobUnknown,
            8 => Reason::ManifestInvalid,
            9 => Reason::ManifestUnknown,
            10 => Reason::ManifestBlobUnknown,
            11 => Reason::Quota,
            12 => Reason::Referenced,
            13 => Reason::StoreFull,
            14 => Reason::TooManyReaders,
            15 => Reason::LimitReached,
            16 => Reason::WeightSpent,
            17 => Reason::Memory,
            18 => Reason::Busy,
            19 => Reason::RepoInUse,
            253 => Reason::Unreadable,
            other => Reason::Other(other),
        }
    }
}

/// A reply of failure: the reason and its details.
#[derive(Clone, Debug)]
pub(crate) struct Refusal {
    pub(crate) reason: Reason,
    pub(crate) first: u64,
    pub(crate) second: u64,
    pub(crate) digest: String,
}

impl Refusal {
    /// Makes a refusal without details.
    pub(crate) fn of(reason: Reason) -> Refusal {
        Refusal { reason, first: 0, second: 0, digest: String::new() }
    }
}

#[cfg(test)]
mod tests {
    use super::*;

    /// The example of docs/PROTOCOL.md.
    #[test]
    fn a_request_has_the_bytes_that_are_written_down() {
        let body = [Bytes::from_static(b"abc")];
        let request = Request { repo: "acme/web", number: 7, range: Some((0, 2)), body: &body, ..Request::new(Command::Append) };
        let head = [3, 1, 8, 0, 0, 0, 0, 0, 7, 0, 0, 0, 3, 0, 0, 0, 0, 0, 0, 0, 0, 0, 0, 0, 2, 0, 0, 0, 0, 0, 0, 0];
        assert_eq!(request.head(), [&head[..], b"acme/web"].concat());
    }

    #[test]
    fn a_replys_numbers_are_little_endian() {
        let mut bytes = [0u8; HEAD_LEN];
        bytes[0] = 11;
        bytes[4] = 71;
        bytes[8..16].copy_from_slice(&[1, 2, 0, 0, 0, 0, 0, 3]);
        bytes[31] = 1;
        let head = ReplyHead::parse(&bytes);
        assert_eq!((head.status, head.digest_len, head.second), (11, 71, 0));
        assert_eq!((head.first, head.body_len), (0x0300_0000_0000_0201, 1 << 56));
        assert_eq!(Reason::of_status(head.status), Reason::Quota);
        assert_eq!(Reason::of_status(20), Reason::Other(20));
    }

    #[test]
    fn a_text_that_is_too_long_is_cut() {
        let name = "a".repeat(70_000);
        let request = Request { repo: &name, ..Request::new(Command::Start) };
        assert_eq!(request.head().len(), HEAD_LEN + MAX_TEXT);
    }
}
