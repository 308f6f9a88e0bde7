//! The calls to the store, one function for each command, and their results.

use crate::folder::content_pieces::Note;
use crate::folder::sums::word_of;
use crate::store::appending::{append_on, append_request, len_of, range_of};
use crate::store::client::{Answer, NoReply, Store, StoreUnavailable};
use crate::store::connection::WHOLE_LEN;
use crate::store::frames::{Command, Reply, Request};
use crate::store::undo::Undo;
use bytes::Bytes;
use std::collections::VecDeque;
use std::time::Duration;
use tokio::sync::mpsc::Receiver;
use tokio::time::Instant;

/// Pause before another attempt to release a lease.
const RETRY_REST: Duration = Duration::from_secs(1);

/// The number of a lease, and the sharer that has it.
#[derive(Clone, Copy, Debug)]
pub(crate) struct Lease {
    number: u32,
    sharer: usize,
}

/// A leased blob.
pub(crate) struct LeasedBlob {
    pub(crate) number: Lease,
    pub(crate) size: u64,
}

/// Where bytes of a leased blob lie: in pieces of a file that follow each other.
#[derive(Debug, PartialEq, Eq)]
pub(crate) struct Place {
    /// The position of the tenant's name among those of all tenants in the order of their bytes, and the number of the session that received
    /// the content.
    pub(crate) tenant: usize,
    pub(crate) number: u32,
    /// The offset at which the first piece begins, in the blob and in the file.
    pub(crate) offset: u64,
    /// What is noted of each piece.
    pub(crate) notes: VecDeque<Note>,
}

impl Place {
    /// Returns the place in a reply, or `None` if the bytes lie in no file.
    fn of(reply: &Reply) -> Option<Place> {
        let note = |bytes: &[u8]| Note { len: word_of(&bytes[..8]), sum: word_of(&bytes[8..]) };
        let place = || Place {
            tenant: (reply.second >> 32) as usize,
            number: reply.second as u32,
            offset: reply.first,
            notes: reply.body.chunks_exact(NOTE_LEN).map(note).collect(),
        };
        (reply.second != 0).then(place)
    }
}

/// The number of bytes of a note in a reply.
const NOTE_LEN: usize = 16;

/// The result of a fetch.
pub(crate) enum FetchResult {
    /// The bytes, at most `MAX_FETCHED`, and the blob's size.
    Piece { size: u64, bytes: Bytes },
    /// There are more bytes: the blob is leased.
    LeasedBlob(LeasedBlob),
}

/// The longest piece that a fetch hands over, in bytes.
pub(crate) const MAX_FETCHED: u64 = 1 << 20;

/// The result of a mount.
pub(crate) enum MountResult {
    /// The blob is linked.
    Linked,
    /// No such blob can be mounted. A session was opened to upload it.
    Session(u32),
}

/// The number of distinct blobs in a tenant's repositories, and the tenant's share, which is their maximum number if there is
/// one.
pub(crate) struct SlotUse {
    pub(crate) blobs: u64,
    pub(crate) share: Option<u64>,
}

/// The share in an argument or a reply for a tenant whose number of blobs is not limited.
pub(crate) const UNLIMITED: u64 = u32::MAX as u64;

/// The numbers of slots that a sweep freed, and that it did not free because of readers.
pub(crate) struct SweepResult {
    pub(crate) freed: u64,
    pub(crate) held: u64,
}

impl Store {
    /// Opens an upload session, and returns its number.
    pub(crate) async fn start_upload(&self, repo: &str) -> Answer<u32> {
        let answer = self.ask_with(Request { repo, ..Request::new(Command::Start) }, Undo::Session).await?;
        Ok(answer.map(|reply| reply.first as u32))
    }

    /// Returns the number of bytes that a session has received.
    pub(crate) async fn status(&self, repo: &str, number: u32) -> Answer<u64> {
        let answer = self.ask(Request { repo, number, ..Request::new(Command::Status) }).await?;
        Ok(answer.map(|reply| reply.first))
    }

    /// Appends bytes to a session at an offset, which has to be its end. Returns the number of bytes that it has received.
    pub(crate) async fn append(&self, repo: &str, number: u32, start: u64, body: &[Bytes]) -> Answer<u64> {
        let answer = self.ask(append_request(repo, number, start, body)).await?;
        Ok(answer.map(|reply| reply.first))
    }

    /// Appends pieces to a session as they arrive, from its end on, until the channel closes or one fails. Returns the
    /// number of bytes that the session has received. The next piece is sent while the store hashes the last one. No second
    /// piece is sent before the first is accepted, so that nothing is appended if the first fails. No connection is held
    /// while it waits for a piece.
    pub(crate) async fn append_all(&self, repo: &str, number: u32, start: u64, pieces: &mut Receiver<Vec<Bytes>>) -> Answer<u64> {
        let mut received = start;
        if let Some(first) = pieces.recv().await {
            match self.append(repo, number, start, &first).await? {
                Ok(count) => received = count,
                Err(refusal) => return Ok(Err(refusal)),
            }
        }
        while let Some(piece) = pieces.recv().await {
            let is_long = len_of(&piece) > WHOLE_LEN as u64;
            let mut pooled = self.take(self.sharer(repo), is_long, Instant::now() + self.limit).await?;
            match append_on(&mut pooled, repo, number, received, piece, pieces).await {
                Ok(Ok(reply)) => received = reply.first,
                Ok(Err(refusal)) => return Ok(Err(refusal)),
                Err(error) => {
                    self.connection_failed(error);
                    return Err(StoreUnavailable);
                }
            }
        }
        Ok(Ok(received))
    }

    /// Appends the last bytes to a session, and makes it a blob. Returns the blob's size.
    pub(crate) async fn close(&self, repo: &str, number: u32, digest: &str, start: u64, body: &[Bytes]) -> Answer<u64> {
        let range = range_of(start, body);
        let answer = self.ask(Request { repo, number, digest, range, body, ..Request::new(Command::Close) }).await?;
        Ok(answer.map(|reply| reply.first))
    }

    /// Abandons a session.
    pub(crate) async fn abandon(&self, repo: &str, number: u32) -> Answer<()> {
        let answer = self.ask(Request { repo, number, ..Request::new(Command::Abandon) }).await?;
        Ok(answer.map(|_| ()))
    }

    /// Links a blob of the repository `source`, or of any repository of the tenant if `source` is empty.
    pub(crate) async fn mount(&self, repo: &str, digest: &str, source: &str) -> Answer<MountResult> {
        let request = Request { repo, digest, source, ..Request::new(Command::Mount) };
        let answer = self.ask_with(request, Undo::Session).await?;
        Ok(answer.map(|reply| match reply.first {
            0 => MountResult::Linked,
            session => MountResult::Session(session as u32),
        }))
    }

    /// Removes the link of a blob.
    pub(crate) async fn delete(&self, repo: &str, digest: &str) -> Answer<()> {
        let answer = self.ask(Request { repo, digest, ..Request::new(Command::Delete) }).await?;
        Ok(answer.map(|_| ()))
    }

    /// Stores a manifest, and returns its digest.
    pub(crate) async fn put_manifest(&self, repo: &str, body: &[Bytes]) -> Answer<String> {
        let answer = self.ask(Request { repo, body, ..Request::new(Command::PutManifest) }).await?;
        Ok(answer.map(|reply| reply.digest))
    }

    /// Returns the bytes of a manifest.
    pub(crate) async fn get_manifest(&self, repo: &str, digest: &str) -> Answer<Bytes> {
        let answer = self.ask(Request { repo, digest, ..Request::new(Command::GetManifest) }).await?;
        Ok(answer.map(|reply| reply.body))
    }

    /// Deletes a manifest.
    pub(crate) async fn delete_manifest(&self, repo: &str, digest: &str) -> Answer<()> {
        let answer = self.ask(Request { repo, digest, ..Request::new(Command::DeleteManifest) }).await?;
        Ok(answer.map(|_| ()))
    }

    /// Removes a repository that has no link, no manifest and no session.
    pub(crate) async fn remove_repo(&self, repo: &str) -> Answer<()> {
        let answer = self.ask(Request { repo, ..Request::new(Command::RemoveRepo) }).await?;
        Ok(answer.map(|_| ()))
    }

    /// Returns the size of a blob that is linked in a repository.
    pub(crate) async fn stat(&self, repo: &str, digest: &str) -> Answer<u64> {
        let answer = self.ask(Request { repo, digest, ..Request::new(Command::Stat) }).await?;
        Ok(answer.map(|reply| reply.first))
    }

    /// Returns the size of a manifest.
    pub(crate) async fn stat_manifest(&self, repo: &str, digest: &str) -> Answer<u64> {
        let answer = self.ask(Request { repo, digest, ..Request::new(Command::StatManifest) }).await?;
        Ok(answer.map(|reply| reply.first))
    }

    /// Leases a blob. The caller has to release the lease.
    pub(crate) async fn lease(&self, repo: &str, digest: &str) -> Answer<LeasedBlob> {
        let answer = self.ask_with(Request { repo, digest, ..Request::new(Command::Lease) }, Undo::Lease).await?;
        Ok(answer.map(|reply| self.leased(repo, &reply)))
    }

    /// Fetches the bytes of a blob in a range of two offsets, both included, or all bytes without a range. If they are more
    /// than `MAX_FETCHED`, the blob is leased, and the caller has to release the lease.
    pub(crate) async fn fetch(&self, repo: &str, digest: &str, range: Option<(u64, u64)>) -> Answer<FetchResult> {
        let request = Request { repo, digest, range, ..Request::new(Command::Fetch) };
        let answer = self.ask_with(request, Undo::Lease).await?;
        Ok(answer.map(|reply| match reply.second {
            0 => FetchResult::Piece { size: reply.first, bytes: reply.body },
            _ => FetchResult::LeasedBlob(self.leased(repo, &reply)),
        }))
    }

    /// Returns the lease of a reply.
    fn leased(&self, repo: &str, reply: &Reply) -> LeasedBlob {
        let number = Lease { number: reply.second as u32, sharer: self.sharer(repo) };
        LeasedBlob { size: reply.first, number }
    }

    /// Returns the bytes of a leased blob from one offset to another, both included.
    pub(crate) async fn read(&self, lease: Lease, digest: &str, start: u64, last: u64) -> Answer<Bytes> {
        let range = Some((start, last));
        let request = Request { number: lease.number, digest, range, ..Request::new(Command::Read) };
        let [answer] = self.ask_all(lease.sharer, self.limit, [request], Undo::Nothing).await?;
        Ok(answer.map(|reply| reply.body))
    }

    /// Returns where the bytes of a leased blob from one offset to another, both included, lie. Returns `None` if they lie in no file.
    pub(crate) async fn locate(&self, lease: Lease, digest: &str, start: u64, last: u64) -> Answer<Option<Place>> {
        let range = Some((start, last));
        let request = Request { number: lease.number, digest, range, ..Request::new(Command::Locate) };
        let [answer] = self.ask_all(lease.sharer, self.limit, [request], Undo::Nothing).await?;
        Ok(answer.map(|reply| Place::of(&reply)))
    }

    /// Returns the bytes of a leased blob as `read` does, and releases the lease. `range` is `None` only for an empty blob.
    pub(crate) async fn read_last(&self, lease: Lease, digest: &str, range: Option<(u64, u64)>) -> Answer<Bytes> {
        let number = lease.number;
        let read = Request { number, digest, range, ..Request::new(Command::Read) };
        let give_back = Request { number, ..Request::new(Command::GiveBack) };
        match self.ask_all(lease.sharer, self.limit, [read, give_back], Undo::Nothing).await {
            Ok([read, given_back]) => Ok(given_back.and(read).map(|reply| reply.body)),
            Err(NoReply::NotMade) => {
                let _ = self.give_back(lease).await;
                Err(StoreUnavailable)
            }
            Err(NoReply::Late) => Err(StoreUnavailable),
        }
    }

    /// Releases a lease. It retries until the store gets the request or has ended, because nothing else releases the lease.
    pub(crate) async fn give_back(&self, lease: Lease) -> Answer<()> {
        loop {
            let request = Request { number: lease.number, ..Request::new(Command::GiveBack) };
            match self.ask_all(lease.sharer, self.limit, [request], Undo::Nothing).await {
                Ok([answer]) => return Ok(answer.map(|_| ())),
                Err(NoReply::NotMade) if !self.has_ended() => tokio::time::sleep(RETRY_REST).await,
                Err(_) => return Err(StoreUnavailable),
            }
        }
    }

    /// Frees the slots of blobs that have no links and no readers.
    pub(crate) async fn sweep(&self) -> Answer<SweepResult> {
        let answer = self.ask_own(self.limit, Request::new(Command::Sweep)).await?;
        Ok(answer.map(|reply| SweepResult { freed: reply.first, held: reply.second }))
    }

    /// Returns the number of free slots.
    pub(crate) async fn free_slots(&self) -> Answer<u64> {
        let answer = self.ask_own(self.limit, Request::new(Command::FreeSlots)).await?;
        Ok(answer.map(|reply| reply.first))
    }

    /// Returns how often the store's log was synced since the store started.
    pub(crate) async fn sync_count(&self) -> Answer<u64> {
        let answer = self.ask_own(self.limit, Request::new(Command::SyncCount)).await?;
        Ok(answer.map(|reply| reply.first))
    }

    /// Returns the bytes that a repository's tenant uses, and its quota.
    pub(crate) async fn usage(&self, repo: &str) -> Answer<(u64, u64)> {
        let answer = self.ask(Request { repo, ..Request::new(Command::Usage) }).await?;
        Ok(answer.map(|reply| (reply.first, reply.second)))
    }

    /// Returns the number of distinct blobs of a repository's tenant, and its share.
    pub(crate) async fn slot_use(&self, repo: &str) -> Answer<SlotUse> {
        let answer = self.ask(Request { repo, ..Request::new(Command::SlotUse) }).await?;
        let share = |number| Some(number).filter(|number| *number != UNLIMITED);
        Ok(answer.map(|reply| SlotUse { blobs: reply.first, share: share(reply.second) }))
    }
}

#[cfg(test)]
mod tests {
    use super::*;

    /// The fields of docs/PROTOCOL.md.
    #[test]
    fn a_place_has_the_notes_of_its_pieces() {
        let mut body = vec![0, 0, 16, 0, 0, 0, 0, 0, 1, 2, 0, 0, 0, 0, 0, 128];
        body.extend_from_slice(&[3, 0, 0, 0, 0, 0, 0, 0, 5, 0, 0, 0, 0, 0, 0, 0]);
        let reply = Reply { first: 16_384, second: 2 << 32 | 7, body: body.into(), ..Reply::default() };
        let notes = [Note { len: 1 << 20, sum: 1 << 63 | 513 }, Note { len: 3, sum: 5 }].into_iter().collect();
        assert_eq!(Place::of(&reply), Some(Place { tenant: 2, number: 7, offset: 16_384, notes }));
        assert_eq!(Place::of(&Reply::default()), None);
    }
}
