//! Fetches of blobs: one for each blob at a time, whose bytes go to the spool and to the store.
use crate::endpoints::registry::Registry;
use crate::http::in_flight::Holder;
use crate::mirror::failure::UpstreamError;
use crate::mirror::mirrors::Mirror;
use crate::mirror::spool::{Head, Spool};
use crate::mirror::storing::Storing;
use crate::mirror::upstream::FetchedBlob;
use crate::operation::locks::guard_of;
use crate::operation::memory_reserve::is_short;
use bytes::Bytes;
use hyper::Body;
use sha2::{Digest, Sha256, Sha512};
use std::collections::HashMap;
use std::sync::{Arc, Mutex};
use std::time::{Duration, Instant};
use tokio::task::block_in_place;

/// The maximum number of fetches of one mirror at once. The store allows 64 uploads of a tenant.
pub(super) const MAX_FETCHES: usize = 24;

/// The memory that a fetch holds, in bytes: the piece that is sent to the store, and the next one.
const HELD: u64 = 2 << 20;

/// The least bytes that an upstream has to send in a time, so that a fetch ends.
const LEAST_PACE: (u64, Duration) = (64 << 10, Duration::from_secs(60));

/// A repository and a digest.
type Key = (String, String);

/// The fetches in progress.
#[derive(Default)]
pub(super) struct Fetches(Mutex<HashMap<Key, Arc<Spool>>>);

/// The hash of the bytes that came.
enum Hash {
    Sha256(Sha256),
    Sha512(Sha512),
}

impl Hash {
    fn of(digest: &str) -> Option<Hash> {
        match digest.split_once(':')?.0 {
            "sha256" => Some(Hash::Sha256(Sha256::new())),
            "sha512" => Some(Hash::Sha512(Sha512::new())),
            _ => None,
        }
    }

    fn update(&mut self, bytes: &[u8]) {
        match self {
            Hash::Sha256(hash) => hash.update(bytes),
            Hash::Sha512(hash) => hash.update(bytes),
        }
    }

    fn digest(self) -> String {
        match self {
            Hash::Sha256(hash) => format!("sha256:{:x}", hash.finalize()),
            Hash::Sha512(hash) => format!("sha512:{:x}", hash.finalize()),
        }
    }
}

/// The pace of an upstream in the current period.
struct Pace {
    begun: Instant,
    bytes: u64,
}

impl Pace {
    /// Counts bytes. Fails if too few came in the period.
    fn count(&mut self, bytes: usize) -> Result<(), UpstreamError> {
        self.bytes += bytes as u64;
        if self.begun.elapsed() >= LEAST_PACE.1 {
            if self.bytes < LEAST_PACE.0 {
                return Err(UpstreamError::Failed(format!("it sent {} bytes in a minute", self.bytes)));
            }
            *self = Pace { begun: Instant::now(), bytes: 0 };
        }
        Ok(())
    }
}

impl Fetches {
    /// Returns the number of fetches in progress.
    pub(super) fn len(&self) -> usize {
        guard_of(self.0.lock()).len()
    }

    /// Adds a fetch, unless another of the same blob is in progress, which is returned then.
    fn add(&self, key: &Key, spool: &Arc<Spool>) -> Option<Arc<Spool>> {
        let mut by_key = guard_of(self.0.lock());
        let other = by_key.get(key).cloned();
        if other.is_none() {
            by_key.insert(key.clone(), spool.clone());
        }
        other
    }

    /// Returns the fetch of a blob, if it is in progress.
    pub(super) fn find(&self, repo: &str, digest: &str) -> Option<Arc<Spool>> {
        guard_of(self.0.lock()).get(&(repo.to_string(), digest.to_string())).cloned()
    }
}

impl Mirror {
    /// Returns the fetch of a blob, if it is in progress.
    pub(crate) fn fetch_of(&self, repo: &str, digest: &str) -> Option<Arc<Spool>> {
        self.fetches.find(repo, digest)
    }

    /// Returns the fetch of a blob that is in progress, or begins one.
    pub(crate) fn join_fetch(self: &Arc<Self>, registry: &Arc<Registry>, repo: &str, digest: &str) -> Arc<Spool> {
        let (key, spool) = ((repo.to_string(), digest.to_string()), Arc::new(Spool::default()));
        if let Some(other) = self.fetches.add(&key, &spool) {
            return other;
        }
        let (mirror, registry, fetched) = (self.clone(), registry.clone(), spool.clone());
        tokio::spawn(async move {
            let ended = Ending { mirror: &mirror, key: &key, spool: &fetched };
            fetch(&mirror, &registry, &key, &fetched).await;
            drop(ended);
        });
        spool
    }
}

/// The end of a fetch, also if a bug ends it: it is removed, and those who wait for it learn that it failed.
struct Ending<'f> {
    mirror: &'f Mirror,
    key: &'f Key,
    spool: &'f Spool,
}

impl Drop for Ending<'_> {
    fn drop(&mut self) {
        guard_of(self.mirror.fetches.0.lock()).remove(self.key);
        self.spool.change(|progress| {
            progress.outcome.get_or_insert_with(|| Err(UpstreamError::failed("the fetch ended")));
            progress.is_stored.get_or_insert(false);
        });
    }
}

/// Fetches a blob, unless the store has it undamaged.
async fn fetch(mirror: &Arc<Mirror>, registry: &Arc<Registry>, key: &Key, spool: &Spool) {
    let (repo, digest) = (key.0.as_str(), key.1.as_str());
    let _permit = mirror.fetch_permits.acquire().await;
    // Another fetch may have ended after the store was asked.
    let is_stored = matches!(registry.store.stat(repo, digest).await, Ok(Ok(_)));
    if is_stored && !registry.damaged.has(digest) {
        spool.change(|progress| {
            progress.head = Some(Head::IsStored);
            progress.is_stored = Some(true);
        });
        return;
    }
    let mut storing = None;
    let received = receive(mirror, registry, key, spool, &mut storing).await;
    let is_right = received.is_ok();
    let last = received.as_ref().map_or(Vec::new(), Clone::clone);
    spool.change(|progress| progress.outcome = Some(received.map(|_| ())));
    let is_stored = match storing {
        Some(storing) if is_right => storing.close(digest, last).await,
        Some(storing) => {
            storing.abandon().await;
            false
        }
        None => false,
    };
    spool.change(|progress| progress.is_stored = Some(is_stored));
}

/// Receives a blob. Returns the bytes that were not sent to the store yet, after all came and have the digest.
async fn receive<'r>(
    mirror: &'r Arc<Mirror>,
    registry: &'r Arc<Registry>,
    key: &'r Key,
    spool: &Spool,
    storing: &mut Option<Storing<'r>>,
) -> Result<Vec<Bytes>, UpstreamError> {
    let (repo, digest) = (key.0.as_str(), key.1.as_str());
    let name = mirror.upstream.address.name_of(repo).ok_or(UpstreamError::Unknown)?;
    let hash = Hash::of(digest).ok_or(UpstreamError::Unknown)?;
    check_room(registry)?;
    let opened = block_in_place(|| spool.open(registry.folder.as_ref().map(|folder| folder.path())));
    opened.map_err(|error| UpstreamError::NoRoom(format!("cannot make a file for a fetch: {error}")))?;
    let holder = Holder { sharer: registry.store.sharer(repo), connection: None };
    let no_memory = |_| UpstreamError::NoRoom("too many bytes in flight".to_string());
    let _reserved = registry.memory.reserve(&holder, HELD).await.map_err(no_memory)?;
    let FetchedBlob { len, body } = mirror.upstream.blob(&name, digest).await?;
    let most = len.unwrap_or(registry.max_blob);
    if most > registry.max_blob {
        let why = format!("a blob has {most} bytes, and may have {}", registry.max_blob);
        return Err(mirror.upstream.failed(UpstreamError::Failed(why)));
    }
    spool.change(|progress| progress.head = Some(Head::Comes(len)));
    *storing = Storing::begin(mirror, registry, repo, len).await;
    let pace = Pace { begun: Instant::now(), bytes: 0 };
    let incoming = Incoming { mirror, registry, spool, hash, pace, len, most, received: 0 };
    incoming.copy(body, digest, storing).await.map_err(|error| mirror.upstream.failed(error))?;
    Ok(storing.as_mut().map_or(Vec::new(), Storing::take_rest))
}

/// A blob whose bytes come from the upstream.
struct Incoming<'r> {
    mirror: &'r Mirror,
    registry: &'r Registry,
    spool: &'r Spool,
    hash: Hash,
    pace: Pace,
    /// The length that the upstream says, if it does.
    len: Option<u64>,
    /// The maximum number of bytes.
    most: u64,
    received: u64,
}

impl Incoming<'_> {
    /// Copies the bytes to the spool and to the store, and checks their length and their digest.
    async fn copy(mut self, mut body: Body, digest: &str, storing: &mut Option<Storing<'_>>) -> Result<(), UpstreamError> {
        while let Some(bytes) = self.mirror.upstream.next(&mut body).await? {
            self.take(&bytes)?;
            if let Some(active) = storing {
                active.add(bytes).await;
            }
        }
        self.check_end(digest)
    }

    /// Takes bytes into the spool.
    fn take(&mut self, bytes: &Bytes) -> Result<(), UpstreamError> {
        self.received += bytes.len() as u64;
        if self.received > self.most {
            return Err(UpstreamError::Failed(format!("a blob is longer than {} bytes", self.most)));
        }
        self.pace.count(bytes.len())?;
        check_room(self.registry)?;
        let written = block_in_place(|| {
            self.hash.update(bytes);
            self.spool.write(bytes)
        });
        written.map_err(|error| UpstreamError::NoRoom(format!("cannot write what is fetched: {error}")))
    }

    /// Fails if the blob is too short, or has another digest.
    fn check_end(self, digest: &str) -> Result<(), UpstreamError> {
        let received = self.received;
        match self.len {
            Some(len) if len != received => Err(UpstreamError::Failed(format!("a blob of {len} bytes ended after {received}"))),
            _ if self.hash.digest() != digest => {
                Err(UpstreamError::Failed(format!("a blob has another digest than its own: {digest}")))
            }
            _ => Ok(()),
        }
    }
}

/// Fails if this machine has no room for more bytes.
fn check_room(registry: &Registry) -> Result<(), UpstreamError> {
    if is_short() {
        return Err(UpstreamError::NoRoom("out of memory".to_string()));
    }
    let checked = registry.folder.as_ref().map_or(Ok(()), |folder| folder.room.check_content());
    checked.map_err(|_| UpstreamError::NoRoom("the disk of the registry is almost full".to_string()))
}

#[cfg(test)]
mod tests {
    use super::*;

    /// FIPS 180-4's example of `abc`.
    #[test]
    fn a_digest_is_by_its_algorithm() {
        for digest in [
            "sha256:ba7816bf8f01cfea414140de5dae2223b00361a396177a9cb410ff61f20015ad",
            "sha512:ddaf35a193617abacc417349ae20413112e6fa4e89a97ea20a9eeee64b55d39a2192992a274fc1a836ba3c23a3feebbd454d4423643ce80e2a9ac94fa54ca49f",
        ] {
            let mut hash = Hash::of(digest).unwrap();
            hash.update(b"ab");
            hash.update(b"c");
            assert_eq!(hash.digest(), digest);
        }
        assert!(Hash::of("md5:x").is_none() && Hash::of("x").is_none());
    }

    #[test]
    fn a_pace_has_a_minimum() {
        let mut pace = Pace { begun: Instant::now(), bytes: 0 };
        assert!(pace.count(1).is_ok());
        pace.begun -= LEAST_PACE.1;
        assert!(pace.count(1).is_err());
        let mut pace = Pace { begun: Instant::now() - LEAST_PACE.1, bytes: LEAST_PACE.0 };
        assert!(pace.count(0).is_ok() && pace.bytes == 0);
    }
}
