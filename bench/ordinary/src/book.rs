//! The state of the store: tenants, repositories, links, manifests, sessions and slots.

use crate::digest::{Digest, Hashes};
use crate::manifest::Manifest;
use crate::name::tenant_of;
use crate::Options;
use std::collections::{BTreeMap, BTreeSet, HashMap};
use std::fmt;
use std::io::{self, Write};
use std::sync::atomic::{AtomicU64, Ordering};
use std::sync::Arc;

const MAX_REPOS: usize = 1024;
const MAX_MANIFESTS: usize = 1024;
const MAX_SESSIONS: usize = 64;
const MAX_WEIGHT: u64 = (1 << 30) - 1;

pub enum Refusal {
    NameInvalid,
    DigestInvalid,
    NameUnknown,
    UploadUnknown,
    SizeInvalid,
    RangeInvalid { received: u64 },
    BlobUnknown,
    ManifestInvalid,
    ManifestUnknown,
    ManifestBlobUnknown(Digest),
    Quota { used: u64, quota: u64 },
    Referenced(Digest),
    StoreFull,
    TooManyReaders,
    LimitReached,
    WeightSpent,
    Busy,
}

impl fmt::Display for Refusal {
    fn fmt(&self, f: &mut fmt::Formatter<'_>) -> fmt::Result {
        use Refusal::*;
        match self {
            NameInvalid => f.write_str("NameInvalid"),
            DigestInvalid => f.write_str("DigestInvalid"),
            NameUnknown => f.write_str("NameUnknown"),
            UploadUnknown => f.write_str("UploadUnknown"),
            SizeInvalid => f.write_str("SizeInvalid"),
            RangeInvalid { received } => write!(f, "RangeInvalid received {received}"),
            BlobUnknown => f.write_str("BlobUnknown"),
            ManifestInvalid => f.write_str("ManifestInvalid"),
            ManifestUnknown => f.write_str("ManifestUnknown"),
            ManifestBlobUnknown(digest) => write!(f, "ManifestBlobUnknown {digest}"),
            Quota { used, quota } => write!(f, "Quota used {used} quota {quota}"),
            Referenced(digest) => write!(f, "Referenced {digest}"),
            StoreFull => f.write_str("StoreFull"),
            TooManyReaders => f.write_str("TooManyReaders"),
            LimitReached => f.write_str("LimitReached"),
            WeightSpent => f.write_str("WeightSpent"),
            Busy => f.write_str("Busy"),
        }
    }
}

/// The bytes that a session has received.
#[derive(Default)]
pub struct Upload {
    pub bytes: Vec<u8>,
    pub hashes: Hashes,
}

struct Session {
    repo: String,
    received: u64,
    reserved: u64,
    /// None while the session is checked out.
    upload: Option<Upload>,
}

#[derive(Default)]
struct Repo {
    blobs: BTreeMap<Digest, u64>,
    manifests: BTreeMap<Digest, Arc<Manifest>>,
    referrers: HashMap<Digest, BTreeSet<Digest>>,
}

struct Tenant {
    quota: u64,
    used: u64,
    next: u64,
    repos: BTreeMap<String, Repo>,
    holders: HashMap<Digest, usize>,
    sessions: BTreeMap<u32, Session>,
}

struct Held {
    digest: Digest,
    blob: Arc<Vec<u8>>,
    links: usize,
    condemned: bool,
}

#[derive(Default)]
pub struct Swept {
    pub condemned: u64,
    pub freed: u64,
    pub held: u64,
}

pub enum Mount {
    Mounted,
    Session(u32),
}

/// A lease: the bytes, and a share of the slot's weight.
pub struct Lease {
    pub blob: Arc<Vec<u8>>,
    weights: Arc<Vec<AtomicU64>>,
    slot: usize,
    weight: u64,
}

impl Lease {
    pub fn share(&mut self) -> Result<Lease, Refusal> {
        if self.weight == 1 {
            return Err(Refusal::WeightSpent);
        }
        self.weight /= 2;
        Ok(Lease {
            blob: self.blob.clone(),
            weights: self.weights.clone(),
            slot: self.slot,
            weight: self.weight,
        })
    }
}

impl Drop for Lease {
    fn drop(&mut self) {
        self.weights[self.slot].fetch_sub(self.weight, Ordering::Release);
    }
}

pub struct Book {
    tenants: BTreeMap<String, Tenant>,
    slots: Vec<Option<Held>>,
    free: Vec<usize>,
    index: HashMap<Digest, usize>,
    weights: Arc<Vec<AtomicU64>>,
    max_blob: u64,
}

impl Tenant {
    /// Returns a repository, and creates it first if it does not exist.
    fn appear(&mut self, repo: &str) -> Result<&mut Repo, Refusal> {
        if !self.repos.contains_key(repo) {
            if self.repos.len() >= MAX_REPOS {
                return Err(Refusal::LimitReached);
            }
            self.repos.insert(repo.to_string(), Repo::default());
        }
        Ok(self.repos.get_mut(repo).expect("it is there"))
    }

    fn start(&mut self, repo: &str) -> Result<u32, Refusal> {
        if self.sessions.len() >= MAX_SESSIONS || self.next > u64::from(u32::MAX) {
            return Err(Refusal::LimitReached);
        }
        self.appear(repo)?;
        let number = self.next as u32;
        self.next += 1;
        let session = Session {
            repo: repo.to_string(),
            received: 0,
            reserved: 0,
            upload: Some(Upload::default()),
        };
        self.sessions.insert(number, session);
        Ok(number)
    }

    fn session(&mut self, repo: &str, number: u32) -> Result<&mut Session, Refusal> {
        match self.sessions.get_mut(&number) {
            Some(session) if session.repo == repo => Ok(session),
            _ => Err(Refusal::UploadUnknown),
        }
    }

    /// Links a blob, and returns whether the link is new.
    fn link(&mut self, repo: &str, digest: Digest, size: u64) -> Result<bool, Refusal> {
        if self.appear(repo)?.blobs.insert(digest, size).is_some() {
            return Ok(false);
        }
        let holders = self.holders.entry(digest).or_insert(0);
        *holders += 1;
        if *holders == 1 {
            self.used += size;
        }
        Ok(true)
    }
}

impl Book {
    pub fn new(options: &Options) -> Book {
        let tenant = |quota| Tenant {
            quota,
            used: 0,
            next: 1,
            repos: BTreeMap::new(),
            holders: HashMap::new(),
            sessions: BTreeMap::new(),
        };
        Book {
            tenants: options.tenants.iter().map(|(name, quota)| (name.clone(), tenant(*quota))).collect(),
            slots: (0..options.slots).map(|_| None).collect(),
            free: (0..options.slots).rev().collect(),
            index: HashMap::new(),
            weights: Arc::new((0..options.slots).map(|_| AtomicU64::new(0)).collect()),
            max_blob: options.max_blob,
        }
    }

    fn tenant(&mut self, repo: &str) -> Result<&mut Tenant, Refusal> {
        self.tenants.get_mut(tenant_of(repo)).ok_or(Refusal::NameUnknown)
    }

    pub fn check_tenant(&mut self, repo: &str) -> Result<(), Refusal> {
        self.tenant(repo).map(|_| ())
    }

    pub fn start(&mut self, repo: &str) -> Result<u32, Refusal> {
        self.tenant(repo)?.start(repo)
    }

    pub fn status(&mut self, repo: &str, number: u32) -> Result<u64, Refusal> {
        Ok(self.tenant(repo)?.session(repo, number)?.received)
    }

    /// Checks out a session for a chunk.
    pub fn take(&mut self, repo: &str, number: u32, range: Option<(u64, u64)>, len: u64) -> Result<Upload, Refusal> {
        let max_blob = self.max_blob;
        let tenant = self.tenant(repo)?;
        let (used, quota) = (tenant.used, tenant.quota);
        let session = tenant.session(repo, number)?;
        if session.upload.is_none() {
            return Err(Refusal::Busy);
        }
        if range.map_or(false, |(start, end)| end - start + 1 != len) || session.received + len > max_blob {
            return Err(Refusal::SizeInvalid);
        }
        if range.map_or(false, |(start, _)| start != session.received) {
            return Err(Refusal::RangeInvalid { received: session.received });
        }
        if used + len > quota {
            return Err(Refusal::Quota { used, quota });
        }
        session.reserved = len;
        let upload = session.upload.take().expect("it isn't in hand");
        tenant.used += len;
        Ok(upload)
    }

    /// Checks in a session, with the bytes that it received meanwhile.
    pub fn put_back(&mut self, repo: &str, number: u32, upload: Upload) -> u64 {
        let tenant = self.tenant(repo).ok().expect("the tenant stays");
        let session = tenant.sessions.get_mut(&number).expect("who has it in hand keeps it");
        let reserved = session.reserved;
        let received = upload.bytes.len() as u64;
        let came = received - session.received;
        session.received = received;
        session.reserved = 0;
        session.upload = Some(upload);
        tenant.used -= reserved - came;
        received
    }

    /// Ends a checked-out session: its bytes and the last chunk are stored under their digest.
    pub fn finish(
        &mut self,
        repo: &str,
        number: u32,
        mut upload: Upload,
        last: &[u8],
        digest: Digest,
    ) -> Result<u64, Refusal> {
        let received = upload.bytes.len();
        upload.bytes.extend_from_slice(last);
        let size = upload.bytes.len() as u64;
        let slot = match self.index.get(&digest) {
            Some(&slot) => {
                let held = self.slots[slot].as_mut().expect("it is indexed");
                if *held.blob != upload.bytes {
                    upload.bytes.truncate(received);
                    self.put_back(repo, number, upload);
                    return Err(Refusal::DigestInvalid);
                }
                held.condemned = false;
                slot
            }
            None => match self.free.pop() {
                None => {
                    upload.bytes.truncate(received);
                    self.put_back(repo, number, upload);
                    return Err(Refusal::StoreFull);
                }
                Some(slot) => {
                    self.index.insert(digest, slot);
                    self.slots[slot] = Some(Held {
                        digest,
                        blob: Arc::new(upload.bytes),
                        links: 0,
                        condemned: false,
                    });
                    slot
                }
            },
        };
        let tenant = self.tenant(repo)?;
        let session = tenant.sessions.remove(&number).expect("who has it in hand keeps it");
        tenant.used -= session.received + session.reserved;
        if tenant.link(repo, digest, size)? {
            self.slots[slot].as_mut().expect("it is held").links += 1;
        }
        Ok(size)
    }

    pub fn abandon(&mut self, repo: &str, number: u32) -> Result<(), Refusal> {
        let tenant = self.tenant(repo)?;
        let session = tenant.session(repo, number)?;
        if session.upload.is_none() {
            return Err(Refusal::Busy);
        }
        tenant.used -= session.received;
        tenant.sessions.remove(&number);
        Ok(())
    }

    pub fn mount(&mut self, repo: &str, digest: Digest, from: Option<&str>) -> Result<Mount, Refusal> {
        let tenant = self.tenant(repo)?;
        let there = match from {
            None => tenant.holders.contains_key(&digest),
            Some(from) => {
                tenant_of(from) == tenant_of(repo)
                    && tenant.repos.get(from).map_or(false, |repo| repo.blobs.contains_key(&digest))
            }
        };
        if !there {
            return tenant.start(repo).map(Mount::Session);
        }
        let slot = self.index[&digest];
        let size = self.slots[slot].as_ref().expect("it is linked").blob.len() as u64;
        if self.tenant(repo)?.link(repo, digest, size)? {
            self.slots[slot].as_mut().expect("it is linked").links += 1;
        }
        Ok(Mount::Mounted)
    }

    pub fn delete(&mut self, repo: &str, digest: Digest) -> Result<(), Refusal> {
        let tenant = self.tenant(repo)?;
        let Some(blobs) = tenant.repos.get_mut(repo) else {
            return Err(Refusal::BlobUnknown);
        };
        if !blobs.blobs.contains_key(&digest) {
            return Err(Refusal::BlobUnknown);
        }
        if let Some(manifest) = blobs.referrers.get(&digest).and_then(BTreeSet::first) {
            return Err(Refusal::Referenced(*manifest));
        }
        let size = blobs.blobs.remove(&digest).expect("it is linked");
        let holders = tenant.holders.get_mut(&digest).expect("it is held");
        *holders -= 1;
        if *holders == 0 {
            tenant.holders.remove(&digest);
            tenant.used -= size;
        }
        let slot = self.index[&digest];
        self.slots[slot].as_mut().expect("it is linked").links -= 1;
        Ok(())
    }

    pub fn put_manifest(&mut self, repo: &str, manifest: Manifest) -> Result<Digest, Refusal> {
        let tenant = self.tenant(repo)?;
        let blobs = tenant.repos.get(repo);
        for digest in &manifest.refs {
            if !blobs.map_or(false, |repo| repo.blobs.contains_key(digest)) {
                return Err(Refusal::ManifestBlobUnknown(*digest));
            }
        }
        let digest = manifest.digest;
        if blobs.map_or(false, |repo| repo.manifests.contains_key(&digest)) {
            return Ok(digest);
        }
        if blobs.map_or(false, |repo| repo.manifests.len() >= MAX_MANIFESTS) {
            return Err(Refusal::LimitReached);
        }
        let repo = tenant.appear(repo)?;
        for blob in &manifest.refs {
            repo.referrers.entry(*blob).or_default().insert(digest);
        }
        repo.manifests.insert(digest, Arc::new(manifest));
        Ok(digest)
    }

    pub fn get_manifest(&mut self, repo: &str, digest: Digest) -> Result<Arc<Manifest>, Refusal> {
        let repo = self.tenant(repo)?.repos.get(repo);
        repo.and_then(|repo| repo.manifests.get(&digest)).cloned().ok_or(Refusal::ManifestUnknown)
    }

    pub fn delete_manifest(&mut self, repo: &str, digest: Digest) -> Result<(), Refusal> {
        let repo = self.tenant(repo)?.repos.get_mut(repo).ok_or(Refusal::ManifestUnknown)?;
        let manifest = repo.manifests.remove(&digest).ok_or(Refusal::ManifestUnknown)?;
        for blob in &manifest.refs {
            let referrers = repo.referrers.get_mut(blob).expect("it is referred to");
            referrers.remove(&digest);
            if referrers.is_empty() {
                repo.referrers.remove(blob);
            }
        }
        Ok(())
    }

    pub fn lease(&mut self, repo: &str, digest: Digest) -> Result<Lease, Refusal> {
        let repo = self.tenant(repo)?.repos.get(repo);
        if !repo.map_or(false, |repo| repo.blobs.contains_key(&digest)) {
            return Err(Refusal::BlobUnknown);
        }
        let slot = self.index[&digest];
        if self.weights[slot].load(Ordering::Acquire) + 1024 > MAX_WEIGHT {
            return Err(Refusal::TooManyReaders);
        }
        self.weights[slot].fetch_add(1024, Ordering::Acquire);
        Ok(Lease {
            blob: self.slots[slot].as_ref().expect("it is linked").blob.clone(),
            weights: self.weights.clone(),
            slot,
            weight: 1024,
        })
    }

    pub fn sweep(&mut self) -> Swept {
        let mut swept = Swept::default();
        for slot in 0..self.slots.len() {
            let Some(held) = &mut self.slots[slot] else {
                continue;
            };
            if held.links > 0 {
                continue;
            }
            if !held.condemned {
                held.condemned = true;
                swept.condemned += 1;
            }
            if self.weights[slot].load(Ordering::Acquire) > 0 {
                swept.held += 1;
                continue;
            }
            self.index.remove(&held.digest);
            self.slots[slot] = None;
            self.free.push(slot);
            swept.freed += 1;
        }
        swept
    }

    pub fn print<W: Write>(&self, out: &mut W) -> io::Result<()> {
        out.write_all(b"book\n")?;
        for (name, tenant) in &self.tenants {
            writeln!(out, "tenant {name} used {} quota {} next {}", tenant.used, tenant.quota, tenant.next)?;
            let mut sessions: BTreeMap<&str, Vec<(u32, u64)>> = BTreeMap::new();
            for (number, session) in &tenant.sessions {
                sessions.entry(&session.repo).or_default().push((*number, session.received));
            }
            for (name, repo) in &tenant.repos {
                writeln!(out, "repository {name}")?;
                for (digest, size) in &repo.blobs {
                    let links = self.slots[self.index[digest]].as_ref().expect("it is linked").links;
                    writeln!(out, "blob {digest} size {size} links {links}")?;
                }
                for (digest, manifest) in &repo.manifests {
                    writeln!(out, "manifest {digest} size {} refs {}", manifest.bytes.len(), manifest.refs.len())?;
                }
                for (number, received) in sessions.get(name.as_str()).into_iter().flatten() {
                    writeln!(out, "session {number} received {received}")?;
                }
            }
        }
        out.write_all(b"end\n")
    }
}
