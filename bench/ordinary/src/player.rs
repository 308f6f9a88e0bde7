//! Runs rows with one worker or several.

use crate::book::{Book, Lease, Mount, Refusal, Swept};
use crate::digest::{Digest, Hashing};
use crate::manifest::{self, Manifest, MAX_MANIFEST};
use crate::name::is_repo;
use crate::script::{Row, Verb};
use std::collections::hash_map::Entry;
use std::collections::HashMap;
use std::io::{self, Write};
use std::sync::{Arc, Mutex, MutexGuard};
use std::thread;

pub enum Reply {
    Session(u32),
    Received(u64),
    Stored(u64),
    Abandoned,
    Mounted,
    Deleted,
    Manifest(Digest),
    Body(Arc<Manifest>),
    Leased(u64),
    Bytes(Arc<Vec<u8>>, usize, usize),
    Shared,
    Verified(u64),
    GivenBack,
    Swept(Swept),
    NoLease,
    NameTaken,
    Refused(Refusal),
}

impl Reply {
    pub fn write<W: Write>(&self, row: usize, out: &mut W) -> io::Result<()> {
        write!(out, "{row} ")?;
        match self {
            Reply::Session(number) => writeln!(out, "session {number}"),
            Reply::Received(n) => writeln!(out, "received {n}"),
            Reply::Stored(n) => writeln!(out, "stored {n}"),
            Reply::Abandoned => writeln!(out, "abandoned"),
            Reply::Mounted => writeln!(out, "mounted"),
            Reply::Deleted => writeln!(out, "deleted"),
            Reply::Manifest(digest) => writeln!(out, "manifest {digest}"),
            Reply::Body(manifest) => writeln!(out, "body {}", hex::encode(&manifest.bytes)),
            Reply::Leased(n) => writeln!(out, "leased {n}"),
            Reply::Bytes(blob, start, end) => writeln!(out, "bytes {}", hex::encode(&blob[*start..*end])),
            Reply::Shared => writeln!(out, "shared"),
            Reply::Verified(n) => writeln!(out, "verified {n}"),
            Reply::GivenBack => writeln!(out, "given back"),
            Reply::Swept(s) => {
                writeln!(out, "swept condemned {} freed {} held {} retired 0", s.condemned, s.freed, s.held)
            }
            Reply::NoLease => writeln!(out, "no lease"),
            Reply::NameTaken => writeln!(out, "name taken"),
            Reply::Refused(refusal) => writeln!(out, "refused {refusal}"),
        }
    }
}

/// Parses an offset of a range: decimal digits of a value below 2^63.
fn place(text: &str) -> Option<u64> {
    if text.is_empty() || !text.bytes().all(|c| c.is_ascii_digit()) {
        return None;
    }
    text.parse().ok().filter(|n| *n < 1 << 63)
}

fn range(text: &str) -> Result<Option<(u64, u64)>, Refusal> {
    if text.is_empty() {
        return Ok(None);
    }
    let ends = text.split_once('-').and_then(|(start, end)| Some((place(start)?, place(end)?)));
    match ends {
        Some((start, end)) if start <= end => Ok(Some((start, end))),
        _ => Err(Refusal::SizeInvalid),
    }
}

fn digest(text: &str) -> Result<Digest, Refusal> {
    Digest::parse(text).ok_or(Refusal::DigestInvalid)
}

/// A worker: the shared state, and the leases of its lanes.
struct Worker<'a> {
    book: &'a Mutex<Book>,
    hashing: Hashing,
    leases: HashMap<(u8, String), Lease>,
}

impl Worker<'_> {
    fn book(&self) -> MutexGuard<'_, Book> {
        self.book.lock().expect("no worker panics")
    }

    fn append(&self, row: &Row) -> Result<Reply, Refusal> {
        let range = range(&row.range)?;
        let mut upload = self.book().take(&row.repo, row.session, range, row.body.len() as u64)?;
        upload.bytes.extend_from_slice(&row.body);
        upload.hashes.update(&row.body, self.hashing);
        Ok(Reply::Received(self.book().put_back(&row.repo, row.session, upload)))
    }

    fn close(&self, row: &Row) -> Result<Reply, Refusal> {
        let digest = digest(&row.digest)?;
        let range = range(&row.range)?;
        let mut upload = self.book().take(&row.repo, row.session, range, row.body.len() as u64)?;
        if upload.hashes.digest(&upload.bytes, &row.body, &digest, self.hashing) != digest {
            self.book().put_back(&row.repo, row.session, upload);
            return Err(Refusal::DigestInvalid);
        }
        Ok(Reply::Stored(self.book().finish(&row.repo, row.session, upload, &row.body, digest)?))
    }

    fn mount(&self, row: &Row) -> Result<Reply, Refusal> {
        let from = Some(row.key.as_str()).filter(|from| !from.is_empty());
        if !from.map_or(true, is_repo) {
            return Err(Refusal::NameInvalid);
        }
        let digest = digest(&row.digest)?;
        Ok(match self.book().mount(&row.repo, digest, from)? {
            Mount::Mounted => Reply::Mounted,
            Mount::Session(number) => Reply::Session(number),
        })
    }

    fn put_manifest(&self, row: &Row) -> Result<Reply, Refusal> {
        self.book().check_tenant(&row.repo)?;
        if row.body.len() > MAX_MANIFEST {
            return Err(Refusal::SizeInvalid);
        }
        let manifest = manifest::read(&row.body).ok_or(Refusal::ManifestInvalid)?;
        Ok(Reply::Manifest(self.book().put_manifest(&row.repo, manifest)?))
    }

    fn lease(&mut self, row: &Row) -> Result<Reply, Refusal> {
        let digest = digest(&row.digest)?;
        let book = self.book;
        match self.leases.entry((row.lane, row.key.clone())) {
            Entry::Occupied(_) => Ok(Reply::NameTaken),
            Entry::Vacant(place) => {
                let lease = book.lock().expect("no worker panics").lease(&row.repo, digest)?;
                let size = lease.blob.len() as u64;
                place.insert(lease);
                Ok(Reply::Leased(size))
            }
        }
    }

    fn share(&mut self, row: &Row) -> Result<Reply, Refusal> {
        let second = (row.lane, String::from_utf8_lossy(&row.body).into_owned());
        let is_taken = self.leases.contains_key(&second);
        let Some(lease) = self.leases.get_mut(&(row.lane, row.key.clone())) else {
            return Ok(Reply::NoLease);
        };
        if is_taken {
            return Ok(Reply::NameTaken);
        }
        let half = lease.share()?;
        self.leases.insert(second, half);
        Ok(Reply::Shared)
    }

    fn read(&self, row: &Row) -> Result<Reply, Refusal> {
        let Some(lease) = self.leases.get(&(row.lane, row.key.clone())) else {
            return Ok(Reply::NoLease);
        };
        let (start, end) = range(&row.range)?.ok_or(Refusal::SizeInvalid)?;
        if end - start >= 65_536 {
            return Err(Refusal::SizeInvalid);
        }
        let size = lease.blob.len() as u64;
        let start = start.min(size);
        Ok(Reply::Bytes(lease.blob.clone(), start as usize, size.min(end + 1) as usize))
    }

    fn verify(&self, row: &Row) -> Reply {
        match self.leases.get(&(row.lane, row.key.clone())) {
            Some(lease) => Reply::Verified(lease.blob.len() as u64),
            None => Reply::NoLease,
        }
    }

    fn give_back(&mut self, row: &Row) -> Reply {
        match self.leases.remove(&(row.lane, row.key.clone())) {
            Some(_) => Reply::GivenBack,
            None => Reply::NoLease,
        }
    }

    fn answer(&mut self, row: &Row) -> Result<Reply, Refusal> {
        let repo = row.repo.as_str();
        match row.verb {
            Verb::Read => return self.read(row),
            Verb::Share => return self.share(row),
            Verb::Verify => return Ok(self.verify(row)),
            Verb::GiveBack => return Ok(self.give_back(row)),
            Verb::Sweep => return Ok(Reply::Swept(self.book().sweep())),
            _ => {}
        }
        if !is_repo(repo) {
            return Err(Refusal::NameInvalid);
        }
        Ok(match row.verb {
            Verb::Start => Reply::Session(self.book().start(repo)?),
            Verb::Status => Reply::Received(self.book().status(repo, row.session)?),
            Verb::Append => self.append(row)?,
            Verb::Close => self.close(row)?,
            Verb::Abandon => {
                self.book().abandon(repo, row.session)?;
                Reply::Abandoned
            }
            Verb::Mount => self.mount(row)?,
            Verb::Delete => {
                let digest = digest(&row.digest)?;
                self.book().delete(repo, digest)?;
                Reply::Deleted
            }
            Verb::PutManifest => self.put_manifest(row)?,
            Verb::GetManifest => {
                let digest = digest(&row.digest)?;
                Reply::Body(self.book().get_manifest(repo, digest)?)
            }
            Verb::DeleteManifest => {
                let digest = digest(&row.digest)?;
                self.book().delete_manifest(repo, digest)?;
                Reply::Deleted
            }
            _ => self.lease(row)?,
        })
    }

    /// Runs the rows of this worker's lanes, and returns each reply with the place of its row.
    fn play(mut self, rows: &[Row], number: usize, workers: usize) -> Vec<(usize, Reply)> {
        let mut replies = Vec::new();
        for (i, row) in rows.iter().enumerate() {
            if usize::from(row.lane) % workers == number {
                let reply = self.answer(row).unwrap_or_else(Reply::Refused);
                replies.push((i, reply));
            }
        }
        replies
    }
}

/// Runs all rows, and returns the replies in order and the state after them.
pub fn play(rows: &[Row], book: Book, workers: usize, hashing: Hashing) -> (Vec<Reply>, Book) {
    let book = Mutex::new(book);
    let worker = || Worker {
        book: &book,
        hashing,
        leases: HashMap::new(),
    };
    let mut replies: Vec<Option<Reply>> = rows.iter().map(|_| None).collect();
    if workers == 1 {
        for (i, reply) in worker().play(rows, 0, 1) {
            replies[i] = Some(reply);
        }
    } else {
        thread::scope(|scope| {
            let threads: Vec<_> = (0..workers)
                .map(|number| {
                    let worker = worker();
                    scope.spawn(move || worker.play(rows, number, workers))
                })
                .collect();
            for thread in threads {
                for (i, reply) in thread.join().expect("no worker panics") {
                    replies[i] = Some(reply);
                }
            }
        });
    }
    let replies = replies.into_iter().flatten().collect();
    (replies, book.into_inner().expect("no worker panics"))
}
