//! The blobs of which it is not known that a manifest refers to them, if such blobs are unlinked after some time.
//!
//! A blob is added when it is pushed or mounted, and when a manifest is deleted that refers to it. After the time the store is
//! asked to unlink it, which it refuses if a manifest refers to it. A request for the blob begins the time anew, because the
//! client may be about to push a manifest. So the blob that a reply named stays for the time.
use crate::database::change::Change;
use crate::database::writer::Writer;
use crate::http::fault::Fault;
use crate::metadata::turns::{Turn, Turns};
use crate::operation::locks::guard_of;
use crate::store::client::Answer;
use crate::store::frames::{Reason, Refusal};
use std::collections::HashMap;
use std::sync::{Arc, Mutex};
use std::time::{Duration, Instant};

/// A repository and a blob's digest.
pub(super) type Key = (String, String);

/// A blob that is to be unlinked after some time.
struct Loose {
    /// The time of the last request for it.
    since: Instant,
    /// Whether the store is being asked to unlink it.
    is_leaving: bool,
}

/// The blobs that are to be unlinked after some time.
#[derive(Default)]
pub(crate) struct LooseBlobs {
    /// Whether blobs are unlinked. Otherwise there are none here.
    pub(crate) is_on: bool,
    writer: Option<Arc<Writer>>,
    by_key: Mutex<HashMap<Key, Loose>>,
    /// Those who link a blob and those who unlink it take turns.
    pub(crate) turns: Turns,
}

impl LooseBlobs {
    /// Makes the table, with the blobs of a database. Their time begins now.
    pub(crate) fn new(writer: Option<Arc<Writer>>, known: Vec<Key>) -> LooseBlobs {
        let loose = || Loose { since: Instant::now(), is_leaving: false };
        let by_key = known.into_iter().map(|key| (key, loose())).collect();
        LooseBlobs { is_on: true, writer, by_key: Mutex::new(by_key), turns: Turns::default() }
    }

    /// Notes a request for a blob. Fails if it is being unlinked.
    pub(crate) fn ask(&self, repo: &str, digest: &str) -> Result<(), Fault> {
        if !self.is_on {
            return Ok(());
        }
        match guard_of(self.by_key.lock()).get_mut(&(repo.to_string(), digest.to_string())) {
            Some(Loose { is_leaving: true, .. }) => Err(Refusal::of(Reason::BlobUnknown).into()),
            Some(loose) => {
                loose.since = Instant::now();
                Ok(())
            }
            None => Ok(()),
        }
    }

    /// Waits until nobody unlinks a blob, and prevents it until the turn ends.
    pub(crate) async fn begin_link(&self, repo: &str, digest: &str) -> Option<Turn<'_>> {
        match self.is_on {
            true => Some(self.turns.take(repo, digest).await),
            false => None,
        }
    }

    /// Adds a blob that was linked, or begins its time anew, unless the store refused to link it.
    pub(crate) fn end_link<T>(&self, repo: &str, digest: &str, answer: &Answer<T>) {
        if !matches!(answer, Ok(Err(_))) {
            self.add(repo, digest, |loose| loose.is_leaving = false);
        }
    }

    /// Adds a blob of a manifest that was deleted, or begins its time anew. One that is being unlinked stays marked.
    pub(crate) fn loosen(&self, repo: &str, digest: &str) {
        self.add(repo, digest, |_| ());
    }

    /// Adds a blob, or begins its time anew and changes it.
    fn add(&self, repo: &str, digest: &str, change: impl FnOnce(&mut Loose)) {
        if !self.is_on {
            return;
        }
        let mut by_key = guard_of(self.by_key.lock());
        match by_key.get_mut(&(repo.to_string(), digest.to_string())) {
            Some(loose) => {
                loose.since = Instant::now();
                change(loose);
                return;
            }
            None => {
                let loose = Loose { since: Instant::now(), is_leaving: false };
                by_key.insert((repo.to_string(), digest.to_string()), loose);
            }
        }
        drop(by_key);
        if let Some(writer) = &self.writer {
            writer.note(Change::AddLooseBlob { repo: repo.to_string(), digest: digest.to_string() });
        }
    }

    /// Removes a blob that is unlinked.
    pub(crate) fn remove(&self, repo: &str, digest: &str) {
        let removed = guard_of(self.by_key.lock()).remove(&(repo.to_string(), digest.to_string()));
        if let (Some(_), Some(writer)) = (removed, &self.writer) {
            writer.note(Change::RemoveLooseBlob { repo: repo.to_string(), digest: digest.to_string() });
        }
    }

    /// Returns the blobs that nobody has asked for in this time.
    pub(crate) fn unasked(&self, time: Duration) -> Vec<Key> {
        let by_key = guard_of(self.by_key.lock());
        by_key.iter().filter(|(_, loose)| loose.since.elapsed() >= time).map(|(key, _)| key.clone()).collect()
    }

    /// Marks a blob before the store is asked to unlink it, if nobody has asked for it in this time.
    pub(crate) fn begin_unlink(&self, key: &Key, time: Duration) -> bool {
        match guard_of(self.by_key.lock()).get_mut(key) {
            Some(loose) if loose.since.elapsed() >= time => {
                loose.is_leaving = true;
                true
            }
            _ => false,
        }
    }

    /// Removes the mark of a blob that the store did not unlink.
    pub(crate) fn undo_unlink(&self, key: &Key) {
        if let Some(loose) = guard_of(self.by_key.lock()).get_mut(key) {
            loose.is_leaving = false;
        }
    }

    /// Removes a blob to which a manifest refers, unless a manifest that refers to it was deleted in this time.
    pub(crate) fn keep_linked(&self, key: &Key, time: Duration) {
        self.undo_unlink(key);
        if self.begin_unlink(key, time) {
            self.remove(&key.0, &key.1);
        }
    }
}

#[cfg(test)]
mod tests {
    use super::*;

    const ALWAYS: Duration = Duration::ZERO;
    const NEVER: Duration = Duration::from_secs(3600);

    #[test]
    fn a_request_begins_the_time_anew() {
        let key = ("acme/web".to_string(), "sha256:a".to_string());
        let loose = LooseBlobs::new(None, vec![key.clone()]);
        assert_eq!((loose.unasked(ALWAYS), loose.unasked(NEVER)), (vec![key.clone()], vec![]));
        let time = Duration::from_millis(200);
        std::thread::sleep(time);
        assert_eq!(loose.unasked(time), vec![key.clone()]);
        assert!(loose.ask(&key.0, &key.1).is_ok() && loose.ask("acme/web", "sha256:b").is_ok());
        assert!(!loose.begin_unlink(&key, time) && loose.unasked(time).is_empty());
    }

    #[test]
    fn a_blob_that_is_being_unlinked_is_unknown() {
        let key = ("acme/web".to_string(), "sha256:a".to_string());
        let loose = LooseBlobs::new(None, Vec::new());
        loose.end_link(&key.0, &key.1, &Ok(Ok(())));
        assert!(loose.begin_unlink(&key, ALWAYS));
        assert!(loose.ask(&key.0, &key.1).is_err());
        loose.undo_unlink(&key);
        assert!(loose.ask(&key.0, &key.1).is_ok());
        loose.remove(&key.0, &key.1);
        loose.end_link(&key.0, "sha256:b", &Ok::<Result<(), _>, _>(Err(Refusal::of(Reason::DigestInvalid))));
        assert!(!loose.begin_unlink(&key, ALWAYS) && loose.unasked(ALWAYS).is_empty());
    }

    #[test]
    fn a_blob_whose_manifest_is_deleted_during_its_unlink_stays_here() {
        let key = ("acme/web".to_string(), "sha256:a".to_string());
        let loose = LooseBlobs::new(None, vec![key.clone()]);
        let time = Duration::from_millis(200);
        std::thread::sleep(time);
        assert!(loose.begin_unlink(&key, time));
        loose.add(&key.0, &key.1, |_| ());
        assert!(loose.ask(&key.0, &key.1).is_err());
        loose.keep_linked(&key, time);
        assert!(loose.ask(&key.0, &key.1).is_ok());
        assert_eq!(loose.unasked(ALWAYS), vec![key.clone()]);
        loose.keep_linked(&key, ALWAYS);
        assert!(loose.unasked(ALWAYS).is_empty());
    }

    #[test]
    fn nothing_is_unlinked_by_default() {
        let loose = LooseBlobs::default();
        loose.end_link("acme/web", "sha256:a", &Ok(Ok(())));
        assert!(loose.unasked(ALWAYS).is_empty());
    }
}
