//! The open uploads. Clients know an upload by a name that cannot be guessed. Each upload has a session in the store. With a
//! database, each has a row there, so that it is abandoned some time after a restart if nobody continues it.
use crate::database::change::Change;
use crate::database::writer::Writer;
use crate::http::fault::Fault;
use crate::metadata::names::tenant_of;
use crate::metadata::upload_names::Secret;
use crate::operation::locks::guard_of;
use std::collections::HashMap;
use std::sync::{Arc, Mutex};
use std::time::{Duration, Instant};
use uuid::Uuid;

/// An upload: its repository, its session, its length, and its use.
#[derive(Clone, Debug, PartialEq, Eq)]
pub(crate) struct Upload {
    pub(crate) repo: String,
    pub(crate) session: u32,
    length: Length,
    /// The time at which its last request ended, or it was opened.
    used: Instant,
    /// The number of requests that use it.
    requests: u32,
    /// Whether a client has sent a byte of it.
    is_begun: bool,
    /// Whether it stays open for a later request.
    is_lasting: bool,
}

/// The length of an upload: the number of bytes that the store has received, by its replies.
#[derive(Clone, Debug, PartialEq, Eq)]
struct Length {
    /// The length, if no request is appending and the last reply contained it.
    known: Option<u64>,
    /// The number of requests that are appending.
    adding: u32,
    /// Whether two of them overlapped. Then it is unknown which one the store served last.
    have_overlapped: bool,
}

/// The times after which unused uploads are abandoned.
#[derive(Clone, Copy, Debug)]
pub(crate) struct UploadTimeouts {
    /// The time for an upload with bytes.
    pub(crate) begun: Duration,
    /// The time for an upload without bytes.
    pub(crate) empty: Duration,
}

impl UploadTimeouts {
    /// Returns the shorter of both times.
    pub(crate) fn least(&self) -> Duration {
        self.begun.min(self.empty)
    }
}

/// The open uploads.
pub(crate) struct OpenUploads {
    secret: Secret,
    writer: Option<Arc<Writer>>,
    /// The maximum number of a tenant's uploads that stay open.
    most_lasting: usize,
    by_name: Mutex<HashMap<Uuid, Upload>>,
}

/// An upload that a request is using. It is not abandoned before this is dropped.
pub(crate) struct UploadInUse<'u> {
    uploads: &'u OpenUploads,
    pub(crate) name: Uuid,
    pub(crate) session: u32,
}

/// A request that is appending to an upload, until this is dropped.
pub(crate) struct AppendingRequest<'u> {
    pub(crate) upload: UploadInUse<'u>,
    length: Option<u64>,
}

impl Length {
    /// Notes that a request begins to append. Returns the length, which is unknown to other requests until this one ends.
    fn begin(&mut self) -> Option<u64> {
        self.have_overlapped |= self.adding > 0;
        self.adding += 1;
        self.known.take()
    }

    /// Notes that a request has stopped appending. `given` is the length in its last reply, if any.
    fn end(&mut self, given: Option<u64>) {
        self.adding -= 1;
        self.known = given.filter(|_| !self.have_overlapped);
        self.have_overlapped &= self.adding > 0;
    }
}

impl Upload {
    /// Returns an upload that has received a number of bytes.
    fn of(repo: &str, session: u32, received: u64) -> Upload {
        Upload {
            repo: repo.to_string(),
            session,
            length: Length { known: Some(received), adding: 0, have_overlapped: false },
            used: Instant::now(),
            requests: 0,
            is_begun: received > 0,
            is_lasting: false,
        }
    }

    fn is_unused(&self, patience: UploadTimeouts) -> bool {
        let time = if self.is_begun { patience.begun } else { patience.least() };
        self.requests == 0 && self.used.elapsed() >= time
    }
}

impl OpenUploads {
    /// Makes a table whose names are made with a secret. Each tenant may have `most_lasting` uploads that stay open.
    pub(crate) fn new(secret: Secret, writer: Option<Arc<Writer>>, most_lasting: usize) -> OpenUploads {
        OpenUploads { secret, writer, most_lasting, by_name: Mutex::default() }
    }

    /// Adds an upload that was opened, and returns its name. It does not count as one that stays open.
    pub(crate) fn add(&self, repo: &str, session: u32) -> Uuid {
        if let Some(writer) = &self.writer {
            writer.note(Change::OpenUpload { repo: repo.to_string(), number: session });
        }
        self.insert(Upload::of(repo, session, 0))
    }

    /// Adds an upload that was opened before a restart, and returns its name. It counts as used now.
    pub(crate) fn add_known(&self, repo: &str, session: u32, received: u64) -> Uuid {
        self.insert(Upload { is_lasting: true, ..Upload::of(repo, session, received) })
    }

    fn insert(&self, upload: Upload) -> Uuid {
        let name = self.secret.name(&upload.repo, upload.session);
        guard_of(self.by_name.lock()).insert(name, upload);
        name
    }

    /// Lets an upload stay open for a later request, unless its tenant has the maximum number of them. Returns whether it stays.
    pub(crate) fn keep_open(&self, name: &Uuid) -> bool {
        let mut uploads = guard_of(self.by_name.lock());
        let has_room = uploads.get(name).map_or(false, |upload| self.has_room(&uploads, tenant_of(&upload.repo)));
        match uploads.get_mut(name).filter(|_| has_room) {
            Some(upload) => {
                upload.is_lasting = true;
                true
            }
            None => false,
        }
    }

    /// Returns whether a tenant has less than the maximum number of uploads that stay open.
    pub(crate) fn have_room(&self, tenant: &str) -> bool {
        self.has_room(&*guard_of(self.by_name.lock()), tenant)
    }

    /// Begins to use an upload of a repository.
    pub(crate) fn enter(&self, repo: &str, name: Uuid) -> Result<UploadInUse<'_>, Fault> {
        // Names are compared in constant time before they are looked up.
        self.secret.session(repo, &name).ok_or_else(Fault::upload_unknown)?;
        match guard_of(self.by_name.lock()).get_mut(&name) {
            Some(upload) if upload.repo == repo => {
                upload.requests += 1;
                Ok(UploadInUse { uploads: self, name, session: upload.session })
            }
            _ => Err(Fault::upload_unknown()),
        }
    }

    /// Removes an upload that has ended.
    pub(crate) fn remove(&self, name: &Uuid) {
        let removed = guard_of(self.by_name.lock()).remove(name);
        if let Some(upload) = removed {
            self.forget(upload);
        }
    }

    /// Removes the row of an upload that was removed here and has ended.
    pub(crate) fn forget(&self, upload: Upload) {
        if let Some(writer) = &self.writer {
            writer.note(Change::EndUpload { repo: upload.repo, number: upload.session });
        }
    }

    pub(crate) fn len(&self) -> usize {
        guard_of(self.by_name.lock()).len()
    }

    /// Returns the names of the uploads of a tenant.
    pub(crate) fn names_of(&self, tenant: &str) -> Vec<Uuid> {
        let uploads = guard_of(self.by_name.lock());
        uploads.iter().filter(|(_, upload)| tenant_of(&upload.repo) == tenant).map(|(name, _)| *name).collect()
    }

    /// Returns the uploads of a tenant, also those that requests use.
    pub(crate) fn all_of(&self, tenant: &str) -> Vec<(Uuid, Upload)> {
        let uploads = guard_of(self.by_name.lock());
        let own = uploads.iter().filter(|(_, upload)| tenant_of(&upload.repo) == tenant);
        own.map(|(name, upload)| (*name, upload.clone())).collect()
    }

    /// Returns the names of the uploads to abandon.
    pub(crate) fn unused(&self, patience: UploadTimeouts) -> Vec<Uuid> {
        let uploads = guard_of(self.by_name.lock());
        let unused = uploads.iter().filter(|(_, upload)| upload.is_unused(patience));
        unused.map(|(name, _)| *name).collect()
    }

    /// Removes an upload if it is still unused.
    pub(crate) fn take_unused(&self, name: &Uuid, patience: UploadTimeouts) -> Option<Upload> {
        let mut uploads = guard_of(self.by_name.lock());
        uploads.get(name).filter(|upload| upload.is_unused(patience))?;
        uploads.remove(name)
    }

    /// Puts back an upload that the store could not abandon. It counts as used now.
    pub(crate) fn put_back(&self, name: Uuid, upload: Upload) {
        guard_of(self.by_name.lock()).insert(name, Upload { used: Instant::now(), ..upload });
    }

    /// Returns whether a tenant has less than the maximum number of uploads that stay open. The store bounds the number of all uploads.
    fn has_room(&self, uploads: &HashMap<Uuid, Upload>, tenant: &str) -> bool {
        uploads.values().filter(|upload| upload.is_lasting && tenant_of(&upload.repo) == tenant).count() < self.most_lasting
    }
}

impl<'u> UploadInUse<'u> {
    /// Begins to append to it.
    pub(crate) fn add(self) -> AppendingRequest<'u> {
        let mut uploads = guard_of(self.uploads.by_name.lock());
        let length = uploads.get_mut(&self.name).and_then(|upload| upload.length.begin());
        drop(uploads);
        AppendingRequest { upload: self, length }
    }

    /// Notes that a client sent a byte of it.
    pub(crate) fn begin(&self) {
        if let Some(upload) = guard_of(self.uploads.by_name.lock()).get_mut(&self.name) {
            upload.is_begun = true;
        }
    }
}

impl AppendingRequest<'_> {
    /// Returns the upload's length, if it is known. The store decides: it rejects bytes at any other offset.
    pub(crate) fn length(&self) -> Option<u64> {
        self.length
    }

    /// Notes that bytes are sent to the store. The length is unknown until the store has accepted all of them.
    pub(crate) fn send(&mut self) {
        self.length = None;
    }

    /// Notes that the store accepted all bytes sent, and returned the length.
    pub(crate) fn accepted(&mut self, length: u64) {
        self.length = Some(length);
    }
}

impl Drop for AppendingRequest<'_> {
    fn drop(&mut self) {
        let UploadInUse { uploads, name, .. } = &self.upload;
        if let Some(upload) = guard_of(uploads.by_name.lock()).get_mut(name) {
            upload.length.end(self.length);
        }
    }
}

impl Drop for UploadInUse<'_> {
    fn drop(&mut self) {
        if let Some(upload) = guard_of(self.uploads.by_name.lock()).get_mut(&self.name) {
            upload.requests -= 1;
            upload.used = Instant::now();
        }
    }
}

#[cfg(test)]
mod tests {
    use super::*;

    const MAX_LASTING: usize = 60;

    fn uploads() -> OpenUploads {
        OpenUploads::new(Secret([7; 32]), None, MAX_LASTING)
    }

    const NOW: UploadTimeouts = UploadTimeouts { begun: Duration::ZERO, empty: Duration::ZERO };

    #[test]
    fn an_upload_is_known_in_its_repository_until_it_is_over() {
        let uploads = uploads();
        let name = uploads.add("acme/web", 7);
        assert_eq!(uploads.enter("acme/web", name).unwrap().session, 7);
        assert!(uploads.enter("acme/other", name).is_err());
        assert!(uploads.enter("acme/web", Uuid::new_v4()).is_err());
        assert!(uploads.enter("acme/web", Secret([7; 32]).name("acme/web", 8)).is_err());
        uploads.remove(&name);
        assert!(uploads.enter("acme/web", name).is_err());
        assert_eq!(uploads.len(), 0);
    }

    #[test]
    fn an_upload_in_use_is_not_given_up() {
        let uploads = uploads();
        let name = uploads.add("acme/web", 7);
        let (first, second) = (uploads.enter("acme/web", name).unwrap(), uploads.enter("acme/web", name).unwrap());
        assert!(uploads.unused(NOW).is_empty());
        drop(first);
        assert!(uploads.take_unused(&name, NOW).is_none());
        drop(second);
        assert_eq!(uploads.unused(NOW), [name]);
        let upload = uploads.take_unused(&name, NOW).unwrap();
        assert_eq!((&*upload.repo, upload.session), ("acme/web", 7));
        assert_eq!(uploads.len(), 0);
        uploads.put_back(name, upload);
        assert_eq!(uploads.unused(NOW), [name]);
    }

    #[test]
    fn a_tenant_keeps_some_uploads_open() {
        let uploads = uploads();
        let names: Vec<Uuid> = (0..MAX_LASTING as u32).map(|session| uploads.add(&format!("acme/{session}"), session)).collect();
        assert!(uploads.have_room("acme") && names.iter().all(|name| uploads.keep_open(name)));
        let (more, other) = (uploads.add("acme/more", 100), uploads.add("acmes/web", 1));
        assert!(!uploads.have_room("acme") && !uploads.keep_open(&more) && uploads.keep_open(&other));
        assert!(!uploads.keep_open(&Uuid::new_v4()));
        // One of an earlier start is kept in any case.
        uploads.add_known("acme/known", 101, 0);
        uploads.remove(&names[0]);
        assert!(!uploads.keep_open(&more));
        uploads.remove(&names[1]);
        assert!(uploads.keep_open(&more) && !uploads.have_room("acme"));
    }

    #[test]
    fn the_length_is_that_of_the_last_accepted_bytes() {
        let uploads = uploads();
        let name = uploads.add("acme/web", 7);
        let add = || uploads.enter("acme/web", name).unwrap().add();
        let mut adding = add();
        assert_eq!(adding.length(), Some(0));
        adding.send();
        assert_eq!(adding.length(), None);
        adding.accepted(10);
        drop(adding);
        // A request that sends nothing does not change it.
        assert_eq!(add().length(), Some(10));
        assert_eq!(add().length(), Some(10));
        // If its bytes are rejected or its reply is late, the length is unknown until other bytes are accepted.
        add().send();
        assert_eq!(add().length(), None);
        let mut adding = add();
        adding.send();
        adding.accepted(15);
        drop(adding);
        assert_eq!(add().length(), Some(15));
    }

    #[test]
    fn the_length_is_unknown_while_and_after_two_requests_add_at_once() {
        let uploads = uploads();
        let name = uploads.add("acme/web", 7);
        let add = || uploads.enter("acme/web", name).unwrap().add();
        let accept = |mut adding: AppendingRequest<'_>, length| {
            adding.send();
            adding.accepted(length);
        };
        let (first, second) = (add(), add());
        assert_eq!((first.length(), second.length()), (Some(0), None));
        accept(second, 20);
        assert_eq!(add().length(), None);
        // The reply for the bytes that the store appended first arrives late.
        accept(first, 10);
        assert_eq!(add().length(), None);
        accept(add(), 30);
        assert_eq!(add().length(), Some(30));
    }

    #[test]
    fn an_upload_that_is_over_has_no_length() {
        let uploads = uploads();
        let name = uploads.add("acme/web", 7);
        let upload = uploads.enter("acme/web", name).unwrap();
        let mut adding = uploads.enter("acme/web", name).unwrap().add();
        uploads.remove(&name);
        assert_eq!(upload.add().length(), None);
        adding.accepted(10);
        drop(adding);
        assert_eq!(uploads.len(), 0);
    }

    #[test]
    fn an_upload_of_before_a_restart_has_its_name_and_length() {
        let name = uploads().add("acme/web", 7);
        let (begun, other) = (uploads(), OpenUploads::new(Secret([8; 32]), None, MAX_LASTING));
        assert_eq!(begun.add_known("acme/web", 7, 10), name);
        assert_eq!(begun.enter("acme/web", name).unwrap().add().length(), Some(10));
        let hour = Duration::from_secs(3600);
        assert!(begun.unused(UploadTimeouts { begun: hour, empty: Duration::ZERO }).is_empty());
        other.add_known("acme/web", 7, 0);
        assert!(other.enter("acme/web", name).is_err());
    }

    #[test]
    fn an_upload_without_bytes_is_given_up_earlier() {
        let uploads = uploads();
        let (empty, begun) = (uploads.add("acme/web", 7), uploads.add("acme/web", 8));
        uploads.enter("acme/web", begun).unwrap().begin();
        let hour = Duration::from_secs(3600);
        assert_eq!(uploads.unused(UploadTimeouts { begun: hour, empty: Duration::ZERO }), [empty]);
        assert_eq!(uploads.unused(UploadTimeouts { begun: Duration::ZERO, empty: hour }).len(), 2);
        assert!(uploads.unused(UploadTimeouts { begun: hour, empty: hour }).is_empty());
    }
}
