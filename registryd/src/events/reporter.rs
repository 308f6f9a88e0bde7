//! Makes the events of a request or of the registry's own work, and records them.
use crate::database::change::Change;
use crate::database::writer::{WriteFailure, Writer};
use crate::events::event::{Action, Actor, Draft, Effect, Origin, Report, RequestRecord, Source, Target};
use crate::events::queue::Queue;
use crate::events::receivers::ReceiversFile;
use crate::http::exchange::shortened;
use hyper::header::{HOST, USER_AGENT};
use hyper::http::request::Parts;
use std::net::SocketAddr;
use std::sync::Arc;
use uuid::Uuid;

/// The media type of a blob's events.
const BLOB_TYPE: &str = "application/octet-stream";

/// The maximum number of bytes of a client's `User-Agent` and `Host` in an event.
const MOST: (usize, usize) = (256, 512);

/// Records events.
pub(crate) struct Recorder {
    pub(super) file: Arc<ReceiversFile>,
    pub(crate) queue: Arc<Queue>,
    source: Arc<Source>,
    /// Whether clients connect by TLS.
    is_tls: bool,
    /// The writer of the database, if there is one.
    writer: Option<Arc<Writer>>,
}

/// Returns the name of this machine.
fn host_name() -> String {
    let mut name = [0u8; 256];
    // SAFETY: `name` has room for the bytes that the call writes, and its last byte stays 0.
    let failed = unsafe { libc::gethostname(name.as_mut_ptr().cast(), name.len() - 1) } != 0;
    let end = name.iter().position(|byte| *byte == 0).filter(|_| !failed).unwrap_or(0);
    String::from_utf8_lossy(&name[..end]).into_owned()
}

/// Returns the scheme and the host by which a client reaches the registry. A proxy in front of it may name the scheme.
fn base_of(head: &Parts, is_tls: bool) -> Option<String> {
    let host = head.headers.get(HOST)?.to_str().ok().filter(|host| !host.is_empty() && host.len() <= MOST.1)?;
    let scheme = match head.headers.get("x-forwarded-proto").map(|proto| proto.as_bytes()) {
        Some(b"https") => "https",
        Some(b"http") => "http",
        _ if is_tls => "https",
        _ => "http",
    };
    Some(format!("{scheme}://{host}"))
}

impl Recorder {
    /// Makes the recorder of a registry that listens on an address.
    pub(crate) fn new(
        file: Arc<ReceiversFile>,
        queue: Arc<Queue>,
        address: SocketAddr,
        is_tls: bool,
        writer: Option<Arc<Writer>>,
    ) -> Arc<Recorder> {
        let addr = format!("{}:{}", host_name(), address.port());
        let source = Arc::new(Source { addr, instance_id: Uuid::new_v4().to_string() });
        Arc::new(Recorder { file, queue, source, is_tls, writer })
    }

    /// Returns the reporter of a request.
    pub(crate) fn of_request(self: &Arc<Self>, head: &Parts, client: Option<SocketAddr>, user: Option<&str>) -> Reporter {
        let text = |name| head.headers.get(name).and_then(|value| value.to_str().ok());
        let request = RequestRecord {
            id: Uuid::new_v4().to_string(),
            addr: client.map(|client| client.to_string()),
            host: text(HOST).map(|host| shortened(host, MOST.1)),
            method: head.method.to_string(),
            useragent: shortened(text(USER_AGENT).unwrap_or_default(), MOST.0),
        };
        let (actor, source) = (Actor { name: user.map(str::to_string) }, self.source.clone());
        let base = base_of(head, self.is_tls);
        Reporter { recorder: self.clone(), origin: Arc::new(Origin { request, actor, source }), base }
    }

    /// Returns the reporter of the registry's own work.
    pub(crate) fn of_own_work(self: &Arc<Self>) -> Reporter {
        let (request, actor, source) = (RequestRecord::default(), Actor::default(), self.source.clone());
        Reporter { recorder: self.clone(), origin: Arc::new(Origin { request, actor, source }), base: None }
    }

    /// Lets the database record which events the receivers have, if there is one.
    pub(super) fn keep_passed(&self) {
        if let Some(writer) = &self.writer {
            writer.note(Change::PassEvents { passed: self.queue.take_passed() });
        }
    }
}

/// Makes the events of one request.
pub(crate) struct Reporter {
    recorder: Arc<Recorder>,
    origin: Arc<Origin>,
    /// The scheme and the host of URLs.
    base: Option<String>,
}

/// A manifest: its digest, media type and length in bytes.
pub(crate) type Manifest<'m> = (&'m str, &'m str, u64);

impl Reporter {
    /// Returns the draft of an event if a receiver wants it.
    fn draft(&self, action: Action, target: Target) -> Option<Draft> {
        let is_wanted = self.recorder.queue.wants(action, target.media_type.as_deref());
        is_wanted.then(|| Draft { action, target, origin: self.origin.clone() })
    }

    fn url(&self, repo: &str, kind: &str, digest: &str) -> Option<String> {
        self.base.as_ref().map(|base| format!("{base}/v2/{repo}/{kind}/{digest}"))
    }

    /// Returns what a manifest's events name.
    fn manifest_target(&self, repo: &str, (digest, media_type, size): Manifest<'_>) -> Target {
        Target {
            media_type: Some(media_type.to_string()),
            size: Some(size),
            digest: Some(digest.to_string()),
            length: Some(size),
            repository: repo.to_string(),
            url: self.url(repo, "manifests", digest),
            ..Target::default()
        }
    }

    /// Returns the event of a manifest that is pushed or pulled, by a tag or by its digest.
    pub(crate) fn manifest(&self, action: Action, repo: &str, manifest: Manifest<'_>, tag: Option<&str>) -> Option<Report> {
        let target = Target { tag: tag.map(str::to_string), ..self.manifest_target(repo, manifest) };
        self.draft(action, target).map(|draft| Report { event: Some(draft), each_tag: None })
    }

    /// Returns the events of a manifest that is restored after the event of its delete: pushes of it and of each of its tags.
    pub(crate) fn restored(&self, repo: &str, manifest: Manifest<'_>) -> Option<Report> {
        let event = self.draft(Action::Push, self.manifest_target(repo, manifest))?;
        Some(Report { each_tag: Some(event.clone()), event: Some(event) })
    }

    /// Returns the event of a blob that is pushed, pulled or mounted from a repository, if that is known. The length of one that a mirror
    /// fetches may be unknown.
    pub(crate) fn blob(
        &self,
        action: Action,
        repo: &str,
        digest: &str,
        size: impl Into<Option<u64>>,
        from: Option<&str>,
    ) -> Option<Report> {
        let size = size.into();
        let target = Target {
            media_type: Some(BLOB_TYPE.to_string()),
            size,
            digest: Some(digest.to_string()),
            length: size,
            repository: repo.to_string(),
            from_repository: from.map(str::to_string),
            url: self.url(repo, "blobs", digest),
            tag: None,
        };
        self.draft(action, target).map(|draft| Report { event: Some(draft), each_tag: None })
    }

    /// Returns whether a receiver wants the event of a blob.
    pub(crate) fn wants_blob(&self, action: Action) -> bool {
        self.recorder.queue.wants(action, Some(BLOB_TYPE))
    }

    /// Returns the event of a blob or a tag that is deleted.
    pub(crate) fn deleted(&self, repo: &str, digest: Option<&str>, tag: Option<&str>) -> Option<Report> {
        let (repository, digest, tag) = (repo.to_string(), digest.map(str::to_string), tag.map(str::to_string));
        let target = Target { repository, digest, tag, ..Target::default() };
        self.draft(Action::Delete, target).map(|draft| Report { event: Some(draft), each_tag: None })
    }

    /// Returns the events of the tags of a repository that a change removes.
    pub(crate) fn deleted_tags(&self, repo: &str) -> Option<Report> {
        let draft = self.draft(Action::Delete, Target { repository: repo.to_string(), ..Target::default() })?;
        Some(Report { event: None, each_tag: Some(draft) })
    }

    /// Returns the events of a manifest that is deleted, and of each of its tags.
    pub(crate) fn deleted_manifest(&self, repo: &str, digest: &str) -> Option<Report> {
        let report = self.deleted(repo, Some(digest), None)?;
        let target = Target { repository: repo.to_string(), ..Target::default() };
        Some(Report { each_tag: self.draft(Action::Delete, target), ..report })
    }

    /// Records the events of something that the store has done. With a database they are durable when this returns.
    pub(crate) async fn add(&self, report: Option<Report>) -> Result<(), WriteFailure> {
        match (report, &self.recorder.writer) {
            (None, _) => {}
            (Some(report), Some(writer)) => {
                writer.write_reported(Change::AddEvents, Some(report)).await?;
            }
            (Some(report), None) => self.recorder.queue.push_after(&report, || ((), Effect::Made)),
        }
        Ok(())
    }

    /// Records events that are lost if the program or the machine stops within a second.
    pub(crate) fn note(&self, report: Option<Report>) {
        match (report, &self.recorder.writer) {
            (None, _) => {}
            (Some(report), Some(writer)) => writer.note_events(report),
            (Some(report), None) => self.recorder.queue.push_after(&report, || ((), Effect::Made)),
        }
    }
}
