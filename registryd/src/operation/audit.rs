//! The audit log: a file with a line of JSON for each request to a repository, each refused login, each delete by the registry's own
//! work, and each robot that is made or revoked. It has no password and no token. A thread writes it, so that no request waits for its disk.
use crate::browse::{Place, Reference};
use crate::endpoints::manifests::is_digest;
use crate::http::exchange::shortened;
use crate::http::paths::{decoded, query_value, Target};
use crate::operation::locks::guard_of;
use crate::operation::reload::Reload;
use hyper::header::USER_AGENT;
use hyper::{Body, Method, Request};
use prometheus::IntCounter;
use serde::Serialize;
use std::fs::{File, OpenOptions};
use std::io::{self, Write};
use std::os::unix::fs::OpenOptionsExt;
use std::path::{Path, PathBuf};
use std::sync::mpsc::{sync_channel, Receiver, SyncSender};
use std::sync::{Arc, RwLock};
use std::time::{Duration, Instant, SystemTime};

/// The maximum number of lines that wait for the thread.
const MOST_WAITING: usize = 1 << 14;

/// The maximum number of bytes of a text of a client in a line.
const MOST_TEXT: usize = 512;

/// The maximum number of bytes that are written at once.
const MOST_WRITTEN: usize = 64 << 10;

/// The pause between two log lines about lines that were lost.
const LOG_REST: Duration = Duration::from_secs(10);

/// The time for the last lines at the end, and for opening the file again.
const END_TIME: Duration = Duration::from_secs(5);

/// The log, if there is one. It is of the process, as the log on standard error is.
static LOG: RwLock<Option<Arc<AuditLog>>> = RwLock::new(None);

/// Returns the log, if there is one.
fn log() -> Option<Arc<AuditLog>> {
    guard_of(LOG.read()).clone()
}

enum Message {
    Line(String),
    /// Open the file again, and send the result.
    Reopen(SyncSender<io::Result<()>>),
    /// Send something after all earlier lines are written.
    Sync(SyncSender<io::Result<()>>),
}

/// The sender of lines to the thread.
pub(crate) struct AuditLog {
    path: PathBuf,
    messages: SyncSender<Message>,
    /// The number of lines that are not in the file.
    pub(crate) lost: IntCounter,
}

/// What a request asks for.
#[derive(Debug, Default, PartialEq, Eq)]
pub(crate) struct Asked {
    action: &'static str,
    repository: Option<String>,
    from: Option<String>,
    tag: Option<String>,
    digest: Option<String>,
    useragent: String,
}

/// A line.
#[derive(Default, Serialize)]
struct Line<'l> {
    time: String,
    #[serde(skip_serializing_if = "Option::is_none")]
    trace: Option<&'l str>,
    #[serde(skip_serializing_if = "Option::is_none")]
    client: Option<String>,
    user: Option<&'l str>,
    #[serde(skip_serializing_if = "Option::is_none")]
    robot: Option<&'l str>,
    #[serde(skip_serializing_if = "Option::is_none")]
    method: Option<&'l str>,
    action: &'l str,
    repository: Option<&'l str>,
    #[serde(skip_serializing_if = "Option::is_none")]
    from: Option<&'l str>,
    #[serde(skip_serializing_if = "Option::is_none")]
    tag: Option<&'l str>,
    #[serde(skip_serializing_if = "Option::is_none")]
    digest: Option<&'l str>,
    #[serde(skip_serializing_if = "Option::is_none")]
    status: Option<u16>,
    result: &'l str,
    #[serde(skip_serializing_if = "Option::is_none")]
    received: Option<u64>,
    #[serde(skip_serializing_if = "Option::is_none")]
    sent: Option<u64>,
    #[serde(skip_serializing_if = "Option::is_none")]
    useragent: Option<&'l str>,
}

/// How a request ended.
pub(crate) struct Ended<'e> {
    pub(crate) trace: String,
    pub(crate) client: String,
    pub(crate) user: Option<&'e str>,
    pub(crate) method: &'e str,
    pub(crate) status: u16,
    pub(crate) digest: Option<&'e str>,
    pub(crate) received: u64,
    pub(crate) sent: u64,
}

/// Returns the time of day as text.
fn time() -> String {
    humantime::format_rfc3339_micros(SystemTime::now()).to_string()
}

/// Returns the action of a request to a resource.
fn action_of(method: &Method, target: &Target<'_>, query: Option<&str>) -> &'static str {
    match (method, target) {
        (&Method::DELETE, Target::Manifest { .. } | Target::Blob { .. }) => "delete",
        (&Method::PUT, Target::Manifest { .. } | Target::Upload { .. }) => "push",
        (&Method::POST, Target::Uploads { .. }) if query_value(query, "mount").is_some() => "mount",
        (&Method::POST, Target::Uploads { .. }) if query_value(query, "digest").is_some() => "push",
        (_, Target::Manifest { .. } | Target::Blob { .. }) => "pull",
        (_, Target::Uploads { .. } | Target::Upload { .. }) => "upload",
        (_, Target::Tags { .. } | Target::Referrers { .. } | Target::Catalog) => "list",
        (_, Target::Base) => "login",
    }
}

/// Returns what a request for a page asks for.
fn asked_of_page(method: &Method, place: Place<'_>) -> Asked {
    let action = match place {
        Place::Delete(_) if method == Method::POST => "delete",
        Place::Login => "login",
        _ => "browse",
    };
    let (repo, reference) = place.subject().map_or((None, None), |(repo, reference)| (Some(repo.to_string()), reference));
    let text = reference.map(|reference| shortened(reference.text(), MOST_TEXT));
    let (tag, digest) = match reference {
        Some(Reference::Tag(_)) => (text, None),
        _ => (None, text),
    };
    Asked { action, repository: repo, tag, digest, ..Asked::default() }
}

impl Asked {
    /// Returns what a request asks for, if there is an audit log.
    pub(crate) fn of(request: &Request<Body>) -> Option<Asked> {
        log()?;
        let useragent = request.headers().get(USER_AGENT).and_then(|text| text.to_str().ok()).unwrap_or_default();
        let (path, query) = (decoded(request.uri().path())?, request.uri().query());
        let mut asked = Asked { action: "other", useragent: shortened(useragent, MOST_TEXT), ..Asked::default() };
        if let Some(place) = Place::of(&path) {
            return Some(Asked { useragent: asked.useragent, ..asked_of_page(request.method(), place) });
        }
        let target = match Target::of(&path) {
            Some(target) => target,
            None => return Some(asked),
        };
        let text = |text: &str| Some(shortened(text, MOST_TEXT));
        asked.action = action_of(request.method(), &target, query);
        asked.repository = target.repo().and_then(text);
        match target {
            Target::Manifest { reference, .. } if is_digest(reference) => asked.digest = text(reference),
            Target::Manifest { reference, .. } => asked.tag = text(reference),
            Target::Blob { digest, .. } | Target::Referrers { digest, .. } => asked.digest = text(digest),
            Target::Uploads { .. } | Target::Upload { .. } => {
                let digest = query_value(query, "mount").or_else(|| query_value(query, "digest"));
                asked.digest = digest.as_deref().and_then(text);
                asked.from = query_value(query, "from").as_deref().and_then(text);
            }
            Target::Tags { .. } | Target::Catalog | Target::Base => {}
        }
        Some(asked)
    }

    /// Writes the line of a request that has ended, if it is one to a repository or a list, or a refused login.
    pub(crate) fn end(&self, ended: &Ended<'_>) {
        let is_refused_login = matches!(ended.status, 401 | 403);
        let is_written = is_refused_login || self.repository.is_some() || self.action == "list";
        let log = match log().filter(|_| is_written) {
            Some(log) => log,
            None => return,
        };
        let result = match ended.status {
            0..=399 => "done",
            400..=499 => "refused",
            _ => "failed",
        };
        log.write(&Line {
            time: time(),
            trace: Some(&ended.trace),
            client: Some(ended.client.clone()),
            user: ended.user,
            robot: None,
            method: Some(ended.method),
            action: self.action,
            repository: self.repository.as_deref(),
            from: self.from.as_deref(),
            tag: self.tag.as_deref(),
            digest: self.digest.as_deref().or(ended.digest),
            status: Some(ended.status),
            result,
            received: Some(ended.received),
            sent: Some(ended.sent),
            useragent: Some(&self.useragent),
        });
    }
}

/// Writes the line of a manifest, blob or tag that the registry removed by itself.
pub(crate) fn write_own_delete(action: &str, repo: &str, tag: Option<&str>, digest: &str) {
    write_own(Line { action, repository: Some(repo), tag, digest: Some(digest), ..Line::default() });
}

/// Writes the line of a robot that a command of the owner made or revoked.
pub(crate) fn write_robot(action: &str, robot: &str) {
    write_own(Line { action, robot: Some(robot), ..Line::default() });
}

/// Writes the line of a step of a tenant's move to or from another registry. The tenant is in the place of the repository.
pub(crate) fn write_move(action: &str, tenant: &str) {
    write_own(Line { action, repository: Some(tenant), ..Line::default() });
}

/// Writes a line that belongs to no request of a client, if there is an audit log.
fn write_own(line: Line<'_>) {
    if let Some(log) = log() {
        log.write(&Line { time: time(), result: "done", ..line });
    }
}

/// Opens the file, which only its owner can read, at its end.
fn open(path: &Path) -> io::Result<File> {
    OpenOptions::new().append(true).create(true).mode(0o600).open(path)
}

impl AuditLog {
    /// Opens the log of this process, and starts its thread.
    ///
    /// # Errors
    ///
    /// Fails if the file cannot be opened, or the thread cannot be started.
    pub(crate) fn begin(path: &Path) -> Result<Arc<AuditLog>, String> {
        let fault = |error: io::Error| format!("cannot open the audit log: {}: {error}", path.display());
        let file = open(path).map_err(fault)?;
        let (messages, receiver) = sync_channel(MOST_WAITING);
        let lost =
            IntCounter::new("registryd_audit_lost_total", "Lines that are not in the audit log.").expect("a counter's name");
        let log = Arc::new(AuditLog { path: path.to_path_buf(), messages, lost: lost.clone() });
        let writer = FileWriter { path: path.to_path_buf(), file, lost, is_cut: false, reported: 0, logged: None };
        std::thread::Builder::new().name("audit".to_string()).spawn(move || writer.run(&receiver)).map_err(fault)?;
        *guard_of(LOG.write()) = Some(log.clone());
        Ok(log)
    }

    /// Adds a line. It is lost and counted if too many wait.
    fn write(&self, line: &Line<'_>) {
        let mut text = serde_json::to_string(line).expect("texts and numbers have a form");
        text.push('\n');
        if self.messages.try_send(Message::Line(text)).is_err() {
            self.lost.inc();
        }
    }

    /// Sends a message to the thread, and waits for its result.
    fn ask(&self, message: impl FnOnce(SyncSender<io::Result<()>>) -> Message) -> io::Result<()> {
        let (sender, done) = sync_channel(1);
        let gone = || io::Error::new(io::ErrorKind::TimedOut, "it is not written in time");
        self.messages.try_send(message(sender)).map_err(|_| gone())?;
        done.recv_timeout(END_TIME).unwrap_or_else(|_| Err(gone()))
    }
}

/// Waits until all lines are written, if there is an audit log.
pub(crate) fn end() {
    if let Some(log) = log() {
        if let Err(error) = log.ask(Message::Sync) {
            tracing::warn!(%error, "the audit log may lack its last lines");
        }
    }
}

impl Reload for AuditLog {
    fn reload(&self) -> Result<(), String> {
        self.ask(Message::Reopen).map_err(|error| format!("cannot open the audit log again: {}: {error}", self.path.display()))
    }

    fn log(&self, name: &str, reloaded: Result<(), String>) {
        match reloaded {
            Ok(()) => tracing::info!("opened the {name} again"),
            Err(why) => tracing::error!("{why}: kept the file that was open"),
        }
    }
}

/// The thread's side of the log.
struct FileWriter {
    path: PathBuf,
    file: File,
    lost: IntCounter,
    /// Whether the file may end within a line.
    is_cut: bool,
    /// The number of lost lines that are logged.
    reported: u64,
    logged: Option<Instant>,
}

impl FileWriter {
    /// Writes lines until the program ends.
    fn run(mut self, messages: &Receiver<Message>) {
        let mut held = None;
        while let Some(message) = held.take().or_else(|| messages.recv().ok()) {
            match message {
                Message::Line(mut text) => {
                    let mut lines = 1;
                    while text.len() < MOST_WRITTEN {
                        match messages.try_recv() {
                            Ok(Message::Line(next)) => {
                                text.push_str(&next);
                                lines += 1;
                            }
                            Ok(other) => {
                                held = Some(other);
                                break;
                            }
                            Err(_) => break,
                        }
                    }
                    self.write(&text, lines);
                }
                Message::Reopen(done) => {
                    let opened = open(&self.path).map(|file| self.file = file);
                    self.is_cut &= opened.is_err();
                    let _ = done.send(opened);
                }
                Message::Sync(done) => {
                    let _ = done.send(Ok(()));
                }
            }
        }
    }

    /// Writes lines at once. If that fails, they are counted as lost, and the next ones begin on a line of their own.
    fn write(&mut self, text: &str, lines: u64) {
        let separator = if self.is_cut { "\n" } else { "" };
        let written = self.file.write_all(separator.as_bytes()).and_then(|()| self.file.write_all(text.as_bytes()));
        self.is_cut = written.is_err();
        if written.is_err() {
            self.lost.inc_by(lines);
        }
        self.log_lost(&written.map_or_else(|error| error.to_string(), |()| "too many wait".to_string()));
    }

    /// Logs how many lines were lost since the last time, if there are any, but not too often.
    fn log_lost(&mut self, why: &str) {
        let lost = self.lost.get() - self.reported;
        if lost > 0 && self.logged.map_or(true, |logged| logged.elapsed() >= LOG_REST) {
            tracing::error!(lost, "cannot write the audit log: {}: {why}", self.path.display());
            self.reported += lost;
            self.logged = Some(Instant::now());
        }
    }
}

#[cfg(test)]
mod tests {
    use super::*;

    #[test]
    fn actions_are_what_a_request_asks_for() {
        let of = |method: Method, path: &str, query: Option<&str>| action_of(&method, &Target::of(path).unwrap(), query);
        for (method, path, query, expected) in [
            (Method::GET, "/v2/a/manifests/v1", None, "pull"),
            (Method::HEAD, "/v2/a/blobs/sha256:0", None, "pull"),
            (Method::PUT, "/v2/a/manifests/v1", None, "push"),
            (Method::DELETE, "/v2/a/manifests/v1", None, "delete"),
            (Method::POST, "/v2/a/blobs/uploads/", None, "upload"),
            (Method::POST, "/v2/a/blobs/uploads/", Some("digest=x"), "push"),
            (Method::POST, "/v2/a/blobs/uploads/", Some("mount=x&from=b"), "mount"),
            (Method::PATCH, "/v2/a/blobs/uploads/x", None, "upload"),
            (Method::PUT, "/v2/a/blobs/uploads/x", Some("digest=x"), "push"),
            (Method::DELETE, "/v2/a/blobs/uploads/x", None, "upload"),
            (Method::GET, "/v2/a/tags/list", None, "list"),
            (Method::GET, "/v2/_catalog", None, "list"),
            (Method::GET, "/v2/", None, "login"),
        ] {
            assert_eq!(of(method, path, query), expected, "{path}");
        }
    }

    #[test]
    fn a_failed_write_is_counted_and_ends_its_line() {
        let path = std::env::temp_dir().join(format!("registryd-audit-{}", uuid::Uuid::new_v4()));
        let lost = IntCounter::new("lost", "x").unwrap();
        let full = OpenOptions::new().append(true).open("/dev/full").unwrap();
        let mut writer =
            FileWriter { path: path.clone(), file: full, lost: lost.clone(), is_cut: false, reported: 0, logged: None };
        writer.write("{}\n{}\n", 2);
        assert!(lost.get() == 2 && writer.is_cut);
        writer.file = open(&path).unwrap();
        writer.write("{}\n", 1);
        writer.write("{}\n", 1);
        assert_eq!((std::fs::read_to_string(&path).unwrap(), lost.get()), ("\n{}\n{}\n".to_string(), 2));
        std::fs::remove_file(path).unwrap();
    }
}
