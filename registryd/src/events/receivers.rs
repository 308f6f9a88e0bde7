//! The receivers of events, and the file that lists them. Its headers and URLs may have secrets, which no log line and no reply has.
use crate::events::event::{Action, Event};
use crate::http::client::trusted_by_system;
use crate::operation::reload::{read_file, FromFile, Reload};
use hyper::header::{HeaderMap, HeaderName, HeaderValue};
use hyper::Uri;
use rustls::{ClientConfig, ServerName};
use serde::Deserialize;
use serde_json::error::Category;
use std::collections::{BTreeMap, HashSet};
use std::path::Path;
use std::sync::Arc;
use std::time::Duration;
use tokio::sync::Notify;

/// The maximum number of receivers.
const MAX_RECEIVERS: usize = 16;

/// The time for a delivery if the file has none, and the maximum, in seconds.
const TIMEOUT_S: (u64, u64) = (10, 300);

/// The headers that the registry sets itself.
const OWN_HEADERS: [&str; 5] = ["host", "content-type", "content-length", "transfer-encoding", "connection"];

/// The beginnings of the messages that name a field or a word and have no value of the file.
const PLAIN_MESSAGES: [&str; 4] = ["unknown field", "missing field", "duplicate field", "unknown variant"];

#[derive(Deserialize)]
#[serde(deny_unknown_fields)]
struct Form {
    receivers: Vec<Entry>,
}

#[derive(Deserialize)]
#[serde(deny_unknown_fields)]
struct Entry {
    name: String,
    url: String,
    #[serde(default)]
    headers: BTreeMap<String, String>,
    timeout_s: Option<u64>,
    #[serde(default)]
    ignore_actions: Vec<Action>,
    #[serde(default)]
    ignore_media_types: Vec<String>,
}

/// A program that receives events.
pub(crate) struct Receiver {
    pub(crate) name: String,
    pub(super) host: String,
    pub(super) port: u16,
    /// The header `Host`.
    pub(super) authority: String,
    /// The path with the query.
    pub(super) path: String,
    /// The certificates that are trusted, and the name that the receiver's certificate has, if it is reached by TLS.
    pub(super) tls: Option<(Arc<ClientConfig>, ServerName)>,
    pub(super) headers: HeaderMap,
    /// The time for a delivery.
    pub(super) limit: Duration,
    ignored_actions: Vec<Action>,
    ignored_types: Vec<String>,
}

impl Receiver {
    /// Returns whether the receiver gets events of this kind.
    pub(super) fn wants(&self, action: Action, media_type: Option<&str>) -> bool {
        !self.ignored_actions.contains(&action) && !self.ignored_types.iter().any(|ignored| Some(&**ignored) == media_type)
    }

    /// Returns whether the receiver gets an event.
    pub(super) fn wants_event(&self, event: &Event) -> bool {
        self.wants(event.action, event.media_type.as_deref())
    }

    /// Makes the receiver of an entry. `trusted` returns the certificates of the system.
    fn of(entry: Entry, trusted: &mut impl FnMut() -> Result<Arc<ClientConfig>, String>) -> Result<Receiver, String> {
        let Entry { name, url, headers, timeout_s, ignore_actions, ignore_media_types } = entry;
        let is_plain = |byte: u8| byte.is_ascii_alphanumeric() || b"-_.".contains(&byte);
        if name.is_empty() || name.len() > 64 || !name.bytes().all(is_plain) {
            return Err("a name has 1 to 64 letters, digits, `-`, `_` and `.`".to_string());
        }
        let fault = |why: &str| format!("receiver {name}: {why}");
        let uri: Uri = url.parse().map_err(|_| fault("the URL is invalid"))?;
        let authority = uri.authority().ok_or_else(|| fault("the URL has no host"))?;
        if authority.as_str().contains('@') {
            return Err(fault("the URL has a user: give a header Authorization"));
        }
        let host = authority.host().trim_start_matches('[').trim_end_matches(']').to_string();
        let tls = match uri.scheme_str() {
            Some("http") => None,
            Some("https") => {
                let server = ServerName::try_from(&*host).ok().filter(|server| matches!(server, ServerName::DnsName(_)));
                let server = server.ok_or_else(|| fault("https needs the name of a host"))?;
                Some((trusted().map_err(|why| fault(&why))?, server))
            }
            _ => return Err(fault("the URL begins with neither http:// nor https://")),
        };
        let seconds = timeout_s.unwrap_or(TIMEOUT_S.0);
        if !(1..=TIMEOUT_S.1).contains(&seconds) {
            return Err(fault(&format!("timeout_s is not from 1 to {}", TIMEOUT_S.1)));
        }
        Ok(Receiver {
            port: authority.port_u16().unwrap_or(if tls.is_some() { 443 } else { 80 }),
            authority: authority.to_string(),
            path: uri.path_and_query().map_or("/", |path| path.as_str()).to_string(),
            headers: parsed_headers(&headers).map_err(|why| fault(&why))?,
            limit: Duration::from_secs(seconds),
            ignored_actions: ignore_actions,
            ignored_types: ignore_media_types,
            host,
            tls,
            name,
        })
    }
}

/// Returns the headers of an entry. A message names a header and not its value.
fn parsed_headers(headers: &BTreeMap<String, String>) -> Result<HeaderMap, String> {
    let mut parsed = HeaderMap::new();
    for (name, value) in headers {
        let invalid = |_| format!("the header {name} is invalid");
        let header: HeaderName = name.parse().map_err(|_| "a header has an invalid name".to_string())?;
        if OWN_HEADERS.contains(&header.as_str()) {
            return Err(format!("the header {name} is set by the registry"));
        }
        let mut value = HeaderValue::from_str(value).map_err(invalid)?;
        value.set_sensitive(true);
        parsed.append(header, value);
    }
    Ok(parsed)
}

/// Returns what is wrong with the form of a file, without a value of it.
fn form_fault(error: &serde_json::Error) -> String {
    let text = error.to_string();
    let is_plain = error.classify() != Category::Data || PLAIN_MESSAGES.iter().any(|message| text.starts_with(message));
    match is_plain {
        true => text,
        false => format!("a value of the wrong type at line {} column {}", error.line(), error.column()),
    }
}

/// Parses the text of a file.
fn parse(bytes: &[u8]) -> Result<Vec<Arc<Receiver>>, String> {
    let form: Form = serde_json::from_slice(bytes).map_err(|error| form_fault(&error))?;
    if form.receivers.len() > MAX_RECEIVERS {
        return Err(format!("more than {MAX_RECEIVERS} receivers"));
    }
    let mut config = None;
    let mut trusted = || match &config {
        Some(config) => Ok(Arc::clone(config)),
        None => Ok(config.insert(Arc::new(trusted_by_system()?)).clone()),
    };
    let receivers: Result<Vec<_>, String> =
        form.receivers.into_iter().map(|entry| Receiver::of(entry, &mut trusted).map(Arc::new)).collect();
    let receivers = receivers?;
    let mut names = HashSet::new();
    match receivers.iter().find(|receiver| !names.insert(&*receiver.name)) {
        Some(twice) => Err(format!("receiver {}: there are two of this name", twice.name)),
        None => Ok(receivers),
    }
}

/// The file of the receivers.
pub(crate) struct ReceiversFile {
    file: Arc<FromFile<Vec<Arc<Receiver>>>>,
    /// Notified after the file was read again.
    pub(super) reloaded: Notify,
}

impl ReceiversFile {
    /// Reads a file, and the certificates that the system trusts if a receiver is reached by TLS.
    ///
    /// # Errors
    ///
    /// - The file cannot be read, or has another form.
    /// - An entry is invalid. The message has its name.
    /// - Two receivers have the same name, or there are too many.
    pub(crate) fn new(path: &Path) -> Result<Arc<ReceiversFile>, String> {
        let path = path.to_path_buf();
        let read = move || {
            let fault = |why: String| format!("cannot read the receivers of events: {}: {why}", path.display());
            let bytes = read_file(&path).map_err(|error| fault(error.to_string()))?;
            parse(&bytes).map_err(fault)
        };
        Ok(Arc::new(ReceiversFile { file: FromFile::new(read)?, reloaded: Notify::new() }))
    }

    /// Returns the receivers that were read last.
    pub(crate) fn get(&self) -> Arc<Vec<Arc<Receiver>>> {
        self.file.get()
    }
}

impl Reload for ReceiversFile {
    fn reload(&self) -> Result<(), String> {
        self.file.reload()?;
        self.reloaded.notify_one();
        Ok(())
    }
}

#[cfg(test)]
pub(crate) mod tests {
    use super::*;

    /// Returns a receiver that ignores some actions.
    pub(crate) fn receiver(name: &str, ignored: &str) -> Arc<Receiver> {
        let text = format!("{{\"receivers\":[{{\"name\":\"{name}\",\"url\":\"http://a/b?c\",\"ignore_actions\":[{ignored}]}}]}}");
        parse(text.as_bytes()).unwrap().remove(0)
    }

    fn fault(text: &str) -> String {
        parse(text.as_bytes()).err().unwrap()
    }

    #[test]
    fn a_receiver_has_an_address_and_may_ignore_events() {
        let text = r#"{"receivers": [{"name": "ci", "url": "http://[::1]:81/a?b=c", "headers": {"Authorization": "Bearer x"},
                       "timeout_s": 3, "ignore_actions": ["pull"], "ignore_media_types": ["a/b"]}]}"#;
        let found = &parse(text.as_bytes()).unwrap()[0];
        assert_eq!((&*found.host, found.port, &*found.authority, &*found.path), ("::1", 81, "[::1]:81", "/a?b=c"));
        assert!(found.limit == Duration::from_secs(3) && found.headers["authorization"] == "Bearer x");
        assert!(found.headers["authorization"].is_sensitive() && found.tls.is_none());
        assert!(found.wants(Action::Push, Some("c/d")) && found.wants(Action::Delete, None));
        assert!(!found.wants(Action::Pull, Some("c/d")) && !found.wants(Action::Push, Some("a/b")));
        let plain = receiver("ci", "");
        assert_eq!((plain.port, &*plain.path, plain.limit), (80, "/b?c", Duration::from_secs(10)));
        assert!(parse(br#"{"receivers": []}"#).unwrap().is_empty());
    }

    #[test]
    fn a_message_has_no_value_of_the_file() {
        let one = |fields: &str| format!("{{\"receivers\": [{{\"name\": \"ci\", \"url\": \"http://a\"{fields}}}]}}");
        for (text, expected) in [
            ("{".to_string(), "EOF while parsing"),
            ("[]".to_string(), "a value of the wrong type at line 1"),
            (one(", \"urll\": 1"), "unknown field `urll`"),
            (one(", \"headers\": \"SECRET\""), "a value of the wrong type at line 1 column"),
            (one(", \"headers\": {\"Authorization\": \"SECRET\\n\"}"), "receiver ci: the header Authorization is invalid"),
            (one(", \"headers\": {\"SEC RET\": \"\"}"), "receiver ci: a header has an invalid name"),
            (one(", \"headers\": {\"host\": \"SECRET\"}"), "receiver ci: the header host is set by the registry"),
            (one(", \"timeout_s\": 0"), "receiver ci: timeout_s is not from 1 to 300"),
            (one(", \"ignore_actions\": [\"move\"]"), "unknown variant `move`"),
            (one("").replace("ci", "a b"), "a name has 1 to 64 letters"),
            (one("").replace("http://a", "a"), "receiver ci: the URL"),
            (one("").replace("http://a", "ftp://a"), "receiver ci: the URL begins with neither"),
            (one("").replace("http://a", "http://a:SECRET@b"), "receiver ci: the URL has a user"),
            (one("").replace("http://a", "https://127.0.0.1"), "receiver ci: https needs the name of a host"),
            ("{\"receivers\": [{\"url\": \"http://a\"}]}".to_string(), "missing field `name`"),
        ] {
            let why = fault(&text);
            assert!(why.starts_with(expected) && !why.contains("SECRET"), "{text}: {why}");
        }
        let entry = "{\"name\": \"ci\", \"url\": \"http://a\"}";
        assert!(fault(&format!("{{\"receivers\": [{entry}, {entry}]}}")).contains("receiver ci: there are two"));
        let many = vec![entry; MAX_RECEIVERS + 1].join(",");
        assert!(fault(&format!("{{\"receivers\": [{many}]}}")).contains("more than 16"));
    }
}
