//! The key set of an issuer, which its discovery document names (OpenID Connect Discovery 1.0): when it is fetched, and how long it is used.
use crate::auth::key_set::KeySet;
use crate::http::client::{ip_of, read_at_most, with_causes, HttpClient, AGENT};
use crate::http::exchange::shortened;
use crate::operation::locks::guard_of;
use hyper::header::{ACCEPT, USER_AGENT};
use hyper::{Body, Request, StatusCode, Uri};
use prometheus::IntCounterVec;
use serde::Deserialize;
use std::sync::{Arc, Mutex, MutexGuard};
use std::time::{Duration, Instant};
use tokio::sync::watch;
use tokio::time::timeout;

/// The time after which the keys are fetched again for the next token, and the time for which they are used if that fails.
const KEY_TIMES: (Duration, Duration) = (Duration::from_secs(3600), Duration::from_secs(24 * 3600));

/// The pause after a fetch, also if tokens name keys that are not in the set.
const REST: Duration = Duration::from_secs(5);

/// The time for both documents.
pub(super) const FETCH_TIME: Duration = Duration::from_secs(10);

/// The maximum length of a document, in bytes.
const MAX_DOCUMENT: usize = 256 << 10;

/// The maximum number of bytes of an issuer's text in a message.
const MOST_SHOWN: usize = 200;

/// The members of a discovery document that are used (OpenID Connect Discovery 1.0, 3).
#[derive(Deserialize)]
struct Discovery {
    issuer: String,
    jwks_uri: String,
}

/// What is known of the keys of an issuer.
#[derive(Default)]
struct State {
    /// The keys that were fetched last, and when.
    keys: Option<(Arc<KeySet>, Instant)>,
    /// Whether the keys are to be fetched again whatever their age is.
    is_stale: bool,
    /// The end of the last fetch, and whether it failed.
    tried: Option<Instant>,
    has_failed: bool,
    /// A fetch, which runs as long as its sender is there.
    fetch: Option<watch::Receiver<()>>,
}

/// The keys of an issuer.
pub(super) struct IssuerKeys {
    /// The issuer's name in the file.
    pub(super) name: String,
    /// The issuer's URL, which its tokens have too.
    pub(super) url: String,
    state: Mutex<State>,
    /// The fetches, by issuer and result.
    fetches: IntCounterVec,
}

/// Returns the URL of a text if requests may be sent to it: `https` with the name of a host, or `http` with a loopback address.
///
/// # Errors
///
/// Fails with what to write instead.
pub(super) fn server_url(text: &str) -> Result<Uri, &'static str> {
    let url: Uri = text.parse().map_err(|_| "not a URL")?;
    if text.contains(&['@', '#'][..]) {
        return Err("a URL with a user or a fragment");
    }
    match (url.scheme_str(), ip_of(&url)) {
        (Some("https"), None) => Ok(url),
        (Some("https"), Some(_)) => Err("https needs the name of a host: certificates of addresses are not supported"),
        (Some("http"), Some(ip)) if ip.is_loopback() => Ok(url),
        (Some("http"), _) => Err("http is for loopback addresses only: write https://"),
        _ => Err("not a URL that begins with https://"),
    }
}

/// Returns the URL of an issuer's discovery document (OpenID Connect Discovery 1.0, 4).
fn discovery_url(issuer: &str) -> String {
    format!("{}/.well-known/openid-configuration", issuer.trim_end_matches('/'))
}

/// Fetches a document. Redirects are not followed.
async fn get(client: &HttpClient, url: &Uri) -> Result<Vec<u8>, String> {
    let host = url.authority().map_or("", |host| host.as_str());
    let request = Request::get(url).header(USER_AGENT, AGENT).header(ACCEPT, "application/json").body(Body::empty());
    let request = request.map_err(|_| "its URL is invalid".to_string())?;
    let response = client.request(request).await.map_err(|error| format!("{host}: {}", with_causes(&error)))?;
    match response.status() {
        StatusCode::OK => read_at_most(response.into_body(), MAX_DOCUMENT).await,
        status => Err(format!("{host} returns {}", status.as_u16())),
    }
}

/// Returns the URL of the key set that the discovery document of an issuer names.
///
/// # Errors
///
/// - It is no such document, or one of another issuer (OpenID Connect Discovery 1.0, 4.3).
/// - The key set has no valid URL, or has no TLS although the issuer has.
fn keys_url(issuer: &str, document: &[u8]) -> Result<Uri, String> {
    let found: Discovery = serde_json::from_slice(document).map_err(|_| "it has no discovery document".to_string())?;
    if found.issuer != issuer {
        return Err(format!("its discovery document is of another issuer: {:?}", shortened(&found.issuer, MOST_SHOWN)));
    }
    let fault = |why: &str| format!("the URL of its key set: {:?}: {why}", shortened(&found.jwks_uri, MOST_SHOWN));
    let url = server_url(&found.jwks_uri).map_err(fault)?;
    match issuer.starts_with("https://") && url.scheme_str() != Some("https") {
        true => Err(fault("no TLS, although the issuer has it")),
        false => Ok(url),
    }
}

/// Fetches the key set of an issuer.
async fn fetched(client: &HttpClient, issuer: &str) -> Result<KeySet, String> {
    let url = server_url(&discovery_url(issuer))?;
    let keys = keys_url(issuer, &get(client, &url).await?)?;
    KeySet::parse(&get(client, &keys).await?).map_err(|why| format!("its key set: {why}"))
}

impl State {
    /// Returns the age of the keys, if there are any that may be used.
    fn age(&self, now: Instant) -> Option<Duration> {
        let age = self.keys.as_ref().map(|(_, fetched)| now.saturating_duration_since(*fetched));
        age.filter(|age| *age <= KEY_TIMES.1)
    }

    /// Returns whether a key with this name may be used.
    fn has(&self, kid: &str, now: Instant) -> bool {
        self.age(now).is_some() && self.keys.as_ref().map_or(false, |(keys, _)| keys.has(kid))
    }

    /// Returns whether the keys have to be fetched for a token that names one.
    fn is_fetch_due(&self, kid: &str, now: Instant) -> bool {
        self.is_stale || !self.has(kid, now) || self.age(now).map_or(true, |age| age > KEY_TIMES.0)
    }

    /// Returns whether a fetch may begin.
    fn may_fetch(&self, now: Instant) -> bool {
        self.tried.map_or(true, |tried| now.saturating_duration_since(tried) >= REST)
    }

    /// Returns whether a token waits for a fetch. One with a known key does not if the last fetch failed.
    fn waits(&self, kid: &str, now: Instant) -> bool {
        !self.has(kid, now) || !self.has_failed
    }

    /// Returns the fetch that runs, if one does.
    fn running(&self) -> Option<watch::Receiver<()>> {
        self.fetch.clone().filter(|fetch| fetch.has_changed().is_ok())
    }

    /// Notes the result of a fetch.
    fn end_fetch(&mut self, result: Result<KeySet, String>, now: Instant) {
        self.tried = Some(now);
        self.has_failed = result.is_err();
        if let Ok(keys) = result {
            self.keys = Some((Arc::new(keys), now));
            self.is_stale = false;
        }
    }

    /// Returns the keys for a token that names one, which may be none of them. Returns `None` if it is not known which keys the issuer has
    /// now, and the token's is not one of those that are known.
    fn keys_for(&self, kid: &str, now: Instant) -> Option<Arc<KeySet>> {
        let (keys, _) = self.keys.as_ref().filter(|_| self.age(now).is_some())?;
        (keys.has(kid) || !self.has_failed).then(|| keys.clone())
    }
}

impl IssuerKeys {
    /// Makes the keys of an issuer, none of which is fetched before a token is sent.
    pub(super) fn new(name: &str, url: &str, fetches: &IntCounterVec) -> Arc<IssuerKeys> {
        let (name, url) = (name.to_string(), url.to_string());
        Arc::new(IssuerKeys { name, url, state: Mutex::default(), fetches: fetches.clone() })
    }

    fn state(&self) -> MutexGuard<'_, State> {
        guard_of(self.state.lock())
    }

    /// Lets the next token fetch the keys again.
    pub(super) fn expire(&self) {
        self.state().is_stale = true;
    }

    /// Returns the keys for a token that names one, after fetching them if that is due. All tokens that wait share a fetch. Returns `None` if
    /// it is not known whether the issuer has the key.
    pub(super) async fn keys_for(self: &Arc<Self>, kid: &str, client: &HttpClient) -> Option<Arc<KeySet>> {
        if let Some(mut fetch) = self.fetch_if_due(kid, client) {
            // It ends by dropping its sender.
            let _ = fetch.changed().await;
        }
        self.state().keys_for(kid, Instant::now())
    }

    /// Begins a fetch if one is due and none runs. Returns the fetch if the token has to wait for it.
    fn fetch_if_due(self: &Arc<Self>, kid: &str, client: &HttpClient) -> Option<watch::Receiver<()>> {
        let now = Instant::now();
        let mut state = self.state();
        if !state.is_fetch_due(kid, now) {
            return None;
        }
        let fetch = match state.running() {
            Some(fetch) => fetch,
            None if !state.may_fetch(now) => return None,
            None => {
                let (sender, fetch) = watch::channel(());
                state.fetch = Some(fetch.clone());
                tokio::spawn(self.clone().fetch(client.clone(), sender));
                fetch
            }
        };
        state.waits(kid, now).then_some(fetch)
    }

    /// Fetches the keys. Those who wait go on when this drops `_running`.
    async fn fetch(self: Arc<Self>, client: HttpClient, _running: watch::Sender<()>) {
        let slow = || Err(format!("no complete response in {} s", FETCH_TIME.as_secs()));
        let result = timeout(FETCH_TIME, fetched(&client, &self.url)).await.unwrap_or_else(|_| slow());
        let word = if result.is_ok() { "done" } else { "failed" };
        self.fetches.with_label_values(&[&self.name, word]).inc();
        match &result {
            Ok(_) => tracing::info!(issuer = %self.name, "fetched the keys of an issuer"),
            Err(why) => tracing::warn!(issuer = %self.name, %why, "cannot fetch the keys of an issuer"),
        }
        self.state().end_fetch(result, Instant::now());
    }
}

#[cfg(test)]
impl IssuerKeys {
    /// Holds keys as if they had just been fetched.
    pub(super) fn hold(&self, keys: KeySet) {
        self.state().end_fetch(Ok(keys), Instant::now());
    }
}

#[cfg(test)]
mod tests {
    use super::*;
    use crate::auth::key_set::tests::element;
    use serde_json::json;

    fn set() -> KeySet {
        KeySet::parse(json!({ "keys": [element("EC")] }).to_string().as_bytes()).unwrap()
    }

    #[test]
    fn a_server_has_tls_or_is_this_machine() {
        for text in ["https://a", "https://a:1/b/c?d", "http://127.0.0.1:1/a", "http://[::1]:1", "http://127.1.2.3"] {
            assert!(server_url(text).is_ok(), "{text}");
        }
        for text in [
            "",
            "a",
            "/a",
            "http://a",
            "http://localhost",
            "http://127.0.0.1.example",
            "http://10.0.0.1",
            "https://10.0.0.1",
            "https://[::1]:1",
            "ftp://a",
            "https://user@a",
            "https://a/#b",
            "https://a b",
        ] {
            assert!(server_url(text).is_err(), "{text}");
        }
        assert_eq!(discovery_url("https://a"), "https://a/.well-known/openid-configuration");
        assert_eq!(discovery_url("https://a/b/"), "https://a/b/.well-known/openid-configuration");
    }

    #[test]
    fn a_discovery_document_is_of_its_issuer() {
        let of = |issuer: &str, own: &str, keys: &str| {
            keys_url(issuer, json!({ "issuer": own, "jwks_uri": keys, "other": 1 }).to_string().as_bytes())
        };
        assert_eq!(of("https://a", "https://a", "https://b/keys").unwrap(), "https://b/keys");
        assert_eq!(of("http://127.0.0.1", "http://127.0.0.1", "http://127.0.0.1:1/k").unwrap(), "http://127.0.0.1:1/k");
        for (own, keys) in [
            ("https://a/", "https://a/k"),
            ("https://A", "https://a/k"),
            ("https://b", "https://a/k"),
            ("https://a", "http://127.0.0.1/k"),
            ("https://a", "http://a/k"),
            ("https://a", "file:///etc/passwd"),
            ("https://a", ""),
        ] {
            assert!(of("https://a", own, keys).is_err(), "{own} {keys}");
        }
        for text in ["", "[]", "{}", "{\"issuer\":\"https://a\"}", "{\"issuer\":1,\"jwks_uri\":2}"] {
            assert!(keys_url("https://a", text.as_bytes()).is_err(), "{text}");
        }
        assert!(of("https://a", &"b\n".repeat(1000), "").unwrap_err().len() < 400);
    }

    #[test]
    fn keys_are_used_for_a_time() {
        let (mut state, begun) = (State::default(), Instant::now());
        assert!(state.is_fetch_due("1", begun) && state.may_fetch(begun) && state.waits("1", begun));
        assert!(state.keys_for("1", begun).is_none());
        state.end_fetch(Ok(set()), begun);
        assert!(!state.is_fetch_due("1", begun) && state.keys_for("1", begun).is_some());
        // After the first time, the next token waits for a fetch. If it fails, the others do not.
        let later = begun + KEY_TIMES.0 + REST;
        assert!(state.is_fetch_due("1", later) && state.may_fetch(later) && state.waits("1", later));
        state.end_fetch(Err("down".to_string()), later);
        assert!(state.is_fetch_due("1", later) && !state.may_fetch(later) && !state.waits("1", later + REST));
        assert!(state.may_fetch(later + REST) && state.keys_for("1", later).unwrap().has("1"));
        // After the second time, they are used no more.
        let end = begun + KEY_TIMES.1;
        assert!(state.keys_for("1", end).is_some());
        let after = end + Duration::from_secs(1);
        assert!(state.keys_for("1", after).is_none() && state.waits("1", after) && state.is_fetch_due("1", after));
    }

    #[test]
    fn an_unknown_key_is_looked_for_after_a_pause() {
        let (mut state, begun) = (State::default(), Instant::now());
        state.end_fetch(Ok(set()), begun);
        assert!(state.is_fetch_due("2", begun) && !state.may_fetch(begun));
        // A fetch that has just found no such key is enough.
        assert!(!state.keys_for("2", begun).unwrap().has("2"));
        let later = begun + REST;
        assert!(state.may_fetch(later) && state.waits("2", later));
        // If it failed, nobody knows whether the issuer has the key.
        state.end_fetch(Err("down".to_string()), later);
        assert!(state.keys_for("2", later).is_none());
        assert!(state.waits("2", later) && state.keys_for("1", later).is_some());
    }

    #[test]
    fn a_reload_fetches_again() {
        let (mut state, begun) = (State::default(), Instant::now());
        state.end_fetch(Ok(set()), begun);
        state.is_stale = true;
        assert!(state.is_fetch_due("1", begun) && state.keys_for("1", begun).is_some());
        state.end_fetch(Err("down".to_string()), begun);
        assert!(state.is_fetch_due("1", begun));
        state.end_fetch(Ok(set()), begun);
        assert!(!state.is_fetch_due("1", begun));
    }

    #[test]
    fn a_fetch_runs_as_long_as_its_sender() {
        let mut state = State::default();
        assert!(state.running().is_none());
        let (sender, fetch) = watch::channel(());
        state.fetch = Some(fetch);
        assert!(state.running().is_some());
        drop(sender);
        assert!(state.running().is_none());
    }
}
