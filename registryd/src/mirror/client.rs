//! Requests to an upstream by HTTP: TLS, credentials and tokens, redirects, time limits, rate limits.
use crate::http::client::{with_causes, HttpClient, AGENT};
use crate::http::content::MAX_MANIFEST;
use crate::mirror::address::Address;
use crate::mirror::challenge::Challenge;
use crate::mirror::counts::Counts;
use crate::mirror::credentials::Credentials;
use crate::mirror::failure::UpstreamError;
use crate::mirror::tokens::{self, Tokens};
use crate::operation::locks::guard_of;
use crate::operation::reload::FromFile;
use hyper::body::HttpBody;
use hyper::header::{HeaderMap, HeaderValue, ACCEPT, AUTHORIZATION, LOCATION, RETRY_AFTER, USER_AGENT};
use hyper::{Body, Method, Request, Response, StatusCode, Uri};
use std::sync::{Arc, Mutex};
use std::time::{Duration, Instant, SystemTime};
use tokio::time::timeout;

/// The maximum number of redirects of a request.
const REDIRECTS: usize = 5;

/// The maximum length of a token server's response, in bytes.
const MAX_TOKEN: usize = 256 << 10;

/// The time for which an upstream that cannot be reached is not asked again.
const DOWN_TIME: Duration = Duration::from_secs(5);

/// The time for which an upstream that limits requests is not asked if it does not say how long, and the longest such time.
const LIMIT_TIMES: (Duration, Duration) = (Duration::from_secs(10), Duration::from_secs(3600));

/// When the upstream is asked again.
#[derive(Default)]
struct Pause {
    limited_until: Option<Instant>,
    down_until: Option<(Instant, String)>,
}

/// The registry that a mirror copies.
pub(crate) struct Upstream {
    pub(crate) address: Address,
    tenant: String,
    client: HttpClient,
    /// The time without a byte after which a request fails.
    pub(super) limit: Duration,
    credentials: Option<Arc<FromFile<Credentials>>>,
    tokens: Tokens,
    pause: Mutex<Pause>,
    pub(crate) counts: Counts,
}

/// Returns whether a status is a redirect with a header `Location` that keeps the method (RFC 9110, 15.4), for GET and HEAD.
fn is_redirect(status: StatusCode) -> bool {
    matches!(status.as_u16(), 301 | 302 | 303 | 307 | 308)
}

/// Returns the URL to which a response of `from` redirects.
///
/// # Errors
///
/// - There is none, or it is malformed.
/// - It is without TLS, and `from` is not.
fn target_of(from: &Uri, headers: &HeaderMap) -> Result<Uri, String> {
    let text = headers.get(LOCATION).and_then(|value| value.to_str().ok()).ok_or("a redirect without Location")?;
    let whole = match text.strip_prefix('/') {
        Some(rest) if !rest.starts_with('/') => {
            format!("{}://{}{text}", from.scheme_str().unwrap_or(""), from.authority().map_or("", |host| host.as_str()))
        }
        _ => text.to_string(),
    };
    // A fragment is not sent (RFC 9110, 7.1).
    let whole = whole.split('#').next().unwrap_or("");
    let target: Uri = whole.parse().map_err(|_| "a redirect to an invalid URL")?;
    match (from.scheme_str(), target.scheme_str()) {
        (_, Some("https")) | (Some("http"), Some("http")) => Ok(target),
        (Some("https"), Some("http")) => Err("a redirect from https to http".to_string()),
        _ => Err("a redirect to an invalid URL".to_string()),
    }
}

/// Returns the time that a header `Retry-After` asks for (RFC 9110, 10.2.3), within bounds.
fn retry_after(headers: &HeaderMap, now: SystemTime) -> Duration {
    let text = headers.get(RETRY_AFTER).and_then(|value| value.to_str().ok()).map(str::trim);
    let seconds = |text: &str| text.parse().ok().map(Duration::from_secs);
    let date = |text: &str| httpdate::parse_http_date(text).ok().map(|date| date.duration_since(now).unwrap_or_default());
    let asked = text.and_then(|text| seconds(text).or_else(|| date(text)));
    asked.unwrap_or(LIMIT_TIMES.0).clamp(Duration::from_secs(1), LIMIT_TIMES.1)
}

impl Upstream {
    pub(crate) fn new(
        tenant: &str,
        address: Address,
        (client, limit): (HttpClient, Duration),
        credentials: Option<Arc<FromFile<Credentials>>>,
        counts: Counts,
    ) -> Upstream {
        let (tokens, pause) = (Tokens::default(), Mutex::default());
        Upstream { tenant: tenant.to_string(), address, client, limit, credentials, tokens, pause, counts }
    }

    /// Returns the number of seconds for which the upstream wants no requests, if it wants none.
    pub(crate) fn limited_for(&self) -> Option<u64> {
        let until = guard_of(self.pause.lock()).limited_until?;
        Some(until.checked_duration_since(Instant::now())?.as_secs() + 1)
    }

    /// Fails if the upstream is not to be asked now.
    fn check_pause(&self) -> Result<(), UpstreamError> {
        let pause = guard_of(self.pause.lock());
        let now = Instant::now();
        match (&pause.limited_until, &pause.down_until) {
            (Some(until), _) if *until > now => Err(UpstreamError::Limited(*until)),
            (_, Some((until, why))) if *until > now => Err(UpstreamError::Failed(why.clone())),
            _ => Ok(()),
        }
    }

    /// Counts a failure, and returns it.
    pub(super) fn failed(&self, error: UpstreamError) -> UpstreamError {
        if !matches!(error, UpstreamError::Unknown | UpstreamError::NoRoom(_)) {
            let text = error.text();
            tracing::warn!(tenant = %self.tenant, upstream = %self.address.text(), why = %text, "the upstream failed");
            self.counts.failed(&text);
        }
        error
    }

    /// Notes that the upstream limits the rate of requests.
    fn limited(&self, headers: &HeaderMap) -> UpstreamError {
        let until = Instant::now() + retry_after(headers, SystemTime::now());
        guard_of(self.pause.lock()).limited_until = Some(until);
        self.counts.limited.inc();
        UpstreamError::Limited(until)
    }

    /// Notes that a host cannot be reached, or sends no head.
    fn down(&self, why: String) -> UpstreamError {
        guard_of(self.pause.lock()).down_until = Some((Instant::now() + DOWN_TIME, why.clone()));
        UpstreamError::Failed(why)
    }

    /// Returns the header `Authorization` of the credentials, if there are any.
    fn basic(&self) -> Option<String> {
        self.credentials.as_ref()?.get().basic(&self.tenant)
    }

    /// Asks for a path of a repository, and returns the response if its status is 200. Follows redirects, and authenticates once if
    /// the upstream wants it.
    ///
    /// # Errors
    ///
    /// Those of `UpstreamError` but `NoRoom`. They are counted.
    pub(super) async fn ask(
        &self,
        method: &Method,
        name: &str,
        path: &str,
        accept: &str,
    ) -> Result<Response<Body>, UpstreamError> {
        self.check_pause()?;
        self.ask_twice(method, name, path, accept).await.map_err(|error| self.failed(error))
    }

    async fn ask_twice(&self, method: &Method, name: &str, path: &str, accept: &str) -> Result<Response<Body>, UpstreamError> {
        let url = self.address.url(path);
        let mut authorization = self.tokens.get(name, || self.basic());
        for is_last in [false, true] {
            let response = self.follow(method, &url, accept, authorization.clone()).await?;
            match response.status() {
                StatusCode::OK => return Ok(response),
                StatusCode::UNAUTHORIZED if !is_last => authorization = Some(self.authorize(name, response.headers()).await?),
                StatusCode::UNAUTHORIZED | StatusCode::FORBIDDEN => return Err(UpstreamError::Denied),
                StatusCode::NOT_FOUND => return Err(UpstreamError::Unknown),
                status => return Err(UpstreamError::Failed(format!("it returns {status}"))),
            }
        }
        Err(UpstreamError::Denied)
    }

    /// Returns what authenticates a request for a repository, by the challenge of the upstream.
    async fn authorize(&self, name: &str, headers: &HeaderMap) -> Result<String, UpstreamError> {
        self.tokens.drop_token(name);
        match Challenge::of(headers).ok_or(UpstreamError::Denied)? {
            Challenge::Basic => {
                let basic = self.basic().ok_or(UpstreamError::Denied)?;
                self.tokens.use_basic();
                Ok(basic)
            }
            Challenge::Bearer { realm, service, scope } => {
                let scope = scope.unwrap_or_else(|| format!("repository:{name}:pull"));
                let url = tokens::url(&realm, service.as_deref(), &scope);
                let is_safe = url.starts_with("https://") || self.address.url("").starts_with("http://");
                if !is_safe {
                    return Err(UpstreamError::failed("its tokens are not offered by https"));
                }
                let response = self.follow(&Method::GET, &url, "application/json", self.basic()).await?;
                match response.status() {
                    StatusCode::OK => {}
                    StatusCode::UNAUTHORIZED | StatusCode::FORBIDDEN => return Err(UpstreamError::Denied),
                    status => return Err(UpstreamError::Failed(format!("its token server returns {status}"))),
                }
                let (token, time) = tokens::parse(&self.read(response.into_body(), MAX_TOKEN).await?)?;
                Ok(self.tokens.put(name, &token, time))
            }
        }
    }

    /// Sends a request, and follows redirects. The credentials go to the first host only.
    async fn follow(
        &self,
        method: &Method,
        url: &str,
        accept: &str,
        mut authorization: Option<String>,
    ) -> Result<Response<Body>, UpstreamError> {
        let mut target: Uri = url.parse().map_err(|_| UpstreamError::failed("its URL is invalid"))?;
        for _ in 0..=REDIRECTS {
            let response = self.send(method, &target, accept, authorization.as_deref()).await?;
            if response.status() == StatusCode::TOO_MANY_REQUESTS {
                return Err(self.limited(response.headers()));
            }
            if !is_redirect(response.status()) {
                return Ok(response);
            }
            let next = target_of(&target, response.headers()).map_err(UpstreamError::Failed)?;
            if next.authority() != target.authority() || next.scheme() != target.scheme() {
                authorization = None;
            }
            target = next;
        }
        Err(UpstreamError::failed("too many redirects"))
    }

    /// Sends one request, and waits for the head of its response.
    async fn send(
        &self,
        method: &Method,
        target: &Uri,
        accept: &str,
        authorization: Option<&str>,
    ) -> Result<Response<Body>, UpstreamError> {
        let mut request = Request::builder().method(method).uri(target).header(USER_AGENT, AGENT);
        if !accept.is_empty() {
            request = request.header(ACCEPT, accept);
        }
        if let Some(text) = authorization {
            let mut value = HeaderValue::from_str(text).map_err(|_| UpstreamError::failed("invalid credentials or token"))?;
            value.set_sensitive(true);
            request = request.header(AUTHORIZATION, value);
        }
        let request = request.body(Body::empty()).map_err(|_| UpstreamError::failed("its URL is invalid"))?;
        let host = target.authority().map_or("", |host| host.as_str());
        match timeout(self.limit, self.client.request(request)).await {
            Ok(Ok(response)) => Ok(response),
            Ok(Err(error)) => Err(self.down(format!("{host}: {}", with_causes(&error)))),
            Err(_) => Err(self.down(format!("{host}: no response in {} s", self.limit.as_secs()))),
        }
    }

    /// Returns the next bytes of a response, or `None` at its end.
    pub(super) async fn next(&self, body: &mut Body) -> Result<Option<bytes::Bytes>, UpstreamError> {
        match timeout(self.limit, body.data()).await {
            Ok(None) => Ok(None),
            Ok(Some(Ok(bytes))) => {
                self.counts.fetched.inc_by(bytes.len() as u64);
                Ok(Some(bytes))
            }
            Ok(Some(Err(error))) => Err(UpstreamError::Failed(format!("its response was cut: {}", with_causes(&error)))),
            Err(_) => Err(UpstreamError::Failed(format!("no byte of its response in {} s", self.limit.as_secs()))),
        }
    }

    /// Reads all of a response, of at most `most` bytes, in at most ten times the time limit.
    async fn read(&self, mut body: Body, most: usize) -> Result<Vec<u8>, UpstreamError> {
        let all = async {
            let mut bytes = Vec::new();
            while let Some(part) = self.next(&mut body).await? {
                if bytes.len() + part.len() > most {
                    return Err(UpstreamError::Failed(format!("its response is longer than {most} bytes")));
                }
                bytes.extend_from_slice(&part);
            }
            Ok(bytes)
        };
        let slow = || UpstreamError::failed("its response is too slow");
        timeout(10 * self.limit, all).await.unwrap_or_else(|_| Err(slow()))
    }

    /// Reads all of a response of at most as many bytes as a manifest may have. A failure is counted.
    pub(super) async fn read_short(&self, body: Body) -> Result<Vec<u8>, UpstreamError> {
        self.read(body, MAX_MANIFEST).await.map_err(|error| self.failed(error))
    }
}

/// Returns the text of a header.
pub(super) fn header<'h>(headers: &'h HeaderMap, name: &str) -> Option<&'h str> {
    headers.get(name)?.to_str().ok()
}

#[cfg(test)]
mod tests {
    use super::*;

    fn with(name: &'static str, text: &str) -> HeaderMap {
        [(name.parse().unwrap(), text.parse().unwrap())].into_iter().collect()
    }

    #[test]
    fn a_redirect_keeps_tls() {
        let target = |from: &str, to: &str| target_of(&from.parse().unwrap(), &with("location", to)).map(|uri| uri.to_string());
        assert_eq!(target("https://a:1/v2/x", "/y?z=1").as_deref(), Ok("https://a:1/y?z=1"));
        assert_eq!(target("http://a/x", "https://b/y#z").as_deref(), Ok("https://b/y"));
        assert_eq!(target("http://a/x", "http://b/").as_deref(), Ok("http://b/"));
        for to in ["http://a/y", "//b/y", "y", "", "ftp://b/y", "http://a b/"] {
            assert!(target("https://a/x", to).is_err(), "{to}");
        }
        assert!(target_of(&"https://a/".parse().unwrap(), &HeaderMap::new()).is_err());
    }

    #[test]
    fn a_limit_has_a_time_within_bounds() {
        let date = "Sun, 06 Nov 1994 08:49:37 GMT";
        let now = httpdate::parse_http_date(date).unwrap() - Duration::from_secs(40);
        let seconds = |text: &str| retry_after(&with("retry-after", text), now).as_secs();
        assert_eq!((seconds("7"), seconds(" 90 "), seconds(date)), (7, 90, 40));
        assert_eq!((seconds("0"), seconds("999999"), seconds("soon"), seconds("-1")), (1, 3600, 10, 10));
        assert_eq!(retry_after(&HeaderMap::new(), now).as_secs(), 10);
        assert_eq!(retry_after(&with("retry-after", date), now + Duration::from_secs(90)).as_secs(), 1);
    }
}
