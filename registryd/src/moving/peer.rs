//! A registry as the command reaches it that moves a tenant: by its socket for the steps, and by its URL for the contents.
use crate::auth::moved_robots::MovedRobot;
use crate::control::client::{message, next_part, send, value_of};
use crate::control::moves::{State, Step};
use crate::control::server::{CONTENTS, MOVES, ROBOTS};
use crate::http::client::{with_causes, HttpClient, AGENT};
use crate::metadata::names::{tenant_of, EVERYWHERE};
use crate::moving::contents::{Image, Line};
use bytes::Bytes;
use hyper::header::{HeaderValue, AUTHORIZATION, CONTENT_LENGTH, CONTENT_TYPE, RETRY_AFTER, USER_AGENT};
use hyper::{Body, Method, Request, Response, StatusCode};
use serde_json::Value;
use std::collections::BTreeMap;
use std::path::PathBuf;
use std::time::Duration;
use tokio::time::{sleep, timeout};

/// The time limit of the head of a response.
pub(super) const LIMIT: Duration = Duration::from_secs(60);

/// The maximum number of times that a request is sent, and the longest pause before it is sent again.
const MOST_TIMES: usize = 10;
const MOST_REST: Duration = Duration::from_secs(5);

/// A registry.
pub(super) struct Peer {
    pub(super) url: String,
    control: PathBuf,
    client: HttpClient,
    tenant: String,
    /// The secret of this command there.
    secret: String,
}

/// The contents of a tenant at a registry.
#[derive(Default)]
pub(super) struct Contents {
    /// The manifests by repository and digest.
    pub(super) images: BTreeMap<(String, String), Image>,
    /// The blobs that replies named.
    pub(super) blobs: Vec<(String, String)>,
}

/// The content of a request.
pub(super) enum Sent {
    Nothing,
    /// A manifest and its media type.
    Manifest(Bytes, String),
    /// The response with a blob.
    Blob(Response<Body>),
}

/// Returns the header with which the secret is sent.
fn authorization(tenant: &str, secret: &str) -> Result<HeaderValue, String> {
    let login = base64::encode(format!("robot+move+{tenant}:{secret}"));
    let mut value = HeaderValue::from_str(&format!("Basic {login}")).map_err(|error| error.to_string())?;
    value.set_sensitive(true);
    Ok(value)
}

/// Returns the pause that a response asks for.
fn rest_of(response: &Response<Body>) -> Duration {
    let asked = response.headers().get(RETRY_AFTER).and_then(|value| value.to_str().ok()?.parse().ok());
    Duration::from_secs(asked.unwrap_or(1)).min(MOST_REST)
}

impl Peer {
    pub(super) fn new(url: &str, control: PathBuf, client: HttpClient, tenant: &str) -> Peer {
        Peer { url: url.to_string(), control, client, tenant: tenant.to_string(), secret: String::new() }
    }

    fn path(&self) -> String {
        format!("{MOVES}/{}", self.tenant)
    }

    fn understood<T: serde::de::DeserializeOwned>(&self, value: Value) -> Result<T, String> {
        serde_json::from_value(value).map_err(|error| format!("the reply of {} is not understood: {error}", self.url))
    }

    /// Returns the state of the move there.
    pub(super) async fn state(&self) -> Result<State, String> {
        self.understood(value_of(send(&self.control, Method::GET, &self.path(), Vec::new()).await?).await?)
    }

    /// Makes a step there, and returns the state after it.
    async fn step(&self, step: &Step) -> Result<State, String> {
        let content = serde_json::to_vec(step).map_err(|error| error.to_string())?;
        let response = send(&self.control, Method::POST, &self.path(), content).await;
        let response = response.map_err(|why| format!("{}: {why}", self.url))?;
        self.understood(value_of(response).await?)
    }

    /// Begins a move there, and returns the state after that.
    pub(super) async fn begin(&mut self, step: &Step) -> Result<State, String> {
        let state = self.step(step).await?;
        self.secret = state.secret.clone().unwrap_or_default();
        Ok(state)
    }

    pub(super) async fn close(&self, cut: bool) -> Result<State, String> {
        self.step(&Step::Close { secret: self.secret.clone(), cut }).await
    }

    pub(super) async fn resume(&self) -> Result<State, String> {
        self.step(&Step::Resume { secret: self.secret.clone() }).await
    }

    pub(super) async fn leave(&self) -> Result<State, String> {
        self.step(&Step::Leave { secret: self.secret.clone() }).await
    }

    pub(super) async fn open(&self) -> Result<State, String> {
        self.step(&Step::Open { secret: self.secret.clone() }).await
    }

    /// Lets robots wait for the tenant there.
    pub(super) async fn expect_robots(&self, robots: Vec<MovedRobot>) -> Result<State, String> {
        self.step(&Step::Robots { secret: self.secret.clone(), robots }).await
    }

    /// Returns the names of the robots that have rights in the tenant there and were not revoked and have not ended. `in_all` is whether
    /// those count that have rights everywhere.
    pub(super) async fn robots(&self, in_all: bool) -> Result<Vec<String>, String> {
        let value = value_of(send(&self.control, Method::GET, ROBOTS, Vec::new()).await?).await?;
        let robots = value["robots"].as_array().cloned().unwrap_or_default();
        let reaches = |robot: &Value| {
            let rights = robot["rights"].as_array().into_iter().flatten().filter_map(Value::as_str);
            rights.filter_map(|right| right.split_once(' ')).any(|(_, prefix)| match prefix == EVERYWHERE {
                true => in_all,
                false => tenant_of(prefix) == self.tenant,
            })
        };
        let active = robots.iter().filter(|robot| robot["state"] == "active" && reaches(robot));
        Ok(active.filter_map(|robot| robot["name"].as_str().map(str::to_string)).collect())
    }

    /// Returns what the tenant has there.
    pub(super) async fn contents(&self) -> Result<Contents, String> {
        let response = send(&self.control, Method::GET, &format!("{}{CONTENTS}", self.path()), Vec::new()).await?;
        let (mut body, mut text) = (response.into_body(), Vec::new());
        while let Some(part) = next_part(&mut body).await? {
            text.extend_from_slice(&part);
        }
        let mut contents = Contents::default();
        for line in text.split(|byte| *byte == b'\n').filter(|line| !line.is_empty()) {
            match serde_json::from_slice(line).map_err(|error| format!("the contents are not understood: {error}"))? {
                Line::Image(image) => {
                    contents.images.insert((image.repository.clone(), image.digest.clone()), image);
                }
                Line::Blob(repo, digest) => contents.blobs.push((repo, digest)),
                Line::End => return Ok(contents),
            }
        }
        Err(format!("the contents at {} are incomplete", self.url))
    }

    /// Returns a request for a path.
    fn request(&self, method: &Method, path: &str, sent: Sent) -> Result<Request<Body>, String> {
        let url = format!("{}{path}", self.url);
        let request = Request::builder().method(method).uri(url).header(USER_AGENT, AGENT);
        let request = request.header(AUTHORIZATION, authorization(&self.tenant, &self.secret)?);
        let request = match sent {
            Sent::Nothing => request.body(Body::empty()),
            Sent::Manifest(content, media_type) => request.header(CONTENT_TYPE, media_type).body(content.into()),
            Sent::Blob(response) => {
                let length = response.headers().get(CONTENT_LENGTH).cloned().ok_or("a blob without Content-Length")?;
                let request = request.header(CONTENT_TYPE, "application/octet-stream").header(CONTENT_LENGTH, length);
                request.body(response.into_body())
            }
        };
        request.map_err(|error| error.to_string())
    }

    /// Sends a request once, and waits for the head of its response. A blob may take any time as long as its bytes come.
    pub(super) async fn send(&self, method: &Method, path: &str, sent: Sent) -> Result<Response<Body>, String> {
        let is_blob = matches!(sent, Sent::Blob(_));
        let fault = |why: String| format!("{} {}{path}: {why}", method, self.url);
        let asked = self.client.request(self.request(method, path, sent)?);
        let response = match is_blob {
            true => asked.await,
            false => timeout(LIMIT, asked).await.map_err(|_| fault("no response in time".to_string()))?,
        };
        response.map_err(|error| fault(with_causes(&error)))
    }

    /// Sends a request, again if the registry wants that or does not reply, and returns the response. Its status is 2xx or 404.
    pub(super) async fn ask(
        &self,
        method: &Method,
        path: &str,
        content: Option<(Bytes, String)>,
    ) -> Result<Response<Body>, String> {
        let mut why = String::new();
        for _ in 0..MOST_TIMES {
            let sent = content.clone().map_or(Sent::Nothing, |(content, media_type)| Sent::Manifest(content, media_type));
            let rest = match self.send(method, path, sent).await {
                Ok(response) if is_temporary(response.status()) => {
                    let rest = rest_of(&response);
                    why = self.fault(method, path, response).await;
                    rest
                }
                Ok(response) if response.status().is_success() || response.status() == StatusCode::NOT_FOUND => {
                    return Ok(response)
                }
                Ok(response) => return Err(self.fault(method, path, response).await),
                Err(error) => {
                    why = error;
                    Duration::from_millis(500)
                }
            };
            sleep(rest).await;
        }
        Err(why)
    }

    /// Returns the text of a response that is a failure.
    pub(super) async fn fault(&self, method: &Method, path: &str, response: Response<Body>) -> String {
        format!("{method} {}{path}: {}: {}", self.url, response.status().as_u16(), message(response).await)
    }
}

/// Returns whether a request may succeed soon.
pub(super) fn is_temporary(status: StatusCode) -> bool {
    matches!(status, StatusCode::TOO_MANY_REQUESTS | StatusCode::SERVICE_UNAVAILABLE)
}
