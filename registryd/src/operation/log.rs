//! The log on standard error: its form, its level, and the repositories whose requests are logged in detail.
use crate::metadata::names::is_below;
use hyper::HeaderMap;
use std::fmt::Write as _;
use tracing::level_filters::LevelFilter;
use tracing_subscriber::filter::Targets;
use tracing_subscriber::layer::SubscriberExt;
use tracing_subscriber::util::SubscriberInitExt;
use tracing_subscriber::{fmt, registry};

/// The headers whose values are secrets.
const SECRET_HEADERS: [&str; 3] = ["authorization", "proxy-authorization", "cookie"];

/// The maximum number of headers, and of bytes of a value, in a message.
const SHOWN: (usize, usize) = (32, 128);

/// Logs messages of this level and above from now on, in lines of text or as JSON. Libraries log nothing in detail.
pub(crate) fn begin(level: LevelFilter, is_json: bool) {
    let targets = Targets::new().with_target("registryd", level).with_default(level.min(LevelFilter::INFO));
    let layer = fmt::layer().with_writer(std::io::stderr);
    match is_json {
        true => registry().with(targets).with(layer.json()).init(),
        false => registry().with(targets).with(layer.with_ansi(false)).init(),
    }
}

/// The tenants and repositories whose requests are logged in detail at the level `debug`, or all if there are none.
#[derive(Clone, Debug, Default)]
pub(crate) struct DebugScope(pub(crate) Vec<String>);

impl DebugScope {
    /// Returns whether a request is logged in detail. One to no repository is only if there are no names.
    pub(crate) fn has(&self, repo: Option<&str>) -> bool {
        tracing::enabled!(tracing::Level::DEBUG)
            && (self.0.is_empty() || repo.map_or(false, |repo| self.0.iter().any(|prefix| is_below(repo, prefix))))
    }
}

/// Returns the headers of a request as text, without the values that are secrets.
pub(crate) fn shown_headers(headers: &HeaderMap) -> String {
    let mut text = String::new();
    for (name, value) in headers.iter().take(SHOWN.0) {
        let value = match SECRET_HEADERS.contains(&name.as_str()) {
            true => "(secret)".to_string(),
            false => String::from_utf8_lossy(&value.as_bytes()[..value.len().min(SHOWN.1)]).into_owned(),
        };
        let _ = write!(text, "{}{name}: {value}", if text.is_empty() { "" } else { ", " });
    }
    text
}

#[cfg(test)]
mod tests {
    use super::*;

    #[test]
    fn headers_are_shown_without_secrets() {
        let mut headers = HeaderMap::new();
        for (name, value) in
            [("accept", "a/b"), ("authorization", "Basic c2VjcmV0"), ("cookie", "secret"), ("range", &"1".repeat(200))]
        {
            headers.append(name, value.parse().unwrap());
        }
        let text = shown_headers(&headers);
        assert!(
            text.contains("accept: a/b") && text.contains("authorization: (secret)") && text.contains(&"1".repeat(128)),
            "{text}"
        );
        assert!(!text.contains("c2VjcmV0") && !text.contains("cookie: secret") && !text.contains(&"1".repeat(129)), "{text}");
    }
}
