//! The tokens of an upstream, one for each repository, until they expire (CNCF Distribution, "Token Authentication Specification").
use crate::mirror::failure::UpstreamError;
use crate::operation::locks::guard_of;
use form_urlencoded::Serializer;
use serde::Deserialize;
use std::collections::HashMap;
use std::sync::atomic::{AtomicBool, Ordering};
use std::sync::Mutex;
use std::time::{Duration, Instant};

/// The maximum number of tokens that are kept.
const MAX_TOKENS: usize = 1024;

/// The time for which a token is valid if its server does not say, and the longest that is believed.
const TIMES: (Duration, Duration) = (Duration::from_secs(60), Duration::from_secs(3600));

/// A token, and the time until which it is used.
struct Token {
    authorization: String,
    until: Instant,
}

/// The tokens that are used, by the names of repositories.
#[derive(Default)]
pub(super) struct Tokens {
    by_name: Mutex<HashMap<String, Token>>,
    /// Whether the upstream takes the user and password themselves.
    is_basic: AtomicBool,
}

/// The response of a token server. It has the token under one of two names.
#[derive(Deserialize)]
struct Issued {
    token: Option<String>,
    access_token: Option<String>,
    expires_in: Option<u64>,
}

/// Returns the URL of a token for a scope.
pub(super) fn url(realm: &str, service: Option<&str>, scope: &str) -> String {
    let mut query = Serializer::new(String::new());
    if let Some(service) = service {
        query.append_pair("service", service);
    }
    query.append_pair("scope", scope);
    let separator = if realm.contains('?') { '&' } else { '?' };
    format!("{realm}{separator}{}", query.finish())
}

/// Parses the response of a token server: the token, and the time for which it is valid.
pub(super) fn parse(text: &[u8]) -> Result<(String, Duration), UpstreamError> {
    let wrong = || UpstreamError::failed("its token server returns no token");
    let issued: Issued = serde_json::from_slice(text).map_err(|_| wrong())?;
    let token = issued.token.or(issued.access_token).filter(|token| !token.is_empty()).ok_or_else(wrong)?;
    Ok((token, issued.expires_in.map_or(TIMES.0, Duration::from_secs).min(TIMES.1)))
}

impl Tokens {
    /// Returns what authenticates a request for a repository, as far as the upstream has asked for it.
    pub(super) fn get(&self, name: &str, basic: impl FnOnce() -> Option<String>) -> Option<String> {
        if self.is_basic.load(Ordering::Relaxed) {
            return basic();
        }
        let by_name = guard_of(self.by_name.lock());
        by_name.get(name).filter(|token| token.until > Instant::now()).map(|token| token.authorization.clone())
    }

    /// Notes that the upstream takes the user and password themselves.
    pub(super) fn use_basic(&self) {
        self.is_basic.store(true, Ordering::Relaxed);
    }

    /// Forgets a token that the upstream did not accept, and that it took the user and password.
    pub(super) fn drop_token(&self, name: &str) {
        self.is_basic.store(false, Ordering::Relaxed);
        guard_of(self.by_name.lock()).remove(name);
    }

    /// Adds a token, and returns the header `Authorization` with it. It is renewed after nine tenths of its time.
    pub(super) fn put(&self, name: &str, token: &str, time: Duration) -> String {
        let authorization = format!("Bearer {token}");
        let now = Instant::now();
        let mut by_name = guard_of(self.by_name.lock());
        if by_name.len() >= MAX_TOKENS {
            by_name.retain(|_, token| token.until > now);
        }
        if by_name.len() >= MAX_TOKENS {
            by_name.clear();
        }
        by_name.insert(name.to_string(), Token { authorization: authorization.clone(), until: now + time * 9 / 10 });
        authorization
    }
}

#[cfg(test)]
mod tests {
    use super::*;

    #[test]
    fn a_token_has_a_scope_and_a_time() {
        let scope = "repository:library/debian:pull";
        let expected = "https://a/token?service=a+b&scope=repository%3Alibrary%2Fdebian%3Apull";
        assert_eq!(url("https://a/token", Some("a b"), scope), expected);
        assert_eq!(url("https://a/token?x=1", None, "y"), "https://a/token?x=1&scope=y");
        let parsed = |text: &str| parse(text.as_bytes()).ok().map(|(token, time)| (token, time.as_secs()));
        assert_eq!(parsed(r#"{"token":"x","access_token":"y"}"#), Some(("x".to_string(), 60)));
        assert_eq!(parsed(r#"{"access_token":"y","expires_in":300}"#), Some(("y".to_string(), 300)));
        assert_eq!(parsed(r#"{"token":"x","expires_in":99999999999}"#), Some(("x".to_string(), 3600)));
        for text in ["", "{}", "[]", r#"{"token":""}"#, r#"{"token":1}"#, "<html>"] {
            assert_eq!(parsed(text), None, "{text}");
        }
    }

    #[test]
    fn a_token_is_used_until_it_expires() {
        let tokens = Tokens::default();
        let get = |name| tokens.get(name, || Some("Basic x".to_string()));
        assert_eq!(get("a"), None);
        assert_eq!(tokens.put("a", "t", Duration::from_secs(60)), "Bearer t");
        assert_eq!((get("a").as_deref(), get("b")), (Some("Bearer t"), None));
        tokens.put("a", "t", Duration::ZERO);
        assert_eq!(get("a"), None);
        tokens.use_basic();
        assert_eq!(get("b").as_deref(), Some("Basic x"));
        tokens.drop_token("b");
        assert_eq!(get("b"), None);
        (0..=MAX_TOKENS).for_each(|number| drop(tokens.put(&number.to_string(), "t", Duration::from_secs(60))));
        assert_eq!(tokens.by_name.lock().unwrap().len(), 1);
    }
}
