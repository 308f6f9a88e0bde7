//! Tokens of issuers that machines have anyway (OpenID Connect Core 1.0, "ID Token"): which are accepted, and which account each is.
use crate::auth::issuer_keys::{IssuerKeys, FETCH_TIME};
use crate::auth::oidc_file::{parse, Issuer};
use crate::auth::reserved::OIDC;
use crate::auth::rights::{Grant, Right};
use crate::auth::tokens::{part, verified, LEEWAY, MAX_TOKEN};
use crate::http::client::{http_client, HttpClient};
use crate::http::exchange::shortened;
use crate::metadata::clock::time_of_day;
use crate::operation::locks::guard_of;
use crate::operation::metrics::Metrics;
use crate::operation::reload::{read_parsed, FromFile, Reload};
use jsonwebtoken::errors::{Error, ErrorKind};
use jsonwebtoken::Algorithm;
use percent_encoding::{utf8_percent_encode, AsciiSet, CONTROLS};
use prometheus::{IntCounterVec, Opts};
use serde::Deserialize;
use serde_json::Value;
use std::path::{Path, PathBuf};
use std::sync::{Arc, Mutex};

/// The maximum length of an account's name, in bytes.
const MAX_NAME: usize = 255;

/// The characters of a `sub` that an account's name has as `%XX`, so that it is one word without quotes.
const ENCODED: &AsciiSet = &CONTROLS.add(b' ').add(b'"').add(b'\\').add(b'%');

/// The account of a machine by its token.
#[derive(Debug)]
pub(super) struct Account {
    /// `oidc+ISSUER/SUB`, shortened.
    pub(super) name: String,
    grants: Vec<Grant>,
}

/// The reason why a token is refused.
#[derive(Clone, Copy, Debug, PartialEq, Eq)]
pub(super) enum Refusal {
    Malformed,
    Algorithm,
    Issuer,
    UnknownKey,
    Signature,
    Audience,
    Expired,
    Early,
    NoRule,
    /// The user with whom the token was sent names no issuer of the file.
    NoIssuer,
}

/// The failure of a token.
#[derive(Debug)]
pub(super) enum TokenFault {
    Refused(Refusal),
    /// The keys of its issuer are not known.
    NoKeys,
}

/// The header of a token, as far as it is used (RFC 7515, 4.1).
#[derive(Deserialize)]
struct Head {
    alg: String,
    kid: String,
}

/// What a file has.
struct Issuers {
    all: Vec<Issuer>,
    client: HttpClient,
}

/// The tokens that were refused, by issuer and reason, and the fetches of keys, by issuer and result.
struct Counts {
    refusals: IntCounterVec,
    fetches: IntCounterVec,
}

/// The issuers of a file, and what is known of their keys.
pub(crate) struct Oidc {
    file: Arc<FromFile<Issuers>>,
    counts: Counts,
}

impl Refusal {
    /// Returns the label of the metric and the log.
    fn word(self) -> &'static str {
        match self {
            Refusal::Malformed => "malformed",
            Refusal::Algorithm => "algorithm",
            Refusal::Issuer => "issuer",
            Refusal::UnknownKey => "unknown-key",
            Refusal::Signature => "signature",
            Refusal::Audience => "audience",
            Refusal::Expired => "expired",
            Refusal::Early => "early",
            Refusal::NoRule => "no-rule",
            Refusal::NoIssuer => "no-issuer",
        }
    }

    /// Returns the message for the client.
    pub(super) fn text(self) -> &'static str {
        match self {
            Refusal::Malformed => "it is malformed, or lacks sub, exp, iat or kid",
            Refusal::Algorithm => "its algorithm is not one of its key",
            Refusal::Issuer => "its issuer is another one",
            Refusal::UnknownKey => "its issuer has no such key",
            Refusal::Signature => "its signature is wrong",
            Refusal::Audience => "it is for another audience",
            Refusal::Expired => "it has expired",
            Refusal::Early => "it is not valid yet",
            Refusal::NoRule => "no rule gives it a right",
            Refusal::NoIssuer => "the user is not oidc+NAME with the name of an issuer",
        }
    }
}

impl From<Error> for Refusal {
    fn from(error: Error) -> Refusal {
        match error.kind() {
            ErrorKind::InvalidAlgorithm => Refusal::Algorithm,
            ErrorKind::InvalidIssuer => Refusal::Issuer,
            ErrorKind::InvalidSignature => Refusal::Signature,
            ErrorKind::InvalidAudience => Refusal::Audience,
            ErrorKind::ExpiredSignature => Refusal::Expired,
            ErrorKind::ImmatureSignature => Refusal::Early,
            _ => Refusal::Malformed,
        }
    }
}

impl From<Refusal> for TokenFault {
    fn from(refusal: Refusal) -> TokenFault {
        TokenFault::Refused(refusal)
    }
}

impl Counts {
    fn new() -> Counts {
        let counter = |name: &str, help: &str, label: &str| {
            IntCounterVec::new(Opts::new(name, help), &["issuer", label]).expect("a counter's name")
        };
        let fetches = counter("registryd_oidc_fetches_total", "Fetches of the keys of an issuer of --oidc.", "result");
        Counts { refusals: counter("registryd_oidc_refusals_total", "Tokens of --oidc that were refused.", "reason"), fetches }
    }
}

/// Returns the name of an account. It is stable, and tells accounts apart up to its maximum length.
fn name_of(issuer: &str, sub: &str) -> String {
    shortened(&format!("{OIDC}{issuer}/{}", utf8_percent_encode(sub, ENCODED)), MAX_NAME)
}

/// Returns the claims of a token that were not verified. They decide only which issuer verifies it.
fn claimed(text: &str) -> Option<Value> {
    part(text, 1).ok().filter(|_| text.len() <= MAX_TOKEN)
}

/// Returns whether a claim is a time, and the time.
fn time(claims: &Value, name: &str) -> Option<f64> {
    claims.get(name).and_then(Value::as_f64).filter(|time| *time >= 0.0)
}

/// Checks what the library does not: that the token was not issued in the future, and that a begin is a time.
fn check_times(claims: &Value, now: u64) -> Result<(), Refusal> {
    let issued = time(claims, "iat").ok_or(Refusal::Malformed)?;
    if claims.get("nbf").map_or(false, |begin| !begin.is_null()) {
        time(claims, "nbf").ok_or(Refusal::Malformed)?;
    }
    match issued > (now + LEEWAY) as f64 {
        true => Err(Refusal::Early),
        false => Ok(()),
    }
}

impl Account {
    /// Returns whether it has a right in a repository.
    pub(super) fn allows(&self, right: Right, repo: &str) -> bool {
        self.grants.iter().any(|grant| grant.allows(right, repo))
    }

    /// Returns the account of a token that was verified.
    fn of(issuer: &Issuer, claims: &Value) -> Result<Account, Refusal> {
        check_times(claims, time_of_day())?;
        let sub = claims.get("sub").and_then(Value::as_str).filter(|sub| !sub.is_empty()).ok_or(Refusal::Malformed)?;
        let account = Account { name: name_of(&issuer.keys.name, sub), grants: issuer.grants(claims) };
        if account.grants.is_empty() {
            tracing::info!(account = %account.name, "no rule of the file of --oidc is for a token");
            return Err(Refusal::NoRule);
        }
        Ok(account)
    }
}

impl Issuers {
    /// Reads a file. The keys of an issuer that was there before stay, but are fetched again for its next token.
    fn read(path: &Path, known: &Mutex<Vec<Arc<IssuerKeys>>>, fetches: &IntCounterVec) -> Result<Issuers, String> {
        let before = guard_of(known.lock()).clone();
        let keys = |name: &str, url: &str| {
            let is_same = |keys: &&Arc<IssuerKeys>| keys.name == name && keys.url == url;
            before.iter().find(is_same).cloned().unwrap_or_else(|| IssuerKeys::new(name, url, fetches))
        };
        let all = read_parsed(path, "issuers", |text| parse(text, keys))?;
        let has_tls = all.iter().any(|issuer| issuer.keys.url.starts_with("https://"));
        let client = http_client(FETCH_TIME, has_tls)?;
        for issuer in &all {
            issuer.keys.expire();
            for line in issuer.open_lines() {
                tracing::warn!(issuer = %issuer.keys.name, line, "a rule of the file of --oidc gives rights to every token");
            }
        }
        *guard_of(known.lock()) = all.iter().map(|issuer| issuer.keys.clone()).collect();
        Ok(Issuers { all, client })
    }

    /// Returns the account of a token of an issuer.
    ///
    /// # Errors
    ///
    /// - The token is malformed, or names another issuer.
    /// - The keys of the issuer are not known, or none has the name that the token has, or the key does not verify its algorithm.
    /// - Its signature, its audience or a time is wrong.
    /// - No rule is for it.
    async fn verify(&self, issuer: &Issuer, text: &str) -> Result<Account, TokenFault> {
        let claims = claimed(text).ok_or(Refusal::Malformed)?;
        if claims.get("iss").and_then(Value::as_str) != Some(&issuer.keys.url) {
            return Err(Refusal::Issuer.into());
        }
        let head: Head = part(text, 0).map_err(|_| Refusal::Malformed)?;
        let algorithm: Algorithm = head.alg.parse().map_err(|_| Refusal::Algorithm)?;
        let keys = issuer.keys.keys_for(&head.kid, &self.client).await.ok_or(TokenFault::NoKeys)?;
        if !keys.has(&head.kid) {
            return Err(Refusal::UnknownKey.into());
        }
        let key = keys.find(&head.kid, algorithm).ok_or(Refusal::Algorithm)?;
        let claims: Value = verified(text, key, algorithm, &issuer.audience, &issuer.keys.url).map_err(Refusal::from)?;
        Ok(Account::of(issuer, &claims)?)
    }
}

impl Oidc {
    /// Reads a file, which is read again later. No issuer is asked before a token is sent.
    ///
    /// # Errors
    ///
    /// - The file cannot be read, or a line is wrong.
    /// - An issuer has TLS, and the system has no certificate authorities.
    pub(crate) fn new(path: PathBuf) -> Result<Oidc, String> {
        let (known, counts) = (Mutex::default(), Counts::new());
        let fetches = counts.fetches.clone();
        let file = FromFile::new(move || Issuers::read(&path, &known, &fetches))?;
        Ok(Oidc { file, counts })
    }

    /// Returns the file, to be read again.
    pub(crate) fn file(&self) -> Arc<dyn Reload> {
        self.file.clone()
    }

    /// Adds its counters to the metrics.
    pub(crate) fn count_in(&self, metrics: &Metrics) {
        metrics.add(Box::new(self.counts.refusals.clone()));
        metrics.add(Box::new(self.counts.fetches.clone()));
    }

    /// Returns the account of a token that is sent with the user `oidc+ISSUER`.
    ///
    /// # Errors
    ///
    /// - The file has no issuer of this name.
    /// - Those of `Issuers::verify`. They are logged and counted.
    pub(super) async fn by_user(&self, user: &str, text: &str) -> Result<Account, TokenFault> {
        let issuers = self.file.get();
        let name = user.strip_prefix(OIDC).unwrap_or_default();
        match issuers.all.iter().find(|issuer| issuer.keys.name == name) {
            Some(issuer) => self.counted(issuer, issuers.verify(issuer, text).await),
            None => Err(Refusal::NoIssuer.into()),
        }
    }

    /// Returns the account of a token that is sent without a user, if it names an issuer of the file.
    ///
    /// # Errors
    ///
    /// Those of `Issuers::verify`. They are logged and counted.
    pub(super) async fn by_issuer(&self, text: &str) -> Option<Result<Account, TokenFault>> {
        let issuers = self.file.get();
        let claims = claimed(text)?;
        let url = claims.get("iss").and_then(Value::as_str)?;
        let issuer = issuers.all.iter().find(|issuer| issuer.keys.url == url)?;
        Some(self.counted(issuer, issuers.verify(issuer, text).await))
    }

    /// Logs and counts a token that is refused.
    fn counted(&self, issuer: &Issuer, result: Result<Account, TokenFault>) -> Result<Account, TokenFault> {
        let name = &issuer.keys.name;
        let reason = match &result {
            Ok(_) => return result,
            Err(TokenFault::Refused(refusal)) => refusal.word(),
            Err(TokenFault::NoKeys) => "no-keys",
        };
        tracing::info!(issuer = %name, reason, "refused a token");
        self.counts.refusals.with_label_values(&[name, reason]).inc();
        result
    }
}

#[cfg(test)]
mod tests {
    use super::*;
    use crate::auth::key_set::KeySet;
    use crate::auth::oidc_file::tests::parsed;
    use crate::auth::tokens::tests::Pair;
    use jsonwebtoken::{encode, EncodingKey, Header};
    use serde_json::json;

    const URL: &str = "https://token.example";

    const FILE: &str = "issuer ci https://token.example registry.example\nallow ci read,write acme/app repository=org/app\n";

    /// The issuers of the file, with a key that the first one has.
    struct Known {
        issuers: Issuers,
        pair: Pair,
    }

    impl Known {
        fn new() -> Known {
            let (all, pair) = (parsed(FILE).unwrap(), Pair::new());
            let encoded = |bytes: &[u8]| base64::encode_config(bytes, base64::URL_SAFE_NO_PAD);
            let (x, y) = pair.point();
            let key = json!({ "kty": "EC", "kid": "1", "crv": "P-256", "x": encoded(&x), "y": encoded(&y) });
            all[0].keys.hold(KeySet::parse(json!({ "keys": [key] }).to_string().as_bytes()).unwrap());
            Known { issuers: Issuers { all, client: http_client(FETCH_TIME, false).unwrap() }, pair }
        }

        /// Returns a token with these claims instead of others.
        fn token(&self, others: Value) -> String {
            encode(&head(Algorithm::ES256), &claims(others), &self.pair.key()).unwrap()
        }

        async fn verify(&self, text: &str) -> Result<Account, Refusal> {
            match self.issuers.verify(&self.issuers.all[0], text).await {
                Ok(account) => Ok(account),
                Err(TokenFault::Refused(refusal)) => Err(refusal),
                Err(TokenFault::NoKeys) => panic!("the keys are not known"),
            }
        }

        async fn refusal(&self, text: &str) -> Option<Refusal> {
            self.verify(text).await.err()
        }
    }

    fn head(algorithm: Algorithm) -> Header {
        Header { kid: Some("1".to_string()), ..Header::new(algorithm) }
    }

    /// Returns good claims with other values for some. A value `null` removes the claim.
    fn claims(others: Value) -> Value {
        let now = time_of_day();
        let mut claims = json!({ "iss": URL, "aud": "registry.example", "sub": "repo:org/app:ref:x", "exp": now + 300, "iat": now, "nbf": now,
                                 "repository": "org/app" });
        for (name, value) in others.as_object().unwrap() {
            claims[name] = value.clone();
        }
        claims.as_object_mut().unwrap().retain(|_, value| !value.is_null());
        claims
    }

    #[tokio::test]
    async fn a_token_has_an_account() {
        let known = Known::new();
        let account = known.verify(&known.token(json!({}))).await.unwrap();
        assert_eq!(account.name, "oidc+ci/repo:org/app:ref:x");
        for (right, repo, expected) in [
            (Right::Write, "acme/app/x", true),
            (Right::Read, "acme/app", true),
            (Right::Delete, "acme/app", false),
            (Right::Read, "acme", false),
            (Right::Read, "acme/apple", false),
        ] {
            assert_eq!(account.allows(right, repo), expected, "{right:?} {repo}");
        }
    }

    #[tokio::test]
    async fn claims_are_checked() {
        let (known, now) = (Known::new(), time_of_day());
        for good in [
            json!({ "exp": now - 30 }),
            json!({ "nbf": now + 30, "iat": now + 30 }),
            json!({ "nbf": null }),
            json!({ "aud": ["other", "registry.example"] }),
            json!({ "exp": now as f64 + 0.5 }),
        ] {
            assert_eq!(known.refusal(&known.token(good.clone())).await, None, "{good}");
        }
        for (bad, refusal) in [
            (json!({ "exp": now - 90 }), Refusal::Expired),
            (json!({ "exp": null }), Refusal::Malformed),
            (json!({ "exp": "9999999999" }), Refusal::Malformed),
            (json!({ "nbf": now + 90 }), Refusal::Early),
            (json!({ "nbf": "0" }), Refusal::Malformed),
            (json!({ "iat": now + 90 }), Refusal::Early),
            (json!({ "iat": null }), Refusal::Malformed),
            (json!({ "iat": -1 }), Refusal::Malformed),
            (json!({ "iat": "0" }), Refusal::Malformed),
            (json!({ "iss": "https://token.example/" }), Refusal::Issuer),
            (json!({ "iss": "https://other" }), Refusal::Issuer),
            (json!({ "iss": [URL] }), Refusal::Issuer),
            (json!({ "iss": null }), Refusal::Issuer),
            (json!({ "aud": "other" }), Refusal::Audience),
            (json!({ "aud": [] }), Refusal::Audience),
            (json!({ "aud": null }), Refusal::Malformed),
            (json!({ "aud": 1 }), Refusal::Malformed),
            (json!({ "sub": null }), Refusal::Malformed),
            (json!({ "sub": "" }), Refusal::Malformed),
            (json!({ "sub": 1 }), Refusal::Malformed),
            (json!({ "repository": "org/apple" }), Refusal::NoRule),
            (json!({ "repository": null }), Refusal::NoRule),
            (json!({ "repository": ["org/other"] }), Refusal::NoRule),
            (json!({ "sub": "x".repeat(MAX_TOKEN) }), Refusal::Malformed),
        ] {
            assert_eq!(known.refusal(&known.token(bad.clone())).await, Some(refusal), "{bad:.200}");
        }
    }

    #[tokio::test]
    async fn the_key_decides_the_algorithm() {
        let known = Known::new();
        let (x, y) = known.pair.point();
        let point = [&[4], &x[..], &y[..]].concat();
        for secret in [known.pair.public.as_bytes(), &point, b"", b"1"] {
            for algorithm in [Algorithm::HS256, Algorithm::HS384, Algorithm::HS512] {
                let token = encode(&head(algorithm), &claims(json!({})), &EncodingKey::from_secret(secret)).unwrap();
                assert_eq!(known.refusal(&token).await, Some(Refusal::Algorithm));
            }
        }
        let good = known.token(json!({}));
        let parts: Vec<&str> = good.split('.').collect();
        for name in ["none", "None", "", "es256", "ES384", "RS256", "PS256", "EdDSA", "ES256K"] {
            let head = base64::encode_config(json!({ "alg": name, "kid": "1" }).to_string(), base64::URL_SAFE_NO_PAD);
            for signature in [parts[2], ""] {
                let token = format!("{head}.{}.{signature}", parts[1]);
                assert_eq!(known.refusal(&token).await, Some(Refusal::Algorithm), "{name}");
            }
        }
        // Another key, another signature, and a changed text.
        let other = encode(&head(Algorithm::ES256), &claims(json!({})), &Pair::new().key()).unwrap();
        let unsigned = format!("{}.{}.", parts[0], parts[1]);
        for token in [other, unsigned, format!("{}.{}.{}", parts[0], parts[1], "A".repeat(86))] {
            assert_eq!(known.refusal(&token).await, Some(Refusal::Signature));
        }
        for at in 0..good.len() {
            let other = if &good[at..at + 1] == "x" { "y" } else { "x" };
            let changed = format!("{}{other}{}", &good[..at], &good[at + 1..]);
            assert!(known.refusal(&changed).await.is_some(), "{at}");
        }
    }

    #[tokio::test]
    async fn a_token_names_its_key() {
        let known = Known::new();
        for (kid, refusal) in
            [(None, Refusal::Malformed), (Some("2".to_string()), Refusal::UnknownKey), (Some(String::new()), Refusal::UnknownKey)]
        {
            let head = Header { kid, ..head(Algorithm::ES256) };
            let token = encode(&head, &claims(json!({})), &known.pair.key()).unwrap();
            assert_eq!(known.refusal(&token).await, Some(refusal));
        }
        // An extension that has to be understood.
        let head = json!({ "alg": "ES256", "kid": "1", "crit": ["exp"] }).to_string();
        let encoded = |text: String| base64::encode_config(text, base64::URL_SAFE_NO_PAD);
        let message = format!("{}.{}", encoded(head), encoded(claims(json!({})).to_string()));
        let signature = jsonwebtoken::crypto::sign(message.as_bytes(), &known.pair.key(), Algorithm::ES256).unwrap();
        assert_eq!(known.refusal(&format!("{message}.{signature}")).await, Some(Refusal::Malformed));
    }

    #[tokio::test]
    async fn odd_texts_are_no_tokens() {
        let known = Known::new();
        let deep = base64::encode_config("[".repeat(9000), base64::URL_SAFE_NO_PAD);
        for text in ["", ".", "..", "...", "a.b.c", "é.é.é", "\u{0}", &deep, &format!("{deep}.{deep}.{deep}")] {
            assert!(known.refusal(text).await.is_some(), "{text:.20}");
        }
        let good = known.token(json!({}));
        for text in
            [format!("{good}."), format!(".{good}"), format!("{good}A"), format!("{good}.{good}"), good.replace('.', ". ")]
        {
            assert!(known.refusal(&text).await.is_some(), "{text}");
        }
    }

    #[test]
    fn a_name_is_one_word() {
        assert_eq!(name_of("ci", "system:serviceaccount:a:b"), "oidc+ci/system:serviceaccount:a:b");
        assert_eq!(name_of("ci", "a b\n\"%ä\\"), "oidc+ci/a%20b%0A%22%25%C3%A4%5C");
        let long = name_of("ci", &"x".repeat(1000));
        assert!(long.len() < MAX_NAME + 20 && long.ends_with("... (1008 bytes)"), "{long}");
    }
}
