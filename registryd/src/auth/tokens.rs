//! Bearer tokens of an issuer, by Docker's "Token Authentication Specification": signed JSON Web Tokens (RFC 7519) that list what
//! their holder may do.
use crate::auth::public_keys::{check_label, read_blocks, P256};
use crate::auth::rights::{Right, Scope};
use crate::operation::reload::FromFile;
use jsonwebtoken::errors::{Error, ErrorKind};
use jsonwebtoken::{decode, Algorithm, DecodingKey, Validation};
use serde::de::DeserializeOwned;
use serde::Deserialize;
use serde_json::{Number, Value};
use std::path::Path;
use std::sync::Arc;

/// The maximum length of a token, in bytes.
pub(super) const MAX_TOKEN: usize = 16 << 10;

/// The difference that the clocks of the issuer and of this machine may have, in seconds.
pub(super) const LEEWAY: u64 = 60;

/// The beginning of the DER of a public key of Ed25519 (RFC 8410), up to its 32 bytes.
const ED25519: [u8; 12] = *b"\x30\x2a\x30\x05\x06\x03\x2b\x65\x70\x03\x21\x00";

/// The minimum length of the DER of a public key of RSA with 2,048 bits.
const RSA_2048: usize = 290;

/// A public key of the issuer, and the only algorithm that it verifies. The algorithm that a token names does not decide.
pub(crate) struct Key {
    key: DecodingKey,
    algorithm: Algorithm,
}

impl Key {
    /// Returns the key of a block of PEM.
    fn of(block: &pem::Pem) -> Result<Key, String> {
        check_label(block)?;
        let der = &block.contents[..];
        match (der.strip_prefix(&P256), der.strip_prefix(&ED25519)) {
            (Some(point), _) => Ok(Key { key: DecodingKey::from_ec_der(point), algorithm: Algorithm::ES256 }),
            (_, Some(bytes)) => Ok(Key { key: DecodingKey::from_ed_der(bytes), algorithm: Algorithm::EdDSA }),
            _ => Key::of_rsa(block).ok_or_else(|| "a key is not RSA from 2,048 bits, P-256 or Ed25519".to_string()),
        }
    }

    fn of_rsa(block: &pem::Pem) -> Option<Key> {
        let key = DecodingKey::from_rsa_pem(pem::encode(block).as_bytes()).ok()?;
        (block.contents.len() >= RSA_2048).then_some(Key { key, algorithm: Algorithm::RS256 })
    }

    /// Reads the public keys of a PEM file. Several may be there while the issuer changes its key.
    ///
    /// # Errors
    ///
    /// - The file cannot be read, or has no PEM.
    /// - A block is no public key, or a key is not of RSA from 2,048 bits, P-256 or Ed25519.
    pub(crate) fn read(path: &Path) -> Result<Vec<Key>, String> {
        let fault = |why: String| format!("cannot read the token keys: {}: {why}", path.display());
        let blocks = read_blocks(path).map_err(fault)?;
        blocks.iter().map(Key::of).collect::<Result<Vec<Key>, String>>().map_err(fault)
    }
}

/// An entry of the claim `access`.
#[derive(Debug, Deserialize)]
struct Entry {
    #[serde(rename = "type")]
    kind: String,
    name: String,
    actions: Option<Vec<String>>,
}

/// The claims of a token, except those that the library checks. It skips `nbf` if that is no number.
#[derive(Debug, Deserialize)]
struct Claims {
    sub: Option<String>,
    #[serde(rename = "nbf")]
    _nbf: Option<Number>,
    access: Option<Vec<Entry>>,
}

/// The extensions in a token's header that have to be understood (RFC 7515, 4.1.11). None is.
#[derive(Deserialize)]
struct Critical {
    crit: Option<Value>,
}

/// Returns the rules for the claims of a token that an issuer made for an audience.
fn rules(algorithm: Algorithm, audience: &str, issuer: &str) -> Validation {
    let mut rules = Validation::new(algorithm);
    rules.leeway = LEEWAY;
    rules.validate_nbf = true;
    rules.set_audience(&[audience]);
    rules.set_issuer(&[issuer]);
    rules.set_required_spec_claims(&["exp", "iss", "aud"]);
    rules
}

/// Returns the part of a token with a number, decoded.
pub(super) fn part<T: DeserializeOwned>(text: &str, number: usize) -> Result<T, Error> {
    let part = text.split('.').nth(number).unwrap_or_default();
    Ok(serde_json::from_slice(&base64::decode_config(part, base64::URL_SAFE_NO_PAD)?)?)
}

/// Returns the claims of a token after checking its signature by one algorithm, its times, its issuer and its audience.
pub(super) fn verified<T: DeserializeOwned>(
    text: &str,
    key: &DecodingKey,
    algorithm: Algorithm,
    audience: &str,
    issuer: &str,
) -> Result<T, Error> {
    let claims = decode(text, key, &rules(algorithm, audience, issuer))?.claims;
    match part::<Critical>(text, 0)?.crit {
        Some(_) => Err(ErrorKind::InvalidToken.into()),
        None => Ok(claims),
    }
}

/// A token that was verified.
#[derive(Debug)]
pub(super) struct Token {
    claims: Claims,
}

impl Token {
    /// Returns the user whom the issuer names, if it names one.
    pub(super) fn user(&self) -> Option<&str> {
        self.claims.sub.as_deref().filter(|user| !user.is_empty())
    }

    /// Returns whether the token lists a right in a repository.
    pub(super) fn allows(&self, right: Right, repo: &str) -> bool {
        let action = match right {
            Right::Read => "pull",
            Right::Write => "push",
            Right::Delete => "delete",
        };
        let entries = self.claims.access.iter().flatten().filter(|entry| entry.kind == "repository" && entry.name == repo);
        entries.flat_map(|entry| entry.actions.iter().flatten()).any(|listed| listed == action || listed == "*")
    }

    /// Returns whether the token lists the catalog: `registry:catalog:*` (Docker's "Token Scope Documentation").
    pub(super) fn lists_catalog(&self) -> bool {
        let mut entries = self.claims.access.iter().flatten().filter(|entry| entry.kind == "registry" && entry.name == "catalog");
        entries.any(|entry| entry.actions.iter().flatten().any(|listed| listed == "*"))
    }
}

/// The issuer of tokens, as clients and this registry know it.
pub(crate) struct Issuer {
    /// The URL where clients ask for a token.
    pub(crate) realm: String,
    /// The name of this registry, which is the audience of its tokens.
    pub(crate) service: String,
    /// The name of the issuer.
    pub(crate) name: String,
    pub(crate) keys: Arc<FromFile<Vec<Key>>>,
}

impl Issuer {
    /// Returns a token after checking its signature, its times, its issuer and its audience.
    pub(super) fn verify(&self, text: &str) -> Option<Token> {
        let keys = self.keys.get();
        let mut why = Error::from(ErrorKind::InvalidToken);
        for key in keys.iter().filter(|_| text.len() <= MAX_TOKEN) {
            match verified(text, &key.key, key.algorithm, &self.service, &self.name) {
                Ok(claims) => return Some(Token { claims }),
                Err(error) => why = error,
            }
        }
        tracing::info!(%why, "refused a token");
        None
    }

    /// Returns the challenge to a client that has to send a token for what it wants, or another one because of an error (RFC 6750,
    /// 3.1).
    pub(super) fn challenge(&self, scope: Scope<'_>, error: Option<&str>) -> String {
        let mut text = format!("Bearer realm=\"{}\",service=\"{}\"", self.realm, self.service);
        if let Some(scope) = scope.text() {
            text.extend([",scope=\"", &scope, "\""]);
        }
        if let Some(error) = error {
            text.extend([",error=\"", error, "\""]);
        }
        text
    }
}

#[cfg(test)]
pub(super) mod tests {
    use super::*;
    use crate::auth::rights::Demand;
    use jsonwebtoken::{encode, get_current_timestamp, EncodingKey, Header};
    use ring::signature::{EcdsaKeyPair, KeyPair};
    use serde_json::json;

    /// A public key by `openssl genpkey -algorithm ed25519` and `openssl pkey -pubout`.
    const OTHER: &str = "-----BEGIN PUBLIC KEY-----\n\
        MCowBQYDK2VwAyEAUeNier00GTgywUbfETQwjQZUw6kPdgOrkQk5nxX+RdQ=\n\
        -----END PUBLIC KEY-----\n";

    /// A new key on P-256: the private one in DER, and the public one in PEM.
    pub(crate) struct Pair {
        private: Vec<u8>,
        pub(crate) public: String,
    }

    impl Pair {
        pub(crate) fn new() -> Pair {
            let algorithm = &ring::signature::ECDSA_P256_SHA256_FIXED_SIGNING;
            let private = EcdsaKeyPair::generate_pkcs8(algorithm, &ring::rand::SystemRandom::new()).unwrap().as_ref().to_vec();
            let pair = EcdsaKeyPair::from_pkcs8(algorithm, &private).unwrap();
            let contents = [&P256, pair.public_key().as_ref()].concat();
            Pair { private, public: pem::encode(&pem::Pem { tag: "PUBLIC KEY".to_string(), contents }) }
        }

        pub(crate) fn key(&self) -> EncodingKey {
            EncodingKey::from_ec_der(&self.private)
        }

        /// Returns the coordinates of the public key.
        pub(crate) fn point(&self) -> (Vec<u8>, Vec<u8>) {
            let der = pem::parse(&self.public).unwrap().contents;
            let (x, y) = der[P256.len() + 1..].split_at(32);
            (x.to_vec(), y.to_vec())
        }

        /// Returns a token with these claims instead of others.
        fn token(&self, others: Value) -> String {
            encode(&Header::new(Algorithm::ES256), &claims(others), &self.key()).unwrap()
        }
    }

    fn issuer(keys: &str) -> Issuer {
        let keys: Vec<pem::Pem> = pem::parse_many(keys).unwrap();
        let keys = FromFile::new(move || keys.iter().map(Key::of).collect()).unwrap();
        Issuer { realm: "https://login/token".into(), service: "registry".into(), name: "login".into(), keys }
    }

    fn now() -> u64 {
        get_current_timestamp()
    }

    /// Returns good claims with other values for some. A value `null` removes the claim.
    fn claims(others: Value) -> Value {
        let access = json!([{ "type": "repository", "name": "acme/app", "actions": ["pull", "push"] }]);
        let mut claims =
            json!({ "iss": "login", "aud": "registry", "sub": "jo", "exp": now() + 100, "nbf": now(), "access": access });
        for (name, value) in others.as_object().unwrap() {
            claims[name] = value.clone();
        }
        claims.as_object_mut().unwrap().retain(|_, value| !value.is_null());
        claims
    }

    #[test]
    fn a_token_lists_actions() {
        let pair = Pair::new();
        let token = issuer(&pair.public).verify(&pair.token(json!({}))).unwrap();
        assert_eq!(token.user(), Some("jo"));
        for (right, repo, expected) in [
            (Right::Read, "acme/app", true),
            (Right::Write, "acme/app", true),
            (Right::Delete, "acme/app", false),
            (Right::Read, "acme/app/web", false),
            (Right::Read, "acme", false),
        ] {
            assert_eq!(token.allows(right, repo), expected, "{right:?} {repo}");
        }
        let all = json!([{ "type": "repository", "name": "a", "actions": ["*"] }, { "type": "registry", "name": "b", "actions": ["*"] },
                         { "type": "repository", "name": "c", "actions": null }, { "type": "repository", "name": "d" }]);
        let token = issuer(&pair.public).verify(&pair.token(json!({ "access": all, "sub": "" }))).unwrap();
        assert!(token.allows(Right::Delete, "a") && token.user().is_none());
        assert!(!["b", "c", "d"].iter().any(|repo| token.allows(Right::Read, repo)));
    }

    #[test]
    fn claims_are_checked_with_a_leeway() {
        let pair = Pair::new();
        let issuer = issuer(&pair.public);
        for good in [
            json!({ "exp": now() - 30 }),
            json!({ "nbf": now() + 30 }),
            json!({ "nbf": null, "sub": null, "access": null }),
            json!({ "aud": ["other", "registry"] }),
            json!({ "access": [] }),
            json!({ "exp": now() as f64 + 0.5 }),
        ] {
            assert!(issuer.verify(&pair.token(good.clone())).is_some(), "{good}");
        }
        for bad in [
            json!({ "exp": now() - 90 }),
            json!({ "exp": null }),
            json!({ "exp": "9999999999" }),
            json!({ "exp": -1 }),
            json!({ "nbf": now() + 90 }),
            json!({ "nbf": "0" }),
            json!({ "nbf": [] }),
            json!({ "iss": "other" }),
            json!({ "iss": null }),
            json!({ "iss": 1 }),
            json!({ "aud": "other" }),
            json!({ "aud": null }),
            json!({ "aud": [] }),
            json!({ "aud": 1 }),
            json!({ "sub": 1 }),
            json!({ "access": "all" }),
            json!({ "access": [{}] }),
            json!({ "access": [{ "type": "repository", "name": "a", "actions": "pull" }] }),
        ] {
            assert!(issuer.verify(&pair.token(bad.clone())).is_none(), "{bad}");
        }
    }

    #[test]
    fn the_key_decides_the_algorithm() {
        let pair = Pair::new();
        let issuer = issuer(&pair.public);
        let der = pem::parse(&pair.public).unwrap().contents;
        for secret in [pair.public.as_bytes(), &der, &der[P256.len()..]] {
            let token = encode(&Header::new(Algorithm::HS256), &claims(json!({})), &EncodingKey::from_secret(secret)).unwrap();
            assert!(issuer.verify(&token).is_none());
        }
        let good = pair.token(json!({}));
        let (head, rest) = good.split_once('.').unwrap();
        for name in ["none", "None", "HS256", "ES384", "RS256", "EdDSA", ""] {
            let head = base64::encode_config(json!({ "typ": "JWT", "alg": name }).to_string(), base64::URL_SAFE_NO_PAD);
            assert!(issuer.verify(&format!("{head}.{rest}")).is_none(), "{name}");
            assert!(issuer.verify(&format!("{head}.{}.", rest.split('.').next().unwrap())).is_none(), "{name}");
        }
        assert!(issuer.verify(&format!("{head}.{rest}")).is_some());
    }

    #[test]
    fn one_of_several_keys_verifies() {
        let pair = Pair::new();
        let token = pair.token(json!({}));
        for (keys, expected) in [
            (OTHER.to_string(), false),
            (Pair::new().public, false),
            (format!("{OTHER}{}", pair.public), true),
            (format!("{}{}", Pair::new().public, pair.public), true),
        ] {
            assert_eq!(issuer(&keys).verify(&token).is_some(), expected, "{keys}");
        }
    }

    #[test]
    fn odd_texts_are_no_tokens() {
        let pair = Pair::new();
        let issuer = issuer(&pair.public);
        let good = pair.token(json!({}));
        let parts: Vec<&str> = good.split('.').collect();
        let long = pair.token(json!({ "sub": "x".repeat(MAX_TOKEN) }));
        let deep = base64::encode_config("[".repeat(9000), base64::URL_SAFE_NO_PAD);
        let (unsigned, other) = (format!("{}.{}.", parts[0], parts[1]), format!("{}.{}.{}", parts[0], parts[1], "A".repeat(86)));
        let texts = [
            "",
            ".",
            "..",
            "...",
            "a.b.c",
            "é.é.é",
            "\u{0}",
            &long,
            &deep,
            &format!("{deep}.{deep}.{deep}"),
            &unsigned,
            &other,
            &format!("{good}."),
            &format!(".{good}"),
            &format!("{good}A"),
            &good[..good.len() - 1],
            &good.replace('.', ". "),
        ];
        for text in texts {
            assert!(issuer.verify(text).is_none(), "{text}");
        }
        for at in 0..good.len() {
            let other = if &good[at..at + 1] == "x" { "y" } else { "x" };
            let changed = format!("{}{other}{}", &good[..at], &good[at + 1..]);
            assert!(issuer.verify(&changed).is_none(), "{at}");
        }
    }

    #[test]
    fn unknown_extensions_are_refused() {
        let pair = Pair::new();
        let critical = json!({ "typ": "JWT", "alg": "ES256", "crit": ["exp"], "exp": 1 }).to_string();
        let message = format!(
            "{}.{}",
            base64::encode_config(critical, base64::URL_SAFE_NO_PAD),
            base64::encode_config(claims(json!({})).to_string(), base64::URL_SAFE_NO_PAD)
        );
        let signature = jsonwebtoken::crypto::sign(message.as_bytes(), &pair.key(), Algorithm::ES256).unwrap();
        assert!(issuer(&pair.public).verify(&format!("{message}.{signature}")).is_none());
    }

    #[test]
    fn a_challenge_names_the_scope() {
        let issuer = issuer(OTHER);
        let base = "Bearer realm=\"https://login/token\",service=\"registry\"";
        assert_eq!(issuer.challenge(Scope::Nothing, None), base);
        assert_eq!(issuer.challenge(Scope::Catalog, None), format!("{base},scope=\"registry:catalog:*\""));
        for (right, actions) in [(Right::Read, "pull"), (Right::Write, "pull,push"), (Right::Delete, "delete")] {
            let demand = Demand { right, repo: "acme/app" };
            assert_eq!(
                issuer.challenge(Scope::Repository(demand), None),
                format!("{base},scope=\"repository:acme/app:{actions}\"")
            );
        }
        let odd = Demand { right: Right::Read, repo: "a\",error=\"b" };
        assert_eq!(issuer.challenge(Scope::Repository(odd), Some("invalid_token")), format!("{base},error=\"invalid_token\""));
    }

    #[test]
    fn other_keys_are_refused() {
        let of = |text: &str| Key::of(&pem::parse(text).unwrap());
        assert!(of(&Pair::new().public).is_ok() && of(OTHER).is_ok());
        for text in
            [OTHER.replace("PUBLIC", "PRIVATE"), OTHER.replace("MCow", "MCoa"), OTHER.replace("PUBLIC KEY", "CERTIFICATE")]
        {
            assert!(of(&text).is_err(), "{text}");
        }
    }
}
