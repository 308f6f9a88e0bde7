//! The public keys of an issuer, as its key set has them (RFC 7517), each with the algorithms that it verifies.
use jsonwebtoken::{Algorithm, DecodingKey};
use serde::Deserialize;
use serde_json::Value;
use std::str::FromStr;

/// The maximum number of keys that are used. A set has few.
const MOST_KEYS: usize = 64;

/// The minimum length of the modulus of an RSA key, in bytes.
const RSA_2048: usize = 256;

/// The algorithms of RSA keys that do not name one (RFC 7518, 3.1).
const OF_RSA: [Algorithm; 6] =
    [Algorithm::RS256, Algorithm::RS384, Algorithm::RS512, Algorithm::PS256, Algorithm::PS384, Algorithm::PS512];

#[derive(Deserialize)]
struct Document {
    keys: Vec<Value>,
}

/// A key (RFC 7517, 4; RFC 7518, 6; RFC 8037, 2).
#[derive(Deserialize)]
struct Jwk {
    kty: String,
    kid: String,
    #[serde(rename = "use")]
    purpose: Option<String>,
    key_ops: Option<Vec<String>>,
    alg: Option<String>,
    crv: Option<String>,
    n: Option<String>,
    e: Option<String>,
    x: Option<String>,
    y: Option<String>,
}

/// A key, and the only algorithms that it verifies.
struct SetKey {
    kid: String,
    key: DecodingKey,
    algorithms: Vec<Algorithm>,
}

/// The keys of an issuer that this program can use.
pub(super) struct KeySet(Vec<SetKey>);

/// Decodes a number or a coordinate of a key.
fn decoded(text: &Option<String>) -> Option<Vec<u8>> {
    base64::decode_config(text.as_deref()?, base64::URL_SAFE_NO_PAD).ok()
}

impl Jwk {
    /// Returns whether the key is one that verifies signatures.
    fn verifies(&self) -> bool {
        let is_for_signatures = self.purpose.as_deref().map_or(true, |purpose| purpose == "sig");
        is_for_signatures && self.key_ops.as_ref().map_or(true, |listed| listed.iter().any(|word| word == "verify"))
    }

    /// Returns the key, and the algorithms that its type has. A secret (`oct`) is no public key.
    fn parts(&self) -> Option<(DecodingKey, Vec<Algorithm>)> {
        match (&*self.kty, self.crv.as_deref()) {
            ("RSA", _) => Some((self.rsa()?, OF_RSA.to_vec())),
            ("EC", Some("P-256")) => Some((self.on_curve(32)?, vec![Algorithm::ES256])),
            ("EC", Some("P-384")) => Some((self.on_curve(48)?, vec![Algorithm::ES384])),
            ("OKP", Some("Ed25519")) => {
                let point = decoded(&self.x).filter(|point| point.len() == 32)?;
                Some((DecodingKey::from_ed_der(&point), vec![Algorithm::EdDSA]))
            }
            _ => None,
        }
    }

    fn rsa(&self) -> Option<DecodingKey> {
        let (modulus, exponent) = (decoded(&self.n)?, decoded(&self.e)?);
        // Some issuers begin it with a zero.
        let first = modulus.iter().position(|byte| *byte != 0)?;
        (modulus.len() - first >= RSA_2048).then(|| DecodingKey::from_rsa_raw_components(&modulus[first..], &exponent))
    }

    fn on_curve(&self, len: usize) -> Option<DecodingKey> {
        let (x, y) = (decoded(&self.x)?, decoded(&self.y)?);
        let point = [&[4], &x[..], &y[..]].concat();
        (x.len() == len && y.len() == len).then(|| DecodingKey::from_ec_der(&point))
    }
}

impl SetKey {
    /// Returns the key of an element of a set, if this program can use it. A key that names an algorithm verifies no other.
    fn of(element: Value) -> Option<SetKey> {
        let jwk: Jwk = serde_json::from_value(element).ok()?;
        let (key, mut algorithms) = jwk.parts().filter(|_| jwk.verifies())?;
        if let Some(name) = &jwk.alg {
            let named = Algorithm::from_str(name).ok()?;
            algorithms.retain(|algorithm| *algorithm == named);
        }
        (!algorithms.is_empty()).then(|| SetKey { kid: jwk.kid, key, algorithms })
    }
}

impl KeySet {
    /// Parses a key set. Keys that this program cannot use are left out: those of other types, for encryption, or without a `kid`.
    ///
    /// # Errors
    ///
    /// - The text is no key set.
    /// - No key is left.
    pub(super) fn parse(text: &[u8]) -> Result<KeySet, String> {
        let Document { keys } = serde_json::from_slice(text).map_err(|_| "it is no JSON Web Key Set".to_string())?;
        let keys: Vec<SetKey> = keys.into_iter().filter_map(SetKey::of).take(MOST_KEYS).collect();
        match keys.is_empty() {
            true => Err("it has no key that is supported: RSA from 2,048 bits, P-256, P-384 or Ed25519, with a kid".to_string()),
            false => Ok(KeySet(keys)),
        }
    }

    /// Returns whether a key has this name.
    pub(super) fn has(&self, kid: &str) -> bool {
        self.0.iter().any(|key| key.kid == kid)
    }

    /// Returns the key with a name, if it verifies an algorithm.
    pub(super) fn find(&self, kid: &str, algorithm: Algorithm) -> Option<&DecodingKey> {
        self.0.iter().find(|key| key.kid == kid && key.algorithms.contains(&algorithm)).map(|key| &key.key)
    }
}

#[cfg(test)]
pub(super) mod tests {
    use super::*;
    use serde_json::json;

    /// Returns a set with an element. The keys are those of RFC 7517, appendix A.1, and RFC 8037, appendix A.2.
    pub(crate) fn element(kind: &str) -> Value {
        match kind {
            "EC" => json!({ "kty": "EC", "kid": "1", "crv": "P-256", "x": "MKBCTNIcKUSDii11ySs3526iDZ8AiTo7Tu6KPAqv7D4",
                            "y": "4Etl6SRW2YiLUrN5vfvVHuhp7x8PxltmWWlbbM4IFyM" }),
            "RSA" => json!({ "kty": "RSA", "kid": "1", "e": "AQAB",
                             "n": "0vx7agoebGcQSuuPiLJXZptN9nndrQmbXEps2aiAFbWhM78LhWx4cbbfAAtVT86zwu1RK7aPFFxuhDR1L6tSoc_BJECPebWKRXjBZCi\
                                   FV4n3oknjhMstn64tZ_2W-5JsGY4Hc5n9yBXArwl93lqt7_RN5w6Cf0h4QyQ5v-65YGjQR0_FDW2QvzqY368QQMicAtaSqzs8KJZgnYb9c\
                                   7d0zgdAZHzu6qMQvRL5hajrn1n91CbOpbISD08qNLyrdkt-bFTWhAI4vMQFh6WeZu0fM4lFd2NcRwr3XPksINHaQ-G_xBniIqbw0Ls1jF\
                                   44-csFCur-kEgU8awapJzKnqDKgw" }),
            _ => json!({ "kty": "OKP", "kid": "1", "crv": "Ed25519", "x": "11qYAYKxCrfVS_7TyWQHOg7hcvPapiMlrwIaaPcHURo" }),
        }
    }

    /// Returns an element with other members. One that is `null` is left out.
    fn with(kind: &str, others: Value) -> Value {
        let mut changed = element(kind);
        for (name, value) in others.as_object().unwrap() {
            changed[name] = value.clone();
        }
        changed.as_object_mut().unwrap().retain(|_, value| !value.is_null());
        changed
    }

    fn set(elements: &[Value]) -> Result<KeySet, String> {
        KeySet::parse(json!({ "keys": elements }).to_string().as_bytes())
    }

    /// Returns the algorithms that a key of the set verifies, of all that there are.
    fn algorithms(element: Value) -> Vec<Algorithm> {
        let all = [
            Algorithm::HS256,
            Algorithm::HS384,
            Algorithm::HS512,
            Algorithm::ES256,
            Algorithm::ES384,
            Algorithm::RS256,
            Algorithm::RS384,
            Algorithm::RS512,
            Algorithm::PS256,
            Algorithm::PS384,
            Algorithm::PS512,
            Algorithm::EdDSA,
        ];
        let set = set(&[element]).ok();
        all.into_iter().filter(|algorithm| set.as_ref().map_or(false, |set| set.find("1", *algorithm).is_some())).collect()
    }

    #[test]
    fn a_key_verifies_the_algorithms_of_its_type() {
        assert_eq!(algorithms(element("EC")), [Algorithm::ES256]);
        assert_eq!(algorithms(element("OKP")), [Algorithm::EdDSA]);
        assert_eq!(algorithms(element("RSA")), [&OF_RSA[..]].concat());
        assert_eq!(algorithms(with("RSA", json!({ "alg": "PS256", "use": "sig", "key_ops": ["verify"] }))), [Algorithm::PS256]);
        let zero = base64::encode_config(
            [&[0][..], &decoded(&element("RSA")["n"].as_str().map(str::to_string)).unwrap()].concat(),
            base64::URL_SAFE_NO_PAD,
        );
        assert_eq!(algorithms(with("RSA", json!({ "n": zero }))).len(), OF_RSA.len());
    }

    #[test]
    fn other_keys_are_left_out() {
        let secret = json!({ "kty": "oct", "kid": "1", "k": "c2VjcmV0", "alg": "HS256" });
        let short = element("RSA")["n"].as_str().unwrap()[..300].to_string();
        let others = [
            secret.clone(),
            json!({ "kty": "oct", "kid": "1", "k": "c2VjcmV0" }),
            with("RSA", json!({ "alg": "HS256" })),
            with("RSA", json!({ "alg": "ES256" })),
            with("RSA", json!({ "alg": "none" })),
            with("RSA", json!({ "alg": "RSA-OAEP", "use": "enc" })),
            with("RSA", json!({ "use": "enc" })),
            with("RSA", json!({ "key_ops": ["encrypt"] })),
            with("RSA", json!({ "kid": null })),
            with("RSA", json!({ "kid": 1 })),
            with("RSA", json!({ "n": short })),
            with("RSA", json!({ "n": null })),
            with("RSA", json!({ "n": "!" })),
            with("EC", json!({ "crv": "P-384" })),
            with("EC", json!({ "crv": "P-521" })),
            with("EC", json!({ "crv": "secp256k1" })),
            with("EC", json!({ "y": "AAAA" })),
            with("OKP", json!({ "crv": "X25519" })),
            with("OKP", json!({ "x": "AAAA" })),
            json!("key"),
            json!({}),
        ];
        for other in &others {
            assert!(algorithms(other.clone()).is_empty(), "{other}");
        }
        let mixed = set(&[&others[..], &[element("EC")]].concat()).unwrap();
        assert!(mixed.0.len() == 1 && mixed.find("1", Algorithm::ES256).is_some() && mixed.find("1", Algorithm::HS256).is_none());
        assert!(mixed.has("1") && !mixed.has("2") && !mixed.has(""));
        assert!(set(&[secret]).err().unwrap().starts_with("it has no key"));
        for text in ["", "[]", "{}", "{\"keys\":{}}", "<html>"] {
            assert!(KeySet::parse(text.as_bytes()).is_err(), "{text}");
        }
    }

    #[test]
    fn a_set_has_a_bound_and_keys_of_one_name() {
        let many: Vec<Value> = (0..MOST_KEYS + 1).map(|number| with("EC", json!({ "kid": number.to_string() }))).collect();
        assert_eq!(set(&many).unwrap().0.len(), MOST_KEYS);
        let two = set(&[element("EC"), element("RSA")]).unwrap();
        assert!(two.find("1", Algorithm::ES256).is_some() && two.find("1", Algorithm::RS256).is_some());
    }
}
