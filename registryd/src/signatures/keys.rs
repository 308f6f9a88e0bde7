//! The public keys of those who sign images: ECDSA with SHA-256 on the curve P-256 (FIPS 186-4).
use crate::auth::public_keys::{check_label, read_blocks, P256};
use pem::Pem;
use ring::agreement::{self, agree_ephemeral, EphemeralPrivateKey, ECDH_P256};
use ring::error::Unspecified;
use ring::rand::SystemRandom;
use ring::signature::{UnparsedPublicKey, ECDSA_P256_SHA256_ASN1};
use std::path::Path;

/// A public key.
#[derive(Debug, PartialEq, Eq)]
pub(super) struct PublicKey {
    /// The point, uncompressed (SEC 1, 2.3.3).
    pub(super) point: Vec<u8>,
}

/// Returns whether bytes are an uncompressed point of the curve. The library checks a point when it is used, so this uses it once.
fn is_point(point: &[u8]) -> bool {
    let peer = agreement::UnparsedPublicKey::new(&ECDH_P256, point);
    let own = EphemeralPrivateKey::generate(&ECDH_P256, &SystemRandom::new());
    own.and_then(|own| agree_ephemeral(own, &peer, Unspecified, |_| Ok(()))).is_ok()
}

impl PublicKey {
    /// Returns the key of a block of PEM.
    ///
    /// # Errors
    ///
    /// - The block is not labelled as a public key.
    /// - It is no key on the curve P-256 with an uncompressed point.
    fn of(block: &Pem) -> Result<PublicKey, String> {
        check_label(block)?;
        match block.contents.strip_prefix(&P256).filter(|point| is_point(point)) {
            Some(point) => Ok(PublicKey { point: point.to_vec() }),
            None => Err("a key is not ECDSA on the curve P-256".to_string()),
        }
    }

    /// Reads the public keys of a PEM file.
    ///
    /// # Errors
    ///
    /// - The file cannot be read, or has no PEM.
    /// - A block is no public key, or a key is not of ECDSA on the curve P-256.
    pub(super) fn read(path: &Path) -> Result<Vec<PublicKey>, String> {
        let keys = read_blocks(path).and_then(|blocks| blocks.iter().map(PublicKey::of).collect());
        keys.map_err(|why| format!("cannot read a public key: {}: {why}", path.display()))
    }

    /// Returns whether a signature in ASN.1 (RFC 3279, 2.2.3) is one of a message by this key.
    pub(super) fn verifies(&self, message: &[u8], signature: &[u8]) -> bool {
        UnparsedPublicKey::new(&ECDSA_P256_SHA256_ASN1, &self.point).verify(message, signature).is_ok()
    }
}

#[cfg(test)]
pub(super) mod tests {
    use super::*;
    use ring::signature::{EcdsaKeyPair, KeyPair, ECDSA_P256_SHA256_ASN1_SIGNING};

    /// A public key, `hello` signed by its private key, and a public key on P-384: by `openssl ecparam -name prime256v1 -genkey`,
    /// `openssl ec -pubout` and `openssl dgst -sha256 -sign`.
    pub(in crate::signatures) const KEY: &str = "-----BEGIN PUBLIC KEY-----\n\
        MFkwEwYHKoZIzj0CAQYIKoZIzj0DAQcDQgAEdNqdISg1yFLZc8ISCX4U6sK0ewbk\n\
        Mu0w+yeJmvDKaaTtBsYYKScBbzrQEvuV/twhYdgwHooL9RZhVaN6ahhaiQ==\n\
        -----END PUBLIC KEY-----\n";
    const SIGNATURE: &str = "MEQCIF01O/zLrRa7Flg0zq/s6r5MuH7ULCBHVbdwQJRcwwtFAiAGi3FjVzpXySKiEztNJV8/7grZIoZ723NZ/LMkcqBzyw==";
    const P384: &str = "-----BEGIN PUBLIC KEY-----\n\
        MHYwEAYHKoZIzj0CAQYFK4EEACIDYgAEui9vkDJ7GzjpKzUlCMoVaYgsWQm4vJHz\n\
        nJVxLKdvCuCR+JMZs5fKKTBgcrJNhYyKl5FCK2aCoGncYDp4/nGIyTSpbqnZCeqH\n\
        5ny6vthXLEn9wYD7306TKFrV2s4TWTbq\n\
        -----END PUBLIC KEY-----\n";

    /// A pair of keys that signs.
    pub(in crate::signatures) struct Signer(EcdsaKeyPair);

    impl Signer {
        pub(in crate::signatures) fn new() -> Signer {
            let private = EcdsaKeyPair::generate_pkcs8(&ECDSA_P256_SHA256_ASN1_SIGNING, &SystemRandom::new()).unwrap();
            Signer(EcdsaKeyPair::from_pkcs8(&ECDSA_P256_SHA256_ASN1_SIGNING, private.as_ref()).unwrap())
        }

        pub(in crate::signatures) fn key(&self) -> PublicKey {
            PublicKey { point: self.0.public_key().as_ref().to_vec() }
        }

        pub(in crate::signatures) fn sign(&self, message: &[u8]) -> Vec<u8> {
            self.0.sign(&SystemRandom::new(), message).unwrap().as_ref().to_vec()
        }
    }

    fn block(tag: &str, contents: Vec<u8>) -> Pem {
        Pem { tag: tag.to_string(), contents }
    }

    fn key_of(text: &str) -> Result<PublicKey, String> {
        PublicKey::of(&pem::parse(text).unwrap())
    }

    #[test]
    fn a_signature_of_openssl_verifies() {
        let (key, signature) = (key_of(KEY).unwrap(), base64::decode(SIGNATURE).unwrap());
        assert!(key.verifies(b"hello", &signature));
        assert!(!key.verifies(b"hello\n", &signature) && !Signer::new().key().verifies(b"hello", &signature));
        for at in 0..signature.len() {
            let mut changed = signature.clone();
            changed[at] ^= 1;
            assert!(!key.verifies(b"hello", &changed) && !key.verifies(b"hello", &signature[..at]), "{at}");
        }
        assert!(!key.verifies(b"hello", &[&signature[..], b"\0"].concat()));
    }

    #[test]
    fn other_keys_are_refused() {
        let der = pem::parse(KEY).unwrap().contents;
        let last = der.len() - 1;
        let changed = |at: usize, byte: u8| [&der[..at], &[byte], &der[at + 1..]].concat();
        for contents in [
            Vec::new(),
            der[..last].to_vec(),
            [&der[..], b"\0"].concat(),
            // A point off the curve, a compressed point, the point at infinity, and another algorithm.
            changed(last, !der[last]),
            [&der[..P256.len()], b"\x02", &der[P256.len() + 1..P256.len() + 33]].concat(),
            [&der[..P256.len()], b"\0"].concat(),
            changed(8, 0),
        ] {
            let why = PublicKey::of(&block("PUBLIC KEY", contents.clone())).unwrap_err();
            assert_eq!(why, "a key is not ECDSA on the curve P-256", "{contents:?}");
        }
        assert_eq!(key_of(P384).unwrap_err(), "a key is not ECDSA on the curve P-256");
        assert_eq!(PublicKey::of(&block("EC PRIVATE KEY", der)).unwrap_err(), "a block is not PUBLIC KEY: EC PRIVATE KEY");
    }
}
