//! Digests and hashes.

use sha2::{Digest as _, Sha256, Sha512};
use std::fmt;

/// A digest. In the order of the texts, SHA-256 comes before SHA-512.
#[derive(Clone, Copy, PartialEq, Eq, PartialOrd, Ord, Hash)]
pub enum Digest {
    Sha256([u8; 32]),
    Sha512([u8; 64]),
}

/// Decodes lower-case hexadecimal digits.
fn bytes<const N: usize>(text: &str) -> Option<[u8; N]> {
    if text.bytes().any(|c| c.is_ascii_uppercase()) {
        return None;
    }
    let mut value = [0; N];
    hex::decode_to_slice(text, &mut value).ok()?;
    Some(value)
}

impl Digest {
    pub fn parse(text: &str) -> Option<Digest> {
        if let Some(text) = text.strip_prefix("sha256:") {
            return bytes(text).map(Digest::Sha256);
        }
        bytes(text.strip_prefix("sha512:")?).map(Digest::Sha512)
    }

    pub fn of(bytes: &[u8]) -> Digest {
        Digest::Sha256(Sha256::digest(bytes).into())
    }
}

impl fmt::Display for Digest {
    fn fmt(&self, f: &mut fmt::Formatter<'_>) -> fmt::Result {
        match self {
            Digest::Sha256(value) => write!(f, "sha256:{}", hex::encode(value)),
            Digest::Sha512(value) => write!(f, "sha512:{}", hex::encode(value)),
        }
    }
}

/// The algorithms that hash a chunk when it arrives.
#[derive(Clone, Copy, PartialEq)]
pub enum Hashing {
    /// Both, so that a close by either algorithm hashes only its last chunk.
    Both,
    /// Only SHA-256. SHA-512 is computed if a close uses it.
    Late,
}

/// The hash of a session's bytes: SHA-256 of all, and SHA-512 of all or of those that a close has hashed.
#[derive(Clone, Default)]
pub struct Hashes {
    sha256: Sha256,
    sha512: Sha512,
    through_sha512: usize,
}

impl Hashes {
    pub fn update(&mut self, bytes: &[u8], hashing: Hashing) {
        self.sha256.update(bytes);
        if hashing == Hashing::Both {
            self.sha512.update(bytes);
            self.through_sha512 += bytes.len();
        }
    }

    /// Returns the digest of the session's bytes and a last chunk, by the algorithm of `wanted`.
    pub fn digest(&mut self, session: &[u8], last: &[u8], wanted: &Digest, hashing: Hashing) -> Digest {
        if hashing == Hashing::Both {
            let mut whole = self.clone();
            whole.update(last, hashing);
            return match wanted {
                Digest::Sha256(_) => Digest::Sha256(whole.sha256.finalize().into()),
                Digest::Sha512(_) => Digest::Sha512(whole.sha512.finalize().into()),
            };
        }
        match wanted {
            Digest::Sha256(_) => Digest::Sha256(self.sha256.clone().chain_update(last).finalize().into()),
            Digest::Sha512(_) => {
                self.sha512.update(&session[self.through_sha512..]);
                self.through_sha512 = session.len();
                Digest::Sha512(self.sha512.clone().chain_update(last).finalize().into())
            }
        }
    }
}
