//! The names of uploads: the number of a session with a keyed hash, in the form of a UUID (RFC 9562, version 8).
//!
//! Session numbers count up, so a client could guess another's. A name can be made only with the secret. It is the same after
//! a restart with the same secret.
use hmac::{Hmac, Mac};
use sha2::Sha256;
use std::fs::File;
use std::io::{self, Read};
use uuid::Uuid;

/// The length of the secret, in bytes.
pub(crate) const SECRET_LEN: usize = 32;

/// The bits of a UUID that its version and its variant fix (RFC 9562, 4.1, 4.2), and their values.
const FIXED: (u128, u128) = (0xf << 76 | 3 << 62, 8 << 76 | 2 << 62);

/// The key of the hash in the names of uploads.
#[derive(Clone, Copy, PartialEq, Eq)]
pub(crate) struct Secret(pub(crate) [u8; SECRET_LEN]);

impl Secret {
    /// Makes a secret of random bytes.
    pub(crate) fn random() -> io::Result<Secret> {
        let mut bytes = [0; SECRET_LEN];
        File::open("/dev/urandom")?.read_exact(&mut bytes)?;
        Ok(Secret(bytes))
    }

    /// Returns the name of a session of a repository. Its first 32 bits are the number, and 90 of the others are a hash of the
    /// number and the repository.
    pub(super) fn name(&self, repo: &str, session: u32) -> Uuid {
        let mut hash = Hmac::<Sha256>::new_from_slice(&self.0).expect("a key of any length is valid");
        hash.update(&session.to_be_bytes());
        hash.update(repo.as_bytes());
        let mut bytes = [0; 16];
        bytes.copy_from_slice(&hash.finalize().into_bytes()[..16]);
        bytes[..4].copy_from_slice(&session.to_be_bytes());
        Uuid::from_u128(u128::from_be_bytes(bytes) & !FIXED.0 | FIXED.1)
    }

    /// Returns the session that a name names in a repository, if this secret made the name. The time does not depend on the
    /// bits that differ, because they are compared as one number.
    pub(super) fn session(&self, repo: &str, name: &Uuid) -> Option<u32> {
        let session = (name.as_u128() >> 96) as u32;
        let difference = self.name(repo, session).as_u128() ^ name.as_u128();
        (difference == 0).then_some(session)
    }
}

#[cfg(test)]
mod tests {
    use super::*;

    const SECRET: Secret = Secret([7; SECRET_LEN]);

    #[test]
    fn a_name_is_that_of_its_session_and_repository_alone() {
        let name = SECRET.name("acme/web", 42);
        assert_eq!(SECRET.session("acme/web", &name), Some(42));
        assert_eq!(SECRET.session("acme/api", &name), None);
        assert_eq!(Secret([8; SECRET_LEN]).session("acme/web", &name), None);
        assert_ne!(SECRET.name("acme/web", 43).as_u128() << 32, name.as_u128() << 32);
        for session in [0, 1, u32::MAX] {
            assert_eq!(SECRET.session("acme/web", &SECRET.name("acme/web", session)), Some(session));
        }
    }

    #[test]
    fn a_name_with_another_bit_is_none() {
        let name = SECRET.name("acme/web", 42);
        for bit in 0..128 {
            assert_eq!(SECRET.session("acme/web", &Uuid::from_u128(name.as_u128() ^ 1 << bit)), None, "{bit}");
        }
    }

    #[test]
    fn a_name_is_a_uuid_of_version_8() {
        let text = SECRET.name("acme/web", 42).to_string();
        assert!(text.starts_with("0000002a-"), "{text}");
        assert_eq!(&text[14..15], "8");
        assert!("89ab".contains(&text[19..20]), "{text}");
        assert_eq!(Uuid::parse_str(&text), Ok(SECRET.name("acme/web", 42)));
    }

    #[test]
    fn secrets_are_random() {
        assert!(Secret::random().unwrap() != Secret::random().unwrap());
    }
}
