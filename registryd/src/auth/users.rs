//! The file of users, the hashes of their passwords, and the passwords that were accepted.
use crate::auth::password_queue::{PasswordQueue, Sender};
use crate::auth::reserved::check_unreserved;
use crate::auth::same::is_same;
use crate::http::fault::Fault;
use crate::operation::locks::guard_of;
use crate::operation::reload::read_text;
use sha2::{Digest, Sha256};
use std::collections::{HashMap, HashSet};
use std::ffi::{CStr, CString};
use std::io;
use std::net::IpAddr;
use std::path::Path;
use std::sync::{Arc, Mutex, MutexGuard};

/// A hash that no password has. It is compared if the file has no usable hash.
const NO_HASH: &str = "$2y$05$nqFXJkfECeUKpyE2Lb3PCOSiG.rBTWlZboZ5DnVm.UMOo.e76iQgC";

/// The length of the work area of `crypt_rn`, in bytes. Its `struct crypt_data` needs 32,768.
const CRYPT_LEN: usize = 65_536;

#[link(name = "crypt")]
extern "C" {
    fn crypt_rn(
        phrase: *const libc::c_char,
        setting: *const libc::c_char,
        data: *mut libc::c_void,
        size: libc::c_int,
    ) -> *mut libc::c_char;
}

/// The users of a file with the hashes of their passwords.
pub(crate) struct Users {
    hashes: HashMap<String, String>,
    /// The hashes that a password can have. The password of an unknown user is compared with one of them.
    usable: Vec<String>,
    logins: Arc<Logins>,
}

/// A cache of the passwords that were accepted, and the queue of the others. Both stay when the file of users is read again.
pub(crate) struct Logins {
    /// For each user, the password that was accepted last. Each request carries a password, and the system's hashes are slow
    /// on purpose.
    accepted: Mutex<HashMap<String, Accepted>>,
    salt: [u8; 16],
    checks: Arc<PasswordQueue>,
}

/// A password that was accepted: the hash of the file, and a salted hash of the password.
#[derive(PartialEq, Eq)]
struct Accepted {
    hash: String,
    salted: [u8; 32],
}

impl Logins {
    /// Makes an empty cache and an empty queue. Half of the processors check passwords at once.
    pub(crate) fn new() -> Arc<Logins> {
        let processors = std::thread::available_parallelism().map_or(1, usize::from);
        let (salt, checks) = (*uuid::Uuid::new_v4().as_bytes(), PasswordQueue::new((processors / 2).max(1)));
        Arc::new(Logins { accepted: Mutex::default(), salt, checks })
    }

    fn accepted(&self) -> MutexGuard<'_, HashMap<String, Accepted>> {
        guard_of(self.accepted.lock())
    }

    fn salted(&self, text: &str) -> [u8; 32] {
        Sha256::new().chain_update(self.salt).chain_update(text).finalize().into()
    }
}

/// Returns the prefix of a hash's format if the system's `crypt` supports it (crypt(5)). The length of the text after the
/// last `$` has to match the format.
fn format_of(hash: &str) -> Option<&'static str> {
    const FORMATS: [(&str, usize); 9] =
        [("$2a$", 53), ("$2b$", 53), ("$2y$", 53), ("$1$", 22), ("$5$", 43), ("$6$", 86), ("$y$", 43), ("$gy$", 43), ("$7$", 43)];
    let last = hash.rsplit('$').next()?;
    let is_of = |&&(start, len): &&(&str, usize)| hash.starts_with(start) && last.len() == len;
    FORMATS.iter().find(is_of).map(|(start, _)| *start)
}

/// Returns whether a hash matches no password (shadow(5)).
fn is_locked(hash: &str) -> bool {
    hash.starts_with(&['!', '*'][..])
}

/// Parses a line `USER:HASH` whose hash this program can check. `tried` has the formats that the system is known to support.
fn parse_line<'l>(line: &'l str, tried: &mut HashSet<&'static str>) -> Result<(&'l str, &'l str), &'static str> {
    let (user, hash) = match line.split_once(':') {
        Some((user, hash)) if !user.is_empty() => (user, hash),
        _ => return Err("not USER:HASH"),
    };
    check_unreserved(user)?;
    if is_locked(hash) {
        return Ok((user, hash));
    }
    let format = format_of(hash).ok_or("unsupported format of the hash: make one by `htpasswd -nB`")?;
    if tried.insert(format) && crypt_hash("", hash).is_none() {
        return Err("crypt(3) fails for the hash: make one by `htpasswd -nB`");
    }
    Ok((user, hash))
}

impl Users {
    /// Reads the lines `USER:HASH` of a file that `htpasswd` wrote. A password that was accepted stays so as long as the line of
    /// its user is the same.
    ///
    /// # Errors
    ///
    /// - The file cannot be read.
    /// - A line is not `USER:HASH`, or its hash cannot be checked. The message has the number of the first such line.
    pub(crate) fn read(path: &Path, logins: &Arc<Logins>) -> io::Result<Users> {
        let text = read_text(path)?;
        let (mut hashes, mut tried) = (HashMap::new(), HashSet::new());
        for (at, line) in text.lines().map(str::trim).enumerate() {
            if line.is_empty() || line.starts_with('#') {
                continue;
            }
            let (user, hash) = parse_line(line, &mut tried)
                .map_err(|why| io::Error::new(io::ErrorKind::InvalidData, format!("line {}: {why}", at + 1)))?;
            hashes.insert(user.to_string(), hash.to_string());
        }
        Ok(Users::of(hashes, logins.clone()))
    }

    fn of(hashes: HashMap<String, String>, logins: Arc<Logins>) -> Users {
        let mut usable: Vec<String> = hashes.values().filter(|hash| !is_locked(hash)).cloned().collect();
        usable.sort();
        logins.accepted().retain(|user, accepted| hashes.get(user) == Some(&accepted.hash));
        Users { hashes, usable, logins }
    }

    /// Returns whether a user is in the file.
    pub(crate) fn has(&self, user: &str) -> bool {
        self.hashes.contains_key(user)
    }

    /// Returns the hash of a user's password.
    pub(super) fn hash_of(&self, user: &str) -> Option<&String> {
        self.hashes.get(user)
    }

    /// Returns whether a password is the one that was accepted last for the user, by the hash that the user has now.
    fn is_cached(&self, user: &str, password: &str) -> bool {
        let salted = self.logins.salted(password);
        let is_of = |accepted: &Accepted| is_same(&accepted.salted, &salted) && self.hashes.get(user) == Some(&accepted.hash);
        self.logins.accepted().get(user).map_or(false, is_of)
    }

    /// Returns a hash to compare for a user that the file does not accept. The comparison takes as long as one with a hash
    /// of the file, and a name always has the same hash. So the time of a reply does not show which users exist.
    fn decoy(&self, user: &str) -> &str {
        let name = self.logins.salted(user);
        let at = u32::from_le_bytes([name[0], name[1], name[2], name[3]]) as usize;
        self.usable.get(at % self.usable.len().max(1)).map_or(NO_HASH, String::as_str)
    }

    /// Returns whether a password is the user's.
    fn check_password(&self, user: &str, password: &str) -> bool {
        let known = self.hashes.get(user).filter(|hash| !is_locked(hash));
        let is_match = matches_hash(password, known.map_or_else(|| self.decoy(user), String::as_str));
        match known.filter(|_| is_match) {
            Some(hash) => {
                let accepted = Accepted { hash: hash.clone(), salted: self.logins.salted(password) };
                self.logins.accepted().insert(user.to_string(), accepted);
                true
            }
            None => false,
        }
    }

    /// Returns whether a password is the user's. The cache is asked first because a hash is slow on purpose.
    pub(super) async fn accept(self: &Arc<Self>, user: &str, password: &str, client: Option<IpAddr>) -> Result<bool, Fault> {
        Ok(self.is_cached(user, password) || self.compare(user, password.to_string(), client).await?)
    }

    /// Checks a password in a blocking thread when it is its turn. Other requests are served meanwhile.
    async fn compare(self: &Arc<Self>, user: &str, password: String, client: Option<IpAddr>) -> Result<bool, Fault> {
        let too_many = || Fault::unavailable("too many requests wait for a password check");
        let sender = Sender::new(client, Some(user).filter(|user| self.has(user)));
        let permit = self.logins.checks.begin(sender).await.ok_or_else(too_many)?;
        let (users, name) = (self.clone(), user.to_string());
        let compared = tokio::task::spawn_blocking(move || {
            let is_right = users.is_cached(&name, &password) || users.check_password(&name, &password);
            drop(permit);
            is_right
        });
        Ok(compared.await.unwrap_or(false))
    }
}

/// Returns whether a password has a hash.
fn matches_hash(password: &str, hash: &str) -> bool {
    crypt_hash(password, hash).map_or(false, |found| is_same(&found, hash.as_bytes()))
}

/// Hashes a password with the format and salt of `hash`, by the system's `crypt`. Returns `None` if `crypt` fails.
fn crypt_hash(password: &str, hash: &str) -> Option<Vec<u8>> {
    let (phrase, setting) = (CString::new(password).ok()?, CString::new(hash).ok()?);
    let mut data = vec![0u64; CRYPT_LEN / 8];
    // SAFETY: both texts end with a zero byte, and `data` has `CRYPT_LEN` zero bytes.
    let found = unsafe { crypt_rn(phrase.as_ptr(), setting.as_ptr(), data.as_mut_ptr().cast(), CRYPT_LEN as libc::c_int) };
    if found.is_null() {
        return None;
    }
    // SAFETY: a pointer that is not null points to a text in `data` that ends with a zero byte.
    let found = unsafe { CStr::from_ptr(found) };
    Some(found.to_bytes().to_vec())
}

#[cfg(test)]
mod tests {
    use super::*;

    /// Hashes by `htpasswd -nbB` and `openssl passwd -6 -salt saltsalt` of the password `secret`.
    const BCRYPT: &str = "$2y$05$WPSbK2DIsoFcNmh8.ZRjyenCTz99CZnzjMErrXyIjCuKJLFJA1d1S";

    const SHA512: &str = "$6$saltsalt$TVLlQcbpFVof5W3Yz4DTP6gRstiNuHwwTt6GLc1E5n0U0aDehy0S5knV8wiOQSpT0Y77vwPZN.Pq.H91p5hVO1";

    #[test]
    fn passwords_match_their_hashes_alone() {
        for hash in [BCRYPT, SHA512] {
            assert!(matches_hash("secret", hash));
            assert!(!matches_hash("Secret", hash));
            assert!(!matches_hash("secret\0", hash));
        }
        assert!(!matches_hash("", ""));
        assert!(!matches_hash("", NO_HASH));
    }

    #[test]
    fn a_right_password_is_known_again_and_another_is_not() {
        let logins = Logins::new();
        let users = Users::of([("acme".to_string(), BCRYPT.to_string())].into(), logins.clone());
        assert!(!users.is_cached("acme", "secret"));
        assert!(users.check_password("acme", "secret"));
        assert_eq!(logins.accepted().len(), 1);
        assert!(users.is_cached("acme", "secret"));
        assert!(!users.is_cached("acme", "other"));
        assert!(!users.check_password("acme", "other"));
        assert!(!users.check_password("nobody", "secret"));
        // The password is known as long as the line of the user is the same.
        let read_again = |hashes: &[(&str, &str)]| {
            let hashes = hashes.iter().map(|(user, hash)| (user.to_string(), hash.to_string())).collect();
            Users::of(hashes, logins.clone())
        };
        assert!(read_again(&[("acme", BCRYPT), ("other", SHA512)]).is_cached("acme", "secret"));
        let changed = read_again(&[("acme", SHA512)]);
        assert!(!changed.is_cached("acme", "secret"));
        // A check by the file of before may end after the file is read again.
        assert!(users.check_password("acme", "secret") && !changed.is_cached("acme", "secret"));
        assert!(!read_again(&[("other", SHA512)]).is_cached("acme", "secret"));
    }

    #[test]
    fn hashes_that_no_password_can_have_are_refused() {
        let formats = [("acme", BCRYPT), ("other", SHA512), ("locked", "!"), ("locked", "*0")];
        for (user, hash) in formats {
            assert_eq!(parse_line(&format!("{user}:{hash}"), &mut HashSet::new()), Ok((user, hash)));
        }
        let apr1 = "acme:$apr1$Zk7Yq2xT$DZ7UqqZQZkSc1.xlOGv7u.";
        let short = &format!("acme:{}", &BCRYPT[..40]);
        for line in [
            apr1,
            short,
            "acme:{SHA}qUqP5cyxm6YcTAhz05Hph5gvu9M=",
            "acme:secret",
            "acme",
            ":x",
            "acme:",
            "robot+ci:!",
            "oidc+ci:!",
        ] {
            assert!(parse_line(line, &mut HashSet::new()).is_err(), "{line}");
        }
    }

    #[test]
    fn an_unknown_user_is_compared_with_a_hash_of_the_file() {
        let hashes = [("acme".to_string(), SHA512.to_string()), ("locked".to_string(), "!".to_string())];
        let users = Users::of(hashes.into(), Logins::new());
        assert_eq!(users.decoy("nobody"), SHA512);
        assert!(!users.check_password("nobody", "secret") && !users.check_password("locked", "secret"));
        assert_eq!(Users::of(HashMap::new(), Logins::new()).decoy("nobody"), NO_HASH);
    }
}
