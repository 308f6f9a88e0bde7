//! The sessions of those who logged in on a page. They are in memory, so they end with the program.
use crate::auth::held_login::HeldLogin;
use crate::auth::same::is_same;
use crate::metadata::upload_names::Secret;
use crate::operation::locks::guard_of;
use sha2::{Digest, Sha256};
use std::collections::HashMap;
use std::io;
use std::sync::{Arc, Mutex, MutexGuard};
use std::time::{Duration, Instant};

/// The maximum numbers of sessions, and of those of one user.
const MOST: usize = 4096;
const MOST_OF_USER: usize = 16;

/// The time after which a session ends without a request, and in any case.
pub(super) const IDLE: Duration = Duration::from_secs(3600);
pub(super) const LONGEST: Duration = Duration::from_secs(12 * 3600);

/// The hash of a cookie. A look-up by it takes a time that says nothing of other cookies.
type Key = [u8; 32];

/// Who is logged in.
#[derive(Debug)]
pub(super) struct Session {
    pub(super) login: HeldLogin,
    /// The text that each form of the session sends back.
    token: String,
}

/// A session with its times.
struct Entry {
    session: Arc<Session>,
    begun: Instant,
    used: Instant,
}

/// The sessions of a registry.
pub(crate) struct Sessions {
    by_key: Mutex<HashMap<Key, Entry>>,
    /// The text that forms send back in a registry that everybody may use, where there are no sessions.
    token: String,
}

/// Returns a text of 256 random bits.
fn random_text() -> io::Result<String> {
    Ok(Secret::random()?.0.iter().map(|byte| format!("{byte:02x}")).collect())
}

fn key_of(cookie: &str) -> Key {
    Sha256::digest(cookie).into()
}

impl Entry {
    fn is_over(&self, now: Instant) -> bool {
        now.saturating_duration_since(self.used) >= IDLE || now.saturating_duration_since(self.begun) >= LONGEST
    }
}

/// Removes the session that was not used for the longest time, among those of a user if one is given.
fn remove_oldest(by_key: &mut HashMap<Key, Entry>, user: Option<&str>) {
    let of_user = by_key.iter().filter(|(_, entry)| user.map_or(true, |user| entry.session.login.name() == user));
    if let Some(key) = of_user.min_by_key(|(_, entry)| entry.used).map(|(key, _)| *key) {
        by_key.remove(&key);
    }
}

impl Sessions {
    pub(crate) fn new() -> io::Result<Sessions> {
        Ok(Sessions { by_key: Mutex::default(), token: random_text()? })
    }

    fn table(&self) -> MutexGuard<'_, HashMap<Key, Entry>> {
        guard_of(self.by_key.lock())
    }

    /// Begins a session, and returns its cookie. If there are too many, the one ends that was not used for the longest time.
    pub(super) fn begin(&self, login: HeldLogin, now: Instant) -> io::Result<String> {
        let (cookie, token) = (random_text()?, random_text()?);
        let mut by_key = self.table();
        by_key.retain(|_, entry| !entry.is_over(now));
        if by_key.values().filter(|entry| entry.session.login.name() == login.name()).count() >= MOST_OF_USER {
            remove_oldest(&mut by_key, Some(login.name()));
        }
        if by_key.len() >= MOST {
            remove_oldest(&mut by_key, None);
        }
        by_key.insert(key_of(&cookie), Entry { session: Arc::new(Session { login, token }), begun: now, used: now });
        Ok(cookie)
    }

    /// Returns the session of a cookie, and notes its use.
    pub(super) fn find(&self, cookie: &str, now: Instant) -> Option<Arc<Session>> {
        let mut by_key = self.table();
        let entry = by_key.get_mut(&key_of(cookie)).filter(|entry| !entry.is_over(now))?;
        entry.used = now;
        Some(entry.session.clone())
    }

    /// Ends the session of a cookie.
    pub(super) fn end(&self, cookie: &str) {
        self.table().remove(&key_of(cookie));
    }

    /// Returns the text that a form has to send back.
    pub(super) fn token<'t>(&'t self, session: Option<&'t Session>) -> &'t str {
        session.map_or(&self.token, |session| &session.token)
    }

    /// Returns whether a form sent back the text that it was given.
    pub(super) fn is_token(&self, session: Option<&Session>, sent: &str) -> bool {
        is_same(self.token(session).as_bytes(), sent.as_bytes())
    }
}

#[cfg(test)]
mod tests {
    use super::*;

    fn login(name: &str) -> HeldLogin {
        HeldLogin::User { name: name.to_string(), hash: String::new() }
    }

    #[test]
    fn a_session_ends_after_its_time() {
        let (sessions, begun) = (Sessions::new().unwrap(), Instant::now());
        let cookie = sessions.begin(login("acme"), begun).unwrap();
        let mut now = begun;
        while now < begun + LONGEST - IDLE / 2 {
            assert_eq!(sessions.find(&cookie, now).unwrap().login.name(), "acme");
            now += IDLE / 2;
        }
        assert!(sessions.find(&cookie, begun + LONGEST).is_none(), "it was used all the time");
        let idle = sessions.begin(login("acme"), begun).unwrap();
        assert!(sessions.find(&idle, begun + IDLE).is_none());
        assert!(sessions.find("", begun).is_none() && sessions.find(&"0".repeat(64), begun).is_none());
    }

    #[test]
    fn numbers_are_bounded() {
        let (sessions, now) = (Sessions::new().unwrap(), Instant::now());
        let first = sessions.begin(login("acme"), now).unwrap();
        let other = sessions.begin(login("other"), now).unwrap();
        for second in 1..=MOST_OF_USER as u64 {
            sessions.begin(login("acme"), now + Duration::from_secs(second)).unwrap();
        }
        assert!(sessions.find(&first, now).is_none() && sessions.find(&other, now + Duration::from_secs(1)).is_some());
        for number in 0..MOST {
            sessions.begin(login(&format!("user{number}")), now + Duration::from_secs(20)).unwrap();
        }
        assert_eq!(sessions.table().len(), MOST);
        let later = sessions.begin(login("acme"), now + IDLE + Duration::from_secs(20)).unwrap();
        assert_eq!(sessions.table().len(), 1);
        sessions.end(&later);
        assert!(sessions.table().is_empty());
    }

    #[test]
    fn a_form_sends_back_the_text_of_its_session() {
        let (sessions, now) = (Sessions::new().unwrap(), Instant::now());
        let [one, two] = ["acme", "acme"].map(|name| sessions.find(&sessions.begin(login(name), now).unwrap(), now).unwrap());
        assert!(sessions.is_token(Some(&one), &one.token) && sessions.is_token(None, &sessions.token));
        assert!(!sessions.is_token(Some(&one), &two.token) && !sessions.is_token(Some(&one), &sessions.token));
        assert!(!sessions.is_token(None, &one.token) && !sessions.is_token(Some(&one), "") && !sessions.is_token(None, ""));
    }
}
