//! Which contents lie in files, by the store's log: a content of the session `NUMBER` of a tenant in `contents/TENANT/NUMBER`
//! (docs/STORAGE.md, "The folder").
use crate::folder::files::content_path;
use crate::folder::records::{Kind, Record};
use crate::metadata::names::tenant_of;
use sha2::{Digest as _, Sha256, Sha512};
use std::collections::HashMap;
use std::fmt;

/// The digest of a content.
#[derive(Clone, Debug, PartialEq, Eq, Hash, PartialOrd, Ord)]
pub(super) enum ContentDigest {
    Sha256([u8; 32]),
    Sha512(Box<[u8; 64]>),
}

/// Returns the bytes in a text of hexadecimal digits.
fn bytes_of<const N: usize>(text: &str) -> Option<[u8; N]> {
    let mut bytes = [0; N];
    if text.len() != 2 * N || !text.is_ascii() {
        return None;
    }
    for (at, byte) in bytes.iter_mut().enumerate() {
        *byte = u8::from_str_radix(&text[2 * at..2 * at + 2], 16).ok()?;
    }
    Some(bytes)
}

impl ContentDigest {
    /// Returns the digest with a text, if it is one.
    fn of(text: &str) -> Option<ContentDigest> {
        match text.split_once(':')? {
            ("sha256", digits) => bytes_of(digits).map(ContentDigest::Sha256),
            ("sha512", digits) => bytes_of(digits).map(|bytes| ContentDigest::Sha512(Box::new(bytes))),
            _ => None,
        }
    }

    /// Returns a hash of no bytes by the algorithm of the digest.
    pub(super) fn hash(&self) -> ContentHash {
        match self {
            ContentDigest::Sha256(_) => ContentHash::Sha256(Sha256::new()),
            ContentDigest::Sha512(_) => ContentHash::Sha512(Box::new(Sha512::new())),
        }
    }
}

impl fmt::Display for ContentDigest {
    fn fmt(&self, text: &mut fmt::Formatter) -> fmt::Result {
        let (algorithm, bytes) = match self {
            ContentDigest::Sha256(bytes) => ("sha256", &bytes[..]),
            ContentDigest::Sha512(bytes) => ("sha512", &bytes[..]),
        };
        write!(text, "{algorithm}:")?;
        bytes.iter().try_for_each(|byte| write!(text, "{byte:02x}"))
    }
}

/// A hash of the bytes that were read of a content.
pub(super) enum ContentHash {
    Sha256(Sha256),
    Sha512(Box<Sha512>),
}

impl ContentHash {
    pub(super) fn add(&mut self, bytes: &[u8]) {
        match self {
            ContentHash::Sha256(hash) => hash.update(bytes),
            ContentHash::Sha512(hash) => hash.update(bytes),
        }
    }

    /// Returns the digest of the bytes.
    pub(super) fn digest(self) -> ContentDigest {
        match self {
            ContentHash::Sha256(hash) => ContentDigest::Sha256(hash.finalize().into()),
            ContentHash::Sha512(hash) => ContentDigest::Sha512(Box::new(hash.finalize().into())),
        }
    }
}

/// The numbers of names.
#[derive(Default)]
struct Names {
    numbers: HashMap<String, u32>,
    texts: Vec<String>,
}

impl Names {
    /// Returns the number of a name, which gets one if it has none.
    fn number_of(&mut self, name: &str) -> u32 {
        if let Some(number) = self.numbers.get(name) {
            return *number;
        }
        let number = self.texts.len() as u32;
        self.numbers.insert(name.to_string(), number);
        self.texts.push(name.to_string());
        number
    }
}

/// An upload that is open, by the number of its repository's name, and the number of bytes that it has received.
struct Session {
    repo: u32,
    len: u64,
}

/// The place of a content: the number of its tenant's name, the number of its session, and its length.
#[derive(Clone, Copy, Debug, PartialEq, Eq)]
pub(super) struct Place {
    tenant: u32,
    number: u64,
    pub(super) len: u64,
}

/// A content in a file, and the numbers of the names of the repositories that link it.
struct Stored {
    place: Place,
    repos: Vec<u32>,
}

/// The contents that lie in files after the changes of a log. It takes about 200 bytes for each.
#[derive(Default)]
pub(super) struct Inventory {
    tenants: Names,
    repos: Names,
    sessions: HashMap<(u32, u64), Session>,
    stored: HashMap<ContentDigest, Stored>,
}

impl Inventory {
    /// Notes the change of a record.
    pub(super) fn add(&mut self, record: &Record) {
        match record.kind {
            Kind::Opened => {
                let (repo, tenant) = (self.repos.number_of(&record.name), self.tenants.number_of(tenant_of(&record.name)));
                self.sessions.insert((tenant, record.number), Session { repo, len: 0 });
            }
            Kind::Received | Kind::ReceivedNoted => {
                let key = self.session_of(record);
                if let Some(session) = self.sessions.get_mut(&key) {
                    session.len = session.len.saturating_add(record.len);
                }
            }
            Kind::Sealed | Kind::SealedNoted | Kind::StoredNoted => self.seal(record),
            Kind::Abandoned => {
                let key = self.session_of(record);
                self.sessions.remove(&key);
            }
            Kind::Linked | Kind::Unlinked => self.link(record),
            Kind::Other => {}
        }
    }

    /// Returns the key of the session of a record that names its tenant.
    fn session_of(&mut self, record: &Record) -> (u32, u64) {
        (self.tenants.number_of(&record.name), record.number)
    }

    /// Notes that a content was stored. It replaces one with the same digest, whose links stay.
    fn seal(&mut self, record: &Record) {
        let (tenant, number) = self.session_of(record);
        let session = self.sessions.remove(&(tenant, number));
        let digest = match ContentDigest::of(&record.digest) {
            Some(digest) => digest,
            None => return,
        };
        if record.kind == Kind::Sealed {
            // It lies in the log.
            self.stored.remove(&digest);
            return;
        }
        if session.is_none() && record.kind == Kind::SealedNoted {
            return;
        }
        let received = session.as_ref().map_or(0, |session| session.len);
        let place = Place { tenant, number, len: received.saturating_add(record.len) };
        let stored = self.stored.entry(digest).or_insert_with(|| Stored { place, repos: Vec::with_capacity(1) });
        stored.place = place;
        if let Some(Session { repo, .. }) = session.filter(|session| !stored.repos.contains(&session.repo)) {
            stored.repos.push(repo);
        }
    }

    /// Notes that a content was linked or unlinked. Without a link it is no longer held.
    fn link(&mut self, record: &Record) {
        let digest = match ContentDigest::of(&record.digest) {
            Some(digest) => digest,
            None => return,
        };
        let repo = self.repos.number_of(&record.name);
        let stored = match self.stored.get_mut(&digest) {
            Some(stored) => stored,
            None => return,
        };
        stored.repos.retain(|other| *other != repo);
        match record.kind {
            Kind::Linked => stored.repos.push(repo),
            _ if stored.repos.is_empty() => drop(self.stored.remove(&digest)),
            _ => {}
        }
    }

    /// Returns the number of contents.
    pub(super) fn len(&self) -> usize {
        self.stored.len()
    }

    /// Returns the contents, each with its place.
    pub(super) fn contents(&self) -> impl Iterator<Item = (&ContentDigest, Place)> {
        self.stored.iter().map(|(digest, stored)| (digest, stored.place))
    }

    /// Returns the path of a place in the folder of `--data`.
    pub(super) fn path_of(&self, place: Place) -> String {
        content_path(&self.tenants.texts[place.tenant as usize], place.number)
    }

    /// Returns the length of a content whose file has this path, if that is still its place.
    pub(super) fn len_at(&self, digest: &ContentDigest, path: &str) -> Option<u64> {
        self.stored.get(digest).map(|stored| stored.place).filter(|place| self.path_of(*place) == path).map(|place| place.len)
    }

    /// Returns the names of the repositories that link a content, in order.
    pub(super) fn repositories(&self, digest: &ContentDigest) -> Vec<String> {
        let numbers = self.stored.get(digest).map_or(&[][..], |stored| &stored.repos);
        let mut names: Vec<String> = numbers.iter().map(|number| self.repos.texts[*number as usize].clone()).collect();
        names.sort_unstable();
        names
    }
}

#[cfg(test)]
mod tests {
    use super::*;

    /// The digests of `abc` by the examples of FIPS 180-4.
    const ABC: &str = "sha256:ba7816bf8f01cfea414140de5dae2223b00361a396177a9cb410ff61f20015ad";
    const ABC_512: &str = "sha512:ddaf35a193617abacc417349ae20413112e6fa4e89a97ea20a9eeee64b55d39a\
        2192992a274fc1a836ba3c23a3feebbd454d4423643ce80e2a9ac94fa54ca49f";

    fn record(kind: Kind, name: &str, digest: &str, number: u64, len: u64) -> Record {
        Record { kind, name: name.to_string(), digest: digest.to_string(), number, len }
    }

    fn inventory(records: &[Record]) -> Inventory {
        let mut inventory = Inventory::default();
        records.iter().for_each(|record| inventory.add(record));
        inventory
    }

    /// Returns the path, the length and the repositories of the only content.
    fn only(inventory: &Inventory) -> (String, u64, Vec<String>) {
        let (digest, place) = inventory.contents().next().unwrap();
        assert_eq!(inventory.len(), 1);
        (inventory.path_of(place), place.len, inventory.repositories(digest))
    }

    fn upload(number: u64) -> [Record; 4] {
        [
            record(Kind::Opened, "acme/web", "", number, 0),
            record(Kind::Received, "acme", "", number, 100),
            record(Kind::ReceivedNoted, "acme", "", number, 20_000),
            record(Kind::SealedNoted, "acme", ABC, number, 7),
        ]
    }

    #[test]
    fn digests_are_those_of_the_standard() {
        for text in [ABC, ABC_512] {
            let digest = ContentDigest::of(text).unwrap();
            let mut hash = digest.hash();
            hash.add(b"a");
            hash.add(b"bc");
            assert_eq!((digest.to_string().as_str(), hash.digest()), (text, digest));
        }
        for text in ["", "sha256:", "sha256:xy", "md5:00", &ABC[1..], &ABC[..70], "sha256:é9c0"] {
            assert_eq!(ContentDigest::of(text), None, "{text}");
        }
    }

    #[test]
    fn a_content_has_all_bytes_of_its_session() {
        assert_eq!(only(&inventory(&upload(7))), ("contents/acme/7".to_string(), 20_107, vec!["acme/web".to_string()]));
        // Of an open session, of one that was abandoned, and of a content in the log there is no file.
        assert_eq!(inventory(&upload(7)[..3]).len(), 0);
        assert_eq!(
            inventory(&[&upload(7)[..3], &[record(Kind::Abandoned, "acme", "", 7, 0)], &upload(7)[3..]].concat()).len(),
            0
        );
        let small = [record(Kind::Opened, "acme/web", "", 1, 0), record(Kind::Sealed, "acme", ABC, 1, 3)];
        assert_eq!(inventory(&small).len(), 0);
    }

    #[test]
    fn the_last_seal_of_a_digest_has_its_file() {
        let other = [
            record(Kind::Opened, "other/app", "", 7, 0),
            record(Kind::SealedNoted, "other", ABC, 7, 20_107),
            record(Kind::Unlinked, "acme/web", ABC, 0, 0),
        ];
        let all = [&upload(7)[..], &other].concat();
        let both = vec!["acme/web".to_string(), "other/app".to_string()];
        assert_eq!(only(&inventory(&all[..6])), ("contents/other/7".to_string(), 20_107, both));
        let last = inventory(&all);
        assert_eq!(only(&last), ("contents/other/7".to_string(), 20_107, vec!["other/app".to_string()]));
        let digest = ContentDigest::of(ABC).unwrap();
        assert_eq!(["contents/other/7", "contents/acme/7"].map(|path| last.len_at(&digest, path)), [Some(20_107), None]);
        let again = inventory(&[&all[..], &upload(8)].concat());
        assert_eq!(only(&again).0, "contents/acme/8");
    }

    #[test]
    fn a_content_without_a_link_is_not_held() {
        let linked =
            [&upload(7)[..], &[record(Kind::Linked, "acme/app", ABC, 0, 0), record(Kind::Linked, "acme/web", ABC, 0, 0)]];
        let unlinked = |repo: &str| record(Kind::Unlinked, repo, ABC, 0, 0);
        let linked = linked.concat();
        assert_eq!(only(&inventory(&linked)).2, ["acme/app", "acme/web"]);
        let one = [&linked[..], &[unlinked("acme/web")]].concat();
        assert_eq!(only(&inventory(&one)).2, ["acme/app"]);
        assert_eq!(inventory(&[&one[..], &[unlinked("acme/app")]].concat()).len(), 0);
        // A stored content without a session has the links that follow.
        let stored = [record(Kind::StoredNoted, "acme", ABC, 9, 5), record(Kind::Linked, "acme/app", ABC, 0, 0)];
        assert_eq!(only(&inventory(&stored)), ("contents/acme/9".to_string(), 5, vec!["acme/app".to_string()]));
    }
}
