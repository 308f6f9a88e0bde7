//! Reads the files of contents again, slowly, while clients are served, and compares what they have with their digests. So a damaged
//! content is found before a client asks for it. Nothing is locked meanwhile.
use crate::folder::content_file::{compare, Compared};
use crate::folder::damaged::DamagedContents;
use crate::folder::inventory::{ContentDigest, Inventory};
use crate::folder::log_files::inventory_of;
use crate::metadata::clock;
use crate::operation::locks::guard_of;
use crate::operation::metrics::Metrics;
use prometheus::{IntCounter, IntGauge};
use serde_json::{json, Value};
use std::collections::BTreeMap;
use std::path::PathBuf;
use std::sync::atomic::{AtomicUsize, Ordering};
use std::sync::{Arc, Mutex};
use std::time::{Duration, Instant};

/// The pause between two looks at the log for whether contents that seem damaged are still there.
const CONFIRM_REST: Duration = Duration::from_secs(60);

/// The number of damaged contents that `/status` lists.
const MOST_SHOWN: usize = 100;

/// A damaged content.
#[derive(Clone, Debug, PartialEq, Eq)]
struct Damaged {
    digest: String,
    what: String,
    /// The repositories that link it.
    repositories: Vec<String>,
    /// The time at which it was found, in seconds since 1970.
    time: u64,
}

/// A content that seemed damaged, and may have been removed or replaced since its place was read.
struct Suspect {
    digest: ContentDigest,
    path: String,
}

/// Reads the files of contents, which lie in a folder of `--data`.
pub(super) struct ContentScrub {
    folder: PathBuf,
    bytes_s: u64,
    /// The damaged contents that were found, by the paths of their files.
    found: Mutex<BTreeMap<String, Damaged>>,
    /// The number of contents that the log named when it was read last.
    files: AtomicUsize,
    digests: Arc<DamagedContents>,
    damaged: IntGauge,
    contents: IntCounter,
    bytes: IntCounter,
}

impl ContentScrub {
    /// Makes a scrub of the contents in a folder, and adds its metrics.
    pub(super) fn new(folder: PathBuf, bytes_s: u64, digests: Arc<DamagedContents>, metrics: &Metrics) -> ContentScrub {
        let help = "Contents whose file was found missing, short or damaged.";
        let damaged = IntGauge::new("registryd_damaged_contents", help).expect("a gauge's name");
        let counter = |name, help| IntCounter::new(name, help).expect("a counter's name");
        let contents = counter("registryd_scrubbed_contents_total", "Contents whose files were read again.");
        let bytes = counter("registryd_scrubbed_bytes_total", "Bytes of contents that were read again.");
        metrics.add(Box::new(damaged.clone()));
        metrics.add(Box::new(contents.clone()));
        metrics.add(Box::new(bytes.clone()));
        ContentScrub { folder, bytes_s, found: Mutex::default(), files: AtomicUsize::new(0), digests, damaged, contents, bytes }
    }

    fn compare(&self, path: &str, digest: &ContentDigest, len: u64) -> Compared {
        compare(&self.folder.join(path), digest, len, self.bytes_s, &mut |count| self.bytes.inc_by(count))
    }

    /// Reads all contents of an inventory. What was found before and is not found again is forgotten.
    pub(super) fn round(&self, inventory: &Inventory) {
        self.files.store(inventory.len(), Ordering::Relaxed);
        let (mut suspects, mut found) = (Vec::new(), BTreeMap::new());
        let mut confirmed = Instant::now();
        for (digest, place) in inventory.contents() {
            let path = inventory.path_of(place);
            match self.compare(&path, digest, place.len) {
                Compared::Same => {}
                Compared::Damaged(_) => suspects.push(Suspect { digest: digest.clone(), path }),
                Compared::Unknown => continue,
            }
            self.contents.inc();
            if !suspects.is_empty() && confirmed.elapsed() >= CONFIRM_REST {
                self.confirm(&mut suspects, &mut found);
                confirmed = Instant::now();
            }
        }
        if !suspects.is_empty() {
            self.confirm(&mut suspects, &mut found);
        }
        self.damaged.set(found.len() as i64);
        self.digests.keep(found.values().map(|one| one.digest.clone()));
        *guard_of(self.found.lock()) = found;
    }

    /// Looks at the log again, and notes those of the suspects that it still has. If it cannot be read, they stay suspects.
    fn confirm(&self, suspects: &mut Vec<Suspect>, found: &mut BTreeMap<String, Damaged>) {
        let inventory = match inventory_of(&self.folder, self.bytes_s) {
            Ok(inventory) => inventory,
            Err(_) => return,
        };
        for Suspect { digest, path } in suspects.drain(..) {
            let len = match inventory.len_at(&digest, &path) {
                Some(len) => len,
                None => continue,
            };
            if let Compared::Damaged(what) = self.compare(&path, &digest, len) {
                let damaged = self.note(&path, what, &digest.to_string(), inventory.repositories(&digest));
                found.insert(path, damaged);
            }
        }
    }

    /// Notes a damaged content, and logs it if it was not found before.
    fn note(&self, path: &str, what: String, digest: &str, repositories: Vec<String>) -> Damaged {
        self.digests.add(digest);
        let mut found = guard_of(self.found.lock());
        if let Some(known) = found.get(path).filter(|known| known.digest == digest && known.what == what) {
            return Damaged { repositories, ..known.clone() };
        }
        let file = self.folder.join(path);
        tracing::error!(digest, file = %file.display(), what, repositories = ?repositories, "a content is damaged: push it again");
        let damaged = Damaged { digest: digest.to_string(), what, repositories, time: clock::time_of_day() };
        found.insert(path.to_string(), damaged.clone());
        self.damaged.set(found.len() as i64);
        damaged
    }

    /// Returns the state for `/status`.
    pub(super) fn json(&self) -> Value {
        let found = guard_of(self.found.lock());
        let shown = |(path, one): (&String, &Damaged)| json!({ "file": path, "digest": one.digest, "what": one.what, "repositories": one.repositories, "time": one.time });
        let damage: Vec<Value> = found.iter().take(MOST_SHOWN).map(shown).collect();
        json!({
            "files": self.files.load(Ordering::Relaxed),
            "read": self.contents.get(),
            "bytes": self.bytes.get(),
            "damaged": found.len(),
            "damage": damage,
        })
    }
}

#[cfg(test)]
mod tests {
    use super::*;
    use crate::database::test_folder::TestFolder;
    use crate::folder::frame_check::encoding::file;
    use crate::folder::records::encoding::{notes, record};
    use std::os::unix::fs::symlink;

    /// Contents with their digests by `printf TEXT | sha256sum`, or `sha512sum`.
    const SEA: (&str, &str) = ("the sea", "sha256:556713372501bc1d2a113beaf1fe4fe921267d5cd0c9655b2386ec536a6bffa0");
    const SKY: (&str, &str) = (
        "the sky",
        "sha512:8d0804ea87925e19918f254c7d2c32c13619d4a8fa9fd2aa53457c8f6843f654\
            33b33b790f4fff1bbe08d0bd310f60592168b6db6116ea7a6d9f0c42adabc084",
    );

    /// A folder with a log, and files of contents.
    struct Folder(TestFolder);

    impl Folder {
        /// Makes a folder in whose log the sessions 1 and 2 have become the contents.
        fn new() -> Folder {
            let folder = Folder(TestFolder::new());
            std::fs::create_dir_all(folder.at("contents/acme")).unwrap();
            folder.put("contents/acme/1", SEA.0);
            folder.put("contents/acme/2", SKY.0);
            folder.log(&[]);
            folder
        }

        fn at(&self, name: &str) -> PathBuf {
            self.0 .0.join(name)
        }

        fn put(&self, name: &str, text: &str) {
            std::fs::write(self.at(name), text).unwrap();
        }

        /// Writes the log, with further records.
        fn log(&self, more: &[Vec<u8>]) {
            let (opened, chunk) = (|number| record(2, "acme/web", "", number, b""), notes(&[3]));
            let sealed = |number, digest| record(14, "acme", digest, number, &notes(&[4]));
            let first = [opened(1), record(13, "acme", "", 1, &chunk), sealed(1, SEA.1)].concat();
            let second = [opened(2), record(3, "acme", "", 2, b"the"), sealed(2, SKY.1)].concat();
            std::fs::write(self.at("log.1"), file(70, &[&first, &second, &more.concat()])).unwrap();
        }

        fn scrub(&self) -> ContentScrub {
            ContentScrub::new(self.0 .0.clone(), 1 << 30, Arc::default(), &Metrics::new())
        }

        fn round(&self, scrub: &ContentScrub) {
            scrub.round(&inventory_of(&self.0 .0, 1 << 30).unwrap());
        }
    }

    /// Returns the damaged files, and what they have.
    fn damage_of(scrub: &ContentScrub) -> Vec<(String, String)> {
        let found = guard_of(scrub.found.lock());
        assert_eq!(scrub.damaged.get(), found.len() as i64);
        found.iter().map(|(path, one)| (path.clone(), one.what.clone())).collect()
    }

    fn damage(path: &str, what: &str) -> Vec<(String, String)> {
        vec![(path.to_string(), what.to_string())]
    }

    #[test]
    fn contents_that_are_whole_are_counted() {
        let folder = Folder::new();
        let scrub = folder.scrub();
        folder.round(&scrub);
        // Bytes after the content do not matter.
        folder.put("contents/acme/1", "the sea and a chunk that failed");
        folder.round(&scrub);
        assert_eq!(scrub.json(), json!({ "files": 2, "read": 4, "bytes": 28, "damaged": 0, "damage": [] }));
    }

    #[test]
    fn damage_is_found_until_it_is_mended() {
        let folder = Folder::new();
        let scrub = folder.scrub();
        for (text, what) in [("the sex", "the bytes have another digest"), ("the", "the file ends after 3 of 7 bytes")] {
            folder.put("contents/acme/1", text);
            folder.round(&scrub);
            assert_eq!(damage_of(&scrub), damage("contents/acme/1", what));
        }
        let shown = &scrub.json()["damage"][0];
        assert!(scrub.digests.has(SEA.1) && !scrub.digests.has(SKY.1));
        assert_eq!((&shown["digest"], &shown["repositories"]), (&json!(SEA.1), &json!(["acme/web"])));
        folder.put("contents/acme/1", SEA.0);
        std::fs::remove_file(folder.at("contents/acme/2")).unwrap();
        folder.round(&scrub);
        assert_eq!(damage_of(&scrub), damage("contents/acme/2", "the file is missing"));
        symlink("2", folder.at("contents/acme/2")).unwrap();
        folder.round(&scrub);
        assert!(damage_of(&scrub)[0].1.starts_with("the file cannot be read: "));
        folder.log(&[record(7, "acme/web", SKY.1, 0, b"")]);
        folder.round(&scrub);
        assert_eq!(damage_of(&scrub), []);
    }

    #[test]
    fn a_content_that_vanishes_meanwhile_is_no_damage() {
        let folder = Folder::new();
        let scrub = folder.scrub();
        let inventory = inventory_of(&folder.0 .0, 1 << 30).unwrap();
        // One was pushed again, and the other deleted.
        let again = [record(2, "acme/app", "", 3, b""), record(14, "acme", SEA.1, 3, &notes(&[7]))].concat();
        folder.log(&[again, record(7, "acme/web", SKY.1, 0, b"")]);
        std::fs::rename(folder.at("contents/acme/1"), folder.at("contents/acme/3")).unwrap();
        std::fs::remove_file(folder.at("contents/acme/2")).unwrap();
        scrub.round(&inventory);
        assert_eq!(damage_of(&scrub), []);
        folder.put("contents/acme/3", "the sez");
        folder.round(&scrub);
        assert_eq!(damage_of(&scrub), damage("contents/acme/3", "the bytes have another digest"));
        // A log that cannot be read shows nothing.
        std::fs::remove_file(folder.at("log.1")).unwrap();
        scrub.round(&inventory);
        assert_eq!(damage_of(&scrub), []);
    }
}
