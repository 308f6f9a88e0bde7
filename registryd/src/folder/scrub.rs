//! Reads the closed files of the store's log again, slowly, while clients are served, and then the contents that lie in files. So damage of
//! the disk is found before a start needs the files. Nothing is locked meanwhile.
use crate::folder::content_scrub::ContentScrub;
use crate::folder::damaged::DamagedContents;
use crate::folder::frame_check::Damage;
use crate::folder::log_files::{LogFiles, Reading};
use crate::metadata::clock;
use crate::operation::locks::guard_of;
use crate::operation::metrics::Metrics;
use prometheus::{IntCounter, IntGauge};
use serde_json::{json, Value};
use std::io;
use std::path::PathBuf;
use std::sync::{Arc, Mutex};
use std::time::Duration;

/// The pause between two rounds.
const REST: Duration = Duration::from_secs(10);

/// The pace if the option is missing, in MiB a second.
pub(crate) const DEFAULT_PACE: u64 = 4;

/// Damage of a file, with the file's name and the time at which it was found, in seconds since 1970.
#[derive(Clone, Debug, PartialEq, Eq)]
struct Found {
    file: String,
    damage: Damage,
    time: u64,
}

/// What the rounds have found.
#[derive(Default)]
struct State {
    found: Vec<Found>,
    /// The time at which the last round ended, in seconds since 1970.
    ended: Option<u64>,
}

/// Reads the closed files of a log and the contents round after round.
pub(crate) struct Scrub {
    folder: PathBuf,
    mib_s: u64,
    state: Mutex<State>,
    contents: ContentScrub,
    damaged: IntGauge,
    rounds: IntCounter,
}

impl Scrub {
    /// Makes a scrub of the log and the contents in a folder, and adds its metrics.
    pub(crate) fn new(folder: PathBuf, mib_s: u64, digests: Arc<DamagedContents>, metrics: &Metrics) -> Arc<Scrub> {
        let help = "Closed files of the log in which damage was found.";
        let damaged = IntGauge::new("registryd_log_damaged_files", help).expect("a gauge's name");
        let help = "Times that all closed files of the log and all contents in files were read again.";
        let rounds = IntCounter::new("registryd_scrubs_total", help).expect("a counter's name");
        metrics.add(Box::new(damaged.clone()));
        metrics.add(Box::new(rounds.clone()));
        let contents = ContentScrub::new(folder.clone(), mib_s << 20, digests, metrics);
        Arc::new(Scrub { folder, mib_s, state: Mutex::default(), contents, damaged, rounds })
    }

    /// Starts to read in a thread, which ends with the program.
    pub(crate) fn start(self: &Arc<Scrub>) -> io::Result<()> {
        let scrub = self.clone();
        std::thread::Builder::new().name("scrub".to_string()).spawn(move || loop {
            std::thread::sleep(REST);
            scrub.round();
        })?;
        Ok(())
    }

    /// Returns whether a file is one of the closed files now.
    fn is_closed(&self, file: &str) -> bool {
        LogFiles::in_folder(&self.folder).closed.iter().any(|name| name == file)
    }

    /// Reads all closed files, and then all contents, unless a file of the log cannot be read. A rewriting may have replaced it.
    fn round(&self) {
        if let Some((reading, last)) = self.read_log() {
            match reading.finish(last.map(|name| self.folder.join(name)), self.mib_s << 20) {
                Ok(inventory) => self.contents.round(&inventory),
                Err(why) => tracing::debug!(%why, "the contents are not read in this round"),
            }
        }
        guard_of(self.state.lock()).ended = Some(clock::time_of_day());
        self.rounds.inc();
    }

    /// Reads all closed files. Returns what their records say, and the name of the last file, or `None` if one could not be read.
    fn read_log(&self) -> Option<(Reading, Option<String>)> {
        let LogFiles { closed, last } = LogFiles::in_folder(&self.folder);
        let (mut reading, mut found, mut is_read) = (Reading::default(), Vec::new(), true);
        let mut wanted: Option<u64> = None;
        for file in closed {
            let read = match (reading.read_closed(&self.folder.join(&file), self.mib_s << 20), wanted) {
                (Ok(id), Some(wanted)) if id != wanted => {
                    Err(Damage { byte: 0, what: "it is a file of another log, or out of order".to_string() })
                }
                (read, _) => read,
            };
            wanted = read.as_ref().ok().map(|id| id.wrapping_add(1)).or_else(|| wanted.map(|id| id.wrapping_add(1)));
            is_read &= read.is_ok();
            // A rewriting may have replaced the file.
            if let Some(damage) = read.err().filter(|_| self.is_closed(&file)) {
                self.note(&file, damage, &mut found);
            }
        }
        self.damaged.set(found.len() as i64);
        guard_of(self.state.lock()).found = found;
        is_read.then(|| (reading, last))
    }

    /// Notes damage of this round, and logs it if it was not found before.
    fn note(&self, file: &str, damage: Damage, found: &mut Vec<Found>) {
        let mut state = guard_of(self.state.lock());
        let known = state.found.iter().find(|known| known.file == file && known.damage == damage).cloned();
        let one = known.unwrap_or_else(|| {
            tracing::error!(file, byte = damage.byte, what = %damage.what, "the log is damaged: make a backup of what is served");
            let one = Found { file: file.to_string(), damage, time: clock::time_of_day() };
            state.found.push(one.clone());
            self.damaged.set(state.found.len() as i64);
            one
        });
        found.push(one);
    }

    /// Returns the state for `/status`.
    pub(crate) fn json(&self) -> Value {
        let state = guard_of(self.state.lock());
        let shown = |one: &Found| json!({ "file": one.file, "byte": one.damage.byte, "what": one.damage.what, "time": one.time });
        let damage: Vec<Value> = state.found.iter().map(shown).collect();
        let contents = self.contents.json();
        json!({ "mib_s": self.mib_s, "rounds": self.rounds.get(), "last": state.ended, "damage": damage, "contents": contents })
    }
}

#[cfg(test)]
mod tests {
    use super::*;
    use crate::database::test_folder::TestFolder;
    use crate::folder::frame_check::encoding::file;
    use crate::folder::records::encoding::{notes, record};

    #[test]
    fn a_round_finds_damage_and_forgets_what_was_mended() {
        let folder = std::env::temp_dir().join(format!("registryd-scrub-{}", std::process::id()));
        std::fs::create_dir(&folder).unwrap();
        for name in ["log.1", "log.2", "log.3"] {
            std::fs::write(folder.join(name), "no log").unwrap();
        }
        let scrub = Scrub::new(folder.clone(), 100, Arc::default(), &Metrics::new());
        scrub.round();
        assert_eq!((scrub.damaged.get(), scrub.rounds.get()), (2, 1));
        assert_eq!(scrub.json()["damage"][0]["file"], "log.1");
        std::fs::remove_file(folder.join("log.2")).unwrap();
        std::fs::remove_file(folder.join("log.3")).unwrap();
        scrub.round();
        assert_eq!((scrub.damaged.get(), scrub.json()["damage"].as_array().unwrap().len()), (0, 0));
        std::fs::remove_dir_all(folder).unwrap();
    }

    #[test]
    fn contents_are_read_if_the_log_is_whole() {
        let folder = TestFolder::new();
        // By `printf abc | sha256sum`.
        let digest = "sha256:ba7816bf8f01cfea414140de5dae2223b00361a396177a9cb410ff61f20015ad";
        let records = [record(2, "acme/web", "", 7, b""), record(14, "acme", digest, 7, &notes(&[3]))].concat();
        let put = |name: &str, bytes: &[u8]| std::fs::write(folder.0.join(name), bytes).unwrap();
        put("log.1", &file(70, &[&records, b""]));
        put("log.2", &file(71, &[]));
        let scrub = Scrub::new(folder.0.clone(), 100, Arc::default(), &Metrics::new());
        scrub.round();
        let state = scrub.json();
        let found = |state: &Value| (state["damage"].as_array().unwrap().len(), state["contents"]["damaged"].as_u64());
        assert_eq!((found(&state), &state["contents"]["damage"][0]["file"]), ((0, Some(1)), &json!("contents/acme/7")));
        // What was found stays while the log is damaged.
        put("log.1", b"no log");
        scrub.round();
        assert_eq!(found(&scrub.json()), (1, Some(1)));
        std::fs::create_dir_all(folder.0.join("contents/acme")).unwrap();
        put("contents/acme/7", b"abc");
        put("log.1", &file(70, &[&records, b""]));
        scrub.round();
        assert_eq!((found(&scrub.json()), scrub.rounds.get()), ((0, Some(0)), 3));
    }
}
