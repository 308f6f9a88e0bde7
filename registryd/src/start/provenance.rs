//! The record that the store's program was proved. `package/record` writes it beside the program, and the Debian package has it
//! in `/usr/share/registryd`. It names the program by its checksum. Whoever can write it can forge it.

use serde_json::{json, Value};
use sha2::{Digest, Sha256};
use std::collections::HashMap;
use std::ffi::OsString;
use std::path::{Path, PathBuf};

/// Where a program comes from.
#[derive(Debug, PartialEq, Eq)]
pub(crate) enum Provenance {
    /// It was proved.
    Proved {
        /// The commit whose sources were proved.
        commit: String,
        toolchain: String,
        /// The command that proved it.
        by: String,
        date: String,
    },
    /// It is not known to be proved, for a reason.
    NotVerified(String),
}

/// Returns the file of a program that is searched for as `execvp`(3) does.
fn find(program: &Path) -> Option<PathBuf> {
    if program.components().count() > 1 {
        return Some(program.to_path_buf());
    }
    let places = std::env::var_os("PATH")?;
    std::env::split_paths(&places).map(|place| place.join(program)).find(|path| path.is_file())
}

/// Reads the record of a program: lines of a name and a value.
fn read_record(program: &Path) -> Option<HashMap<String, String>> {
    let mut name = program.file_name()?.to_os_string();
    name.push(".proved");
    let beside = program.with_file_name(&name);
    let installed = program.parent()?.parent()?.join("share/registryd").join(&name);
    let text = std::fs::read_to_string(beside).or_else(|_| std::fs::read_to_string(installed)).ok()?;
    Some(text.lines().filter_map(|line| line.split_once(' ')).map(|(name, value)| (name.into(), value.into())).collect())
}

impl Provenance {
    /// Returns where a program comes from.
    pub(super) fn of(program: &Path) -> Provenance {
        let not_verified = |why: &str| Provenance::NotVerified(format!("{}: {why}", program.display()));
        let path = match find(program) {
            Some(path) => path,
            None => return not_verified("not found"),
        };
        let mut record = match read_record(&path) {
            Some(record) => record,
            None => return not_verified("no record of a proof"),
        };
        let mut field = |name: &str| record.remove(name).unwrap_or_default();
        match std::fs::read(&path) {
            Ok(bytes) if field("sha256") == format!("{:x}", Sha256::digest(&bytes)) => Provenance::Proved {
                commit: field("commit"),
                toolchain: field("toolchain"),
                by: field("proved-by"),
                date: field("date"),
            },
            Ok(_) => not_verified("its record is of another program"),
            Err(error) => not_verified(&error.to_string()),
        }
    }

    pub(super) fn is_proved(&self) -> bool {
        matches!(self, Provenance::Proved { .. })
    }

    /// Writes to the log where the store's program comes from.
    pub(super) fn log(&self) {
        match self {
            Provenance::Proved { commit, toolchain, by, date } => {
                tracing::info!(commit, toolchain, by, date, "the store's program was proved");
            }
            Provenance::NotVerified(why) => tracing::warn!(why, "the store is NOT VERIFIED"),
        }
    }

    pub(crate) fn json(&self) -> Value {
        match self {
            Provenance::Proved { commit, toolchain, by, date } => {
                json!({ "verified": true, "commit": commit, "toolchain": toolchain, "proved_by": by, "date": date })
            }
            Provenance::NotVerified(why) => json!({ "verified": false, "why": why }),
        }
    }
}

/// Returns the text of `--version`, for the program of the store that the arguments name.
pub(crate) fn version(mut arguments: impl Iterator<Item = OsString>) -> String {
    let named = arguments.find(|word| word == "--blobd").and_then(|_| arguments.next());
    let store = match Provenance::of(Path::new(&named.unwrap_or_else(|| "blobd".into()))) {
        Provenance::Proved { commit, toolchain, by, date } => {
            format!("proved by {by} on {date}\ncommit: {commit}\ntoolchain: {toolchain}")
        }
        Provenance::NotVerified(why) => format!("NOT VERIFIED: {why}"),
    };
    format!("{}\nstore: {store}", env!("CARGO_PKG_VERSION"))
}

#[cfg(test)]
mod tests {
    use super::*;

    /// The SHA-256 of `abc` (FIPS 180-4, example).
    const ABC: &str = "ba7816bf8f01cfea414140de5dae2223b00361a396177a9cb410ff61f20015ad";

    fn why(program: &Path) -> String {
        match Provenance::of(program) {
            Provenance::NotVerified(why) => why,
            proved => panic!("{proved:?}"),
        }
    }

    #[test]
    fn a_record_names_its_program_by_the_checksum() {
        let folder = std::env::temp_dir().join(format!("registryd-provenance-{}", uuid::Uuid::new_v4()));
        let (bin, share) = (folder.join("bin"), folder.join("share/registryd"));
        let program = bin.join("blobd");
        assert!(why(&program).ends_with("no record of a proof"));
        std::fs::create_dir_all(&bin).unwrap();
        std::fs::create_dir_all(&share).unwrap();
        std::fs::write(&program, "abc").unwrap();
        assert!(why(&program).ends_with("no record of a proof"));
        let record = format!("sha256 {ABC}\ncommit 12ab\ntoolchain kit 1\nproved-by rt ci\ndate today\n");
        std::fs::write(share.join("blobd.proved"), &record).unwrap();
        let text = |text: &str| text.to_string();
        let proved =
            Provenance::Proved { commit: text("12ab"), toolchain: text("kit 1"), by: text("rt ci"), date: text("today") };
        assert_eq!(Provenance::of(&program), proved);
        let words = ["--slots".into(), "1".into(), "--blobd".into(), program.clone().into()];
        assert!(version(words.into_iter()).ends_with("store: proved by rt ci on today\ncommit: 12ab\ntoolchain: kit 1"));
        // The record beside the program comes first.
        std::fs::write(bin.join("blobd.proved"), record.replace("ba78", "ba79")).unwrap();
        assert!(why(&program).ends_with("its record is of another program"));
        std::fs::remove_dir_all(folder).unwrap();
    }

    #[test]
    fn a_program_without_a_folder_is_searched_for() {
        assert!(find(Path::new("sh")).unwrap().is_absolute());
        assert_eq!(find(Path::new("./sh")), Some(PathBuf::from("./sh")));
        assert!(why(Path::new("no-such-program")).ends_with("not found"));
    }
}
