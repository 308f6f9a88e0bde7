//! The list of the contents that lie in files of a folder of `--data`, for a person.
use crate::control::client::print;
use crate::control::commands::ContentsCommand;
use crate::folder::content_file::{compare, look, Compared};
use crate::folder::inventory::{ContentDigest, Inventory, Place};
use crate::folder::log_files::{inventory_of, LogFiles};
use std::path::Path;

/// The pace at which files are read, in bytes a second: as fast as they can be.
const PACE: u64 = 1 << 50;

/// The number of times that the log is read if a store that runs replaces files of it meanwhile.
const TRIES: usize = 3;

/// Returns the contents in the order of their digests.
fn sorted(inventory: &Inventory) -> Vec<(&ContentDigest, Place)> {
    let mut contents: Vec<_> = inventory.contents().collect();
    contents.sort_unstable_by_key(|(digest, _)| *digest);
    contents
}

/// Returns the line of a content: its file, its digest, its length, and the repositories that link it.
fn line_of(inventory: &Inventory, digest: &ContentDigest, place: Place) -> String {
    let repositories = inventory.repositories(digest).join(",");
    format!("{} {digest} {} {repositories}", inventory.path_of(place), place.len)
}

/// Reads the log in a folder.
///
/// # Errors
///
/// Fails if there is no log, or if it is damaged.
fn read(folder: &Path) -> Result<Inventory, String> {
    if LogFiles::in_folder(folder).is_empty() {
        return Err(format!("no log is in {}: give the folder of --data", folder.display()));
    }
    let mut read = inventory_of(folder, PACE);
    for _ in 1..TRIES {
        if read.is_ok() {
            break;
        }
        read = inventory_of(folder, PACE);
    }
    read.map_err(|why| format!("cannot read the log: {why}"))
}

/// Returns what is wrong with the file of a content, if anything is.
fn fault_of(path: &Path, digest: &ContentDigest, len: u64, is_read: bool) -> Option<String> {
    let compared = match is_read {
        true => compare(path, digest, len, PACE, &mut |_| {}),
        false => look(path, len),
    };
    match compared {
        Compared::Same => None,
        Compared::Damaged(what) => Some(what),
        Compared::Unknown => Some("the file cannot be opened".to_string()),
    }
}

/// Prints the contents that lie in files of a folder, and on standard error what is wrong with a file.
///
/// # Errors
///
/// Fails as `list` does.
pub(crate) fn print_all(command: &ContentsCommand) -> Result<(), String> {
    list(&command.folder, command.verify, &mut print)
}

/// Gives a line for each content that lies in a file of a folder, until no more are wanted. Writes to standard error what is wrong with a
/// file.
///
/// # Errors
///
/// - There is no log in the folder, or it is damaged.
/// - A file is missing or too short, or has other bytes if the files are read.
fn list(folder: &Path, is_read: bool, give: &mut impl FnMut(&str) -> bool) -> Result<(), String> {
    let inventory = read(folder)?;
    let mut faults = 0;
    for (digest, place) in sorted(&inventory) {
        if !give(&line_of(&inventory, digest, place)) {
            return Ok(());
        }
        let path = folder.join(inventory.path_of(place));
        if let Some(what) = fault_of(&path, digest, place.len, is_read) {
            eprintln!("registryd: {}: {what}", path.display());
            faults += 1;
        }
    }
    match faults {
        0 => Ok(()),
        _ => Err(format!("{faults} of {} contents are damaged or missing", inventory.len())),
    }
}

#[cfg(test)]
mod tests {
    use super::*;
    use crate::database::test_folder::TestFolder;
    use crate::folder::frame_check::encoding::file;
    use crate::folder::records::encoding::{notes, record};

    /// The digests of `b` and of `a`, by `printf b | sha256sum`.
    const B: &str = "sha256:3e23e8160039594a33894f6564e1b1348bbd7a0088d42c4acb73eeaed59c009d";
    const A: &str = "sha256:ca978112ca1bbdcafac231b39a23dc4da786eff8147c4e72b9807785afee48bb";

    #[test]
    fn each_content_has_a_line() {
        let folder = TestFolder::new();
        assert!(read(&folder.0).err().unwrap().starts_with("no log is in "));
        let upload = |number, digest, len| {
            let sealed = record(14, "acme", digest, number, &notes(&[len]));
            [record(2, "acme/web", "", number, b""), sealed].concat()
        };
        let log = [upload(7, A, 1), upload(8, B, 20_000), record(6, "acme/app", B, 0, b"")].concat();
        std::fs::write(folder.0.join("log.1"), file(70, &[&log])).unwrap();
        let wanted = [format!("contents/acme/8 {B} 20000 acme/app,acme/web"), format!("contents/acme/7 {A} 1 acme/web")];
        let printed = |is_read| {
            let mut lines = Vec::new();
            let listed = list(&folder.0, is_read, &mut |line| {
                lines.push(line.to_string());
                true
            });
            assert_eq!(lines, wanted);
            listed
        };
        assert_eq!(printed(false), Err("2 of 2 contents are damaged or missing".to_string()));
        std::fs::create_dir_all(folder.0.join("contents/acme")).unwrap();
        std::fs::write(folder.0.join("contents/acme/8"), [0; 19_999]).unwrap();
        std::fs::write(folder.0.join("contents/acme/7"), b"b").unwrap();
        assert_eq!(printed(false), Err("1 of 2 contents are damaged or missing".to_string()));
        std::fs::write(folder.0.join("contents/acme/8"), [0; 20_000]).unwrap();
        assert_eq!((printed(false), printed(true)), (Ok(()), Err("2 of 2 contents are damaged or missing".to_string())));
        std::fs::write(folder.0.join("log.1"), b"no log").unwrap();
        assert!(read(&folder.0).err().unwrap().starts_with("cannot read the log: "));
    }
}
