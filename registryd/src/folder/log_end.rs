//! The end of the store's log, as its files show it (docs/LOG.md). `registryd` keeps it in its database to find out at a start
//! whether the log is of another store, or was replaced by an older one.
use std::fs::File;
use std::io::{self, Read};
use std::path::{Path, PathBuf};

/// The first bytes of a file of a log.
const MAGIC: &[u8; 8] = b"bloblog\0";

/// The number of bytes up to the end of the id in the header of a file.
const HEAD: usize = 24;

/// The number of bytes of an encoded end.
const ENCODED: usize = 24;

/// The length of a base that no segment follows: all of its last segment is in it.
const WHOLE: u64 = u64::MAX;

/// The end of a log. Ends of one log are in the order of their files and lengths.
#[derive(Clone, Copy, Debug, PartialEq, Eq)]
pub(crate) struct LogEnd {
    /// The id of the log's file with the number 0, if there were one. It is the same for all files of a log.
    pub(crate) log: u64,
    /// The number of the last file.
    pub(crate) file: u64,
    /// The length of the last file, in bytes.
    pub(crate) length: u64,
}

/// The last file of a log in a folder.
pub(crate) struct LastFile {
    pub(super) path: PathBuf,
    pub(super) number: u64,
    length: u64,
}

/// Returns the number in the name of a file of the log after this start of the name. A file `log` of an earlier version becomes
/// `log.1`.
pub(super) fn number_of(name: &str, kind: &str) -> Option<u64> {
    let number = name.strip_prefix(kind)?;
    match number {
        "" if kind == "log" => Some(1),
        _ => number.strip_prefix('.')?.parse().ok(),
    }
}

/// Returns whether a file with this name is part of the store's log.
pub(super) fn is_of_log(name: &str) -> bool {
    number_of(name, "log").or_else(|| number_of(name, "base")).is_some()
}

/// Returns the last file of the log in a folder, or `None` if no regular file is part of one. A segment with the number of a base
/// was replaced by it.
///
/// # Errors
///
/// Fails if the folder or a file of the log cannot be looked at.
pub(crate) fn find_last_file(folder: &Path) -> io::Result<Option<LastFile>> {
    let mut last: Option<(u64, bool, PathBuf, u64)> = None;
    for file in std::fs::read_dir(folder)? {
        let file = file?;
        let name = file.file_name();
        let name = name.to_str().unwrap_or_default();
        let (found, is_base) = match (number_of(name, "log"), number_of(name, "base")) {
            (Some(number), _) => (number, false),
            (None, Some(number)) => (number, true),
            (None, None) => continue,
        };
        let length = match std::fs::metadata(file.path()) {
            Ok(data) if data.is_file() => data.len(),
            Err(error) if error.kind() != io::ErrorKind::NotFound => return Err(error),
            // It is no file, or was removed meanwhile.
            Ok(_) | Err(_) => continue,
        };
        if last.as_ref().map_or(true, |(number, was_base, ..)| (found, is_base) > (*number, *was_base)) {
            last = Some((found, is_base, file.path(), length));
        }
    }
    Ok(last.map(|(number, is_base, path, length)| LastFile { path, number, length: if is_base { WHOLE } else { length } }))
}

/// Returns the last file of the log in a folder, or `None` if there is none or it cannot be found.
pub(super) fn last_file(folder: &Path) -> Option<LastFile> {
    find_last_file(folder).ok().flatten()
}

/// Returns the id in the header of a file of a log, or `None` if it has none.
fn id_of(path: &Path) -> Option<u64> {
    let mut head = [0; HEAD];
    File::open(path).and_then(|mut file| file.read_exact(&mut head)).ok()?;
    let id = <[u8; 8]>::try_from(&head[16..]).ok()?;
    head.starts_with(MAGIC).then(|| u64::from_le_bytes(id))
}

impl LogEnd {
    /// Returns the end of the log in a folder, or `None` if there is no log, or no header in its last file.
    pub(crate) fn of(folder: &Path) -> Option<LogEnd> {
        let LastFile { path, number, length } = last_file(folder)?;
        Some(LogEnd { log: id_of(&path)?.wrapping_sub(number), file: number, length })
    }

    /// Syncs the log in a folder, and returns its end.
    ///
    /// # Errors
    ///
    /// Fails if it cannot be synced.
    pub(crate) fn synced(folder: &Path) -> io::Result<Option<LogEnd>> {
        let end = LogEnd::of(folder);
        if let Some(last) = end.and_then(|_| last_file(folder)) {
            File::open(&last.path)?.sync_data()?;
            File::open(folder)?.sync_all()?;
        }
        Ok(end)
    }

    /// Returns whether the last file is a base, which has all of the segment with its number.
    pub(crate) fn is_whole(&self) -> bool {
        self.length == WHOLE
    }

    /// Returns whether this end comes before another one of the same log.
    pub(crate) fn is_before(&self, other: &LogEnd) -> bool {
        (self.file, self.length) < (other.file, other.length)
    }

    pub(crate) fn to_bytes(self) -> Vec<u8> {
        [self.log, self.file, self.length].iter().flat_map(|number| number.to_le_bytes()).collect()
    }

    pub(crate) fn from_bytes(bytes: &[u8]) -> Option<LogEnd> {
        let bytes = <&[u8; ENCODED]>::try_from(bytes).ok()?;
        let number = |place: usize| <[u8; 8]>::try_from(&bytes[place..place + 8]).ok().map(u64::from_le_bytes);
        Some(LogEnd { log: number(0)?, file: number(8)?, length: number(16)? })
    }
}

#[cfg(test)]
mod tests {
    use super::*;

    fn header(id: u64) -> Vec<u8> {
        [&MAGIC[..], &1u64.to_le_bytes(), &id.to_le_bytes(), &[0; 8]].concat()
    }

    #[test]
    fn the_last_file_has_the_greatest_number() {
        let folder = std::env::temp_dir().join(format!("registryd-end-{}", uuid::Uuid::new_v4()));
        std::fs::create_dir(&folder).unwrap();
        assert_eq!(LogEnd::of(&folder), None);
        let put = |name: &str, data: &[u8]| std::fs::write(folder.join(name), data).unwrap();
        let end = |file, length| Some(LogEnd { log: 70, file, length });
        put("log", &header(71));
        assert_eq!(LogEnd::of(&folder), end(1, 32));
        put("base.9", &header(79));
        assert_eq!(LogEnd::of(&folder), end(9, WHOLE));
        put("log.9", &header(1));
        assert_eq!(LogEnd::of(&folder), end(9, WHOLE));
        put("log.10", &[header(80), vec![1]].concat());
        put("log.new", b"x");
        put("log.x", b"x");
        std::fs::create_dir(folder.join("log.99")).unwrap();
        assert_eq!(LogEnd::of(&folder), end(10, 33));
        assert_eq!(LogEnd::synced(&folder).unwrap(), end(10, 33));
        put("log.11", b"x");
        assert_eq!(LogEnd::of(&folder), None);
        assert!(last_file(&folder).is_some());
        // A link to itself can be found and not followed, and one to nothing leads to no file.
        std::os::unix::fs::symlink("none", folder.join("log.12")).unwrap();
        assert_eq!(find_last_file(&folder).unwrap().map(|last| last.number), Some(11));
        std::os::unix::fs::symlink("log.13", folder.join("log.13")).unwrap();
        assert!(find_last_file(&folder).is_err() && last_file(&folder).is_none());
        std::fs::remove_dir_all(&folder).unwrap();
        let missing = find_last_file(&folder).err().map(|error| error.kind());
        assert_eq!((missing, last_file(&folder).is_none()), (Some(io::ErrorKind::NotFound), true));
    }

    #[test]
    fn ends_are_in_the_order_of_their_files() {
        let end = |file, length| LogEnd { log: u64::MAX, file, length };
        assert!(end(1, WHOLE).is_before(&end(2, 32)) && end(2, 32).is_before(&end(2, 33)));
        assert!(!end(2, 33).is_before(&end(2, 33)) && !end(3, 1).is_before(&end(2, WHOLE)));
        assert_eq!(LogEnd::from_bytes(&end(7, 9).to_bytes()), Some(end(7, 9)));
        assert_eq!(LogEnd::from_bytes(&[0; 23]), None);
    }
}
