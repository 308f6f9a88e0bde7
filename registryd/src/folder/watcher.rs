//! The look at the folder that happens once a second while clients are served. It finds out if a file that the programs have
//! open was removed, moved or replaced, or cannot be reached, looks at the room on the disk, and records in the database how far the log is
//! on the disk.
use crate::database::change::Change;
use crate::database::sqlite;
use crate::database::writer::Writer;
use crate::folder::disk_room::DiskRoom;
use crate::folder::log_end;
use crate::folder::log_end::LogEnd;
use crate::folder::ownership::Owner;
use crate::operation::exit::Failure;
use crate::start::recovery::blocking;
use std::io;
use std::os::unix::fs::MetadataExt;
use std::path::{Path, PathBuf};
use std::sync::Arc;
use std::time::Duration;

/// The pause between two looks.
const REST: Duration = Duration::from_secs(1);

/// The number of looks after which the end of the log is recorded although it changes all the time.
const MOST_LOOKS: u32 = 60;

/// The pause before a second look after one that found something wrong: a name may be missed while others are made.
const SECOND_LOOK: Duration = Duration::from_millis(100);

/// The name of the file that the store locks.
pub(crate) const LOCK: &str = "lock";

/// A file that the programs have open: its device and number.
type Identity = (u64, u64);

fn identity(path: &Path) -> io::Result<Identity> {
    std::fs::metadata(path).map(|data| (data.dev(), data.ino()))
}

/// What is wrong with the folder or a file in it.
#[derive(Debug)]
enum Trouble {
    /// It was removed, moved or replaced.
    Gone(PathBuf),
    /// It cannot be looked at.
    Unreachable(PathBuf, io::Error),
}

impl Trouble {
    /// Returns what is wrong with a file that had an identity, by the look at its path.
    fn of(path: &Path, known: Identity, looked: io::Result<Identity>) -> Result<(), Trouble> {
        match looked {
            Ok(found) if found == known => Ok(()),
            Err(error) if error.kind() != io::ErrorKind::NotFound => Err(Trouble::Unreachable(path.to_path_buf(), error)),
            Ok(_) | Err(_) => Err(Trouble::Gone(path.to_path_buf())),
        }
    }
}

/// The folder and the files in it that may not change.
#[derive(Clone, Debug)]
struct Files {
    /// The folder, the file of the store's lock, and the database, if they are there.
    fixed: Vec<(PathBuf, Identity)>,
    /// The last file of the log.
    last: Option<(u64, PathBuf, Identity)>,
}

impl Files {
    /// Looks at the files of a folder.
    fn of(folder: &Path) -> Files {
        let fixed = [folder.to_path_buf(), folder.join(LOCK), folder.join(sqlite::FILE_NAME)];
        let fixed = fixed.into_iter().filter_map(|path| identity(&path).ok().map(|found| (path, found))).collect();
        Files { fixed, last: last_of(folder).ok().flatten() }
    }

    /// Checks that each file is in its place, and notes the last file of the log.
    ///
    /// # Errors
    ///
    /// Fails if a file is gone, or if it cannot be reached.
    fn check(&mut self, folder: &Path) -> Result<(), Trouble> {
        self.fixed.iter().try_for_each(|(path, known)| Trouble::of(path, *known, identity(path)))?;
        let found = match last_of(folder) {
            // It was removed after its name was read.
            Err(error) if error.kind() == io::ErrorKind::NotFound => None,
            found => found.map_err(|error| Trouble::Unreachable(folder.to_path_buf(), error))?,
        };
        if let Some((number, path, known)) = &self.last {
            match &found {
                Some((now, ..)) if now > number => {}
                Some((now, _, identity)) if now == number && identity == known => {}
                _ => return Err(Trouble::Gone(path.clone())),
            }
        }
        self.last = found;
        Ok(())
    }
}

/// Returns the last file of the log.
fn last_of(folder: &Path) -> io::Result<Option<(u64, PathBuf, Identity)>> {
    let last = log_end::find_last_file(folder)?;
    last.map(|last| identity(&last.path).map(|found| (last.number, last.path, found))).transpose()
}

/// The looks at a folder.
pub(crate) struct Watcher {
    folder: PathBuf,
    /// The room on its disk.
    room: Arc<DiskRoom>,
    /// The writer of the database, if each change is on the disk before its reply.
    writer: Option<Arc<Writer>>,
    owner: Owner,
    files: Files,
    /// The end of the log at the last look, and the last one that was recorded.
    seen: Option<LogEnd>,
    kept: Option<LogEnd>,
    /// The number of looks since the end was recorded.
    looks: u32,
}

impl Watcher {
    /// Makes a watch of a folder whose programs have started. With a writer it records the end of the log.
    pub(crate) fn new(folder: PathBuf, room: Arc<DiskRoom>, writer: Option<Arc<Writer>>) -> Watcher {
        let files = Files::of(&folder);
        // If the owner is not found, the store still is the one to notice that it is another one.
        let owner = Owner::of(&folder).unwrap_or_default();
        Watcher { folder, room, writer, owner, files, seen: None, kept: None, looks: 0 }
    }

    /// Looks at the folder until something is wrong, and returns what.
    pub(crate) async fn run(mut self) -> Failure {
        loop {
            tokio::time::sleep(REST).await;
            let looked = blocking(move || {
                self.look()?;
                Ok(self)
            });
            self = match looked.await {
                Ok(watch) => watch,
                Err(failure) => return failure,
            };
        }
    }

    fn look(&mut self) -> Result<(), Failure> {
        // Another store that takes the folder over replaces the last file of the log after that.
        if matches!(self.owner.is_current(), Ok(false)) {
            return Err(Failure::of_lost_folder());
        }
        if self.files.check(&self.folder).is_err() {
            std::thread::sleep(SECOND_LOOK);
            self.files.check(&self.folder).map_err(|trouble| self.failure(&trouble))?;
        }
        self.room.tend();
        let end = LogEnd::of(&self.folder);
        self.looks += 1;
        if end != self.kept && (end == self.seen || self.looks >= MOST_LOOKS) {
            self.keep_end()?;
        }
        self.seen = end;
        Ok(())
    }

    /// Returns why the programs end: another store has taken the folder over, or else a file is gone or cannot be reached.
    fn failure(&self, trouble: &Trouble) -> Failure {
        match (self.owner.is_current(), trouble) {
            (Ok(false), _) => Failure::of_lost_folder(),
            (_, Trouble::Gone(path)) => Failure::of_gone(path),
            (_, Trouble::Unreachable(path, error)) => Failure::of_unreachable(path, error),
        }
    }

    /// Records the end of the log, if each change is on the disk before its reply.
    fn keep_end(&mut self) -> Result<(), Failure> {
        if let Some(writer) = &self.writer {
            self.kept = keep_end(&self.folder, writer)?;
        }
        self.looks = 0;
        Ok(())
    }
}

/// Syncs the log, and records its end. So a start finds out if the log is older than that.
fn keep_end(folder: &Path, writer: &Writer) -> Result<Option<LogEnd>, Failure> {
    let end = LogEnd::synced(folder).map_err(|error| Failure::of_log(&error))?;
    if let Some(end) = end {
        writer.note(Change::KeepLogEnd { end });
    }
    Ok(end)
}

/// Records the end of the log when no request changes it any more.
pub(crate) async fn keep_last_end(folder: PathBuf, writer: Arc<Writer>) -> Result<(), Failure> {
    blocking(move || keep_end(&folder, &writer).map(|_| ())).await
}

#[cfg(test)]
mod tests {
    use super::*;
    use crate::database::test_folder::TestFolder;
    use std::os::unix::fs::symlink;

    #[test]
    fn only_a_file_that_is_not_found_or_another_one_is_gone() {
        let of = |looked| Trouble::of(Path::new("/data/lock"), (1, 2), looked);
        let failed = |code| of(Err(io::Error::from_raw_os_error(code)));
        assert!(of(Ok((1, 2))).is_ok());
        for gone in [of(Ok((1, 3))), of(Ok((2, 2))), failed(libc::ENOENT)] {
            assert!(matches!(&gone, Err(Trouble::Gone(path)) if path == Path::new("/data/lock")), "{gone:?}");
        }
        for code in [libc::EIO, libc::ESTALE, libc::EACCES, libc::ENOTCONN, libc::ETIMEDOUT] {
            let unreachable = failed(code);
            assert!(
                matches!(&unreachable, Err(Trouble::Unreachable(_, error)) if error.raw_os_error() == Some(code)),
                "{unreachable:?}"
            );
        }
    }

    #[test]
    fn files_that_are_gone_or_cannot_be_reached_are_found() {
        let folder = TestFolder::new();
        let at = |name: &str| folder.0.join(name);
        let write = |name: &str| std::fs::write(at(name), name).unwrap();
        ["lock", "log.1"].map(write);
        let mut files = Files::of(&folder.0);
        let text = |files: &mut Files| match files.check(&folder.0) {
            Ok(()) => "in place".to_string(),
            Err(Trouble::Gone(path)) => format!("{} is gone", path.file_name().unwrap().to_string_lossy()),
            Err(Trouble::Unreachable(path, error)) => {
                format!("{}: {}", path.strip_prefix(&folder.0).unwrap().display(), error.raw_os_error().unwrap())
            }
        };
        assert_eq!(text(&mut files), "in place");
        // A link to itself can be found and not followed.
        let unreachable = libc::ELOOP;
        for (name, found) in [("lock", format!("lock: {unreachable}")), ("log.1", format!(": {unreachable}"))] {
            std::fs::rename(at(name), at("moved")).unwrap();
            assert_eq!(text(&mut files), format!("{name} is gone"));
            symlink(name, at(name)).unwrap();
            assert_eq!(text(&mut files), found);
            std::fs::rename(at("moved"), at(name)).unwrap();
            assert_eq!(text(&mut files), "in place");
        }
        write("log.2");
        assert_eq!(text(&mut files), "in place");
        std::fs::remove_file(at("log.2")).unwrap();
        assert_eq!(text(&mut files), "log.2 is gone");
    }
}
