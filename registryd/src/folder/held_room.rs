//! The room that is held after the ends of files to which changes are added, so that no other program takes it between a look at the
//! disk and a write. The next file of the log has its room before the store begins it, in the folder of the store that owns the folder.
use crate::database::sqlite::FILE_NAME;
use crate::folder::log_end::last_file;
use crate::folder::ownership::Owner;
use crate::operation::locks::guard_of;
use std::fs::{File, OpenOptions};
use std::io;
use std::os::unix::fs::OpenOptionsExt;
use std::os::unix::io::AsRawFd;
use std::path::{Path, PathBuf};
use std::sync::Mutex;

/// What is held for a transaction of the database, in bytes.
const TRANSACTION: u64 = 256 << 10;

/// The name of the next file of the log until the store gives it its number.
const NEXT: &str = "log.new";

/// The number and the path of the last file of the log after whose end room is held.
#[derive(Default)]
pub(super) struct HeldRoom(Mutex<Option<(u64, PathBuf)>>);

/// Opens a file to change it.
fn open(path: &Path) -> io::Result<File> {
    OpenOptions::new().write(true).open(path)
}

/// Opens the file in which room is held for the next file of the log. The store may be writing it, so nothing of it is changed.
fn open_next(path: &Path) -> io::Result<File> {
    OpenOptions::new().write(true).create(true).mode(0o600).open(path)
}

/// Holds this number of bytes after the end of a file, whose length stays. Room that is held already counts.
fn hold_after(file: &File, bytes: u64) -> io::Result<()> {
    let length = file.metadata()?.len();
    let number = |bytes| libc::off_t::try_from(bytes).map_err(|_| io::Error::from(io::ErrorKind::InvalidInput));
    // SAFETY: the call only takes numbers; the descriptor is open.
    match unsafe { libc::fallocate(file.as_raw_fd(), libc::FALLOC_FL_KEEP_SIZE, number(length)?, number(bytes)?) } {
        0 => Ok(()),
        _ => Err(io::Error::last_os_error()),
    }
}

/// Releases what is held after the end of a file that no longer grows.
fn release(path: &Path) -> io::Result<()> {
    let file = open(path)?;
    file.set_len(file.metadata()?.len())
}

/// Returns whether the disk has room after the end of a file. A file system that cannot hold room has it.
fn has_room(file: io::Result<File>, bytes: u64) -> bool {
    !matches!(file.and_then(|file| hold_after(&file, bytes)), Err(error) if error.raw_os_error() == Some(libc::ENOSPC))
}

impl HeldRoom {
    /// Holds this number of bytes for the last file of the log in a folder, as much for its next file, and some for the database. Returns
    /// whether the disk has the room.
    pub(super) fn hold(&self, folder: &Path, bytes: u64) -> bool {
        let mut held = guard_of(self.0.lock());
        if let Some(last) = last_file(folder) {
            // A look may miss the last name while others are made. Only a file with a later one does not grow.
            match &*held {
                Some((number, _)) if *number >= last.number => {}
                before => {
                    // It may have been replaced by a rewriting.
                    let _ = before.as_ref().map(|(_, path)| release(path));
                    *held = Some((last.number, last.path));
                }
            }
        }
        let next = Owner::of(folder).ok().and_then(|owner| owner.path_of(NEXT));
        let has_next = || next.map_or(true, |next| has_room(open_next(&next), bytes));
        let is_held = |path: &Path| has_room(open(path), bytes) && has_next();
        let of_database = folder.join(format!("{FILE_NAME}-wal"));
        held.as_ref().map_or(true, |(_, path)| is_held(path)) && has_room(open(&of_database), TRANSACTION)
    }
}

#[cfg(test)]
mod tests {
    use super::*;
    use std::io::Write;
    use std::os::unix::fs::MetadataExt;

    #[test]
    fn room_is_held_after_the_end_of_the_last_file_and_for_the_next() {
        let folder = std::env::temp_dir().join(format!("registryd-held-{}", uuid::Uuid::new_v4()));
        std::fs::create_dir_all(folder.join("owner-7")).unwrap();
        let (first, second, next) = (folder.join("log.1"), folder.join("log.2"), folder.join("owner-7/log.new"));
        std::fs::write(&first, "abc").unwrap();
        let held = HeldRoom::default();
        let taken = |path: &Path| std::fs::metadata(path).unwrap().blocks() * 512;
        assert!(held.hold(&folder, 1 << 20) && taken(&first) >= 1 << 20 && taken(&next) >= 1 << 20);
        assert_eq!(std::fs::metadata(&next).unwrap().len(), 0);
        // As the store does: it writes to the file, and gives it its number.
        std::fs::File::options().write(true).open(&next).and_then(|mut file| file.write_all(b"abcd")).unwrap();
        assert!(held.hold(&folder, 1 << 20) && taken(&next) >= 1 << 20);
        std::fs::rename(&next, &second).unwrap();
        assert!(held.hold(&folder, 1 << 20) && taken(&first) < 1 << 20 && taken(&second) >= 1 << 20 && taken(&next) >= 1 << 20);
        assert_eq!((std::fs::read(&first).unwrap(), std::fs::read(&second).unwrap()), (b"abc".to_vec(), b"abcd".to_vec()));
        // Without an owner, and with two, none is held for the next file.
        std::fs::create_dir(folder.join("owner-8")).unwrap();
        std::fs::remove_file(&next).unwrap();
        assert!(held.hold(&folder, 1 << 20) && !next.exists() && !folder.join("owner-8/log.new").exists());
        assert!(HeldRoom::default().hold(Path::new("/no/such/folder"), 1));
        std::fs::remove_dir_all(folder).unwrap();
    }
}
