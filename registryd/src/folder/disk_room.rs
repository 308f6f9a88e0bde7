//! The room on the disk of a folder. Nothing is written if less than a least room is free, so that no write fails for want of it. While
//! little is free, room is held for what is written next.
//!
//! The file `reserve` takes room while the disk has enough. A change that finds too little free cuts a part off it, so that deletes and
//! a rewriting of the log are possible on a disk that another program has filled.
use crate::folder::held_room::HeldRoom;
use crate::folder::ownership::Owner;
use crate::http::fault::Fault;
use crate::operation::locks::guard_of;
use std::ffi::CString;
use std::fs::OpenOptions;
use std::io;
use std::os::unix::ffi::OsStrExt;
use std::os::unix::fs::{FileExt, MetadataExt, OpenOptionsExt};
use std::os::unix::io::AsRawFd;
use std::path::{Path, PathBuf};
use std::sync::Mutex;
use std::time::{Duration, Instant};

/// The time for which a look at the disk counts if it found much free. A disk that takes 1 GB in a second gets 20 MB in this time.
const LOOK: Duration = Duration::from_millis(20);

/// What has to be free above the floor for a look to count for a while, in bytes.
const MUCH: u64 = 64 << 20;

/// What has to be free for a change without content, in bytes: its record in the log, a transaction of the database, and the next
/// file of the log.
const LEAST: u64 = 1 << 20;

/// The part of that which is held for the last file of the log while little is free, and again for its next file, in bytes. For content
/// it is all of that.
const HELD: u64 = LEAST / 4;

/// The number of bytes that are free after a part of the reserve was given up.
const GIVEN: u64 = 2 * LEAST;

/// The least number of bytes that have to be free for content: those that are held, and those that a change without content needs.
const CONTENT: u64 = 3 * LEAST;

/// The names of the files in the folder: the reserve, and the number of bytes that a rewriting of the log may take.
const RESERVE: &str = "reserve";
const REWRITABLE: &str = "room";

/// The file that the store writes in its own folder while it rewrites its log.
const NEW_BASE: &str = "base.new";

/// What the disk has room for.
#[derive(Clone, Copy, Debug, PartialEq, Eq)]
pub(crate) enum Level {
    /// All requests.
    All,
    /// All but content.
    Deletes,
    /// Nothing is written.
    Reads,
}

impl Level {
    /// Returns what is served, for the state of the registry.
    pub(crate) fn name(self) -> &'static str {
        match self {
            Level::All => "everything",
            Level::Deletes => "reads and deletes",
            Level::Reads => "reads",
        }
    }
}

/// The room on the disk of a folder.
pub(crate) struct DiskRoom {
    path: PathBuf,
    min_free: u64,
    /// The length of a whole reserve, in bytes.
    reserve: u64,
    /// The time of the last look, and the number of bytes that were free.
    last: Mutex<Option<(Instant, u64)>>,
    held: HeldRoom,
    /// What was logged last, and the last number in the file for a rewriting. This lock is held while the reserve changes.
    shown: Mutex<(Level, Option<u64>)>,
}

/// Returns what the system tells of the disk of a folder.
fn statvfs_of(path: &Path) -> io::Result<libc::statvfs> {
    let path = CString::new(path.as_os_str().as_bytes())?;
    // SAFETY: zeros are a value of the struct, which has only numbers.
    let mut room: libc::statvfs = unsafe { std::mem::zeroed() };
    // SAFETY: the path ends with a zero byte, and `room` has room for the struct that the call writes.
    match unsafe { libc::statvfs(path.as_ptr(), &mut room) } {
        0 => Ok(room),
        _ => Err(io::Error::last_os_error()),
    }
}

/// Returns the number of bytes on the disk of a folder that this user may still write.
fn free_bytes(path: &Path) -> io::Result<u64> {
    statvfs_of(path).map(|room| room.f_bavail.saturating_mul(room.f_frsize))
}

/// Returns the number of bytes of the disk of a folder, if that is known.
pub(crate) fn length_of(path: &Path) -> Option<u64> {
    statvfs_of(path).ok().map(|room| room.f_blocks.saturating_mul(room.f_frsize))
}

/// Returns the number of bytes on the disk of a folder that this user may still write, if that is known.
pub(crate) fn free_on(path: &Path) -> Option<u64> {
    free_bytes(path).ok()
}

/// Returns whether the disk of a folder can have no further file. A file system without a limit on files names none.
fn has_all_files(path: &Path) -> bool {
    statvfs_of(path).map_or(false, |room| room.f_files > 0 && room.f_favail == 0)
}

/// Makes a file that takes this number of bytes on the disk.
fn allocate(path: &Path, bytes: u64) -> io::Result<()> {
    let file = OpenOptions::new().write(true).create(true).mode(0o600).open(path)?;
    let length = libc::off_t::try_from(bytes).map_err(|_| io::Error::from(io::ErrorKind::InvalidInput))?;
    // SAFETY: the call only takes numbers; the descriptor is open.
    match unsafe { libc::posix_fallocate(file.as_raw_fd(), 0, length) } {
        0 => file.sync_all(),
        error => Err(io::Error::from_raw_os_error(error)),
    }
}

impl DiskRoom {
    /// Makes the room of a folder on whose disk `min_free` bytes stay free of content, and whose reserve has `reserve` bytes.
    pub(crate) fn new(path: PathBuf, min_free: u64, reserve: u64) -> DiskRoom {
        DiskRoom {
            path,
            min_free,
            reserve,
            last: Mutex::default(),
            held: HeldRoom::default(),
            shown: Mutex::new((Level::All, None)),
        }
    }

    /// Returns the number of bytes that stay free of content.
    pub(crate) fn min_free(&self) -> u64 {
        self.min_free
    }

    /// Returns the number of bytes that have to be free for content.
    fn floor(&self) -> u64 {
        self.min_free.max(CONTENT)
    }

    /// Returns the number of free bytes. Returns `None` if the system has no answer.
    pub(crate) fn free(&self) -> Option<u64> {
        let mut last = guard_of(self.last.lock());
        match *last {
            Some((time, free)) if time.elapsed() < LOOK && free >= self.floor().saturating_add(MUCH) => return Some(free),
            _ => {}
        }
        let free = free_bytes(&self.path).ok()?;
        *last = Some((Instant::now(), free));
        Some(free)
    }

    /// Returns whether this number of bytes is free.
    fn has(&self, bytes: u64) -> bool {
        self.free().map_or(true, |free| free >= bytes)
    }

    /// Holds this number of bytes for the log, and some for the database, if little is free. Returns whether the disk has them.
    fn hold(&self, bytes: u64) -> bool {
        self.has(self.floor().saturating_add(MUCH)) || self.held.hold(&self.path, bytes)
    }

    /// Returns the number of bytes that the reserve takes on the disk.
    pub(crate) fn reserved(&self) -> u64 {
        // A copy of the file may have a length and take nothing.
        std::fs::metadata(self.path.join(RESERVE)).map_or(0, |data| data.len().min(data.blocks() * 512))
    }

    /// Returns what the disk has room for.
    pub(crate) fn level(&self) -> Level {
        let free = self.free().unwrap_or(u64::MAX);
        match free {
            _ if free >= self.floor() => Level::All,
            _ if free.saturating_add(self.reserved()) >= LEAST => Level::Deletes,
            _ => Level::Reads,
        }
    }

    /// Fails if the disk has no room for content.
    pub(crate) fn check_content(&self) -> Result<(), Fault> {
        let free = self.free().unwrap_or(u64::MAX);
        match free >= self.floor() && self.hold(LEAST) {
            true => Ok(()),
            false => Err(Fault::disk_full(free, self.floor())),
        }
    }

    /// Fails if the disk has no room for a change without content.
    pub(crate) fn check_change(&self) -> Result<(), Fault> {
        match self.make() {
            true => Ok(()),
            false => Err(Fault::no_room()),
        }
    }

    /// Fails if a content of this number of bytes may not have been written because the disk is full. The store has removed what it
    /// wrote of it.
    pub(crate) fn check_write(&self, bytes: u64) -> Result<(), Fault> {
        let free = free_bytes(&self.path).unwrap_or(u64::MAX);
        match free < self.floor().max(bytes.saturating_add(LEAST)) || has_all_files(&self.path) {
            true => Err(Fault::disk_full(free, self.floor())),
            false => Ok(()),
        }
    }

    /// Returns whether the disk has room for a change without content. Nothing is given up for it.
    pub(crate) fn is_there(&self) -> bool {
        self.has(LEAST) && self.hold(HELD)
    }

    /// Gives up a part of the reserve if the disk has no room for a change without content. Returns whether it has room then.
    pub(crate) fn make(&self) -> bool {
        self.is_there() || {
            self.give_up(GIVEN);
            self.is_there()
        }
    }

    /// Cuts the reserve, until this number of bytes is free or nothing is left of it.
    fn give_up(&self, wanted: u64) {
        let _shown = guard_of(self.shown.lock());
        let path = self.path.join(RESERVE);
        let lacking = match free_bytes(&self.path) {
            Ok(free) => wanted.saturating_sub(free),
            Err(_) => return,
        };
        let length = std::fs::metadata(&path).map_or(0, |data| data.len());
        if lacking == 0 || length == 0 {
            return;
        }
        let left = length.saturating_sub(lacking.max(LEAST));
        let cut = match left {
            0 => std::fs::remove_file(&path),
            _ => OpenOptions::new().write(true).open(&path).and_then(|file| file.set_len(left)),
        };
        match cut {
            Ok(()) => tracing::warn!(bytes = length - left, left, "gave up a part of the reserve: the disk is full"),
            Err(error) => tracing::error!("cannot give up a part of the reserve: {}: {error}", path.display()),
        }
    }

    /// Returns whether the store is rewriting its log.
    fn is_rewritten(&self) -> bool {
        let base = Owner::of(&self.path).ok().and_then(|owner| owner.path_of(NEW_BASE));
        base.map_or(false, |base| base.exists())
    }

    /// Makes the reserve if the disk has enough room: no content is refused for it, and no rewriting is disturbed.
    fn keep_reserve(&self) {
        let path = self.path.join(RESERVE);
        let (held, length) = (self.reserved(), std::fs::metadata(&path).map_or(0, |data| data.len()));
        if length > self.reserve {
            let cut = OpenOptions::new().write(true).open(&path).and_then(|file| file.set_len(self.reserve));
            if let Err(error) = cut {
                tracing::error!("cannot cut the reserve: {}: {error}", path.display());
            }
            return;
        }
        let wanted = self.floor().saturating_add(self.reserve).saturating_add(self.reserve - held.min(self.reserve));
        if held >= self.reserve || !self.has(wanted) || self.is_rewritten() {
            return;
        }
        match allocate(&path, self.reserve) {
            Ok(()) => tracing::info!(bytes = self.reserve, "made the reserve"),
            Err(error) => {
                tracing::warn!("cannot make the reserve: {}: {error}", path.display());
                let _ = std::fs::remove_file(&path);
            }
        }
    }

    /// Returns the number of bytes that a rewriting of the log may take: what is free above the floor, or, if the reserve is not whole,
    /// what it has room for.
    fn rewritable(&self) -> u64 {
        let free = self.free().unwrap_or(0);
        let above = free.saturating_sub(self.floor());
        match self.reserved() >= self.reserve {
            true => above,
            false => above.max(free.min(self.reserve).saturating_sub(GIVEN)),
        }
    }

    /// Writes for the store how much a rewriting may take. The number has the same length each time, so it needs no further room.
    fn show_rewritable(&self, shown: &mut Option<u64>) {
        let whole = self.rewritable() >> 20;
        if *shown == Some(whole) {
            return;
        }
        let path = self.path.join(REWRITABLE);
        let written = OpenOptions::new().write(true).create(true).mode(0o600).open(&path);
        let written = written.and_then(|file| file.write_all_at(format!("{:020}\n", whole << 20).as_bytes(), 0));
        *shown = Some(whole);
        if let Err(error) = written {
            tracing::warn!("cannot write how much a rewriting may take: {}: {error}", path.display());
        }
    }

    /// Gives up the reserve if a rewriting of a log of `log_bytes` may need it, and writes for the store how much it may take.
    pub(super) fn prepare_rewriting(&self, log_bytes: u64) {
        let wanted = self.floor().saturating_add(log_bytes);
        if !self.has(wanted) {
            self.give_up(wanted);
        }
        self.show_rewritable(&mut guard_of(self.shown.lock()).1);
    }

    /// Makes the reserve if there is room, writes for the store how much a rewriting may take, and logs if the disk has room for more or
    /// for less than at the last call.
    pub(crate) fn tend(&self) {
        let mut shown = guard_of(self.shown.lock());
        self.keep_reserve();
        self.show_rewritable(&mut shown.1);
        let level = self.level();
        if level == shown.0 {
            return;
        }
        shown.0 = level;
        let (serves, free) = (level.name(), self.free().unwrap_or(0));
        match level {
            Level::All => tracing::info!(serves, free, "the disk has room"),
            Level::Deletes => tracing::warn!(serves, free, "the disk is almost full: requests with content get 507"),
            Level::Reads => tracing::error!(serves, free, "the disk is full: all changes get 507"),
        }
    }

    /// Removes what is written for the store, which has ended.
    pub(crate) fn end(&self) {
        let _ = std::fs::remove_file(self.path.join(REWRITABLE));
    }
}

#[cfg(test)]
mod tests {
    use super::*;

    /// A folder for a test.
    struct TestFolder(PathBuf);

    impl TestFolder {
        fn new() -> TestFolder {
            let path = std::env::temp_dir().join(format!("registryd-room-{}", uuid::Uuid::new_v4()));
            std::fs::create_dir(&path).unwrap();
            TestFolder(path)
        }

        fn room(&self, min_free: u64, reserve: u64) -> DiskRoom {
            DiskRoom::new(self.0.clone(), min_free, reserve)
        }
    }

    impl Drop for TestFolder {
        fn drop(&mut self) {
            std::fs::remove_dir_all(&self.0).unwrap();
        }
    }

    /// Returns how much a rewriting may take, by the file for the store.
    fn number_in(path: &Path) -> Option<u64> {
        std::fs::read_to_string(path.join(REWRITABLE)).ok()?.trim().parse().ok()
    }

    #[test]
    fn the_minimum_is_compared_with_the_free_bytes() {
        let folder = TestFolder::new();
        let (all, none) = (folder.room(0, 0), folder.room(u64::MAX, 0));
        assert!(all.check_content().is_ok() && none.check_content().is_err());
        // Deletes need little.
        assert!(none.check_change().is_ok());
        assert_eq!((all.level(), none.level()), (Level::All, Level::Deletes));
        let free = all.free().unwrap();
        assert!(free > 0 && free < u64::MAX);
    }

    #[test]
    fn a_write_can_have_failed_if_less_was_free() {
        let folder = TestFolder::new();
        let free = free_bytes(&folder.0).unwrap();
        let room = folder.room(0, 0);
        assert!(free <= length_of(&folder.0).unwrap() && free_on(&folder.0).is_some());
        assert!(room.check_write(0).is_ok() && room.check_write(free).is_err() && room.check_write(u64::MAX).is_err());
        assert!(folder.room(u64::MAX, 0).check_write(0).is_err());
        assert!(!has_all_files(Path::new("/no/such/folder")));
    }

    #[test]
    fn a_folder_that_is_not_there_has_room() {
        let room = DiskRoom::new(PathBuf::from("/no/such/folder"), u64::MAX, 1);
        assert_eq!((room.free(), room.reserved()), (None, 0));
        assert!(room.check_content().is_ok() && room.check_change().is_ok() && room.check_write(1).is_ok());
    }

    #[test]
    fn the_reserve_is_made_if_there_is_room_and_given_up_by_parts() {
        let folder = TestFolder::new();
        let room = folder.room(0, 8 << 20);
        room.tend();
        assert_eq!(room.reserved(), 8 << 20);
        room.give_up(0);
        assert_eq!(room.reserved(), 8 << 20);
        // Other programs may write to the disk too.
        let free = free_bytes(&folder.0).unwrap();
        room.give_up(free + LEAST);
        assert!(room.reserved() < 8 << 20);
        room.give_up(u64::MAX);
        assert_eq!(room.reserved(), 0);
        room.tend();
        assert_eq!(room.reserved(), 8 << 20);
        folder.room(0, 3 << 20).tend();
        assert_eq!(room.reserved(), 3 << 20);
        folder.room(u64::MAX, 8 << 20).tend();
        assert_eq!(room.reserved(), 3 << 20);
    }

    #[test]
    fn a_copy_that_takes_nothing_is_no_reserve() {
        let folder = TestFolder::new();
        let room = folder.room(0, 8 << 20);
        std::fs::File::create(folder.0.join(RESERVE)).unwrap().set_len(8 << 20).unwrap();
        assert_eq!(room.reserved(), 0);
        room.tend();
        assert_eq!(room.reserved(), 8 << 20);
    }

    #[test]
    fn a_rewriting_leaves_the_minimum_or_uses_the_reserve() {
        let folder = TestFolder::new();
        let room = folder.room(0, 0);
        room.tend();
        let most = number_in(&folder.0).unwrap();
        let free = room.free().unwrap();
        assert!(most > 0 && most <= free, "{most} of {free}");
        folder.room(u64::MAX, 0).tend();
        assert_eq!(number_in(&folder.0), Some(0));
        // The reserve is not whole, so a rewriting may use the room that it would have.
        folder.room(u64::MAX, 16 << 20).tend();
        assert_eq!(number_in(&folder.0), Some((16 << 20) - GIVEN));
        room.end();
        assert_eq!(number_in(&folder.0), None);
    }
}
