//! The start of a registry with a folder, before its store starts: makes the folder, opens the database, and finds out whether
//! the database or the log was lost or replaced. Nothing is changed if it was.
use crate::database::sqlite;
use crate::database::sqlite::Database;
use crate::folder::disk_room::DiskRoom;
use crate::folder::file_system::Known;
use crate::folder::log_end::LogEnd;
use crate::folder::watcher::LOCK;
use crate::folder::{file_system, files, log_end, page_cache, unsynced};
use crate::operation::exit::Failure;
use crate::start::losses::{Loss, OnLoss};
use crate::start::options::Options;
use std::fs::{DirBuilder, File};
use std::io;
use std::os::unix::fs::{DirBuilderExt, MetadataExt};
use std::os::unix::io::AsRawFd;
use std::path::{Path, PathBuf};
use std::time::{Duration, Instant};

/// The time that the program before has to release the folder, and the pause between two looks.
const WAIT: Duration = Duration::from_secs(5);
const REST: Duration = Duration::from_millis(50);

/// A folder with its open database.
pub(super) struct Opened {
    pub(super) folder: PathBuf,
    pub(super) database: Database,
    /// Whether each change is on the disk before its reply.
    pub(super) is_synced: bool,
    /// Whether the disk has no room, so that the start changes nothing.
    pub(super) is_full: bool,
    /// Whether pulls of tags are counted from now on.
    pub(super) counts_pulls: bool,
    /// The maximum number of a tenant's open uploads.
    pub(super) most_uploads: usize,
    on_loss: OnLoss,
    /// The length of the log if the store may cut it because the operator accepts what that loses.
    cuttable: Option<u64>,
}

impl Opened {
    /// Returns what the start does about a loss that it finds after the store has started.
    pub(super) fn on_loss(&self) -> OnLoss {
        let is_cut = self.cuttable.map_or(false, |before| files::log_length(&self.folder).unwrap_or(0) < before);
        match self.on_loss {
            OnLoss::End if is_cut => OnLoss::Accept,
            on_loss => on_loss,
        }
    }
}

/// Makes a folder that only its owner can use, if it does not exist.
fn make(folder: &Path) -> io::Result<()> {
    match DirBuilder::new().mode(0o700).create(folder) {
        Err(error) if error.kind() == io::ErrorKind::AlreadyExists => Ok(()),
        made => made,
    }
}

/// Warns if other users of the machine can use a folder.
fn warn_of_access(folder: &Path) {
    match std::fs::metadata(folder) {
        Ok(data) if data.mode() & 0o077 != 0 => {
            let mode = format!("{:o}", data.mode() & 0o7777);
            tracing::warn!(folder = %folder.display(), %mode, "other users can look into the folder: chmod 700 it");
        }
        _ => {}
    }
}

/// Logs the kind of file system of a folder, and warns if it was not tested.
///
/// # Errors
///
/// Fails if it was seen to break a promise, unless any kind is allowed.
fn check_file_system(folder: &Path, is_any: bool) -> Result<(), Failure> {
    let kind = file_system::kind_of(folder).unwrap_or_else(|| "unknown".to_string());
    match Known::of(&kind) {
        Known::Tested => tracing::info!(%kind, "the file system of the folder"),
        Known::Untested => tracing::warn!(%kind, "the file system of the folder was not tested: STORAGE says which were"),
        Known::InMemory => tracing::warn!(%kind, "the folder is in memory: all is lost when the machine ends"),
        Known::Broken if is_any => tracing::warn!(%kind, "the file system of the folder was seen to lose what was acknowledged"),
        Known::Broken => return Err(Failure::of_file_system(folder, &kind)),
    }
    Ok(())
}

/// Returns whether a folder has a database that is not empty.
fn has_database(folder: &Path) -> bool {
    // One that cannot be looked at is not missing.
    std::fs::metadata(folder.join(sqlite::FILE_NAME))
        .map_or_else(|error| error.kind() != io::ErrorKind::NotFound, |file| file.len() > 0)
}

/// Waits until no other program has the folder, and returns the file of the lock, which keeps others out until it is closed.
/// Returns `None` if there is no such file yet.
fn lock(folder: &Path) -> Result<Option<File>, Failure> {
    let file = match File::open(folder.join(LOCK)) {
        Ok(file) => file,
        // The store reports what is wrong with it.
        Err(_) => return Ok(None),
    };
    let end = Instant::now() + WAIT;
    loop {
        // SAFETY: the call only takes numbers; the descriptor is open.
        let is_taken = unsafe { libc::flock(file.as_raw_fd(), libc::LOCK_EX | libc::LOCK_NB) } != 0;
        match io::Error::last_os_error().kind() {
            io::ErrorKind::WouldBlock | io::ErrorKind::Interrupted if is_taken && Instant::now() < end => {}
            io::ErrorKind::WouldBlock | io::ErrorKind::Interrupted if is_taken => return Err(Failure::of_taken_folder()),
            _ => return Ok(Some(file)),
        }
        std::thread::sleep(REST);
    }
}

/// Returns what a start does about a loss of a folder. Without syncs, since then or from now on, a crash may lose anything.
fn on_loss(options: &Options, folder: &Path) -> OnLoss {
    match options.accept_loss {
        _ if unsynced::is_marked(folder) || !options.is_durable() => OnLoss::GoOn,
        true => OnLoss::Accept,
        false => OnLoss::End,
    }
}

/// Returns whether the disk of a folder has no room for the changes of a start, although the reserve was given up. A folder without a
/// database can then not be used.
fn is_full(room: &DiskRoom, folder: &Path) -> bool {
    let is_full = has_database(folder) && !room.make();
    if is_full {
        tracing::error!("the disk is full: only reads are served until there is room");
    }
    is_full
}

/// Returns whether there is a log in the folder. Fails if that cannot be found out.
fn has_log(folder: &Path) -> Result<bool, Failure> {
    let last = log_end::find_last_file(folder);
    last.map(|last| last.is_some()).map_err(|error| Failure::of_folder("cannot look at the log", folder, &error))
}

/// Opens the folder of the options. Drops its cached pages before anything reads them.
pub(super) fn open(options: &Options, folder: PathBuf, room: &DiskRoom) -> Result<Opened, Failure> {
    let is_synced = options.is_durable();
    make(&folder).map_err(|error| Failure::of_folder("cannot make the folder", &folder, &error))?;
    warn_of_access(&folder);
    check_file_system(&folder, options.any_file_system)?;
    // It is closed before the store starts, which locks the folder itself.
    let _lock = lock(&folder)?;
    if is_synced {
        page_cache::drop_pages(&folder).map_err(|(path, error)| Failure::of_folder("cannot sync", &path, &error))?;
    }
    files::forget_acceptance(&folder).map_err(|error| Failure::of_folder("cannot use the folder", &folder, &error))?;
    if options.accept_loss {
        tracing::warn!("--accept-loss is given: a loss that this start finds is accepted; remove the option afterwards");
    }
    let on_loss = on_loss(options, &folder);
    if !has_database(&folder) && has_log(&folder)? {
        on_loss.meet(&Loss::Database)?;
    }
    let is_full = is_full(room, &folder);
    if !is_synced && !is_full {
        unsynced::mark(&folder).map_err(|error| Failure::of_folder("cannot mark the folder", &folder, &error))?;
    }
    let mut database = match is_full {
        true => Database::open_without_room(&folder, is_synced)?,
        false => Database::open(&folder, is_synced)?,
    };
    if let Some(loss) = Loss::by_marks(database.marks(), database.older_by(), has_log(&folder)?, LogEnd::of(&folder)) {
        on_loss.meet(&loss)?;
    }
    if !is_full {
        database.loosen_log_end()?;
    }
    room.tend();
    let cuttable = options.accept_loss_after.and_then(|_| files::log_length(&folder));
    let (counts_pulls, most_uploads) = (options.retention.is_some(), options.limits().uploads);
    Ok(Opened { folder, database, is_synced, is_full, counts_pulls, most_uploads, on_loss, cuttable })
}
