//! The cached pages of a folder's files. After a write to the disk has failed, Linux keeps the pages and calls them clean: they
//! are read as if they were on the disk, and no later sync writes them. So a start drops them and reads from the disk.
use crate::database::{sqlite, witness};
use crate::folder::log_end;
use std::fs::File;
use std::io;
use std::os::unix::io::AsRawFd;
use std::path::{Path, PathBuf};

/// Returns whether a start reads a file with this name.
fn is_read(name: &str) -> bool {
    let of_database = name.strip_prefix(sqlite::FILE_NAME).map_or(false, |end| ["", "-wal", "-journal"].contains(&end));
    of_database || name == witness::FILE_NAME || log_end::is_of_log(name)
}

/// Drops the cached pages of a file that are on the disk.
fn drop_clean_pages(file: &File) -> io::Result<()> {
    // SAFETY: the call only takes numbers; the descriptor is open.
    match unsafe { libc::posix_fadvise(file.as_raw_fd(), 0, 0, libc::POSIX_FADV_DONTNEED) } {
        0 => Ok(()),
        error => Err(io::Error::from_raw_os_error(error)),
    }
}

/// Drops the cached pages of a file that are on the disk, if the system can.
pub(super) fn forget(file: &File) {
    let _ = drop_clean_pages(file);
}

/// Syncs a file, and drops its cached pages.
fn drop_pages_of(path: &Path) -> io::Result<()> {
    let file = File::open(path)?;
    // A page that is not on the disk yet cannot be dropped.
    file.sync_all()?;
    drop_clean_pages(&file)
}

/// Syncs the files of the log and of the database in a folder, and drops their cached pages.
///
/// # Errors
///
/// Fails with the path of the first file that cannot be synced.
pub(crate) fn drop_pages(folder: &Path) -> Result<(), (PathBuf, io::Error)> {
    let in_folder = |error| (folder.to_path_buf(), error);
    for file in std::fs::read_dir(folder).map_err(in_folder)? {
        let path = file.map_err(in_folder)?.path();
        let name = path.file_name().and_then(|name| name.to_str()).unwrap_or_default();
        if is_read(name) && path.is_file() {
            drop_pages_of(&path).map_err(|error| (path, error))?;
        }
    }
    File::open(folder).and_then(|folder| folder.sync_all()).map_err(in_folder)
}

#[cfg(test)]
mod tests {
    use super::*;

    #[test]
    fn the_files_that_a_start_reads_are_dropped() {
        for name in ["log", "log.1", "base.12", "registry.db", "registry.db-wal", "registry.db-journal", "registry.commits"] {
            assert!(is_read(name), "{name}");
        }
        for name in ["lock", "log.new", "base.new", "rewrite", "registry.db-shm", "registry.dbx", "log.x"] {
            assert!(!is_read(name), "{name}");
        }
    }
}
