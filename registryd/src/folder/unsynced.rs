//! The mark of a folder whose changes are not synced (`--sync never`): an empty file. It is on the disk before the first such
//! change, and is removed when all changes are. So a loss of power takes the changes and not the mark.
use std::fs::{File, OpenOptions};
use std::io;
use std::os::unix::fs::OpenOptionsExt;
use std::path::Path;

/// The name of the file in the folder.
const FILE_NAME: &str = "registry.unsynced";

/// Returns whether a folder is marked, so that a crash may have lost anything of it.
pub(crate) fn is_marked(folder: &Path) -> bool {
    folder.join(FILE_NAME).exists()
}

/// Marks a folder. The mark is on the disk when this returns.
pub(crate) fn mark(folder: &Path) -> io::Result<()> {
    OpenOptions::new().write(true).create(true).mode(0o600).open(folder.join(FILE_NAME))?.sync_all()?;
    File::open(folder)?.sync_all()
}

/// Removes the mark of a folder, if it has one. It is gone from the disk when this returns.
pub(crate) fn clear(folder: &Path) -> io::Result<()> {
    if !is_marked(folder) {
        return Ok(());
    }
    std::fs::remove_file(folder.join(FILE_NAME))?;
    File::open(folder)?.sync_all()
}

#[cfg(test)]
mod tests {
    use super::*;

    #[test]
    fn a_mark_stays_until_it_is_cleared() {
        let folder = std::env::temp_dir().join(format!("registryd-unsynced-{}", std::process::id()));
        std::fs::create_dir(&folder).unwrap();
        assert!(!is_marked(&folder) && clear(&folder).is_ok());
        for _ in 0..2 {
            mark(&folder).unwrap();
            assert!(is_marked(&folder));
        }
        clear(&folder).unwrap();
        assert!(!is_marked(&folder));
        std::fs::remove_dir_all(folder).unwrap();
    }
}
