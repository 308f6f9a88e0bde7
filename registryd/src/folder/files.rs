//! The folder of a registry that survives restarts: its files.
use crate::database::sqlite::FILE_NAME;
use crate::folder::disk_room::DiskRoom;
use crate::folder::log_end::is_of_log;
use crate::tenants::served::ServedTenants;
use std::io;
use std::path::{Path, PathBuf};
use std::sync::Arc;

/// The folder.
pub(crate) struct Folder {
    path: PathBuf,
    tenants: Arc<ServedTenants>,
    /// The room on its disk.
    pub(crate) room: Arc<DiskRoom>,
}

/// The file by which the store is asked to rewrite its log.
const REWRITE: &str = "rewrite";

/// The file by which a start of the store goes on without missing contents, and with what is left of a damaged log.
const ACCEPT_LOSS: &str = "accept-loss";

/// The file with the length of the longest content whose bytes are in the log. The store makes it when all longer ones have files.
const LONGEST: &str = "longest";

/// The folder of the contents.
const CONTENTS: &str = "contents";

/// Returns the path of a content's file in the folder: the content that the session of this number of a tenant received.
pub(super) fn content_path(tenant: &str, number: u64) -> String {
    format!("{CONTENTS}/{tenant}/{number}")
}

/// Returns whether the long contents of a folder have files.
pub(crate) fn has_contents(path: &Path) -> bool {
    path.join(LONGEST).exists()
}

/// Lets the next start of the store go on without missing contents and with what is left of a damaged log. It removes the file.
pub(crate) fn accept_damage(path: &Path) -> io::Result<()> {
    std::fs::File::create(path.join(ACCEPT_LOSS)).map(drop)
}

/// Removes the file that a start has left whose store did not start.
pub(crate) fn forget_acceptance(path: &Path) -> io::Result<()> {
    match std::fs::remove_file(path.join(ACCEPT_LOSS)) {
        Err(error) if error.kind() != io::ErrorKind::NotFound => Err(error),
        _ => Ok(()),
    }
}

/// Returns the length of the store's log in a folder, in bytes, or `None` if there is no log.
pub(crate) fn log_length(path: &Path) -> Option<u64> {
    let files = std::fs::read_dir(path).ok()?.flatten();
    let lengths = files.filter(|file| file.file_name().to_str().map_or(false, is_of_log));
    lengths.map(|file| file.metadata().map_or(0, |data| data.len())).reduce(|sum, length| sum + length)
}

impl Folder {
    /// Returns a folder with contents of these tenants.
    pub(crate) fn new(path: PathBuf, room: Arc<DiskRoom>, tenants: Arc<ServedTenants>) -> Folder {
        Folder { path, tenants, room }
    }

    pub(crate) fn path(&self) -> &Path {
        &self.path
    }

    /// Returns the path of the file of the content that the session of this number received, of the tenant with this number.
    pub(crate) fn content_file(&self, tenant: usize, number: u32) -> Option<PathBuf> {
        Some(self.path.join(content_path(&self.tenants.at(tenant)?, u64::from(number))))
    }

    /// Returns the length of the log, in bytes.
    pub(crate) fn log_bytes(&self) -> u64 {
        log_length(&self.path).unwrap_or(0)
    }

    /// Asks the store to rewrite its log. It looks for the request once a second.
    pub(crate) fn ask_for_rewriting(&self) -> io::Result<()> {
        self.room.prepare_rewriting(self.log_bytes());
        std::fs::File::create(self.path.join(REWRITE)).map(drop)
    }

    /// Returns whether the store has not yet seen the request.
    pub(crate) fn is_rewriting_asked(&self) -> bool {
        self.path.join(REWRITE).exists()
    }

    /// Returns the length of the database, in bytes, with the transactions that are not yet in its file.
    pub(crate) fn database_bytes(&self) -> u64 {
        self.bytes(FILE_NAME) + self.bytes(&format!("{FILE_NAME}-wal"))
    }

    /// Returns the length of a file of the folder, or 0 if there is none.
    fn bytes(&self, name: &str) -> u64 {
        std::fs::metadata(self.path.join(name)).map_or(0, |file| file.len())
    }
}

#[cfg(test)]
mod tests {
    use super::*;

    fn folder_at(path: PathBuf) -> Folder {
        let tenants = ["zeta", "acme", "acme-2"].map(str::to_string);
        Folder::new(path.clone(), Arc::new(DiskRoom::new(path, 0, 0)), ServedTenants::of(tenants))
    }

    #[test]
    fn the_log_has_several_files() {
        let path = std::env::temp_dir().join(format!("registryd-folder-{}", std::process::id()));
        std::fs::create_dir(&path).unwrap();
        assert_eq!(log_length(&path), None);
        for (name, text) in [("base.3", "123"), ("log.4", "12345"), ("log.new", "x"), ("lock", "x"), ("log.x", "x")] {
            std::fs::write(path.join(name), text).unwrap();
        }
        assert_eq!(log_length(&path), Some(8));
        assert!(!has_contents(&path));
        std::fs::write(path.join("longest"), "16384\n").unwrap();
        assert!(has_contents(&path));
        let folder = folder_at(path.clone());
        assert!(!folder.is_rewriting_asked());
        folder.ask_for_rewriting().unwrap();
        assert!(path.join("rewrite").exists() && folder.is_rewriting_asked());
        std::fs::remove_dir_all(path).unwrap();
    }

    #[test]
    fn tenants_are_numbered_in_the_order_of_their_names() {
        let folder = folder_at(PathBuf::from("/data"));
        let files = [0, 1, 2, 3].map(|tenant| folder.content_file(tenant, 7));
        let path = |tenant| Some(PathBuf::from(format!("/data/contents/{tenant}/7")));
        assert_eq!(files, [path("acme"), path("acme-2"), path("zeta"), None]);
    }

    #[test]
    fn a_folder_that_is_not_there_is_empty() {
        let folder = folder_at(PathBuf::from("/no/such/folder"));
        assert_eq!((folder.log_bytes(), folder.database_bytes()), (0, 0));
    }
}
