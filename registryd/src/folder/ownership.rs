//! Which store owns the folder. The store makes a folder `owner-N` in it at its start, and removes those of all others. So the one that it has
//! made is there for as long as no other store has taken the folder over.
use std::fs::File;
use std::io;
use std::path::{Path, PathBuf};

/// The begin of the names of the owners' folders.
const PREFIX: &str = "owner-";

/// The owner that the store of this registry is.
#[derive(Clone, Debug, Default)]
pub(crate) enum Owner {
    /// The store makes no folder: it is of an earlier version.
    #[default]
    Unknown,
    /// Its folder.
    Known(PathBuf),
    /// Another store takes the folder over.
    Lost,
}

impl Owner {
    /// Finds the owner of a folder, in which the store of this registry has started.
    pub(crate) fn of(folder: &Path) -> io::Result<Owner> {
        let mut found = Owner::Unknown;
        for entry in std::fs::read_dir(folder)? {
            let entry = entry?;
            if entry.file_name().to_str().map_or(false, |name| name.starts_with(PREFIX)) {
                found = match found {
                    Owner::Unknown => Owner::Known(entry.path()),
                    _ => Owner::Lost,
                };
            }
        }
        Ok(found)
    }

    /// Returns the path of a file in the folder of a known owner.
    pub(crate) fn path_of(&self, name: &str) -> Option<PathBuf> {
        match self {
            Owner::Known(path) => Some(path.join(name)),
            _ => None,
        }
    }

    /// Returns whether the store still owns the folder. Its own one is opened and not only looked for, so that a file system over a
    /// network asks its server. Fails if the whole folder is gone.
    pub(crate) fn is_current(&self) -> io::Result<bool> {
        match self {
            Owner::Unknown => Ok(true),
            Owner::Known(path) => match File::open(path) {
                Ok(_) => Ok(true),
                Err(error) if matches!(error.raw_os_error(), Some(libc::ENOENT | libc::ESTALE)) => {
                    path.parent().map_or(Ok(()), |folder| File::open(folder).map(|_| ()))?;
                    Ok(false)
                }
                Err(error) => Err(error),
            },
            Owner::Lost => Ok(false),
        }
    }
}

#[cfg(test)]
mod tests {
    use super::*;
    use crate::database::test_folder::TestFolder;

    #[test]
    fn an_owner_is_current_until_its_folder_is_gone() {
        let folder = TestFolder::new();
        assert!(matches!(Owner::of(&folder.0), Ok(Owner::Unknown)));
        let own = folder.0.join("owner-17");
        std::fs::create_dir(&own).unwrap();
        let owner = Owner::of(&folder.0).unwrap();
        assert!(owner.is_current().unwrap());
        assert_eq!((owner.path_of("log.new"), Owner::Lost.path_of("log.new")), (Some(own.join("log.new")), None));
        std::fs::create_dir(folder.0.join("owner-18")).unwrap();
        assert!(!Owner::of(&folder.0).unwrap().is_current().unwrap());
        assert!(owner.is_current().unwrap());
        std::fs::remove_dir(&own).unwrap();
        assert!(!owner.is_current().unwrap());
        assert!(Owner::of(&folder.0).unwrap().is_current().unwrap());
        std::fs::remove_dir_all(&folder.0).unwrap();
        assert!(owner.is_current().is_err());
    }
}
