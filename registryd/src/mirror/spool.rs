//! The bytes of a blob while they come from an upstream: a file without a name, and how far it is filled.
use crate::mirror::failure::UpstreamError;
use std::fs::{File, OpenOptions};
use std::io;
use std::os::unix::fs::{FileExt, OpenOptionsExt};
use std::os::unix::io::FromRawFd;
use std::path::Path;
use tokio::sync::{watch, OnceCell};
use uuid::Uuid;

/// The beginning of the name that a spool's file has until it is removed, which is before a byte is written.
const NAME: &str = "fetch-";

/// How far a fetch is.
#[derive(Clone, Debug, Default)]
pub(crate) struct Progress {
    /// The head of the upstream's response, if it came.
    pub(crate) head: Option<Head>,
    /// The number of bytes that came.
    pub(crate) received: u64,
    /// Whether all bytes came and have the digest, or why not.
    pub(crate) outcome: Option<Result<(), UpstreamError>>,
    /// Whether the store has the blob, once that is known.
    pub(crate) is_stored: Option<bool>,
}

/// What the head of the upstream's response says.
#[derive(Clone, Copy, Debug)]
pub(crate) enum Head {
    /// The bytes come, and are this many if that is known.
    Comes(Option<u64>),
    /// Nothing comes: the store has the blob.
    IsStored,
}

impl Progress {
    /// Returns the number of bytes up to `end` that may be sent. The last one is held back until the digest is known to be right. So
    /// a response that ends at `end` is complete only then.
    pub(crate) fn sendable(&self, end: Option<u64>) -> u64 {
        let most = end.unwrap_or(u64::MAX).min(self.received);
        match self.outcome {
            Some(Ok(())) => most,
            _ => most.min(end.unwrap_or(self.received).saturating_sub(1)),
        }
    }
}

/// The bytes of a blob while they come.
pub(crate) struct Spool {
    /// The file, after the fetch has begun.
    file: OnceCell<File>,
    progress: watch::Sender<Progress>,
}

/// Makes a file in memory.
fn file_in_memory() -> io::Result<File> {
    // SAFETY: the name is a text with a zero at its end.
    let number = unsafe { libc::memfd_create(b"fetch\0".as_ptr().cast(), libc::MFD_CLOEXEC) };
    match number {
        -1 => Err(io::Error::last_os_error()),
        // SAFETY: the descriptor is new, and nothing else has it.
        number => Ok(unsafe { File::from_raw_fd(number) }),
    }
}

/// Makes a file in a folder. Its name is removed at once, so that it ends with the program.
fn file_in(folder: &Path) -> io::Result<File> {
    let path = folder.join(format!("{NAME}{}", Uuid::new_v4()));
    let file = OpenOptions::new().read(true).write(true).create_new(true).mode(0o600).open(&path)?;
    std::fs::remove_file(&path)?;
    Ok(file)
}

/// Removes the files of spools whose names were left by a program that was killed before it removed them.
pub(crate) fn remove_left(folder: &Path) {
    let entries = std::fs::read_dir(folder).into_iter().flatten().flatten();
    for entry in entries.filter(|entry| entry.file_name().to_string_lossy().starts_with(NAME)) {
        let _ = std::fs::remove_file(entry.path());
    }
}

impl Default for Spool {
    fn default() -> Spool {
        Spool { file: OnceCell::new(), progress: watch::channel(Progress::default()).0 }
    }
}

impl Spool {
    /// Makes the file, in a folder if there is one and else in memory.
    pub(super) fn open(&self, folder: Option<&Path>) -> io::Result<()> {
        let file = folder.map_or_else(file_in_memory, file_in)?;
        self.file.set(file).map_err(|_| io::ErrorKind::AlreadyExists.into())
    }

    fn file(&self) -> io::Result<&File> {
        self.file.get().ok_or_else(|| io::ErrorKind::NotFound.into())
    }

    /// Adds bytes at the end.
    pub(super) fn write(&self, bytes: &[u8]) -> io::Result<()> {
        let at = self.progress.borrow().received;
        self.file()?.write_all_at(bytes, at)?;
        self.change(|progress| progress.received += bytes.len() as u64);
        Ok(())
    }

    /// Changes the progress, and wakes those who wait for it.
    pub(super) fn change(&self, change: impl FnOnce(&mut Progress)) {
        self.progress.send_modify(change);
    }

    /// Reads bytes that came, from `start` to `end` exclusive.
    pub(crate) fn read(&self, start: u64, end: u64) -> io::Result<Vec<u8>> {
        let mut bytes = vec![0; (end - start) as usize];
        self.file()?.read_exact_at(&mut bytes, start)?;
        Ok(bytes)
    }

    /// Returns how far the fetch is.
    pub(crate) fn progress(&self) -> Progress {
        self.progress.borrow().clone()
    }

    /// Waits until the progress is as wanted, and returns it.
    pub(crate) async fn wait(&self, is_wanted: impl Fn(&Progress) -> bool) -> Progress {
        let mut receiver = self.progress.subscribe();
        loop {
            let found = receiver.borrow_and_update().clone();
            // The sender is here, so the channel does not close.
            if is_wanted(&found) || receiver.changed().await.is_err() {
                return found;
            }
        }
    }
}

#[cfg(test)]
mod tests {
    use super::*;

    #[tokio::test]
    async fn the_last_byte_waits_for_the_digest() {
        let spool = Spool::default();
        assert!(spool.write(b"abc").is_err());
        spool.open(None).unwrap();
        spool.write(b"abc").unwrap();
        assert_eq!([Some(5), Some(3), Some(2), None].map(|end| spool.progress().sendable(end)), [3, 2, 1, 2]);
        spool.write(b"de").unwrap();
        assert_eq!([Some(5), Some(3), Some(0), None].map(|end| spool.progress().sendable(end)), [4, 2, 0, 4]);
        spool.change(|progress| progress.outcome = Some(Err(UpstreamError::Unknown)));
        assert_eq!(spool.progress().sendable(Some(5)), 4);
        spool.change(|progress| progress.outcome = Some(Ok(())));
        assert_eq!([Some(5), Some(3), None].map(|end| spool.progress().sendable(end)), [5, 3, 5]);
        assert_eq!(spool.read(1, 4).unwrap(), b"bcd");
        assert!(spool.read(3, 6).is_err());
        assert_eq!(spool.wait(|progress| progress.outcome.is_some()).await.received, 5);
    }

    #[test]
    fn a_file_has_no_name() {
        let folder = std::env::temp_dir().join(format!("registryd-spool-{}", Uuid::new_v4()));
        std::fs::create_dir(&folder).unwrap();
        let spool = Spool::default();
        spool.open(Some(&folder)).unwrap();
        spool.write(b"abc").unwrap();
        assert_eq!((spool.read(0, 3).unwrap(), std::fs::read_dir(&folder).unwrap().count()), (b"abc".to_vec(), 0));
        for name in ["fetch-1", "other"] {
            std::fs::write(folder.join(name), "x").unwrap();
        }
        remove_left(&folder);
        assert_eq!(std::fs::read_dir(&folder).unwrap().count(), 1);
        std::fs::remove_dir_all(folder).unwrap();
    }
}
