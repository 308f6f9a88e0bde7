//! Whether the disk of the folder can be written. From time to time a page of a file is written and synced: what is served from memory
//! shows nothing of a disk that is gone or does not answer.
use crate::operation::locks::guard_of;
use std::fs::OpenOptions;
use std::io;
use std::os::unix::fs::{FileExt, OpenOptionsExt};
use std::path::{Path, PathBuf};
use std::sync::{Arc, Mutex, MutexGuard};
use std::time::{Duration, Instant};

/// The file whose page is written.
const FILE: &str = "probe";

/// The bytes that are written.
const PAGE: [u8; 4096] = [0; 4096];

/// The pause between two probes, and the time in which one has to end.
const REST: Duration = Duration::from_secs(10);
const TIME: Duration = Duration::from_secs(10);

/// The result of the probes so far.
#[derive(Default)]
struct Found {
    /// The time at which the one in progress began.
    begun: Option<Instant>,
    /// Why the last one failed.
    fault: Option<String>,
}

/// The probes of a folder's disk.
pub(crate) struct DiskProbe {
    path: PathBuf,
    found: Mutex<Found>,
}

/// Returns whether a write failed only because the disk is full. Such a disk is read, and deletes make room.
fn is_full(error: &io::Error) -> bool {
    matches!(error.raw_os_error(), Some(libc::ENOSPC | libc::EDQUOT))
}

impl DiskProbe {
    /// Makes the probes of the disk of a folder, of which none was made.
    pub(crate) fn new(folder: &Path) -> DiskProbe {
        DiskProbe { path: folder.join(FILE), found: Mutex::default() }
    }

    fn found(&self) -> MutexGuard<'_, Found> {
        guard_of(self.found.lock())
    }

    /// Returns why the disk cannot be written, if the last probes show that it cannot.
    pub(crate) fn fault(&self) -> Option<String> {
        let found = self.found();
        match found.begun {
            Some(begun) if begun.elapsed() >= TIME => Some(format!("a write takes {} s and goes on", begun.elapsed().as_secs())),
            _ => found.fault.clone(),
        }
    }

    /// Writes and syncs a page.
    fn write(&self) -> io::Result<()> {
        let file = OpenOptions::new().write(true).create(true).mode(0o600).open(&self.path)?;
        file.write_all_at(&PAGE, 0)?;
        file.sync_data()
    }

    /// Makes a probe, and logs if its result is another than that of the one before.
    fn probe(&self) {
        self.found().begun = Some(Instant::now());
        let fault = self.write().err().filter(|error| !is_full(error)).map(|error| error.to_string());
        let mut found = self.found();
        match (&found.fault, &fault) {
            (None, Some(why)) => tracing::error!("the disk of the folder cannot be written: {}: {why}", self.path.display()),
            (Some(_), None) => tracing::info!("the disk of the folder can be written again"),
            _ => {}
        }
        *found = Found { begun: None, fault };
    }

    /// Makes probes for as long as the registry runs.
    pub(crate) async fn run(self: Arc<Self>) {
        loop {
            let probe = self.clone();
            // A probe of a disk that does not answer takes as long as that.
            let _ = tokio::task::spawn_blocking(move || probe.probe()).await;
            tokio::time::sleep(REST).await;
        }
    }
}

#[cfg(test)]
mod tests {
    use super::*;

    #[test]
    fn a_folder_that_is_gone_cannot_be_written() {
        let folder = std::env::temp_dir().join(format!("registryd-probe-{}", std::process::id()));
        let probe = DiskProbe::new(&folder);
        probe.probe();
        assert!(probe.fault().map_or(false, |why| why.contains("No such file")));
        std::fs::create_dir(&folder).unwrap();
        probe.probe();
        assert_eq!(probe.fault(), None);
        assert_eq!(std::fs::metadata(folder.join(FILE)).unwrap().len(), 4096);
        std::fs::remove_dir_all(folder).unwrap();
    }

    #[test]
    fn a_probe_that_lasts_is_a_fault() {
        let probe = DiskProbe::new(Path::new("/no/such/folder"));
        probe.found().begun = Some(Instant::now());
        assert_eq!(probe.fault(), None);
        probe.found().begun = Instant::now().checked_sub(TIME);
        assert_eq!(probe.fault().as_deref(), Some("a write takes 10 s and goes on"));
    }

    #[test]
    fn a_full_disk_is_no_fault() {
        assert!(is_full(&io::Error::from_raw_os_error(libc::ENOSPC)) && !is_full(&io::Error::from_raw_os_error(libc::EIO)));
    }
}
