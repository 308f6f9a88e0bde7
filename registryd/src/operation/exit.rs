//! The ways in which the program ends, and its exit statuses.
use crate::database::sqlite::{OpenError, Problem};
use crate::start::losses::Loss;
use std::os::unix::process::ExitStatusExt;
use std::path::Path;
use std::process::ExitStatus;
use std::{fmt, io};

/// The exit status for a folder that cannot be used.
const UNUSABLE: u8 = 6;

/// The exit status for a folder or a database that another process has.
const TAKEN: u8 = 7;

/// The exit status for a log or a database that is damaged, lost or replaced.
const DAMAGED: u8 = 8;

/// The exit status for a database or a log that cannot be written any more.
const NOT_WRITTEN: u8 = 9;

/// The exit status for a log that needs other settings.
pub(crate) const OTHER_SETTINGS: u8 = 10;

/// A failure that ends the program: its exit status, and what is logged.
#[derive(Debug)]
pub(crate) struct Failure {
    pub(crate) status: u8,
    text: String,
}

/// Ends the program with status 1. `blobd` ends when its connections are closed, as after a kill.
pub(crate) fn end_at_once(why: &str) -> ! {
    end_with(&Failure::new(why))
}

/// Ends the program after a failure.
pub(crate) fn end_with(failure: &Failure) -> ! {
    tracing::error!("{failure}");
    std::process::exit(failure.status.into())
}

impl Failure {
    /// Makes a failure with the status 1.
    pub(crate) fn new(text: impl Into<String>) -> Failure {
        Failure { status: 1, text: text.into() }
    }

    /// `blobd` ended by itself. A status that it has for a folder is the status of this program too.
    pub(crate) fn of_blobd(what: &str, ended: ExitStatus) -> Failure {
        let (status, advice) = match (ended.code(), ended.signal()) {
            (_, Some(_)) => (1, "start again"),
            (Some(5), _) => (1, "out of memory: give the store more, or lower --slots, --max-blob or the quotas"),
            (Some(6), _) => (6, "the folder of --data or a file in it cannot be used: see to its rights and its disk"),
            (Some(7), _) => (7, "another process has the folder of --data: end that one, or let it go on"),
            (Some(8), _) => (
                8,
                "the log in the folder of --data is damaged, or is no log of this version, or a content is missing: restore a \
                     backup, or go on with what is left with --accept-loss, or with what is before the byte that blobd names \
                     with --accept-loss-after",
            ),
            (Some(9), _) => (9, "the log cannot be written any more: make room or replace the disk, and start again"),
            (Some(10), _) => (
                OTHER_SETTINGS,
                "the log needs other settings: start with the tenant, quota, share, --slots or --max-blob that blobd names",
            ),
            _ => (1, "see its message"),
        };
        Failure { status, text: format!("{what}: blobd ended: {ended}: {advice}") }
    }

    /// A file of the folder cannot be used.
    pub(crate) fn of_folder(what: &str, path: &Path, error: &io::Error) -> Failure {
        let text = format!("{what}: {}: {error}: see to its rights and its disk", path.display());
        Failure { status: UNUSABLE, text }
    }

    /// The kind of the folder's file system was seen to break a promise.
    pub(crate) fn of_file_system(folder: &Path, kind: &str) -> Failure {
        let text = format!(
            "cannot use the folder: {}: its file system, {kind}, was seen to lose what was acknowledged: give another folder, or --any-file-system",
            folder.display()
        );
        Failure { status: UNUSABLE, text }
    }

    /// Another process has the folder.
    pub(crate) fn of_taken_folder() -> Failure {
        Failure { status: TAKEN, text: "another process has the folder of --data: end that one".to_string() }
    }

    /// Another process has taken the folder over.
    pub(crate) fn of_lost_folder() -> Failure {
        let text = "another process has taken over the folder of --data: nothing was acknowledged since".to_string();
        Failure { status: TAKEN, text }
    }

    /// Something that was on the disk is lost.
    pub(crate) fn of_loss(loss: &Loss) -> Failure {
        let advice = "restore what is missing from a backup, or accept the loss with --accept-loss";
        Failure { status: DAMAGED, text: format!("data that was on the disk is lost: {loss}: {advice}") }
    }

    /// A file that the programs have open is gone from its place.
    pub(crate) fn of_gone(path: &Path) -> Failure {
        let text = format!("{} was removed, moved or replaced: put it back before the next start", path.display());
        Failure { status: NOT_WRITTEN, text }
    }

    /// The folder, or a file that the programs have open, cannot be reached.
    pub(crate) fn of_unreachable(path: &Path, error: &io::Error) -> Failure {
        let advice = "see to its disk, its rights and its network, and start again";
        Failure { status: NOT_WRITTEN, text: format!("cannot reach {}: {error}: {advice}", path.display()) }
    }

    /// The log could not be synced.
    pub(crate) fn of_log(error: &io::Error) -> Failure {
        let advice = "make room or replace the disk, and start again";
        Failure { status: NOT_WRITTEN, text: format!("the log cannot be synced: {error}: {advice}") }
    }

    /// The database could not be read, so that nobody can say which tags there are.
    pub(crate) fn of_unread_database(why: &str) -> Failure {
        let text = format!("the database cannot be read any more: {why}: see to its disk and to the memory, and start again");
        Failure { status: NOT_WRITTEN, text }
    }

    /// A transaction of the database failed.
    pub(crate) fn of_database(why: &str) -> Failure {
        let advice = "make room or replace the disk, and start again";
        Failure { status: NOT_WRITTEN, text: format!("the database cannot be written any more: {why}: {advice}") }
    }
}

impl fmt::Display for Failure {
    fn fmt(&self, text: &mut fmt::Formatter) -> fmt::Result {
        text.write_str(&self.text)
    }
}

impl From<String> for Failure {
    fn from(text: String) -> Failure {
        Failure::new(text)
    }
}

impl From<std::io::Error> for Failure {
    fn from(error: std::io::Error) -> Failure {
        Failure::new(error.to_string())
    }
}

impl From<OpenError> for Failure {
    fn from(error: OpenError) -> Failure {
        let (status, advice) = match error.problem {
            Problem::Unusable => (UNUSABLE, "see to its rights and its disk"),
            Problem::Taken => (TAKEN, "another process has it: end that one"),
            Problem::Damaged => (DAMAGED, "restore a backup"),
            Problem::Earlier => (DAMAGED, "make room, and start again"),
            Problem::Later => (DAMAGED, "start the later version, or restore a backup"),
        };
        Failure { status, text: format!("{error}: {advice}") }
    }
}

#[cfg(test)]
mod tests {
    use super::*;

    #[test]
    fn a_file_that_cannot_be_reached_is_not_called_gone() {
        let failure = Failure::of_unreachable(Path::new("/data/lock"), &io::Error::from_raw_os_error(libc::EIO));
        let text = failure.to_string();
        assert!(text.starts_with("cannot reach /data/lock: Input/output error (os error 5): "), "{text}");
        assert_eq!((failure.status, Failure::of_gone(Path::new("/data/lock")).status), (NOT_WRITTEN, NOT_WRITTEN));
    }

    #[test]
    fn the_statuses_of_a_folder_are_those_of_blobd() {
        for code in 0..=12 {
            let failure = Failure::of_blobd("the store is gone", ExitStatus::from_raw(code << 8));
            let status = if (6..=10).contains(&code) { code as u8 } else { 1 };
            assert_eq!(failure.status, status, "{failure}");
        }
        let killed = Failure::of_blobd("the store is gone", ExitStatus::from_raw(9));
        assert_eq!(killed.status, 1);
        assert!(killed.to_string().contains("signal: 9"), "{killed}");
    }
}
