//! What a start finds to be lost although it was on the disk. With `--sync closes` and `each` no crash leaves such a state: a file
//! was removed, or replaced by an older one or by that of another registry.
use crate::database::marks::Marks;
use crate::database::rows::{ManifestKey, TagRow};
use crate::database::sqlite::FILE_NAME;
use crate::folder::log_end::LogEnd;
use crate::operation::exit::Failure;
use std::collections::BTreeSet;
use std::fmt;

/// The greatest number of lost manifests and tags that the text of a loss names.
const NAMED: usize = 10;

/// Something that was on the disk and is lost.
#[derive(Debug, PartialEq, Eq)]
pub(crate) enum Loss {
    /// There is a log, and no database.
    Database,
    /// The database was replaced by one with this number of transactions fewer.
    Transactions(u64),
    /// There is a database of a log, and no log.
    Log,
    /// The log is not the one of the database.
    OtherLog,
    /// The log ends before a place that was on the disk.
    LogEnd { end: LogEnd, kept: LogEnd },
    /// The store does not have manifests of the database. The text names the first ones.
    Manifests { manifests: usize, tags: usize, names: Vec<String> },
    /// The store uses the numbers of uploads again.
    Uploads,
}

/// Writes the place where a log ends.
fn place(text: &mut fmt::Formatter, end: &LogEnd) -> fmt::Result {
    match end.is_whole() {
        true => write!(text, "the end of file {}", end.file),
        false => write!(text, "byte {} of file {}", end.length, end.file),
    }
}

impl fmt::Display for Loss {
    fn fmt(&self, text: &mut fmt::Formatter) -> fmt::Result {
        match self {
            Loss::Database => write!(text, "{FILE_NAME} is missing or empty, and there is a log: all tags are lost"),
            Loss::Transactions(count) => write!(text, "{FILE_NAME} is older than the log: {count} of its transactions are lost"),
            Loss::Log => write!(text, "the log is missing, and {FILE_NAME} has had one: all blobs and manifests are lost"),
            Loss::OtherLog => write!(text, "the log is not the one of {FILE_NAME}"),
            Loss::LogEnd { end, kept } => {
                write!(text, "the log is older than {FILE_NAME}, or its last files are missing: it ends at ")?;
                place(text, end)?;
                text.write_str(", and was on the disk up to ")?;
                place(text, kept)
            }
            Loss::Manifests { manifests, tags, names } => {
                write!(text, "the store does not have {manifests} manifests of {FILE_NAME} with {tags} tags: ")?;
                text.write_str(&names[..names.len().min(NAMED)].join(", "))?;
                match names.len().saturating_sub(NAMED) {
                    0 => Ok(()),
                    others => write!(text, " and {others} more"),
                }
            }
            Loss::Uploads => text.write_str("the store has lost uploads: clients have to begin all open uploads again"),
        }
    }
}

impl Loss {
    /// Returns what is lost of the log or of the database by their marks, if anything is. `has_log` is whether there is a log,
    /// and `end` its end, if that can be read.
    pub(super) fn by_marks(marks: &Marks, older_by: u64, has_log: bool, end: Option<LogEnd>) -> Option<Loss> {
        match (marks.log_end, end) {
            (Some(_), _) if !has_log => Some(Loss::Log),
            (Some(kept), Some(end)) if kept.log != end.log => Some(Loss::OtherLog),
            (Some(kept), Some(end)) if end.is_before(&kept) => Some(Loss::LogEnd { end, kept }),
            _ if older_by > 0 => Some(Loss::Transactions(older_by)),
            _ => None,
        }
    }

    /// Returns the names of all lost tags and manifests.
    fn names(&self) -> &[String] {
        match self {
            Loss::Manifests { names, .. } => names,
            _ => &[],
        }
    }

    /// Returns the loss of manifests and their tags. The tags are named first.
    pub(super) fn of_manifests(missing: &[ManifestKey], tags: &[TagRow]) -> Loss {
        let lost: BTreeSet<(&str, &str)> = missing.iter().map(|(repo, digest)| (&**repo, &**digest)).collect();
        let tags = tags.iter().filter(|row| lost.contains(&(&*row.repo, &*row.digest)));
        let tags: BTreeSet<(&str, &str, &str)> = tags.map(|row| (&*row.repo, &*row.tag, &*row.digest)).collect();
        let tagged: BTreeSet<(&str, &str)> = tags.iter().map(|(repo, _, digest)| (*repo, *digest)).collect();
        let by_tag = tags.iter().map(|(repo, tag, digest)| format!("{repo}:{tag} ({digest})"));
        let by_digest = lost.difference(&tagged).map(|(repo, digest)| format!("{repo}@{digest}"));
        let names = by_tag.chain(by_digest).collect();
        Loss::Manifests { manifests: missing.len(), tags: tags.len(), names }
    }
}

/// What a start does about a loss.
#[derive(Clone, Copy, Debug, PartialEq, Eq)]
pub(super) enum OnLoss {
    /// It ends.
    End,
    /// It goes on, because the operator accepts the loss.
    Accept,
    /// It goes on, because a start had no syncs, so that a crash may have left it.
    GoOn,
}

impl OnLoss {
    /// Logs a loss, or fails with it.
    pub(super) fn meet(self, loss: &Loss) -> Result<(), Failure> {
        match self {
            OnLoss::End => return Err(Failure::of_loss(loss)),
            OnLoss::Accept => {
                tracing::warn!("accepted a loss: {loss}");
                loss.names().iter().for_each(|name| tracing::warn!("lost: {name}"));
            }
            OnLoss::GoOn => tracing::warn!("a crash may leave this after a start with --sync never: {loss}"),
        }
        Ok(())
    }
}

#[cfg(test)]
mod tests {
    use super::*;

    fn end(log: u64, file: u64, length: u64) -> LogEnd {
        LogEnd { log, file, length }
    }

    #[test]
    fn the_marks_show_which_is_older() {
        let marks = |log_end| Marks { log_end, ..Marks::default() };
        let kept = Some(end(7, 3, 100));
        for found in [end(7, 3, 100), end(7, 3, 101), end(7, 4, 32)] {
            assert_eq!(Loss::by_marks(&marks(kept), 0, true, Some(found)), None, "{found:?}");
        }
        let older = end(7, 3, 99);
        let lost = Loss::LogEnd { end: older, kept: end(7, 3, 100) };
        assert_eq!(Loss::by_marks(&marks(kept), 0, true, Some(older)), Some(lost));
        assert_eq!(Loss::by_marks(&marks(kept), 0, true, Some(end(8, 9, 100))), Some(Loss::OtherLog));
        assert_eq!(Loss::by_marks(&marks(kept), 0, false, None), Some(Loss::Log));
        assert_eq!(Loss::by_marks(&marks(kept), 4, true, Some(end(7, 4, 32))), Some(Loss::Transactions(4)));
        // A header that cannot be read is left to the store, and a database of an earlier version has no mark.
        assert_eq!(Loss::by_marks(&marks(kept), 0, true, None), None);
        assert_eq!(Loss::by_marks(&marks(None), 0, true, Some(older)), None);
    }

    #[test]
    fn the_first_lost_tags_and_manifests_are_named() {
        let missing: Vec<ManifestKey> = (0..12).map(|number| ("a/b".to_string(), format!("d{number:02}"))).collect();
        let tag = |tag: &str, digest: &str| TagRow { repo: "a/b".to_string(), tag: tag.to_string(), digest: digest.to_string() };
        let tags = [tag("v2", "d01"), tag("v1", "d01"), tag("other", "kept")];
        let text = Loss::of_manifests(&missing, &tags).to_string();
        let expected = "12 manifests of registry.db with 2 tags: a/b:v1 (d01), a/b:v2 (d01), a/b@d00, a/b@d02, ";
        assert!(text.contains(expected) && text.ends_with(", a/b@d08 and 3 more"), "{text}");
        let text = Loss::of_manifests(&missing[..1], &[]).to_string();
        assert!(text.ends_with("1 manifests of registry.db with 0 tags: a/b@d00"), "{text}");
    }

    #[test]
    fn only_a_start_that_may_lose_goes_on() {
        assert_eq!(OnLoss::End.meet(&Loss::Uploads).unwrap_err().status, 8);
        assert!(OnLoss::Accept.meet(&Loss::Uploads).is_ok() && OnLoss::GoOn.meet(&Loss::Uploads).is_ok());
    }
}
