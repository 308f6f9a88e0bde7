//! The changes of the database, and what they did.
use crate::auth::robots::RobotRow;
use crate::database::upload_numbers::UploadNumbers;
use crate::events::queue::Passed;
use crate::folder::log_end::LogEnd;
use crate::metadata::document::Facts;
use crate::metadata::names::tenant_of;
use crate::metadata::tag::{ExpiredTag, Pull, RemovedTag};
use crate::moving::stage::MoveRow;
use std::collections::HashMap;

/// A change of the database.
#[derive(Clone, Debug, PartialEq, Eq)]
pub(crate) enum Change {
    /// An upload may be opened in a repository.
    AddRepository {
        repo: String,
    },
    /// No upload was opened in a repository, because the store refused it.
    RemoveRepository {
        repo: String,
    },
    /// The store has a manifest, and a tag names it from now on.
    PutManifest {
        repo: String,
        digest: String,
        facts: Facts,
        tag: Option<String>,
    },
    /// The store has a manifest that was to be deleted.
    RestoreManifest {
        repo: String,
        digest: String,
        facts: Facts,
        since: u64,
        tags: Vec<RemovedTag>,
    },
    /// A client has asked for a manifest by its digest at this time, in seconds since 1970.
    TouchManifest {
        repo: String,
        digest: String,
        time: u64,
    },
    RemoveTag {
        repo: String,
        tag: String,
    },
    /// Tags are removed, but for those that were pushed meanwhile.
    ExpireTags {
        repo: String,
        tags: Vec<ExpiredTag>,
    },
    /// Clients pulled tags.
    RecordPulls {
        pulls: Vec<Pull>,
    },
    /// All pulls of tags are recorded since this time, in seconds since 1970, or they are not.
    CountPulls {
        since: Option<u64>,
    },
    /// A manifest is going to be deleted. Its tags are removed too.
    RemoveManifest {
        repo: String,
        digest: String,
    },
    /// A blob is to be unlinked after some time.
    AddLooseBlob {
        repo: String,
        digest: String,
    },
    /// A blob is unlinked, or a manifest refers to it.
    RemoveLooseBlob {
        repo: String,
        digest: String,
    },
    /// A mirror is going to store a copy of a manifest or a blob.
    AddCached {
        repo: String,
        digest: String,
    },
    /// A client has asked for a copy.
    UseCached {
        repo: String,
        digest: String,
    },
    /// A copy is deleted, or was pushed.
    RemoveCached {
        repo: String,
        digest: String,
    },
    OpenUpload {
        repo: String,
        number: u32,
    },
    EndUpload {
        repo: String,
        number: u32,
    },
    /// The store used this number for an upload that is not open.
    PassUpload {
        repo: String,
        number: u32,
    },
    /// The store used all numbers of a tenant up to this one before, or for an upload that is not open.
    BeginUploads {
        repo: String,
        number: u32,
    },
    /// An account of a machine was made.
    AddRobot {
        row: RobotRow,
    },
    /// An account of a machine was revoked.
    RemoveRobot {
        name: String,
    },
    /// A tenant's move to another registry has reached a stage that a restart keeps, or no such stage. The robots have arrived with it.
    SetMove {
        tenant: String,
        row: Option<MoveRow>,
        robots: Vec<RobotRow>,
    },
    /// The log is on the disk up to this end.
    KeepLogEnd {
        end: LogEnd,
    },
    /// Something was done that the database does not have. Only its events are recorded.
    AddEvents,
    /// Receivers have more events than before.
    PassEvents {
        passed: Passed,
    },
    /// Only the time of the transaction is recorded.
    KeepTime,
}

/// What a change did to tags.
#[derive(Debug, PartialEq, Eq)]
pub(crate) enum Done {
    Nothing,
    /// Tags were removed.
    Removed(Vec<String>),
    /// All tags of a manifest were removed.
    RemovedAll(Vec<RemovedTag>),
}

impl Change {
    /// Returns the repository whose numbers of manifests and tags it may change.
    pub(super) fn counted(&self) -> Option<&str> {
        match self {
            Change::PutManifest { repo, .. }
            | Change::RestoreManifest { repo, .. }
            | Change::RemoveTag { repo, .. }
            | Change::ExpireTags { repo, .. }
            | Change::RemoveManifest { repo, .. } => Some(repo),
            _ => None,
        }
    }

    /// Returns whether there is nothing but events.
    pub(super) fn is_event(&self) -> bool {
        matches!(self, Change::AddEvents)
    }

    /// Returns whether the change is made later if the disk has no room now, although a request waits for it: it restores what an
    /// earlier change took away, or it is true already.
    pub(super) fn stays(&self) -> bool {
        matches!(self, Change::RestoreManifest { .. } | Change::RemoveRobot { .. })
    }

    /// Notes the number of an upload. Returns the tenant if the number changed up to which all are recorded.
    pub(super) fn see_number(&self, numbers: &mut HashMap<String, UploadNumbers>) -> Option<&str> {
        match self {
            Change::OpenUpload { repo, number } | Change::PassUpload { repo, number } => {
                let tenant = tenant_of(repo);
                numbers.entry(tenant.to_string()).or_default().see(*number).then_some(tenant)
            }
            Change::BeginUploads { repo, number } => {
                numbers.entry(tenant_of(repo).to_string()).or_default().see_all(*number);
                Some(tenant_of(repo))
            }
            _ => None,
        }
    }
}
