//! The state of the registry, which all requests share.
use crate::auth::access::{Access, Caller};
use crate::browse::pages::Pages;
use crate::events::reporter::{Recorder, Reporter};
use crate::folder::damaged::DamagedContents;
use crate::folder::disk_probe::DiskProbe;
use crate::folder::files::Folder;
use crate::folder::scrub::Scrub;
use crate::http::fault::Fault;
use crate::http::in_flight::Memory;
use crate::metadata::bounds::Bounds;
use crate::metadata::cached::CachedContents;
use crate::metadata::immutable_tags::ImmutableTags;
use crate::metadata::limits::Limits;
use crate::metadata::loose_blobs::LooseBlobs;
use crate::metadata::manifests::Manifests;
use crate::metadata::open_uploads::OpenUploads;
use crate::metadata::repositories::Repositories;
use crate::metadata::repository::Removal;
use crate::metadata::turns::Turns;
use crate::mirror::mirrors::Mirrors;
use crate::moving::moves::Moves;
use crate::operation::collector::SweepRequests;
use crate::operation::health::Draining;
use crate::operation::log::DebugScope;
use crate::operation::metrics::Metrics;
use crate::operation::status::SweepHistory;
use crate::operation::tag_rules::Retention;
use crate::signatures::checking::SignedTags;
use crate::start::provenance::Provenance;
use crate::store::client::Store;
use crate::store::frames::{Reason, Refusal};
use crate::tenants::bounds::TenantBounds;
use crate::tenants::served::ServedTenants;
use hyper::StatusCode;
use std::collections::BTreeMap;
use std::sync::Arc;
use std::time::Duration;

/// The state of the registry.
pub(crate) struct Registry {
    pub(crate) store: Store,
    pub(crate) access: Access,
    pub(crate) uploads: OpenUploads,
    pub(crate) repositories: Repositories,
    pub(crate) manifests: Manifests,
    /// The blobs that are to be unlinked after some time.
    pub(crate) loose: LooseBlobs,
    /// The tenants that are copies of other registries.
    pub(crate) mirrors: Mirrors,
    /// The manifests and blobs that mirrors copied.
    pub(crate) cached: CachedContents,
    /// The tenants that move to or from other registries.
    pub(crate) moves: Moves,
    /// The folder, if the registry survives restarts.
    pub(crate) folder: Option<Folder>,
    /// The probes of its disk.
    pub(crate) disk_probe: Option<Arc<DiskProbe>>,
    /// The reads of the log and of contents while clients are served.
    pub(crate) scrub: Option<Arc<Scrub>>,
    /// The contents that were found damaged.
    pub(crate) damaged: Arc<DamagedContents>,
    /// The writers of a manifest take turns, each for the time of its call to the store. Readers take no turn. With immutable tags, the
    /// writers of a tag take turns too.
    pub(crate) turns: Turns,
    pub(crate) metrics: Metrics,
    /// The requests for a sweep.
    pub(crate) sweep_requests: SweepRequests,
    /// The sweeps that the page of the administrator shows.
    pub(crate) sweeps: SweepHistory,
    pub(crate) memory: Arc<Memory>,
    pub(crate) metrics_access: MetricsAccess,
    /// The pages on which people browse the registry, if they are served.
    pub(crate) pages: Option<Arc<Pages>>,
    pub(crate) tenants: Arc<ServedTenants>,
    pub(crate) slots: u32,
    /// The maximum length of a blob, in bytes.
    pub(crate) max_blob: u64,
    /// Whether the store hashes contents in files by SHA-256 alone.
    pub(crate) hashes_once: bool,
    /// The limits of each tenant in the store.
    pub(crate) limits: Limits,
    /// The bounds on the manifests and tags of each tenant.
    pub(crate) bounds: TenantBounds,
    /// The condition on which a client's delete of a manifest is made.
    pub(crate) asked_removal: Removal,
    /// The tags that no client moves or deletes, if there is a file of them.
    pub(crate) immutable_tags: Option<ImmutableTags>,
    /// The tags that are served only if their images are signed, if there is a file of them.
    pub(crate) signed_tags: Option<SignedTags>,
    /// The rules that let tags go, if there is a file of them.
    pub(crate) retention: Option<Retention>,
    /// The time since which all pulls of tags are known, in seconds since 1970, if they are counted.
    pub(crate) pulls_since: Option<u64>,
    /// The time after which manifests are deleted that nothing holds, if they are.
    pub(crate) keeps_untagged: Option<Duration>,
    /// The recorder of events, if there is a file of receivers.
    pub(crate) events: Option<Arc<Recorder>>,
    /// Where the store's program comes from.
    pub(crate) provenance: Provenance,
    /// The requests that are logged in detail.
    pub(crate) debug: DebugScope,
    pub(crate) draining: Draining,
    /// The time of the start, in seconds since 1970.
    pub(crate) started: u64,
}

/// The rule that decides which requests may read the metrics and the state of all tenants.
#[derive(Clone, Debug, PartialEq, Eq)]
pub(crate) enum MetricsAccess {
    /// All requests.
    Anybody,
    /// Requests of one user.
    User(String),
    /// No requests.
    Nobody,
    /// Requests on another address.
    Elsewhere,
}

impl MetricsAccess {
    /// Fails if the sender of a request may not read the metrics.
    pub(super) fn check(&self, caller: &Caller) -> Result<(), Fault> {
        match self {
            MetricsAccess::Anybody => Ok(()),
            MetricsAccess::User(reader) if caller.is_user(reader) => Ok(()),
            _ => Err(Fault::new(StatusCode::FORBIDDEN, "DENIED", "only the user of --metrics-user may read this")),
        }
    }
}

impl Registry {
    /// Returns the bounds on the manifests and tags of a repository's tenant.
    pub(crate) fn bounds_of(&self, repo: &str) -> Bounds {
        self.bounds.of(repo)
    }

    /// Returns whether no client moves or deletes a tag of a repository.
    pub(crate) fn is_immutable(&self, repo: &str, tag: &str) -> bool {
        self.immutable_tags.as_ref().map_or(false, |tags| tags.cover(repo, tag))
    }

    /// Returns the lines that may cover tags of a tenant, sorted, by the option of their file. They have a form in which two registries can
    /// be compared.
    pub(crate) fn rules_for(&self, tenant: &str) -> BTreeMap<String, Vec<String>> {
        let lines = [
            ("--immutable-tags", self.immutable_tags.as_ref().map(|tags| tags.current().lines_for(tenant))),
            ("--signed-tags", self.signed_tags.as_ref().map(|tags| tags.current().lines_for(tenant))),
            ("--retention", self.retention.as_ref().map(|retention| retention.current().lines_for(tenant))),
        ];
        let mut found = BTreeMap::new();
        for (option, lines) in lines {
            let mut lines = lines.unwrap_or_default();
            lines.sort();
            found.insert(option.to_string(), lines);
        }
        found
    }

    /// Returns the result of a read of a blob. Logs and counts a content that is damaged.
    pub(crate) fn check_read<T>(&self, repo: &str, digest: &str, read: Result<T, Refusal>) -> Result<T, Refusal> {
        if let Err(Refusal { reason: Reason::Unreadable, .. }) = &read {
            self.metrics.count_damaged_read();
            self.damaged.add(digest);
            tracing::error!(repository = repo, digest, "a read failed: the content is damaged: push it again");
        }
        read
    }

    /// Returns the reporter of the registry's own work, if there are receivers of events.
    pub(crate) fn own_reporter(&self) -> Option<Reporter> {
        self.events.as_ref().map(|events| events.of_own_work())
    }

    /// Returns whether the disk of the folder has room for changes without content.
    pub(crate) fn has_room(&self) -> bool {
        self.folder.as_ref().map_or(true, |folder| folder.room.make())
    }
}
