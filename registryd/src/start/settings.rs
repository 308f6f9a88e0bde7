//! The settings of the registry's parts, which follow from the options.
use crate::endpoints::registry::MetricsAccess;
use crate::folder::scrub::DEFAULT_PACE;
use crate::metadata::bounds::Bounds;
use crate::metadata::limits::Limits;
use crate::metadata::open_uploads::UploadTimeouts;
use crate::metadata::repository::Removal;
use crate::operation::log::DebugScope;
use crate::start::option_values::SyncPolicy;
use crate::start::options::Options;
use std::ffi::OsString;
use std::time::Duration;

/// The minimum of free bytes if the option is missing.
const MIN_FREE: u64 = 64 << 20;

/// The length of the reserve if the option is missing, in bytes.
const RESERVE: u64 = 64 << 20;

/// The maximum number of events that wait for a receiver if the option is missing.
const EVENT_QUEUE: u32 = 10_000;

impl Options {
    /// Returns the times after which unused uploads are abandoned.
    pub(super) fn patience(&self) -> UploadTimeouts {
        let (begun, empty) = (Duration::from_secs(self.session_s), Duration::from_secs(self.empty_session_s));
        UploadTimeouts { begun, empty }
    }

    /// Returns the limits of each tenant in the store.
    pub(super) fn limits(&self) -> Limits {
        let Options { repositories, repository_manifests, uploads, .. } = *self;
        Limits { repositories: repositories as usize, manifests: repository_manifests as usize, uploads: uploads as usize }
    }

    /// Returns the bounds on the manifests and tags of each tenant, as far as they are given.
    pub(super) fn bounds(&self) -> Bounds {
        let Options { manifests, manifest_bytes, tags, .. } = *self;
        Bounds { manifests, manifest_bytes, tags }
    }

    /// Returns the condition on which a client's delete of a manifest is made.
    pub(super) fn asked_removal(&self) -> Removal {
        match self.delete_listed {
            true => Removal::AskedEvenIfListed,
            false => Removal::Asked,
        }
    }

    /// Returns when changes are on the disk.
    pub(super) fn sync_policy(&self) -> SyncPolicy {
        self.sync.unwrap_or(SyncPolicy::Closes)
    }

    /// Returns the number of bytes that stay free on the disk of the folder.
    pub(super) fn min_free(&self) -> u64 {
        self.min_free.unwrap_or(MIN_FREE)
    }

    /// Returns the pace at which closed files of the log are read again, in MiB a second, or `None` if they are not.
    pub(super) fn scrub_pace(&self) -> Option<u64> {
        Some(self.scrub_mib_s.unwrap_or(DEFAULT_PACE)).filter(|pace| self.data.is_some() && *pace > 0)
    }

    /// Returns the length of the reserve, in bytes.
    pub(super) fn reserve(&self) -> u64 {
        self.reserve.unwrap_or(RESERVE)
    }

    /// Returns the requests that are logged in detail.
    pub(super) fn debug_scope(&self) -> DebugScope {
        DebugScope(self.debug_only.clone())
    }

    /// Returns the maximum number of events that wait for a receiver.
    pub(super) fn event_queue(&self) -> usize {
        self.event_queue.unwrap_or(EVENT_QUEUE) as usize
    }

    /// Returns whether changes are on the disk before their replies.
    pub(super) fn is_durable(&self) -> bool {
        self.data.is_some() && self.sync_policy() != SyncPolicy::Never
    }

    /// Returns the options of `blobd`.
    pub(super) fn store_options(&self) -> Vec<OsString> {
        let data = match &self.data {
            Some(data) => data,
            None => return Vec::new(),
        };
        let policy = match self.sync_policy() {
            SyncPolicy::Closes => "closes",
            SyncPolicy::Each => "each",
            SyncPolicy::Never => "never",
        };
        let mut words: Vec<OsString> = vec!["--data".into(), data.into(), "--sync".into(), policy.into()];
        if let Some(byte) = self.accept_loss_after {
            words.extend(["--accept-loss-after".into(), byte.to_string().into()]);
        }
        if self.sha512 {
            words.push("--sha512".into());
        }
        words
    }

    /// Returns the rule that decides who may read the metrics.
    pub(super) fn metrics_access(&self) -> MetricsAccess {
        match (&self.metrics_listen, &self.metrics_user) {
            (Some(_), _) => MetricsAccess::Elsewhere,
            (None, Some(user)) => MetricsAccess::User(user.clone()),
            (None, None) if self.has_users() => MetricsAccess::Nobody,
            (None, None) => MetricsAccess::Anybody,
        }
    }
}

#[cfg(test)]
mod tests {
    use super::*;
    use crate::start::options::parsed;
    use clap::Parser;

    #[test]
    fn the_metrics_have_one_place() {
        assert_eq!(parsed(&["a=1"]).metrics_access(), MetricsAccess::Anybody);
        assert_eq!(parsed(&["--htpasswd", "users", "a=1"]).metrics_access(), MetricsAccess::Nobody);
        assert_eq!(parsed(&["--oidc", "issuers", "a=1"]).metrics_access(), MetricsAccess::Nobody);
        let named = parsed(&["--htpasswd", "users", "--metrics-user", "prometheus", "a=1"]);
        assert_eq!(named.metrics_access(), MetricsAccess::User("prometheus".to_string()));
        assert_eq!(parsed(&["--metrics-listen", "127.0.0.1:1", "a=1"]).metrics_access(), MetricsAccess::Elsewhere);
        assert!(Options::try_parse_from(["registryd", "--metrics-user", "prometheus", "a=1"]).is_err());
    }

    #[test]
    fn a_folder_has_a_policy() {
        let memory = parsed(&["a=1"]);
        assert!(memory.store_options().is_empty() && !memory.is_durable());
        let kept = parsed(&["--data", "/srv/registry", "a=1"]);
        assert_eq!(kept.store_options(), ["--data", "/srv/registry", "--sync", "closes"]);
        assert_eq!((kept.is_durable(), kept.min_free(), kept.reserve()), (true, 64 << 20, 64 << 20));
        let words = ["--data", "d", "--sync", "never", "--accept-loss-after", "7", "--sha512", "--min-free", "0", "a=1"];
        let never = parsed(&words);
        assert_eq!(never.store_options(), ["--data", "d", "--sync", "never", "--accept-loss-after", "7", "--sha512"]);
        assert_eq!((never.is_durable(), never.min_free()), (false, 0));
        assert_eq!((memory.scrub_pace(), kept.scrub_pace()), (None, Some(DEFAULT_PACE)));
        assert_eq!(parsed(&["--data", "d", "--scrub-mib-s", "0", "a=1"]).scrub_pace(), None);
        let words: [&[&str]; 7] = [
            &["--sync", "each"],
            &["--sha512"],
            &["--accept-loss-after", "1"],
            &["--accept-loss"],
            &["--min-free", "1"],
            &["--reserve", "1"],
            &["--scrub-mib-s", "1"],
        ];
        for words in words {
            assert!(Options::try_parse_from([&["registryd"], words, &["a=1"]].concat()).is_err(), "{words:?}");
        }
    }

    #[test]
    fn manifests_and_tags_are_not_limited_unless_it_is_asked_for() {
        assert_eq!(parsed(&["a=1"]).bounds(), Bounds::default());
        let words = ["--manifests", "5", "--manifest-bytes", "1000", "--tags", "0", "a=1"];
        assert_eq!(parsed(&words).bounds(), Bounds { manifests: Some(5), manifest_bytes: Some(1000), tags: Some(0) });
    }
}
