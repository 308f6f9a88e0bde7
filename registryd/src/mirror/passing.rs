//! What a mirror knows of its upstream and the store does not: which manifest a tag named when it was asked for last, and the manifests
//! whose blobs are not all here yet.
use crate::mirror::failure::UpstreamError;
use crate::mirror::upstream::FetchedManifest;
use crate::operation::locks::guard_of;
use std::collections::{BTreeMap, HashMap, VecDeque};
use std::sync::{Arc, Mutex};
use std::time::{Duration, Instant};

/// The maximum number of tags whose time is kept.
const MAX_TAGS: usize = 65_536;

/// The maximum number of manifests that are not stored, and of their bytes.
const MAX_MANIFESTS: (usize, usize) = (512, 32 << 20);

/// What a tag named when the upstream was asked for it.
struct CheckedTag {
    digest: String,
    time: Instant,
}

/// The tags that were asked for, by repository and tag.
#[derive(Default)]
pub(super) struct CheckedTags(Mutex<BTreeMap<(String, String), CheckedTag>>);

impl CheckedTags {
    /// Notes what a tag names now.
    pub(super) fn put(&self, repo: &str, tag: &str, digest: &str) {
        let mut tags = guard_of(self.0.lock());
        if tags.len() >= MAX_TAGS {
            tags.clear();
        }
        let checked = CheckedTag { digest: digest.to_string(), time: Instant::now() };
        tags.insert((repo.to_string(), tag.to_string()), checked);
    }

    /// Returns what a tag named, if that was asked for in this time.
    pub(super) fn fresh(&self, repo: &str, tag: &str, time: Duration) -> Option<String> {
        let tags = guard_of(self.0.lock());
        let checked = tags.get(&(repo.to_string(), tag.to_string()))?;
        (checked.time.elapsed() < time).then(|| checked.digest.clone())
    }

    /// Returns what a tag named when it was asked for last.
    pub(super) fn last(&self, repo: &str, tag: &str) -> Option<String> {
        self.fresh(repo, tag, Duration::MAX)
    }

    /// Returns the tags that named a manifest when they were asked for last.
    pub(super) fn of(&self, repo: &str, digest: &str) -> Vec<String> {
        let tags = guard_of(self.0.lock());
        let from = tags.range((repo.to_string(), String::new())..);
        let own = from.take_while(|((own, _), _)| own == repo).filter(|(_, checked)| checked.digest == digest);
        own.map(|((_, tag), _)| tag.clone()).collect()
    }
}

/// The maximum number of failures that are kept.
const MAX_FAILURES: usize = 1024;

/// The last failures of the upstream, by repository and reference, for those who waited meanwhile.
#[derive(Default)]
pub(super) struct LastFailures(Mutex<HashMap<(String, String), (Instant, UpstreamError)>>);

impl LastFailures {
    /// Notes a failure, and returns it.
    pub(super) fn note(&self, repo: &str, reference: &str, error: UpstreamError) -> UpstreamError {
        let mut failures = guard_of(self.0.lock());
        if failures.len() >= MAX_FAILURES {
            failures.clear();
        }
        failures.insert((repo.to_string(), reference.to_string()), (Instant::now(), error.clone()));
        error
    }

    /// Returns the last failure, if it came after a time.
    pub(super) fn since(&self, repo: &str, reference: &str, time: Instant) -> Option<UpstreamError> {
        let failures = guard_of(self.0.lock());
        let (noted, error) = failures.get(&(repo.to_string(), reference.to_string()))?;
        (*noted > time).then(|| error.clone())
    }
}

/// A manifest that is not stored, and its repository.
struct Passing {
    repo: String,
    manifest: Arc<FetchedManifest>,
}

/// The manifests that are not stored, the oldest first.
#[derive(Default)]
pub(super) struct PassingManifests(Mutex<VecDeque<Passing>>);

impl PassingManifests {
    /// Adds a manifest. The oldest ones are dropped if there are too many.
    pub(super) fn put(&self, repo: &str, manifest: Arc<FetchedManifest>) {
        self.remove(repo, &manifest.digest);
        let mut all = guard_of(self.0.lock());
        all.push_back(Passing { repo: repo.to_string(), manifest });
        let bytes = |all: &VecDeque<Passing>| all.iter().map(|one| one.manifest.content.len()).sum::<usize>();
        while all.len() > MAX_MANIFESTS.0 || bytes(&all) > MAX_MANIFESTS.1 {
            all.pop_front();
        }
    }

    pub(super) fn find(&self, repo: &str, digest: &str) -> Option<Arc<FetchedManifest>> {
        let all = guard_of(self.0.lock());
        all.iter().find(|one| one.repo == repo && one.manifest.digest == digest).map(|one| one.manifest.clone())
    }

    /// Removes a manifest, because it is stored.
    pub(super) fn remove(&self, repo: &str, digest: &str) {
        guard_of(self.0.lock()).retain(|one| one.repo != repo || one.manifest.digest != digest);
    }
}

#[cfg(test)]
mod tests {
    use super::*;

    #[test]
    fn a_tag_is_believed_for_a_time() {
        let tags = CheckedTags::default();
        for (repo, tag, digest) in [("a", "v1", "x"), ("a", "v2", "x"), ("a", "v3", "y"), ("b", "v1", "x")] {
            tags.put(repo, tag, digest);
        }
        assert_eq!(tags.fresh("a", "v1", Duration::from_secs(60)).as_deref(), Some("x"));
        assert_eq!((tags.fresh("a", "v1", Duration::ZERO), tags.last("a", "v1").as_deref()), (None, Some("x")));
        assert_eq!((tags.of("a", "x"), tags.of("a", "z")), (vec!["v1".to_string(), "v2".to_string()], vec![]));
    }

    #[test]
    fn a_failure_is_for_those_who_waited() {
        let failures = LastFailures::default();
        let before = Instant::now();
        assert_eq!(failures.since("a", "v1", before), None);
        std::thread::sleep(Duration::from_millis(2));
        assert_eq!(failures.note("a", "v1", UpstreamError::Denied), UpstreamError::Denied);
        assert_eq!(failures.since("a", "v1", before), Some(UpstreamError::Denied));
        assert_eq!((failures.since("a", "v2", before), failures.since("a", "v1", Instant::now())), (None, None));
        (0..MAX_FAILURES).for_each(|number| drop(failures.note("b", &number.to_string(), UpstreamError::Denied)));
        assert_eq!(failures.since("a", "v1", before), None);
    }

    #[test]
    fn manifests_that_pass_are_bounded() {
        let passing = PassingManifests::default();
        let put = |digest: &str, len: usize| {
            let content = vec![0; len].into();
            passing.put("a", Arc::new(FetchedManifest { digest: digest.to_string(), content_type: None, content }));
        };
        put("x", 1);
        put("x", 2);
        assert_eq!(passing.find("a", "x").unwrap().content.len(), 2);
        assert!(passing.find("b", "x").is_none());
        (0..MAX_MANIFESTS.0).for_each(|number| put(&number.to_string(), 1));
        assert!(passing.find("a", "x").is_none() && passing.find("a", "0").is_some());
        (0..9).for_each(|number| put(&format!("long-{number}"), 4 << 20));
        assert!(passing.find("a", "long-0").is_none() && passing.find("a", "long-8").is_some());
        passing.remove("a", "long-8");
        assert!(passing.find("a", "long-8").is_none());
    }
}
