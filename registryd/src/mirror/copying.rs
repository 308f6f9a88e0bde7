//! Copies of everything at intervals, for a registry that stands by: the tags of all repositories, or of those of a list.
use crate::endpoints::registry::Registry;
use crate::metadata::clock;
use crate::metadata::names::{is_repository, is_tag};
use crate::mirror::failure::UpstreamError;
use crate::mirror::manifests::{Found, Purpose};
use crate::mirror::mirrors::Mirror;
use std::future::Future;
use std::pin::Pin;
use std::sync::atomic::Ordering;
use std::sync::Arc;
use std::time::Duration;

/// The number of names that are asked for at once.
const PAGE: usize = 100;

/// The maximum number of names of a list.
const MAX_NAMES: usize = 100_000;

/// The maximum depth of indexes that list indexes.
const MAX_DEPTH: usize = 4;

/// What a copy has done.
#[derive(Default)]
struct Tally {
    tags: u64,
    failed: u64,
}

impl Mirror {
    /// Copies everything at intervals, until the store ends.
    pub(crate) async fn copy_at_intervals(self: Arc<Self>, registry: Arc<Registry>, rest: Duration) {
        while !registry.store.has_ended() {
            let mut tally = Tally::default();
            let copied = self.copy_all(&registry, &mut tally).await;
            let Tally { tags, failed } = tally;
            match copied {
                Ok(()) => {
                    self.copied.tags.store(tags, Ordering::Relaxed);
                    self.copied.failed.store(failed, Ordering::Relaxed);
                    self.copied.time.store(clock::time_of_day(), Ordering::Relaxed);
                    tracing::info!(tenant = %self.tenant, tags, failed, "copied the upstream");
                }
                Err(error) => tracing::warn!(tenant = %self.tenant, tags, why = %error.text(), "cannot list the upstream"),
            }
            let limited = self.upstream.limited_for().map_or(Duration::ZERO, Duration::from_secs);
            tokio::time::sleep(rest.max(limited)).await;
        }
    }

    /// Copies the tags of all repositories of the upstream below its prefix.
    async fn copy_all(self: &Arc<Self>, registry: &Arc<Registry>, tally: &mut Tally) -> Result<(), UpstreamError> {
        for name in self.list("", &format!("/v2/_catalog?n={PAGE}")).await? {
            let repo = match self.upstream.address.repo_of(&self.tenant, &name) {
                Some(repo) if is_repository(&repo) => repo,
                _ => continue,
            };
            let tags = match self.list(&name, &format!("/v2/{name}/tags/list?n={PAGE}")).await {
                Ok(tags) => tags,
                Err(UpstreamError::Unknown) => continue,
                Err(error) => return Err(error),
            };
            for tag in tags.iter().filter(|tag| is_tag(tag)) {
                tally.tags += 1;
                if let Err(why) = self.copy(registry, &repo, tag, 0).await {
                    tally.failed += 1;
                    tracing::warn!(repo = %repo, tag = %tag, why = %why, "a tag of the upstream is not copied");
                }
            }
        }
        Ok(())
    }

    /// Returns all names of a list of the upstream.
    async fn list(&self, name: &str, first: &str) -> Result<Vec<String>, UpstreamError> {
        let (mut names, mut next) = (Vec::new(), Some(first.to_string()));
        while let Some(path) = next {
            let page = self.upstream.list(name, &path).await?;
            let is_stuck = page.names.is_empty() || page.next.as_deref() == Some(path.as_str());
            names.extend(page.names);
            if names.len() > MAX_NAMES {
                return Err(self.upstream.failed(UpstreamError::Failed(format!("a list has more than {MAX_NAMES} names"))));
            }
            next = page.next.filter(|_| !is_stuck);
        }
        Ok(names)
    }

    /// Copies a manifest with its blobs, and what it lists.
    async fn copy(self: &Arc<Self>, registry: &Arc<Registry>, repo: &str, reference: &str, depth: usize) -> Result<(), String> {
        let found = self.find(registry, repo, reference, Purpose::Copy).await.map_err(|fault| fault.message().to_string())?;
        let digest = match found {
            Found::Passing(manifest) => {
                self.complete(registry, repo, &manifest).await?;
                manifest.digest.clone()
            }
            Found::Stored if reference.contains(':') => reference.to_string(),
            Found::Stored => registry.manifests.by_tag(repo, reference).ok_or("it was deleted meanwhile")?.digest,
        };
        let lists = registry.manifests.any_facts(repo, &digest).map_or(Vec::new(), |(facts, _)| facts.lists);
        if depth >= MAX_DEPTH && !lists.is_empty() {
            return Err(format!("{digest} is an index of indexes, more than {MAX_DEPTH} deep"));
        }
        for listed in lists {
            self.copy_listed(registry, repo, listed, depth + 1).await?;
        }
        Ok(())
    }

    /// Copies a manifest that an index lists.
    fn copy_listed<'m>(
        self: &'m Arc<Self>,
        registry: &'m Arc<Registry>,
        repo: &'m str,
        digest: String,
        depth: usize,
    ) -> Pin<Box<dyn Future<Output = Result<(), String>> + Send + 'm>> {
        Box::pin(async move { self.copy(registry, repo, &digest, depth).await })
    }
}
