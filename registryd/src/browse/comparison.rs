//! What the layers of an image share with other images: which repositories of the tenant have a layer, and how many images of the
//! repository. The registry keeps no list of the blobs of each manifest, so this reads some of them and asks the store.
use crate::browse::visit::Visit;
use crate::http::fault::Fault;
use crate::http::pages::Page;
use crate::metadata::names::tenant_of;
use crate::metadata::repository::NamedManifest;
use std::collections::{HashMap, HashSet};

/// The maximum number of questions to the store whether a repository has a layer.
const MOST_ASKED: usize = 512;

/// The maximum number of images of the repository that are read, and the maximum sum of their lengths.
const MOST_READ: usize = 100;
const MOST_BYTES: u64 = 1 << 20;

/// What is known of a layer.
#[derive(Debug, Default)]
pub(super) struct Sharing {
    /// The number of other images of the repository that have it.
    pub(super) images: usize,
    /// The other repositories that have it.
    pub(super) repositories: Vec<String>,
}

/// What the layers of a page share.
pub(super) struct Comparison {
    pub(super) by_digest: HashMap<String, Sharing>,
    /// The numbers of images and of repositories that were looked at.
    pub(super) images: usize,
    pub(super) repositories: usize,
    /// Whether there are more of either.
    pub(super) is_partial: bool,
}

/// Returns the number of the first manifests whose sum of lengths is within the bound.
fn within(found: &[NamedManifest]) -> usize {
    let mut sum = 0_u64;
    let fits = |named: &&NamedManifest| {
        sum = sum.saturating_add(named.size);
        sum <= MOST_BYTES
    };
    found.iter().take(MOST_READ).take_while(fits).count()
}

impl Comparison {
    /// Counts the other images of the repository that have a layer. Returns whether it has looked at all.
    async fn count_images(&mut self, visit: &Visit, repo: &str, digest: &str) -> Result<bool, Fault> {
        let Page { items: others, more } = visit.registry.manifests.images_but(repo, digest, MOST_READ);
        self.images = within(&others);
        for named in &others[..self.images] {
            let manifest = visit.manifest(repo, named).await.ok().flatten().unwrap_or_default();
            let layers: HashSet<&str> = manifest.layers.iter().map(|layer| layer.digest.as_str()).collect();
            for layer in layers {
                if let Some(sharing) = self.by_digest.get_mut(layer) {
                    sharing.images += 1;
                }
            }
        }
        Ok(self.images == others.len() && !more)
    }

    /// Asks which other repositories of the tenant that the sender may see have a layer. Returns whether it has asked for all.
    async fn find_repositories(&mut self, visit: &Visit, repo: &str) -> Result<bool, Fault> {
        let tenant = tenant_of(repo);
        let most = MOST_ASKED / self.by_digest.len().max(1);
        let may_ask = |other: &str| other != repo && tenant_of(other) == tenant && visit.may_see(other);
        let page = visit.registry.manifests.repository_rows(tenant, "", most, may_ask);
        self.repositories = page.items.len();
        for other in page.items {
            for (digest, sharing) in &mut self.by_digest {
                if visit.registry.store.stat(&other.name, digest).await?.is_ok() {
                    sharing.repositories.push(other.name.clone());
                }
            }
        }
        Ok(!page.more)
    }
}

/// Compares the layers of an image with the other images. Returns `None` if the registry compares others at the moment.
///
/// # Cost
///
/// At most 100 reads of manifests, 1 MiB together, and 512 questions to the store.
pub(super) async fn compare(
    visit: &Visit,
    repo: &str,
    digest: &str,
    layers: impl Iterator<Item = &str>,
) -> Result<Option<Comparison>, Fault> {
    let _permit = match visit.pages.comparisons.try_acquire() {
        Ok(permit) => permit,
        Err(_) => return Ok(None),
    };
    let by_digest = layers.map(|layer| (layer.to_string(), Sharing::default())).collect();
    let mut comparison = Comparison { by_digest, images: 0, repositories: 0, is_partial: false };
    let has_all = comparison.count_images(visit, repo, digest).await?;
    let has_asked_all = comparison.find_repositories(visit, repo).await?;
    comparison.is_partial = !has_all || !has_asked_all;
    Ok(Some(comparison))
}

#[cfg(test)]
mod tests {
    use super::*;

    #[test]
    fn reads_are_bounded() {
        let of = |sizes: &[u64]| {
            let named = |size: &u64| NamedManifest { digest: String::new(), media_type: String::new(), size: *size };
            within(&sizes.iter().map(named).collect::<Vec<_>>())
        };
        assert_eq!(
            (of(&[]), of(&[1; 300]), of(&[MOST_BYTES, 1]), of(&[MOST_BYTES + 1]), of(&[u64::MAX; 2])),
            (0, MOST_READ, 1, 0, 0)
        );
    }
}
