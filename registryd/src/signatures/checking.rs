//! Looks for a signature of an image by a key of a rule.
use crate::endpoints::registry::Registry;
use crate::http::fault::Fault;
use crate::http::in_flight::Holder;
use crate::metadata::manifest_table::ManifestTable;
use crate::operation::reload::FromFile;
use crate::signatures::cosign::{signatures_in, tag_of, Signature, MAX_MANIFEST, MAX_PAYLOAD, MOST_TRIED, TRIED};
use crate::signatures::rules::{Rule, SigningRules};
use crate::signatures::verdicts::{Tried, Verdict, Verdicts};
use crate::store::calls::FetchResult;
use crate::store::frames::{Reason, Refusal};
use bytes::Bytes;
use prometheus::IntCounter;
use serde_json::{json, Value};
use sha2::{Digest, Sha256};
use std::sync::Arc;
use tokio::task::block_in_place;

/// The memory of a check, in bytes: a manifest with signatures, and a payload.
const CHECK_ROOM: u64 = MAX_MANIFEST + MAX_PAYLOAD;

/// The tags that need a signature, what was found out about images, and how many requests were refused.
pub(crate) struct SignedTags {
    rules: Arc<FromFile<SigningRules>>,
    verdicts: Verdicts,
    pub(crate) refusals: IntCounter,
}

/// An image, and the rule by which it needs a signature.
#[derive(Clone, Copy)]
pub(crate) struct Case<'c> {
    pub(crate) repo: &'c str,
    pub(crate) digest: &'c str,
    pub(crate) rules: &'c Arc<SigningRules>,
    /// The rule, and its place among the rules.
    pub(crate) rule: (usize, &'c Rule),
}

/// The manifests that may have signatures of an image.
#[derive(Debug, PartialEq, Eq)]
struct Candidates {
    /// Their digests, in the order in which they are tried.
    digests: Vec<String>,
    /// Whether there are more.
    more: bool,
}

impl Candidates {
    /// Finds the manifests for an image: that of its tag for signatures, and its referrers.
    fn find(manifests: &ManifestTable, repo: &str, digest: &str) -> Candidates {
        let tagged = manifests.by_tag(repo, &tag_of(digest)).filter(|named| named.size <= MAX_MANIFEST);
        let page = manifests.newest_referrers(repo, digest, &TRIED);
        let digests = tagged.map(|named| named.digest).into_iter().chain(page.items).collect();
        Candidates { digests, more: page.more }
    }

    /// Returns a hash of which these are, in any order.
    fn hash(&self) -> Tried {
        let mut sorted: Vec<&String> = self.digests.iter().collect();
        sorted.sort_unstable();
        let mut hash = Sha256::new().chain_update([u8::from(self.more)]);
        sorted.iter().for_each(|digest| hash.update(digest));
        hash.finalize().into()
    }
}

impl SignedTags {
    pub(crate) fn new(rules: Arc<FromFile<SigningRules>>) -> SignedTags {
        let help = "Reads of tags that were refused because their images lack a signature.";
        let refusals = IntCounter::new("registryd_unsigned_refusals_total", help).expect("a counter's name");
        SignedTags { rules, verdicts: Verdicts::default(), refusals }
    }

    /// Returns the rules that hold now.
    pub(crate) fn current(&self) -> Arc<SigningRules> {
        self.rules.get()
    }

    /// Returns the numbers of rules and of refused requests, for the state of the registry.
    pub(crate) fn json(&self) -> Value {
        json!({ "rules": self.rules.get().len(), "refusals": self.refusals.get() })
    }

    /// Returns what is known about an image without a read, if something is.
    pub(crate) fn recall(&self, manifests: &ManifestTable, case: Case<'_>) -> Option<Verdict> {
        self.recalled(case, &Candidates::find(manifests, case.repo, case.digest))
    }

    fn recalled(&self, case: Case<'_>, candidates: &Candidates) -> Option<Verdict> {
        match candidates.digests.is_empty() {
            true => Some(Verdict::Unsigned { has_more: false }),
            false => self.verdicts.find(case.rules, &case.question(), &candidates.hash()),
        }
    }

    /// Looks for a signature of an image, and remembers the verdict. Those who ask about one image take turns, so that it is looked for
    /// once, with memory of one of them.
    ///
    /// # Errors
    ///
    /// - The memory is not free in time.
    /// - The store cannot be read now.
    pub(crate) async fn check(&self, registry: &Registry, holder: &Holder, case: Case<'_>) -> Result<Verdict, Fault> {
        // No tag and no digest has this name.
        let _turn = registry.turns.take(case.repo, &format!("signatures of {}", case.digest)).await;
        let candidates = Candidates::find(&registry.manifests, case.repo, case.digest);
        if let Some(verdict) = self.recalled(case, &candidates) {
            return Ok(verdict);
        }
        let _reserved = registry.memory.reserve(holder, CHECK_ROOM).await?;
        let verdict = case.try_all(registry, &candidates).await?;
        self.verdicts.put(case.rules, case.question(), candidates.hash(), verdict);
        Ok(verdict)
    }
}

impl Case<'_> {
    fn question(&self) -> (String, String, usize) {
        (self.repo.to_string(), self.digest.to_string(), self.rule.0)
    }

    /// Tries the signatures in manifests until one is good.
    async fn try_all(self, registry: &Registry, candidates: &Candidates) -> Result<Verdict, Fault> {
        let mut tried = 0;
        for manifest in &candidates.digests {
            let content = match registry.store.get_manifest(self.repo, manifest).await? {
                Err(Refusal { reason: Reason::ManifestUnknown, .. }) => continue,
                content => content?,
            };
            for signature in block_in_place(|| signatures_in(&content)) {
                if tried == MOST_TRIED {
                    return Ok(Verdict::Unsigned { has_more: true });
                }
                tried += 1;
                if self.is_good(registry, &signature).await? {
                    return Ok(Verdict::Signed);
                }
            }
        }
        Ok(Verdict::Unsigned { has_more: candidates.more })
    }

    /// Returns whether a signature is one of the image.
    async fn is_good(self, registry: &Registry, signature: &Signature) -> Result<bool, Fault> {
        let payload = self.payload(registry, &signature.payload).await?;
        let keys = &self.rule.1.keys;
        Ok(payload.map_or(false, |payload| block_in_place(|| signature.is_good(&payload, keys, self.digest))))
    }

    /// Returns a payload, unless it is not there or too long.
    async fn payload(self, registry: &Registry, digest: &str) -> Result<Option<Bytes>, Fault> {
        let fetched = registry.store.fetch(self.repo, digest, Some((0, MAX_PAYLOAD - 1))).await?;
        match registry.check_read(self.repo, digest, fetched) {
            Ok(FetchResult::Piece { size, bytes }) => Ok(Some(bytes).filter(|_| size <= MAX_PAYLOAD)),
            // A piece that is not longer than a payload is never leased.
            Ok(FetchResult::LeasedBlob(leased)) => {
                registry.store.give_back(leased.number).await??;
                Ok(None)
            }
            Err(Refusal { reason: Reason::BlobUnknown | Reason::DigestInvalid, .. }) => Ok(None),
            Err(refusal) => Err(refusal.into()),
        }
    }
}

#[cfg(test)]
mod tests {
    use super::*;
    use crate::metadata::document::Facts;
    use crate::metadata::memory_table::MemoryTable;

    const REPO: &str = "acme/app";
    const IMAGE: &str = "sha256:a";

    fn facts(artifact_type: &str, subject: Option<&str>, size: u64) -> Facts {
        let (artifact_type, subject) = (Some(artifact_type.to_string()), subject.map(str::to_string));
        Facts { media_type: "a/b".to_string(), artifact_type, subject, size, lists: Vec::new() }
    }

    #[test]
    fn candidates_are_a_tag_and_the_newest_referrers() {
        let table = MemoryTable::default();
        let find = || Candidates::find(&table, REPO, IMAGE);
        assert_eq!(find(), Candidates { digests: Vec::new(), more: false });
        table.put(REPO, "sha256:1", facts(TRIED.artifact_type, Some(IMAGE), 5), None, 10);
        table.put(REPO, "sha256:2", facts(TRIED.artifact_type, Some(IMAGE), MAX_MANIFEST), None, 30);
        table.put(REPO, "sha256:3", facts(TRIED.artifact_type, Some(IMAGE), 5), None, 20);
        table.put(REPO, "sha256:4", facts("other/type", Some(IMAGE), 5), None, 40);
        table.put(REPO, "sha256:5", facts(TRIED.artifact_type, Some("sha256:b"), 5), None, 40);
        table.put(REPO, "sha256:6", facts(TRIED.artifact_type, Some(IMAGE), MAX_MANIFEST + 1), None, 40);
        table.put(REPO, "sha256:7", facts("c/d", None, 5), Some("sha256-a.sig"), 1);
        table.put("acme/other", "sha256:8", facts(TRIED.artifact_type, Some(IMAGE), 5), None, 40);
        let found = find();
        assert_eq!(
            (&found.digests[..], found.more),
            (&["sha256:7", "sha256:2", "sha256:3", "sha256:1"].map(String::from)[..], false)
        );
        // The order does not count, and each manifest does.
        table.put(REPO, "sha256:1", facts(TRIED.artifact_type, Some(IMAGE), 5), None, 50);
        assert_eq!((&*find().digests[1], find().hash()), ("sha256:1", found.hash()));
        table.remove_manifest(REPO, "sha256:3", 60);
        assert_eq!(find().digests, ["sha256:7", "sha256:1", "sha256:2"]);
        assert_ne!(find().hash(), found.hash());
    }

    #[test]
    fn candidates_are_bounded() {
        let table = MemoryTable::default();
        for number in 0..=MOST_TRIED as u64 {
            table.put(REPO, &format!("sha256:{number}"), facts(TRIED.artifact_type, Some(IMAGE), 5), None, number);
        }
        let found = Candidates::find(&table, REPO, IMAGE);
        assert_eq!((found.digests.len(), &*found.digests[0], found.more), (MOST_TRIED, "sha256:100", true));
    }
}
