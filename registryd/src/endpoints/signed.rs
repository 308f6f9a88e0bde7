//! Refuses to serve a tag whose image lacks a signature that a rule demands.
use crate::auth::rights::Right;
use crate::endpoints::call::Call;
use crate::endpoints::manifests::is_digest;
use crate::http::fault::Fault;
use crate::signatures::checking::{Case, SignedTags};
use crate::signatures::verdicts::Verdict;
use hyper::Method;

impl Call {
    /// Fails if a reference is a tag that needs a signature, and the image with this digest lacks it. A digest needs none.
    pub(super) async fn check_signed(&self, reference: &str, digest: &str) -> Result<(), Fault> {
        let tags = match &self.registry.signed_tags {
            Some(tags) if !is_digest(reference) => tags,
            _ => return Ok(()),
        };
        let rules = tags.current();
        for rule in rules.covering(&self.repo, reference) {
            let case = Case { repo: &self.repo, digest, rules: &rules, rule };
            if let Verdict::Unsigned { has_more } = self.verdict(tags, case).await? {
                return Err(self.unsigned(tags, reference, case, has_more));
            }
        }
        Ok(())
    }

    async fn verdict(&self, tags: &SignedTags, case: Case<'_>) -> Result<Verdict, Fault> {
        match tags.recall(&self.registry.manifests, case) {
            Some(verdict) => Ok(verdict),
            None => tags.check(&self.registry, &self.holder(), case).await,
        }
    }

    /// Returns the failure of a request for a tag whose image is unsigned, and counts it. Clients look by HEAD whether a tag is there before
    /// they push it, and some of them push only after 200 or 404.
    fn unsigned(&self, tags: &SignedTags, tag: &str, case: Case<'_>, has_more: bool) -> Fault {
        let may_push = self.registry.mirrors.of(&self.repo).is_none() && self.caller.may(Right::Write, &self.repo);
        if self.head.method == Method::HEAD && may_push {
            return Fault::manifest_unknown();
        }
        tags.refusals.inc();
        Fault::unsigned(tag, case.digest, &case.rule.1.to_string(), has_more)
    }
}
