//! Removes the tags that rules let go, and shows which these would be.
use crate::endpoints::registry::Registry;
use crate::http::responses::{with_body, HandlerResult};
use crate::metadata::clock::{now, of_day};
use crate::metadata::leaving_tags::{Deciding, Holder, LeavingTag, Preview};
use crate::metadata::retention_rules::{Moment, RetentionRules};
use crate::operation::audit;
use crate::operation::reload::FromFile;
use hyper::{Body, StatusCode};
use prometheus::{IntCounterVec, Opts};
use serde_json::{json, Value};
use std::collections::HashSet;
use std::sync::Arc;
use std::time::{Duration, Instant};
use tokio::time::sleep;

/// The maximum number of tags that are removed at once, in one transaction.
const MOST_AT_ONCE: usize = 100;

/// The least pause after tags were removed. It is as long as the removal if that took longer.
const PAUSE: Duration = Duration::from_millis(100);

/// The least and the greatest pause between two rounds over all repositories, and that of rules without a time.
const ROUNDS: (Duration, Duration, Duration) = (Duration::from_secs(1), Duration::from_secs(60), Duration::from_secs(10));

/// The rules of `--retention`, and what they removed.
pub(crate) struct Retention {
    rules: Arc<FromFile<RetentionRules>>,
    /// The number of tags that were removed, by the first rule that covered them.
    pub(crate) removed: IntCounterVec,
}

impl Retention {
    pub(crate) fn new(rules: Arc<FromFile<RetentionRules>>) -> Retention {
        let help =
            Opts::new("registryd_retention_removed_tags_total", "Tags that rules removed, by the first rule that covered them.");
        Retention { rules, removed: IntCounterVec::new(help, &["rule"]).expect("a counter's name") }
    }

    /// Returns the rules that hold now.
    pub(crate) fn current(&self) -> Arc<RetentionRules> {
        self.rules.get()
    }

    /// Returns the pause between two rounds: a 60th of the least time of a rule.
    fn rest(&self) -> Duration {
        let least = self.rules.get().least_time();
        least.map_or(ROUNDS.2, |time| Duration::from_secs(time) / 60).clamp(ROUNDS.0, ROUNDS.1)
    }

    /// Counts a tag that was removed.
    fn count(&self, leaving: &LeavingTag) {
        self.removed.with_label_values(&[&leaving.rule]).inc();
    }

    /// Returns the number of the rules, for the state of the registry.
    pub(super) fn json(&self) -> Value {
        json!({ "rules": self.rules.get().len() })
    }
}

impl Registry {
    /// Removes the tags that rules let go, in rounds over all repositories, until the store ends.
    pub(crate) async fn apply_rules(&self) {
        while let Some(retention) = self.retention.as_ref().filter(|_| !self.store.has_ended()) {
            for repo in self.manifests.names("", "") {
                self.apply_rules_to(retention, &repo).await;
            }
            sleep(retention.rest()).await;
        }
    }

    /// Removes the tags of a repository that rules let go, some at a time. Which these are is decided anew each time.
    async fn apply_rules_to(&self, retention: &Retention, repo: &str) {
        loop {
            let begun = Instant::now();
            let rules = retention.rules.get();
            let leaving = self.deciding(&rules, |deciding| self.manifests.leaving(repo, deciding, MOST_AT_ONCE));
            if leaving.is_empty() || !self.has_room() {
                return;
            }
            let _changing = match self.moves.begin_own(repo) {
                Ok(changing) => changing,
                Err(_) => return,
            };
            let tags = leaving.iter().map(|one| one.tag.clone()).collect();
            let report = self.own_reporter().and_then(|reporter| reporter.deleted_tags(repo));
            let removed: HashSet<String> = match self.manifests.expire_tags(repo, tags, report).await {
                Ok(names) => names.into_iter().collect(),
                Err(failure) => return tracing::warn!(repo, ?failure, "cannot remove tags by rules"),
            };
            for one in leaving.iter().filter(|one| removed.contains(&one.tag.name)) {
                retention.count(one);
                tracing::info!(repo, tag = %one.tag.name, digest = %one.tag.digest, why = %one.why.join("; "), "removed a tag by a rule");
                audit::write_own_delete("retention", repo, Some(&one.tag.name), &one.tag.digest);
            }
            sleep(begun.elapsed().max(PAUSE)).await;
        }
    }

    /// Calls `look` with what decides by these rules now.
    fn deciding<T>(&self, rules: &RetentionRules, look: impl FnOnce(Deciding<'_>) -> T) -> T {
        let immutable = self.immutable_tags.as_ref().map(|tags| tags.current());
        let moment = Moment { now: now(), pulls_since: self.pulls_since };
        look(Deciding { rules, immutable: immutable.as_deref(), moment })
    }

    /// Returns the tags that would go now by rules, one in each line, as JSON, and a last line with numbers. Without rules, those that
    /// hold now count.
    pub(crate) fn preview(self: Arc<Self>, rules: Option<RetentionRules>) -> HandlerResult {
        let given = rules.map(Arc::new).or_else(|| self.retention.as_ref().map(|retention| retention.rules.get()));
        let rules = given.unwrap_or_default();
        let (mut sender, body) = Body::channel();
        tokio::spawn(async move {
            let (mut tags, mut leaving) = (0, 0);
            for repo in self.manifests.names("", "") {
                let preview = self.deciding(&rules, |deciding| self.manifests.preview(&repo, deciding));
                tags += preview.tags;
                leaving += preview.leaving.len();
                let lines = self.lines(&repo, &preview);
                if !lines.is_empty() && sender.send_data(lines.into()).await.is_err() {
                    return;
                }
            }
            let end = json!({ "leaving": leaving, "tags": tags, "rules": rules.len(), "pulls": self.pulls_since.map(of_day) });
            let _ = sender.send_data(format!("{end}\n").into()).await;
        });
        with_body(StatusCode::OK, &[("Content-Type", "application/x-ndjson")], body)
    }

    /// Returns a line for each tag of a repository that would go.
    fn lines(&self, repo: &str, preview: &Preview) -> String {
        let lines = preview.leaving.iter().map(|(one, holder)| {
            let (tag, index) = match holder {
                Some(Holder::Tag(tag)) => (Some(tag), None),
                Some(Holder::Manifest(digest)) => (None, Some(digest)),
                None => (None, None),
            };
            let pulled = Some(one.pulled).filter(|time| *time > 0).map(of_day);
            let line = json!({
                "repository": repo, "tag": one.tag.name, "digest": one.tag.digest, "pushed": of_day(one.tag.pushed), "pulled": pulled,
                "rule": one.rule, "why": one.why, "held_by_tag": tag, "held_by_manifest": index,
                "manifest_goes": holder.is_none() && self.keeps_untagged.is_some(),
            });
            format!("{line}\n")
        });
        lines.collect()
    }
}
