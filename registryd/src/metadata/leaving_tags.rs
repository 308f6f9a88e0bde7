//! The tags that rules let go, with the reasons.
use crate::database::lookups::{self, FoundTag};
use crate::metadata::immutable_tags::Rules;
use crate::metadata::manifest_table::ManifestTable;
use crate::metadata::retention_rules::{Moment, RetentionRules};
use crate::metadata::tag::{digest_in, ExpiredTag, TagTimes};
use std::collections::HashMap;

/// What decides which tags leave.
#[derive(Clone, Copy)]
pub(crate) struct Deciding<'d> {
    pub(crate) rules: &'d RetentionRules,
    /// The tags that no rule lets go, if there is a file of them.
    pub(crate) immutable: Option<&'d Rules>,
    pub(crate) moment: Moment,
}

/// A tag that leaves.
#[derive(Debug, PartialEq, Eq)]
pub(crate) struct LeavingTag {
    pub(crate) tag: ExpiredTag,
    /// The time of its last pull, in seconds since 1970, or 0.
    pub(crate) pulled: u64,
    /// The first rule that covers it.
    pub(crate) rule: String,
    /// For each rule that covers it, why that does not keep it.
    pub(crate) why: Vec<String>,
}

/// What holds a manifest after tags left.
#[derive(Debug, PartialEq, Eq)]
pub(crate) enum Holder {
    /// A tag that stays.
    Tag(String),
    /// An index that lists it, or its subject.
    Manifest(String),
}

/// A tag that leaves, with its times.
type Found = (ExpiredTag, TagTimes);

/// The tags of a repository that leave, each with what holds its manifest then, and the number of all its tags.
#[derive(Debug, Default, PartialEq, Eq)]
pub(crate) struct Preview {
    pub(crate) leaving: Vec<(LeavingTag, Option<Holder>)>,
    pub(crate) tags: usize,
}

/// Returns what is logged and shown of a tag that leaves.
fn described(repo: &str, (tag, times): Found, deciding: Deciding<'_>) -> LeavingTag {
    let covering: Vec<_> = deciding.rules.of(repo).into_iter().filter(|rule| rule.matches(&tag.name)).collect();
    let rule = covering.first().map(|rule| rule.to_string()).unwrap_or_default();
    let why = covering.iter().map(|rule| rule.why(times, deciding.moment.now)).collect();
    LeavingTag { tag, pulled: times.pulled, rule, why }
}

/// Returns a copy of what is needed of a tag that leaves.
fn found(tag: &FoundTag) -> Found {
    (ExpiredTag { name: tag.name.clone(), digest: tag.manifest.digest.clone(), pushed: tag.times.pushed }, tag.times)
}

/// Returns whether each of some tags leaves. `exempt` are those about which no rule decides.
fn decide(repo: &str, tags: &[FoundTag], exempt: &[bool], deciding: Deciding<'_>) -> Vec<bool> {
    // For each tag, whether a rule keeps it, if one covers it.
    let mut kept: Vec<Option<bool>> = vec![None; tags.len()];
    for rule in deciding.rules.of(repo) {
        let covered: Vec<usize> = (0..tags.len()).filter(|at| !exempt[*at] && rule.matches(&tags[*at].name)).collect();
        let oldest = rule.oldest_of_last(covered.iter().map(|at| tags[*at].times.pushed).collect());
        for at in covered {
            kept[at] = Some(kept[at] == Some(true) || rule.keeps(tags[at].times, oldest, deciding.moment));
        }
    }
    let is_immutable = |name: &str| deciding.immutable.map_or(false, |rules| rules.cover(repo, name));
    tags.iter().zip(kept).map(|(tag, kept)| kept == Some(false) && !is_immutable(&tag.name)).collect()
}

impl ManifestTable {
    /// Returns the tags of a repository in order with their last pulls, and whether each leaves.
    fn decided(&self, repo: &str, deciding: Deciding<'_>) -> (Vec<FoundTag>, Vec<bool>) {
        let keep = |tag: FoundTag| {
            let times = self.with_last_pull(repo, &tag.name, tag.times);
            Some(FoundTag { times, ..tag })
        };
        let tags = self.rows.read(|rows| lookups::tags(rows, repo, ("", ""), "", usize::MAX, keep)).items;
        let pushed = self.pushed_tags(repo);
        let exempt: Vec<bool> = tags.iter().map(|tag| pushed.contains(&tag.name) || self.is_exempt(repo, tag)).collect();
        let leaving = decide(repo, &tags, &exempt, deciding);
        (tags, leaving)
    }

    /// Returns whether no rule decides about a tag now: its manifest is being deleted, or its name says that it belongs to another manifest,
    /// which is there.
    fn is_exempt(&self, repo: &str, tag: &FoundTag) -> bool {
        let is_there = |digest: String| digest != tag.manifest.digest && self.is_known(repo, &digest);
        self.leaving.has(repo, &tag.manifest.digest) || digest_in(&tag.name).map_or(false, is_there)
    }

    /// Returns the first tags of a repository that leave, at most `most`.
    ///
    /// # Cost
    ///
    /// Reads all tags of the repository if a rule is about it.
    pub(crate) fn leaving(&self, repo: &str, deciding: Deciding<'_>, most: usize) -> Vec<LeavingTag> {
        if deciding.rules.of(repo).is_empty() {
            return Vec::new();
        }
        let (tags, leaving) = self.decided(repo, deciding);
        let leaving = tags.iter().zip(leaving).filter(|(_, leaves)| *leaves).take(most);
        leaving.map(|(tag, _)| described(repo, found(tag), deciding)).collect()
    }

    /// Returns the tags of a repository that would leave.
    pub(crate) fn preview(&self, repo: &str, deciding: Deciding<'_>) -> Preview {
        if deciding.rules.of(repo).is_empty() {
            let tags = self.rows.read(|rows| lookups::counts(rows, repo)).tags as usize;
            return Preview { leaving: Vec::new(), tags };
        }
        let (tags, leaving) = self.decided(repo, deciding);
        let staying = tags.iter().zip(&leaving).filter(|(_, leaves)| !**leaves);
        let staying: HashMap<&str, &str> = staying.map(|(tag, _)| (&*tag.manifest.digest, &*tag.name)).collect();
        let holder = |digest: &str| match staying.get(digest) {
            Some(tag) => Some(Holder::Tag(tag.to_string())),
            None => self.holder(repo, digest).map(Holder::Manifest),
        };
        let leaving = tags.iter().zip(&leaving).filter(|(_, leaves)| **leaves);
        let described = leaving.map(|(tag, _)| (described(repo, found(tag), deciding), holder(&tag.manifest.digest)));
        Preview { leaving: described.collect(), tags: tags.len() }
    }
}

#[cfg(test)]
mod tests {
    use super::*;
    use crate::metadata::bounds::Bounds;
    use crate::metadata::document::Facts;
    use crate::metadata::memory_table::MemoryTable;
    use crate::metadata::repository::Removal;

    const REPO: &str = "acme/web";

    /// Returns the digest with a number.
    fn digest(number: u64) -> String {
        format!("sha256:{number:064x}")
    }

    /// Makes a table in which each tag was pushed at a time, and names a manifest of its own.
    fn table(tags: &[(&str, u64)]) -> MemoryTable {
        let table = MemoryTable::default();
        for (number, (tag, pushed)) in tags.iter().enumerate() {
            table.put(REPO, &digest(number as u64), Facts::default(), Some(tag), *pushed);
        }
        table
    }

    fn leaving(table: &ManifestTable, rules: &str, immutable: Option<&str>, now: u64) -> Vec<String> {
        let (rules, immutable) = (RetentionRules::parse(rules).unwrap(), immutable.map(|text| Rules::parse(text).unwrap()));
        let moment = Moment { now, pulls_since: Some(0) };
        let deciding = Deciding { rules: &rules, immutable: immutable.as_ref(), moment };
        table.leaving(REPO, deciding, 99).into_iter().map(|leaving| leaving.tag.name).collect()
    }

    #[test]
    fn a_tag_leaves_if_a_rule_covers_it_and_none_keeps_it() {
        let tags = table(&[("v1", 10), ("v2", 20), ("v3", 30), ("latest", 5), ("pr-1", 30), ("pr-2", 90)]);
        let leaving = |rules: &str| leaving(&tags, rules, None, 100).join(" ");
        assert_eq!(leaving("acme v* last=1"), "v1 v2");
        assert_eq!(leaving("acme v* last=1\nacme v* pushed=85s\nother * last=1"), "v1");
        assert_eq!(leaving("acme pr-* pushed=20s\nacme/web v* last=2"), "pr-1 v1");
        assert_eq!(leaving("acme * last=1"), "latest pr-1 v1 v2 v3");
        // The last ones are counted among the tags that the line covers.
        assert_eq!(leaving("acme * last=1\nacme v? last=1"), "latest pr-1 v1 v2");
        assert_eq!(leaving("acme v1 last=1\nacme * pushed=1000s\nacme/web/below * last=1"), "");
        assert_eq!(leaving(""), "");
    }

    #[test]
    fn pulls_keep() {
        let tags = table(&[("v1", 10), ("v2", 10), ("v3", 10)]);
        tags.pull(REPO, "v2", 60);
        assert_eq!(leaving(&tags, "* * pulled=50s", None, 100), ["v1", "v3"]);
        // A push begins anew.
        tags.put(REPO, &digest(7), Facts::default(), Some("v2"), 61);
        assert_eq!(leaving(&tags, "* * pulled=30s", None, 100), ["v1", "v2", "v3"]);
    }

    #[test]
    fn an_immutable_tag_stays_and_counts() {
        let tags = table(&[("v1", 10), ("v2", 20), ("v3", 30)]);
        assert_eq!(leaving(&tags, "* v* last=1", Some("acme v1\nacme v3\n"), 100), ["v2"]);
    }

    #[test]
    fn what_belongs_to_a_manifest_stays_as_long_as_that() {
        let (first, last) = (digest(0).replace(':', "-"), digest(9).replace(':', "-"));
        let (signature, short) = (format!("{first}.sig"), format!("{}.sig", &first[..70]));
        let tags = table(&[("v1", 90), (&first, 10), (&signature, 10), (&last, 10), (&short, 10)]);
        assert_eq!(leaving(&tags, "* * last=1", None, 100), [&*short, &*last]);
        // A name with the digest of its own manifest says nothing.
        tags.put(REPO, &digest(9), Facts::default(), Some(&last), 11);
        assert_eq!(leaving(&tags, "* * last=1", None, 100), [&*short, &*last]);
        tags.remove_manifest(REPO, &digest(0), 95);
        assert_eq!(leaving(&tags, "* * pushed=1s", None, 100), [&*short, &*first, &*signature, &*last]);
    }

    #[test]
    fn a_tag_that_is_being_pushed_stays() {
        let tags = table(&[("v1", 10), ("v2", 10), ("v3", 10)]);
        let (pushed, bounds) = (digest(9), Bounds::default());
        let push = tags.reserve(REPO, (&pushed, 10), Some("v2"), &bounds);
        tags.begin_removal(REPO, &digest(2), Removal::Asked).unwrap();
        assert_eq!(leaving(&tags, "* * pushed=1s", None, 100), ["v1"]);
        drop(push);
        tags.end_removal(REPO, &digest(2));
        let expired = |name: &str, number| ExpiredTag { name: name.to_string(), digest: digest(number), pushed: 10 };
        tags.put(REPO, &digest(1), Facts::default(), Some("v2"), 11);
        let removed = tags.expire_tags(REPO, &[expired("v1", 0), expired("v2", 1), expired("v3", 0), expired("v4", 0)], 100);
        assert_eq!(removed, ["v1"]);
        assert_eq!(tags.any_facts(REPO, &digest(0)).map(|(_, since)| since), Some(100));
    }

    #[test]
    fn a_preview_says_what_holds_the_manifests() {
        let tags = table(&[("v1", 10), ("v2", 10), ("v3", 10), ("v4", 10)]);
        tags.put(REPO, &digest(0), Facts::default(), Some("latest"), 90);
        tags.put(REPO, &digest(8), Facts { lists: vec![digest(1)], ..Facts::default() }, None, 10);
        tags.put(REPO, &digest(2), Facts { subject: Some(digest(3)), ..Facts::default() }, None, 10);
        let rules = RetentionRules::parse("* v* pushed=20s\n* v2 pulled=50s").unwrap();
        let deciding = Deciding { rules: &rules, immutable: None, moment: Moment { now: 100, pulls_since: Some(0) } };
        let Preview { leaving, tags } = tags.preview(REPO, deciding);
        let holders: Vec<(&str, &Option<Holder>)> = leaving.iter().map(|(one, holder)| (&*one.tag.name, holder)).collect();
        let by = |number| Some(Holder::Manifest(digest(number)));
        let latest = Some(Holder::Tag("latest".to_string()));
        assert_eq!(holders, [("v1", &latest), ("v2", &by(8)), ("v3", &by(3)), ("v4", &None)]);
        assert_eq!((leaving[1].0.why.len(), &*leaving[1].0.rule, tags), (2, "* v* pushed=20s", 5));
    }
}
