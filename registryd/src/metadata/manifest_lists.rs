//! The lists of tags, repositories and manifests that requests ask for, page by page.
use crate::database::lookups::{self, FoundTag, FoundUntagged};
use crate::http::pages::{Page, MAX_PAGE};
use crate::metadata::bounds::Totals;
use crate::metadata::manifest_table::ManifestTable;
use crate::metadata::repository::NamedManifest;
use crate::moving::contents::Image;
use rusqlite::Connection;

/// A manifest that has a subject.
#[derive(Debug, PartialEq, Eq)]
pub(crate) struct Referrer {
    pub(crate) digest: String,
    pub(crate) media_type: String,
    pub(crate) artifact_type: Option<String>,
    pub(crate) size: u64,
}

impl Referrer {
    fn of(manifest: NamedManifest, artifact_type: Option<String>) -> Referrer {
        let NamedManifest { digest, media_type, size } = manifest;
        Referrer { digest, media_type, artifact_type, size }
    }
}

/// Which referrers of a manifest are wanted: those of a type, as many as `most`, the newest first.
#[derive(Clone, Copy, Debug)]
pub(crate) struct NewestReferrers<'t> {
    pub(crate) artifact_type: &'t str,
    pub(crate) most: usize,
    /// The maximum length of each, in bytes.
    pub(crate) most_bytes: u64,
}

/// A manifest without a tag.
#[derive(Debug, PartialEq, Eq)]
pub(crate) struct Untagged {
    pub(crate) repo: String,
    pub(crate) digest: String,
    pub(crate) media_type: String,
    pub(crate) size: u64,
    /// The last time at which it was pushed, asked for by its digest, or something ceased to hold it, in seconds since 1970.
    pub(crate) since: u64,
    /// The index that lists it, or its subject, if it is there.
    pub(crate) held_by: Option<String>,
}

/// What a repository has.
#[derive(Debug, Default, PartialEq, Eq)]
pub(crate) struct Overview {
    /// The number of manifests.
    pub(crate) manifests: usize,
    /// The first tags in order.
    pub(crate) tags: Vec<TagOverview>,
    /// Whether more tags follow.
    pub(crate) more: bool,
}

/// What a tag names.
#[derive(Debug, PartialEq, Eq)]
pub(crate) struct TagOverview {
    pub(crate) name: String,
    pub(crate) manifest: NamedManifest,
    /// The first manifests, in the order of their digests, whose subject is the tag's manifest.
    pub(crate) referrers: Page<Referrer>,
}

/// A tag, and when it was pushed.
#[derive(Clone, Debug, PartialEq, Eq)]
pub(crate) struct TagRow {
    pub(crate) name: String,
    pub(crate) manifest: NamedManifest,
    /// In seconds since 1970.
    pub(crate) pushed: u64,
}

/// A repository with the numbers of its tags and manifests.
#[derive(Debug, PartialEq, Eq)]
pub(crate) struct RepositoryRow {
    pub(crate) name: String,
    pub(crate) tags: usize,
    pub(crate) manifests: usize,
}

/// Returns where a list begins: the first name in order that is not less than this one and is not the other one. The names begin with a
/// prefix and come after `last`.
fn beginning<'t>(prefix: &'t str, last: &'t str) -> (&'t str, &'t str) {
    (prefix.max(last), last)
}

impl FoundTag {
    fn row(self) -> TagRow {
        TagRow { name: self.name, manifest: self.manifest, pushed: self.times.pushed }
    }
}

impl ManifestTable {
    /// Returns whether a manifest is marked.
    fn is_hidden(&self, repo: &str, digest: &str) -> bool {
        self.leaving.has(repo, digest)
    }

    /// Returns the number of a repository's manifests that are not marked.
    fn count_visible(&self, repo: &str, totals: Totals) -> u64 {
        totals.manifests.saturating_sub(self.leaving.count_with_rows(repo))
    }

    /// Returns whether a repository has a manifest that is not marked.
    fn is_visible(&self, rows: &Connection, repo: &str) -> rusqlite::Result<bool> {
        Ok(self.count_visible(repo, lookups::counts(rows, repo)?) > 0)
    }

    /// Returns the first tags after `last` in order, at most `most` and at most `MAX_PAGE`. Returns `None` if the repository
    /// has no manifest.
    pub(crate) fn page(&self, repo: &str, last: &str, most: usize) -> Option<Page<String>> {
        self.rows.read(|rows| {
            if !self.is_visible(rows, repo)? {
                return Ok(None);
            }
            lookups::tag_names(rows, (repo, last), most.min(MAX_PAGE), |digest| self.is_hidden(repo, digest)).map(Some)
        })
    }

    /// Returns the first repositories after `last` in order that have manifests and that may be listed, at most `most` and at
    /// most `MAX_PAGE`.
    pub(crate) fn repositories(&self, last: &str, most: usize, may_list: impl Fn(&str) -> bool) -> Page<String> {
        let Page { items, more } = self.repository_rows("", last, most, may_list);
        Page { items: items.into_iter().map(|row| row.name).collect(), more }
    }

    /// Returns the first repositories after `last` in order whose names begin with a prefix, and that have manifests and may be listed, at
    /// most `most`.
    ///
    /// # Cost
    ///
    /// Looks at each repository of the prefix until it has enough.
    pub(crate) fn repository_rows(
        &self,
        prefix: &str,
        last: &str,
        most: usize,
        may_list: impl Fn(&str) -> bool,
    ) -> Page<RepositoryRow> {
        self.rows.read(|rows| {
            lookups::repositories(rows, beginning(prefix, last), prefix, most.min(MAX_PAGE), |name, totals| {
                let is_listed = may_list(&name) && self.count_visible(&name, totals) > 0;
                let Totals { manifests, tags, .. } = totals;
                is_listed.then(|| RepositoryRow { name, tags: tags as usize, manifests: manifests as usize })
            })
        })
    }

    /// Returns the first tags after `last` in order that begin with a prefix, at most `most`. Returns `None` if the repository has no
    /// manifest.
    pub(crate) fn tag_rows(&self, repo: &str, prefix: &str, last: &str, most: usize) -> Option<Page<TagRow>> {
        self.rows.read(|rows| {
            if !self.is_visible(rows, repo)? {
                return Ok(None);
            }
            let keep = |found: FoundTag| Some(found.row()).filter(|row| !self.is_hidden(repo, &row.manifest.digest));
            lookups::tags(rows, repo, beginning(prefix, last), prefix, most.min(MAX_PAGE), keep).map(Some)
        })
    }

    /// Returns a tag with its manifest and its time.
    pub(crate) fn tag_row(&self, repo: &str, name: &str) -> Option<TagRow> {
        let found = self.rows.read(|rows| lookups::by_tag(rows, repo, name))?;
        Some(found.row()).filter(|row| !self.is_hidden(repo, &row.manifest.digest))
    }

    /// Returns the first tags of a manifest in order, at most `most`.
    pub(crate) fn tags_of(&self, repo: &str, digest: &str, most: usize) -> Page<String> {
        self.rows.read(|rows| lookups::tags_of(rows, (repo, digest), most, |_| true))
    }

    /// Returns the first manifests of a repository that are no indexes and have no subject, but for one, in the order of digests, at most
    /// `most`, and whether more follow.
    pub(crate) fn images_but(&self, repo: &str, digest: &str, most: usize) -> Page<NamedManifest> {
        let is_hidden = |other: &str| other == digest || self.is_hidden(repo, other);
        self.rows.read(|rows| lookups::images(rows, repo, most, is_hidden))
    }

    /// Returns the names of the repositories that have manifests, in order, that begin with a prefix and are not less than `first`. They are
    /// read a page at a time, so that changes meanwhile are seen.
    pub(crate) fn names<'t>(&'t self, prefix: &'t str, first: &str) -> impl Iterator<Item = String> + 't {
        let (mut begin, mut last) = (first.max(prefix).to_string(), String::new());
        let mut page = Vec::new().into_iter();
        std::iter::from_fn(move || {
            let read =
                || self.rows.read(|rows| lookups::repositories(rows, (&begin, &last), prefix, MAX_PAGE, |name, _| Some(name)));
            let next = page.next().or_else(|| {
                page = read().items.into_iter();
                page.next()
            })?;
            begin = next.clone();
            last = next.clone();
            Some(next)
        })
    }

    /// Returns the manifests of a repository with all that is known of them, in the order of digests.
    pub(crate) fn images(&self, name: &str) -> Vec<Image> {
        let digests = self.rows.read(|rows| lookups::digests(rows, name));
        let visible = digests.into_iter().filter(|digest| !self.is_hidden(name, digest));
        visible.filter_map(|digest| self.image(name, digest)).collect()
    }

    /// Returns a manifest with all that is known of it, if it is there.
    fn image(&self, name: &str, digest: String) -> Option<Image> {
        let (facts, tags) = self.rows.read(|rows| {
            let tags = lookups::tags_of(rows, (name, &digest), usize::MAX, |_| true)?.items;
            Ok((lookups::facts(rows, name, &digest)?, tags))
        });
        let (facts, _) = facts?;
        Some(Image {
            repository: name.to_string(),
            digest,
            media_type: facts.media_type,
            size: facts.size,
            artifact_type: facts.artifact_type,
            subject: facts.subject,
            lists: facts.lists,
            tags,
        })
    }

    /// Returns the first manifests of a repository after `last` that have no tag, in the order of digests, at most `most`. `is_wanted`
    /// returns whether one is returned.
    pub(crate) fn untagged(
        &self,
        (name, last): (&str, &str),
        most: usize,
        is_wanted: impl Fn(&Untagged) -> bool,
    ) -> Page<Untagged> {
        self.rows.read(|rows| {
            lookups::untagged(rows, (name, last), most, |found| {
                let is_there = !self.is_hidden(name, &found.manifest.digest);
                is_there.then(|| self.untagged_of(name, found)).filter(|found| is_wanted(found))
            })
        })
    }

    fn untagged_of(&self, name: &str, found: FoundUntagged) -> Untagged {
        let FoundUntagged { manifest: NamedManifest { digest, media_type, size }, since, subject, held_by } = found;
        // The rows of these are removed, and they still hold it.
        let marked = || {
            let index = self.leaving.indexes_of(name, &digest).into_iter().next();
            index.or_else(|| subject.filter(|subject| self.leaving.has(name, subject)))
        };
        let (held_by, since) = (held_by.or_else(marked), self.with_last_touch(name, &digest, since));
        Untagged { repo: name.to_string(), digest, media_type, size, since, held_by }
    }

    /// Returns the first manifests after `last` in order whose subject is a digest, at most `most` and at most `MAX_PAGE`.
    /// With `artifact_type` it returns those of this type. After the first, no one is added that makes their sizes exceed
    /// `most_bytes`.
    pub(crate) fn referrers(
        &self,
        repo: &str,
        subject: &str,
        artifact_type: Option<&str>,
        last: &str,
        (most, most_bytes): (usize, u64),
    ) -> Page<Referrer> {
        self.rows.read(|rows| {
            let (mut items, mut bytes, mut more) = (Vec::new(), 0_u64, false);
            lookups::referrers(rows, (repo, subject, last), |manifest, its_type, _| {
                let is_wanted = artifact_type.map_or(true, |wanted| its_type.as_deref() == Some(wanted));
                if !is_wanted || self.is_hidden(repo, &manifest.digest) {
                    return true;
                }
                let has_room = items.is_empty() || bytes.saturating_add(manifest.size) <= most_bytes;
                more = items.len() >= most.min(MAX_PAGE) || !has_room;
                if !more {
                    bytes = bytes.saturating_add(manifest.size);
                    items.push(Referrer::of(manifest, its_type));
                }
                !more
            })?;
            Ok(Page { items, more })
        })
    }

    /// Returns the digests of the wanted manifests whose subject is a digest. Those that were pushed, or asked for by their digest, last
    /// come first.
    ///
    /// # Cost
    ///
    /// Looks at each manifest with this subject.
    pub(crate) fn newest_referrers(&self, repo: &str, subject: &str, wanted: &NewestReferrers<'_>) -> Page<String> {
        let NewestReferrers { artifact_type, most, most_bytes } = *wanted;
        let mut found = self.rows.read(|rows| {
            let mut found: Vec<(u64, String)> = Vec::new();
            lookups::referrers(rows, (repo, subject, ""), |NamedManifest { digest, size, .. }, its_type, since| {
                let is_wanted = its_type.as_deref() == Some(artifact_type) && size <= most_bytes;
                if is_wanted && !self.is_hidden(repo, &digest) {
                    found.push((self.with_last_touch(repo, &digest, since), digest));
                }
                true
            })?;
            Ok(found)
        });
        found.sort_unstable_by(|one, other| other.cmp(one));
        Page::of(found.into_iter().map(|(_, digest)| digest), most)
    }

    /// Returns what a repository has, with at most `most` tags, and at most `most_referrers` referrers of each.
    pub(crate) fn overview(&self, repo: &str, most: usize, most_referrers: usize) -> Overview {
        let manifests = self.rows.read(|rows| Ok(self.count_visible(repo, lookups::counts(rows, repo)?)));
        let Page { items, more } = match self.tag_rows(repo, "", "", most) {
            Some(page) => page,
            None => return Overview::default(),
        };
        let overview = |TagRow { name, manifest, .. }: TagRow| {
            let referrers = self.referrers(repo, &manifest.digest, None, "", (most_referrers, u64::MAX));
            TagOverview { name, manifest, referrers }
        };
        Overview { manifests: manifests as usize, tags: items.into_iter().map(overview).collect(), more }
    }
}

#[cfg(test)]
mod tests {
    use super::*;
    use crate::metadata::document::Facts;
    use crate::metadata::memory_table::MemoryTable;

    #[test]
    fn pages_follow_one_another() {
        let table = MemoryTable::default();
        for tag in ["v3", "v1", "v2"] {
            table.put("acme/web", "sha256:a", Facts::default(), Some(tag), 1);
        }
        let page = |last, most| table.page("acme/web", last, most).unwrap();
        let texts = |words: &[&str]| words.iter().map(|word| word.to_string()).collect::<Vec<_>>();
        assert_eq!(page("", 2), Page { items: texts(&["v1", "v2"]), more: true });
        assert_eq!(page("v2", 2), Page { items: texts(&["v3"]), more: false });
        assert_eq!(page("v1x", 2), Page { items: texts(&["v2", "v3"]), more: false });
        assert_eq!(page("", 3), Page { items: texts(&["v1", "v2", "v3"]), more: false });
        assert_eq!(page("", 0), Page { items: vec![], more: true });
        assert_eq!(table.page("acme/other", "", 2), None);
    }

    #[test]
    fn rows_begin_with_a_prefix() {
        let table = MemoryTable::default();
        for (number, tag) in ["v1", "v10", "v2", "w"].into_iter().enumerate() {
            table.put("acme/web", "sha256:a", Facts::default(), Some(tag), number as u64);
        }
        let names = |prefix, last, most| {
            let page = table.tag_rows("acme/web", prefix, last, most).unwrap();
            (page.items.iter().map(|row| row.name.clone()).collect::<Vec<_>>().join(" "), page.more)
        };
        assert_eq!(names("", "", 3), ("v1 v10 v2".to_string(), true));
        assert_eq!(names("v1", "", 9), ("v1 v10".to_string(), false));
        assert_eq!(names("v", "v10", 1), ("v2".to_string(), false));
        assert_eq!((names("x", "", 9), names("v", "w", 9)), ((String::new(), false), (String::new(), false)));
        assert_eq!(table.tag_row("acme/web", "v2").map(|row| row.pushed), Some(2));
        assert_eq!((table.tag_row("acme/web", "x"), table.tag_rows("acme/none", "", "", 1)), (None, None));
        assert_eq!(table.tags_of("acme/web", "sha256:a", 3).items.len(), 3);
        for repo in ["acme-x/web", "acme/a", "acme/app", "acme/b"] {
            table.put(repo, "sha256:a", Facts::default(), None, 1);
        }
        let rows = |prefix, last, most| {
            let page = table.repository_rows(prefix, last, most, |name| name != "acme/b");
            (page.items.into_iter().map(|row| row.name).collect::<Vec<_>>().join(" "), page.more)
        };
        assert_eq!(rows("acme/", "", 2), ("acme/a acme/app".to_string(), true));
        assert_eq!(rows("acme/", "acme/app", 2), ("acme/web".to_string(), false));
        assert_eq!(rows("acme/ap", "", 2), ("acme/app".to_string(), false));
    }

    #[test]
    fn images_are_neither_indexes_nor_referrers() {
        let table = MemoryTable::default();
        let facts = |lists: &[&str], subject: Option<&str>| Facts {
            lists: lists.iter().map(|text| text.to_string()).collect(),
            subject: subject.map(str::to_string),
            ..Facts::default()
        };
        for (digest, facts) in
            [("b", facts(&[], None)), ("a", facts(&[], None)), ("c", facts(&["a"], None)), ("d", facts(&[], Some("a")))]
        {
            table.put("acme/web", digest, facts, None, 1);
        }
        let digests = |but| table.images_but("acme/web", but, 9).items.into_iter().map(|named| named.digest).collect::<String>();
        assert_eq!((digests("c"), digests("a")), ("ab".to_string(), "b".to_string()));
    }

    #[test]
    fn a_page_has_a_bound() {
        let table = MemoryTable::default();
        for number in 0..=MAX_PAGE {
            table.put("acme/web", "sha256:a", Facts::default(), Some(&format!("v{number:05}")), 1);
        }
        let first = table.page("acme/web", "", usize::MAX).unwrap();
        assert_eq!((first.items.len(), first.more), (MAX_PAGE, true));
        let second = table.page("acme/web", first.items.last().unwrap(), usize::MAX).unwrap();
        assert_eq!((second.items.len(), second.more), (1, false));
    }
}
