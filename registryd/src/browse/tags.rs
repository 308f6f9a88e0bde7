//! The tags of a repository.
use crate::browse::contents::{Manifest, MOST_OF_ROW};
use crate::browse::html::{html, Html};
use crate::browse::layout::{command, filter, link, pager, table, trail, Document};
use crate::browse::places::{Image, Place};
use crate::browse::shown::{age, digest, size};
use crate::browse::visit::{unseen, Visit};
use crate::http::fault::Fault;
use crate::http::pages::Page;
use crate::metadata::manifest_lists::TagRow;
use crate::metadata::repository::NamedManifest;
use std::collections::HashMap;

/// The number of tags of a page.
const MOST: usize = 50;

/// The maximum number of manifests that are read for a page, the maximum sum of their lengths, and the maximum number of those that are
/// read for one index.
const MOST_READ: usize = 200;
const MOST_BYTES: u64 = 4 << 20;
const MOST_LISTED: usize = 8;

/// What a tag's image has.
#[derive(Clone, Copy, Debug, Default)]
struct Summary {
    /// The least and the greatest size of its platforms, if they are known.
    sizes: Option<(u64, u64)>,
    platforms: Option<usize>,
}

/// Reads manifests for a page, each once, until they are too many.
struct Summaries<'v> {
    visit: &'v Visit,
    repo: &'v str,
    /// How many more may be read, and how many more bytes.
    left: usize,
    left_bytes: u64,
    known: HashMap<String, Summary>,
}

/// The sizes as text.
fn sizes(summary: Summary) -> Html {
    match summary.sizes {
        Some((least, most)) if size(least) == size(most) => html!("{}", size(most)),
        Some((least, most)) => html!("{} – {}", size(least), size(most)),
        None => html!("–"),
    }
}

impl Summaries<'_> {
    /// Reads a manifest, if it may be read and can be understood.
    async fn manifest(&mut self, named: &NamedManifest) -> Option<Manifest> {
        if self.left == 0 || named.size > MOST_OF_ROW.min(self.left_bytes) {
            return None;
        }
        self.left -= 1;
        self.left_bytes -= named.size;
        self.visit.manifest(self.repo, named).await.ok().flatten().filter(|manifest| !manifest.is_unreadable)
    }

    /// Reads a manifest, and the first ones that it lists.
    async fn read(&mut self, named: &NamedManifest) -> Summary {
        let manifest = match self.manifest(named).await {
            Some(manifest) => manifest,
            None => return Summary::default(),
        };
        if manifest.manifests.is_empty() {
            let total = manifest.content_size();
            return Summary { sizes: Some((total, total)), platforms: None };
        }
        let mut found: Vec<u64> = Vec::new();
        for listed in manifest.platforms().take(MOST_LISTED) {
            if let Some(named) = self.visit.registry.manifests.by_digest(self.repo, &listed.digest) {
                found.extend(self.manifest(&named).await.map(|manifest| manifest.content_size()));
            }
        }
        let sizes = found.iter().min().copied().zip(found.iter().max().copied());
        Summary { sizes, platforms: Some(manifest.platforms().count()) }
    }

    /// Returns what a manifest has.
    async fn of(&mut self, named: &NamedManifest) -> Summary {
        if let Some(summary) = self.known.get(&named.digest) {
            return *summary;
        }
        let summary = self.read(named).await;
        self.known.insert(named.digest.clone(), summary);
        summary
    }
}

/// Returns the row of a tag.
fn row(visit: &Visit, repo: &str, tag: &TagRow, summary: Summary) -> Vec<Html> {
    let image = Image::tagged(repo, &tag.name);
    let by_digest = Place::Image(Image::by_digest(repo, &tag.manifest.digest));
    let platforms = summary.platforms.map_or(html!("1"), |number| html!("{}", number));
    vec![
        link(Place::Image(image), html!("{}", tag.name)),
        link(by_digest, digest(&tag.manifest.digest)),
        age(tag.pushed),
        sizes(summary),
        platforms,
        command(&pull_command(visit, &image)),
    ]
}

/// Returns the command that pulls an image.
pub(super) fn pull_command(visit: &Visit, image: &Image<'_>) -> String {
    format!("docker pull {}/{image}", visit.host())
}

/// Makes the list of the tags of a repository.
///
/// # Errors
///
/// Fails if there is no such repository, or the sender may not see it.
pub(super) async fn page(visit: &Visit, repo: &str) -> Result<Document, Fault> {
    visit.check_seen(repo)?;
    let (prefix, last) = (visit.query("prefix"), visit.query("last"));
    let rows = visit.registry.manifests.tag_rows(repo, &prefix, &last, MOST);
    let Page { items, more } = rows.ok_or_else(unseen)?;
    let mut summaries = Summaries { visit, repo, left: MOST_READ, left_bytes: MOST_BYTES, known: HashMap::new() };
    let mut rows = Vec::with_capacity(items.len());
    for tag in &items {
        let summary = summaries.of(&tag.manifest).await;
        rows.push(row(visit, repo, tag, summary));
    }
    let place = Place::Repository(repo);
    let next = items.last().filter(|_| more).map(|row| place.with(&[("prefix", &prefix), ("last", &row.name)]));
    let columns = ["Tag", "Image", "Pushed", "Size", "Platforms", "Pull command"];
    let list = match rows.is_empty() {
        true if prefix.is_empty() && last.is_empty() => html!("<p class=\"empty\">This repository has no tags.</p>"),
        true => html!("<p class=\"empty\">No further tag begins with “{}”.</p>", prefix),
        false => table("Tags", &columns, rows),
    };
    let first = if prefix.is_empty() { place.to_string() } else { place.with(&[("prefix", &prefix)]) };
    let body = html!("{}{}{}", filter(&place, "Tags that begin with", &prefix), list, pager(last.is_empty(), &first, next));
    Ok(Document { title: repo.to_string(), trail: trail(repo, false), body })
}
