//! An image, an index or another manifest: what it is, what it has, and what refers to it.
use crate::browse::contents::{Config, Manifest};
use crate::browse::html::{html, Html};
use crate::browse::layout::{command, link, trail, Document};
use crate::browse::places::{Image, Place, Reference};
use crate::browse::shown::{age, brief, facts, short, size};
use crate::browse::tags::pull_command;
use crate::browse::visit::{unseen, Visit};
use crate::browse::{layers, platforms, referrers};
use crate::http::fault::Fault;
use crate::metadata::document::is_digest;
use crate::metadata::manifest_lists::TagRow;
use crate::metadata::repository::NamedManifest;
use std::collections::BTreeMap;

/// The maximum number of annotations, labels and ports that are shown.
const MOST_PAIRS: usize = 50;

/// Finds the manifest of a page, and the time of its push if it is found by a tag.
fn find(visit: &Visit, image: &Image<'_>) -> Option<(NamedManifest, Option<u64>)> {
    let manifests = &visit.registry.manifests;
    match image.reference {
        Reference::Tag(tag) => manifests.tag_row(image.repo, tag).map(|TagRow { manifest, pushed, .. }| (manifest, Some(pushed))),
        Reference::Digest(digest) => manifests.by_digest(image.repo, digest).map(|manifest| (manifest, None)),
    }
}

/// Finds the manifest of a page that the sender may see, and reads it.
///
/// # Errors
///
/// Fails if there is none, the sender may not see it, or it cannot be read.
pub(super) async fn read(visit: &Visit, image: &Image<'_>) -> Result<(NamedManifest, Option<u64>, Manifest), Fault> {
    visit.check_seen(image.repo)?;
    let (named, pushed) = find(visit, image).ok_or_else(unseen)?;
    let manifest = visit.manifest(image.repo, &named).await?.ok_or_else(unseen)?;
    Ok((named, pushed, manifest))
}

/// Returns the pairs of annotations or labels.
pub(super) fn pairs(texts: &BTreeMap<String, String>) -> Html {
    let shown = texts.iter().take(MOST_PAIRS);
    let shown = facts(shown.map(|(name, value)| (html!("<code>{}</code>", brief(name)), html!("{}", brief(value)))));
    let more = texts.len().saturating_sub(MOST_PAIRS);
    let more = (more > 0).then(|| html!("<p>{} more are not shown.</p>", more));
    html!("{}{}", shown, more)
}

/// Returns a section with a heading, or nothing if it has nothing.
pub(super) fn section(heading: &str, body: Html) -> Html {
    match body.is_empty() {
        true => Html::default(),
        false => html!("<section><h2>{}</h2>{}</section>", heading, body),
    }
}

/// Returns the words of a command as code.
fn words(words: &[String]) -> Html {
    match words.is_empty() {
        true => Html::default(),
        false => html!("<code>{}</code>", brief(&words.join(" "))),
    }
}

fn text(text: &str) -> Html {
    html!("{}", brief(text))
}

/// Returns the command that pulls an image, unless it is of use for another image alone.
fn lead(visit: &Visit, image: &Image<'_>, manifest: &Manifest) -> Html {
    match (manifest.is_unreadable, &manifest.subject) {
        (true, _) => html!("<p class=\"notice\">The manifest is not understood, so its content is not shown.</p>"),
        (false, Some(_)) => Html::default(),
        (false, None) => command(&pull_command(visit, image)),
    }
}

/// Returns what the manifest is.
fn manifest_facts(repo: &str, named: &NamedManifest, pushed: Option<u64>, manifest: &Manifest) -> Html {
    let subject = manifest.subject.as_ref().map(|subject| &subject.digest).filter(|digest| !digest.is_empty());
    let content = if manifest.manifests.is_empty() { text(&size(manifest.content_size())) } else { Html::default() };
    let by_digest = Place::Image(Image::by_digest(repo, &named.digest));
    facts([
        (html!("Digest"), link(by_digest, html!("<code>{}</code>", named.digest))),
        (html!("Pushed"), pushed.map_or_else(Html::default, age)),
        (html!("Size"), content),
        (html!("Manifest"), html!("<code>{}</code>, {}", named.media_type, size(named.size))),
        (html!("Type of artifact"), manifest.artifact_type.as_deref().map_or_else(Html::default, text)),
        (html!("Refers to"), subject.map_or_else(Html::default, |digest| subject_link(repo, digest))),
    ])
}

/// Returns the subject of a manifest, with a link if it can be a manifest.
fn subject_link(repo: &str, digest: &str) -> Html {
    let code = html!("<code>{}</code>", brief(digest));
    match is_digest(digest) {
        true => link(Place::Image(Image::by_digest(repo, digest)), code),
        false => code,
    }
}

/// Returns what the config of an image says.
fn config_facts(config: &Config) -> Html {
    let run = &config.config;
    let ports: Vec<String> = run.exposed_ports.keys().take(MOST_PAIRS).cloned().collect();
    facts([
        (html!("Platform"), text(&config.platform.text())),
        (html!("Created"), text(&config.created)),
        (html!("Entrypoint"), words(&run.entrypoint)),
        (html!("Command"), words(&run.cmd)),
        (html!("User"), text(&run.user)),
        (html!("Folder"), text(&run.working_dir)),
        (html!("Ports"), text(&ports.join(", "))),
    ])
}

/// Returns the links to delete what the page shows.
fn deletes(visit: &Visit, image: &Image<'_>, digest: &str) -> Html {
    if !visit.may_delete(image.repo) {
        return Html::default();
    }
    let tag = match image.reference {
        Reference::Tag(tag) => Some(link(Place::Delete(*image), html!("Delete the tag {}", tag))),
        Reference::Digest(_) => None,
    };
    let whole = link(Place::Delete(Image::by_digest(image.repo, digest)), html!("Delete the image with all its tags"));
    html!("<p class=\"deletes\">{}{}</p>", tag, whole)
}

/// Makes the page of a manifest.
///
/// # Errors
///
/// Fails as `read` does.
///
/// # Cost
///
/// Reads the manifest and its config, and makes the calls of `comparison` and of `referrers`.
pub(super) async fn page(visit: &Visit, image: Image<'_>) -> Result<Document, Fault> {
    let (named, pushed, manifest) = read(visit, &image).await?;
    let repo = image.repo;
    let config = visit.config(repo, &manifest).await?;
    let title = match image.reference {
        Reference::Tag(tag) => format!("{repo}:{tag}"),
        Reference::Digest(digest) => format!("{repo}@{}", short(digest)),
    };
    let labels = config.as_ref().map(|config| &config.config.labels).filter(|labels| !labels.is_empty());
    let annotations = Some(&manifest.annotations).filter(|annotations| !annotations.is_empty());
    let platforms = platforms::list(visit, repo, &manifest).await?;
    let layers = layers::list(visit, &image, &named, &manifest, config.as_ref()).await?;
    let referrers = referrers::list(visit, &image, &named.digest).await?;
    let body = html!(
        "{}{}{}{}{}{}{}{}{}",
        lead(visit, &image, &manifest),
        manifest_facts(repo, &named, pushed, &manifest),
        section("Platforms", platforms),
        config.as_ref().map(|config| section("Configuration", config_facts(config))),
        section("Layers", layers),
        section("Referrers", referrers),
        annotations.map(|annotations| section("Annotations", pairs(annotations))),
        labels.map(|labels| section("Labels", pairs(labels))),
        section("Delete", deletes(visit, &image, &named.digest))
    );
    Ok(Document { title, trail: trail(repo, true), body })
}
