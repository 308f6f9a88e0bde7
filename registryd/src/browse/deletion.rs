//! The delete of a tag or an image: the question, and the delete, which is that of the API.
use crate::browse::forms::Form;
use crate::browse::html::{html, Html};
use crate::browse::layout::{failure, link, respond, trail, Document};
use crate::browse::places::{Image, Place, Reference};
use crate::browse::shown::{count, short};
use crate::browse::visit::{unseen, Visit};
use crate::endpoints::registry::Registry;
use crate::http::content::RequestContent;
use crate::http::fault::Fault;
use crate::http::paths::Target;
use crate::http::responses::HandlerResult;
use crate::metadata::repository::Removal;
use hyper::StatusCode;
use std::sync::Arc;

/// The maximum number of tags that the question names.
const MOST_TAGS: usize = 50;

/// Fails if the sender may not see a repository, or may not delete in it.
fn check(visit: &Visit, repo: &str) -> Result<(), Fault> {
    visit.check_seen(repo)?;
    match visit.may_delete(repo) {
        true => Ok(()),
        false => Err(Fault::new(StatusCode::FORBIDDEN, "DENIED", "you do not have the right to delete in this repository")),
    }
}

/// Returns why a tag cannot be deleted, if that is known.
fn immutable(registry: &Registry, repo: &str, tag: &str) -> Option<Html> {
    registry.is_immutable(repo, tag).then(|| html!("The tag {} is immutable: it cannot be deleted.", tag))
}

/// Returns what goes with a tag, and why it cannot go.
fn tag_question(visit: &Visit, repo: &str, tag: &str) -> Result<(Html, Option<Html>), Fault> {
    let row = visit.registry.manifests.tag_row(repo, tag).ok_or_else(unseen)?;
    let by_digest = Place::Image(Image::by_digest(repo, &row.manifest.digest));
    let goes = html!(
        "<p>The tag <strong>{}</strong> goes. Its image {} stays in the repository, with its other tags if it has any.</p>",
        tag,
        link(by_digest, html!("<code>{}</code>", row.manifest.digest))
    );
    Ok((goes, immutable(&visit.registry, repo, tag)))
}

/// Returns why an image cannot go, if that is known: an index lists it, or an immutable tag names it.
fn kept(visit: &Visit, repo: &str, digest: &str) -> Option<Html> {
    let Registry { manifests, asked_removal, .. } = &*visit.registry;
    let tag = manifests.find_tag_of(repo, digest, |tag| visit.registry.is_immutable(repo, tag));
    if let Some(tag) = tag {
        return immutable(&visit.registry, repo, &tag);
    }
    let index = manifests.indexes_of(repo, digest).into_iter().next().filter(|_| matches!(asked_removal, Removal::Asked))?;
    let index_link = link(Place::Image(Image::by_digest(repo, &index)), html!("{}", short(&index)));
    Some(html!("The index {} lists the image: delete the index first.", index_link))
}

/// Returns what goes with an image, and why it cannot go.
fn image_question(visit: &Visit, repo: &str, digest: &str) -> Result<(Html, Option<Html>), Fault> {
    let manifests = &visit.registry.manifests;
    manifests.by_digest(repo, digest).ok_or_else(unseen)?;
    let tags = manifests.tags_of(repo, digest, MOST_TAGS);
    let names: Html = tags.items.iter().map(|tag| html!("<li>{}</li>", tag)).sum();
    let number = if tags.more { format!("more than {MOST_TAGS} tags") } else { count(tags.items.len(), "tag") };
    let names = match tags.items.is_empty() {
        true => html!("<p>It has no tags.</p>"),
        false => html!("<p>With it go {}:</p><ul class=\"names\">{}</ul>", number, names),
    };
    let referrers = manifests.referrers(repo, digest, None, "", (1, u64::MAX)).items.len();
    let left = (referrers > 0).then(|| html!("<p>Signatures and others that refer to it stay.</p>"));
    let goes = html!("<p>The image <code>{}</code> goes.</p>{}{}", digest, names, left);
    Ok((goes, kept(visit, repo, digest)))
}

/// Makes the page that asks whether to delete.
///
/// # Errors
///
/// Fails if there is no such image, or the sender may not see or delete it.
pub(super) fn question(visit: &Visit, image: Image<'_>) -> Result<Document, Fault> {
    check(visit, image.repo)?;
    let (title, (goes, kept)) = match image.reference {
        Reference::Tag(tag) => (format!("Delete the tag {tag}?"), tag_question(visit, image.repo, tag)?),
        Reference::Digest(digest) => (format!("Delete the image {}?", short(digest)), image_question(visit, image.repo, digest)?),
    };
    let back = link(Place::Image(image), html!("Keep it"));
    let answer = match kept {
        Some(why) => html!("<p class=\"notice\">{}</p><p class=\"answer\">{}</p>", why, back),
        None => html!(
            "<p>This cannot be undone.</p><form class=\"answer\" method=\"post\" action=\"{}\">\
             <input type=\"hidden\" name=\"token\" value=\"{}\"><button class=\"danger\">Delete</button>{}</form>",
            Place::Delete(image).to_string(),
            visit.token(),
            back
        ),
    };
    Ok(Document { title, trail: trail(image.repo, true), body: html!("{}{}", goes, answer) })
}

/// Makes the page after a delete.
fn done(image: &Image<'_>, has_repo: bool) -> Document {
    let title = match image.reference {
        Reference::Tag(tag) => format!("The tag {tag} is deleted"),
        Reference::Digest(digest) => format!("The image {} is deleted", short(digest)),
    };
    let body = match has_repo {
        true => html!("<p>{}</p>", link(Place::Repository(image.repo), html!("Back to {}", image.repo))),
        false => html!("<p>The repository {} has nothing left.</p>", image.repo),
    };
    Document { title, trail: trail(image.repo, has_repo), body }
}

/// Deletes a tag or an image as the API does: with the same checks, events and records.
pub(super) async fn delete(visit: Visit, image: Image<'_>, form: &Form, content: &mut RequestContent) -> HandlerResult {
    let checked = check(&visit, image.repo).and_then(|()| visit.check_token(form));
    if let Err(fault) = checked {
        return failure(&visit, &fault);
    }
    let Image { repo, reference } = image;
    let head = visit.head_of_delete();
    let Visit { registry, pages, head: own, caller, .. } = visit;
    let target = Target::Manifest { repo, reference: reference.text() };
    let deleted = Arc::clone(&registry).serve_target(head, caller, target, content).await;
    let visit = Visit::new(registry, pages, own);
    match deleted {
        Ok(_) => {
            let has_repo = visit.registry.manifests.tag_rows(repo, "", "", 1).is_some();
            respond(&visit, StatusCode::OK, &done(&image, has_repo))
        }
        Err(fault) => failure(&visit, &fault),
    }
}
