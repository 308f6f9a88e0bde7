//! The images that an index lists.
use crate::browse::contents::{Descriptor, Manifest, Platform, MOST_OF_ROW};
use crate::browse::html::{html, Html};
use crate::browse::layout::{link, table};
use crate::browse::places::{Image, Place};
use crate::browse::shown::{brief, digest, size};
use crate::browse::visit::Visit;
use crate::http::fault::Fault;

/// The maximum number of images that are shown, and of those whose sizes are read.
const MOST: usize = 200;
const MOST_READ: usize = 32;

/// Returns the name of a platform. Some builders list an attestation for each image, with a platform that is unknown.
fn name(listed: &Descriptor) -> String {
    let platform = listed.platform.as_ref().map(Platform::text).filter(|text| !text.is_empty());
    match platform.as_deref() {
        Some("unknown/unknown") => "attestation".to_string(),
        Some(text) => brief(text),
        None => "any".to_string(),
    }
}

/// Returns the row of an image that an index lists.
async fn row(visit: &Visit, repo: &str, listed: &Descriptor, is_read: bool) -> Result<Vec<Html>, Fault> {
    let known = visit.registry.manifests.by_digest(repo, &listed.digest);
    let manifest = match &known {
        Some(named) if is_read && named.size <= MOST_OF_ROW => visit.manifest(repo, named).await?,
        _ => None,
    };
    let total = match (&known, manifest) {
        (None, _) => html!("not in this repository"),
        (_, Some(manifest)) => html!("{}", size(manifest.content_size())),
        (_, None) => html!("–"),
    };
    let image = match &known {
        Some(named) => link(Place::Image(Image::by_digest(repo, &named.digest)), digest(&named.digest)),
        None => digest(&brief(&listed.digest)),
    };
    Ok(vec![html!("{}", name(listed)), image, total])
}

/// Returns the images of an index, or nothing if the manifest is none.
pub(super) async fn list(visit: &Visit, repo: &str, manifest: &Manifest) -> Result<Html, Fault> {
    if manifest.manifests.is_empty() {
        return Ok(Html::default());
    }
    let mut rows = Vec::new();
    for (at, listed) in manifest.manifests.iter().take(MOST).enumerate() {
        rows.push(row(visit, repo, listed, at < MOST_READ).await?);
    }
    let more = manifest.manifests.len().saturating_sub(MOST);
    let more = (more > 0).then(|| html!("<p>{} more are not shown.</p>", more));
    Ok(html!("{}{}", table("Platforms", &["Platform", "Image", "Size"], rows), more))
}
