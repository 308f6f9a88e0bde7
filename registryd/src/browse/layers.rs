//! The layers of an image, or the contents of another artifact: their sizes, what made them, and what they share.
use crate::browse::comparison::{compare, Comparison, Sharing};
use crate::browse::contents::{Config, Descriptor, Manifest};
use crate::browse::html::{html, Html};
use crate::browse::layout::{link, pager, table};
use crate::browse::places::{Image, Place};
use crate::browse::shown::{brief, count, digest, short, size};
use crate::browse::visit::Visit;
use crate::http::fault::Fault;
use crate::metadata::document::is_digest;
use crate::metadata::repository::NamedManifest;

/// The number of layers of a page.
const MOST: usize = 50;

/// The maximum number of repositories that are named for a layer.
const MOST_NAMED: usize = 3;

/// The annotation with the name of a file (ORAS).
const TITLE: &str = "org.opencontainers.image.title";

/// Returns the link to the text of a blob, if it is text.
pub(super) fn text_link(repo: &str, manifest: &str, blob: &Descriptor) -> Html {
    let path = Place::Text(Image::by_digest(repo, manifest)).with(&[("blob", &blob.digest)]);
    match blob.is_text() && is_digest(&blob.digest) {
        true => html!("<a href=\"{}\" aria-label=\"Show the text of {}\">Show the text</a>", path, short(&blob.digest)),
        false => Html::default(),
    }
}

/// Returns what a layer shares, as text.
fn shared(sharing: Option<&Sharing>) -> Html {
    let sharing = match sharing {
        Some(sharing) => sharing,
        None => return html!("–"),
    };
    let images = (sharing.images > 0).then(|| html!("<li>{} here</li>", count(sharing.images, "image")));
    let named = sharing.repositories.iter().take(MOST_NAMED);
    let repositories: Html = named.map(|repo| html!("<li>{}</li>", link(Place::Repository(repo), html!("{}", repo)))).sum();
    let more = sharing.repositories.len().saturating_sub(MOST_NAMED);
    let more = (more > 0).then(|| html!("<li>{} more</li>", more));
    match images.is_some() || !repositories.is_empty() {
        true => html!("<ul>{}{}{}</ul>", images, repositories, more),
        false => html!("nothing"),
    }
}

/// Returns what a content is: the step that made a layer, or its type and its name.
fn origin(layer: &Descriptor, made_by: Option<&&str>) -> Html {
    match (made_by.filter(|text| !text.is_empty()), layer.annotations.get(TITLE)) {
        (Some(step), _) => html!("<code class=\"step\">{}</code>", brief(step)),
        (None, Some(title)) => html!("{} <span class=\"quiet\">{}</span>", brief(title), brief(&layer.media_type)),
        (None, None) => html!("<span class=\"quiet\">{}</span>", brief(&layer.media_type)),
    }
}

/// Returns the sentence on how much was compared.
fn extent(comparison: Option<&Comparison>) -> Html {
    match comparison {
        Some(Comparison { images, repositories, is_partial, .. }) => html!(
            "<p class=\"quiet\">Compared with {} of this repository and with {} of the tenant{}.</p>",
            count(*images, "other image"),
            match repositories {
                1 => "1 other repository".to_string(),
                number => format!("{number} other repositories"),
            },
            if *is_partial { "; there are more" } else { "" }
        ),
        None => html!("<p class=\"quiet\">Not compared with other images now: the registry is busy.</p>"),
    }
}

/// Returns a page of the layers of a manifest. The query `layer` has the number of the first.
pub(super) async fn list(
    visit: &Visit,
    image: &Image<'_>,
    named: &NamedManifest,
    manifest: &Manifest,
    config: Option<&Config>,
) -> Result<Html, Fault> {
    let first = visit.query("layer").parse::<usize>().unwrap_or(1).clamp(1, manifest.layers.len().max(1));
    let layers: Vec<(usize, &Descriptor)> = manifest.layers.iter().enumerate().skip(first - 1).take(MOST).collect();
    if layers.is_empty() {
        return Ok(Html::default());
    }
    let digests = layers.iter().map(|(_, layer)| layer.digest.as_str()).filter(|digest| is_digest(digest));
    let comparison = compare(visit, image.repo, &named.digest, digests).await?;
    let made_by = config.map(Config::made_by).unwrap_or_default();
    let row = |(at, layer): &(usize, &Descriptor)| {
        let sharing = comparison.as_ref().and_then(|comparison| comparison.by_digest.get(&layer.digest));
        vec![
            html!("{}", at + 1),
            digest(&brief(&layer.digest)),
            html!("{}", size(layer.size)),
            shared(sharing),
            html!("{} {}", origin(layer, made_by.get(*at)), text_link(image.repo, &named.digest, layer)),
        ]
    };
    let columns = ["Layer", "Digest", "Size", "Shared with", "Content"];
    let place = Place::Image(*image);
    let next = (first - 1 + MOST < manifest.layers.len()).then(|| place.with(&[("layer", &(first + MOST).to_string())]));
    let pager = pager(first == 1, &place.to_string(), next);
    Ok(html!("{}{}{}", table("Layers", &columns, layers.iter().map(row)), extent(comparison.as_ref()), pager))
}
