//! The manifests that refer to an image: signatures, lists of its parts, attestations.
use crate::browse::contents::Descriptor;
use crate::browse::html::{html, Html};
use crate::browse::images::pairs;
use crate::browse::layers::text_link;
use crate::browse::layout::{link, pager};
use crate::browse::places::{Image, Place};
use crate::browse::shown::{brief, digest, size};
use crate::browse::visit::Visit;
use crate::http::fault::Fault;
use crate::http::pages::Page;
use crate::metadata::manifest_lists::Referrer;
use crate::metadata::repository::NamedManifest;

/// The number of referrers of a page, and the maximum sum of their lengths.
const MOST: usize = 20;
const MOST_BYTES: u64 = 1 << 20;

/// The maximum number of contents of a referrer that are shown here. Its own page has all.
const MOST_CONTENTS: usize = 10;

/// Returns what a referrer is for, if its type is a usual one.
fn purpose(kind: &str) -> Option<&'static str> {
    let kind = kind.to_ascii_lowercase();
    let purposes = [
        (&["spdx", "cyclonedx", "sbom", "syft"][..], "SBOM"),
        (&["in-toto", "slsa", "attestation"][..], "Attestation"),
        (&["signature", "cosign", "sigstore", "notary"][..], "Signature"),
    ];
    purposes.iter().find(|(words, _)| words.iter().any(|word| kind.contains(word))).map(|(_, purpose)| *purpose)
}

/// Returns a referrer with its annotations and its contents.
async fn item(visit: &Visit, repo: &str, referrer: &Referrer) -> Result<Html, Fault> {
    let kind = referrer.artifact_type.as_deref().unwrap_or(&referrer.media_type);
    let named = NamedManifest { digest: referrer.digest.clone(), media_type: referrer.media_type.clone(), size: referrer.size };
    let manifest = visit.manifest(repo, &named).await?.unwrap_or_default();
    let content = |blob: &Descriptor| {
        html!("<li>{}, {} {}</li>", brief(&blob.media_type), size(blob.size), text_link(repo, &named.digest, blob))
    };
    let contents: Html = manifest.layers.iter().take(MOST_CONTENTS).map(content).sum();
    let contents = if contents.is_empty() { Html::default() } else { html!("<ul>{}</ul>", contents) };
    let annotations = if manifest.annotations.is_empty() { Html::default() } else { pairs(&manifest.annotations) };
    Ok(html!(
        "<li><h3>{} <span class=\"quiet\">{}</span></h3><p>{}, {}</p>{}{}</li>",
        purpose(kind).unwrap_or("Artifact"),
        brief(kind),
        link(Place::Image(Image::by_digest(repo, &named.digest)), digest(&named.digest)),
        size(manifest.content_size().saturating_add(named.size)),
        contents,
        annotations
    ))
}

/// Returns a page of the manifests that refer to a digest. The query `referrer` has the digest after which it begins.
///
/// # Cost
///
/// At most 20 reads of manifests, 1 MiB together unless the first is longer.
pub(super) async fn list(visit: &Visit, image: &Image<'_>, subject: &str) -> Result<Html, Fault> {
    let last = visit.query("referrer");
    let Page { items, more } = visit.registry.manifests.referrers(image.repo, subject, None, &last, (MOST, MOST_BYTES));
    if items.is_empty() && last.is_empty() {
        return Ok(Html::default());
    }
    let mut shown = Vec::with_capacity(items.len());
    for referrer in &items {
        shown.push(item(visit, image.repo, referrer).await?);
    }
    let place = Place::Image(*image);
    let next = items.last().filter(|_| more).map(|last| place.with(&[("referrer", &last.digest)]));
    let pager = pager(last.is_empty(), &place.to_string(), next);
    Ok(html!("<ul class=\"referrers\">{}</ul>{}", shown.into_iter().sum::<Html>(), pager))
}

#[cfg(test)]
mod tests {
    use super::*;

    #[test]
    fn usual_types_have_a_purpose() {
        for (kind, expected) in [
            ("application/spdx+json", Some("SBOM")),
            ("application/vnd.cyclonedx+json", Some("SBOM")),
            ("application/vnd.dev.cosign.artifact.sig.v1+json", Some("Signature")),
            ("application/vnd.cncf.notary.signature", Some("Signature")),
            ("application/vnd.in-toto+json", Some("Attestation")),
            ("application/x", None),
        ] {
            assert_eq!(purpose(kind), expected, "{kind}");
        }
    }
}
