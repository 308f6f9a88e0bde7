//! The text of a blob that a manifest refers to.
use crate::browse::contents::MOST_TEXT;
use crate::browse::html::{html, Html};
use crate::browse::images;
use crate::browse::layout::{link, trail, Document};
use crate::browse::places::{Image, Place};
use crate::browse::shown::{brief, facts, short, size};
use crate::browse::visit::{unseen, Visit};
use crate::http::fault::Fault;
use bytes::Bytes;

/// Returns the longest beginning of a content that is text. A letter may be cut at the end of what was read. Returns `None` if the content
/// is not UTF-8.
fn text_of(content: &[u8], is_cut: bool) -> Option<&str> {
    match std::str::from_utf8(content) {
        Ok(text) => Some(text),
        Err(error) if is_cut && error.error_len().is_none() => std::str::from_utf8(&content[..error.valid_up_to()]).ok(),
        Err(_) => None,
    }
}

fn shown(len: u64, content: &Bytes) -> Html {
    let is_cut = len > content.len() as u64;
    let notice =
        is_cut.then(|| html!("<p class=\"notice\">This is the beginning: {} of {}.</p>", size(content.len() as u64), size(len)));
    match text_of(content, is_cut) {
        Some(text) => html!("{}<pre tabindex=\"0\" aria-label=\"Text\">{}</pre>", notice, text),
        None => html!("<p class=\"notice\">The content is not text in UTF-8.</p>"),
    }
}

/// Makes the page of the text of a blob. The query `blob` has its digest. The manifest has to refer to it, with a type that is text.
///
/// # Errors
///
/// Fails if there is no such text, or the sender may not see it.
pub(super) async fn page(visit: &Visit, image: Image<'_>) -> Result<Document, Fault> {
    let (named, _, manifest) = images::read(visit, &image).await?;
    let wanted = visit.query("blob");
    let blob = manifest.blobs().find(|blob| blob.digest == wanted && blob.is_text()).ok_or_else(unseen)?;
    let _reserved = visit.reserve(image.repo, 2 * MOST_TEXT).await?;
    let (len, content) = visit.blob(image.repo, &blob.digest).await?.ok_or_else(unseen)?;
    let by_digest = Place::Image(Image::by_digest(image.repo, &named.digest));
    let facts = facts([
        (html!("Type"), html!("{}", brief(&blob.media_type))),
        (html!("Size"), html!("{}", size(len))),
        (html!("Digest"), html!("<code>{}</code>", blob.digest)),
        (html!("Of"), link(by_digest, html!("<code>{}</code>", named.digest))),
    ]);
    let title = format!("Text of {}", short(&blob.digest));
    Ok(Document { title, trail: trail(image.repo, true), body: html!("{}{}", facts, shown(len, &content)) })
}

#[cfg(test)]
mod tests {
    use super::*;

    #[test]
    fn a_text_may_be_cut_in_a_letter() {
        let text = "aä".as_bytes();
        assert_eq!((text_of(text, false), text_of(&text[..2], true), text_of(&text[..2], false)), (Some("aä"), Some("a"), None));
        assert_eq!((text_of(b"a\xffb", true), text_of(b"", false)), (None, Some("")));
    }

    #[test]
    fn a_text_is_escaped() {
        let page = shown(20, &Bytes::from_static(b"</pre><script>")).into_text();
        assert!(page.contains("&lt;/pre&gt;&lt;script&gt;") && page.contains("the beginning: 14 B of 20 B"), "{page}");
        assert!(shown(3, &Bytes::from_static(b"\xff\x00a")).into_text().contains("not text"));
    }
}
