//! The media type of a manifest: that of the header, that of the document, or the default of its form (OCI Distribution
//! Specification 1.1, "Pushing Manifests"; OCI Image Specification 1.1, "Image Manifest", "Image Index").
use crate::http::fault::Fault;
use crate::metadata::document::{Document, MAX_LEN};

/// The media types of an image manifest, the standard's first.
const IMAGE_TYPES: [&str; 2] =
    ["application/vnd.oci.image.manifest.v1+json", "application/vnd.docker.distribution.manifest.v2+json"];

/// The standard's media type of an image index.
pub(crate) const INDEX_TYPE: &str = "application/vnd.oci.image.index.v1+json";

/// The media types of an image index, the standard's first.
const INDEX_TYPES: [&str; 2] = [INDEX_TYPE, "application/vnd.docker.distribution.manifest.list.v2+json"];

/// The media type of a manifest.
#[derive(Debug, PartialEq, Eq)]
pub(crate) struct MediaType {
    pub(crate) text: String,
    /// Whether the header or the document has it. Otherwise it is the standard's media type for the document's form.
    pub(crate) is_given: bool,
}

/// Returns the media type of a manifest that was sent with a header `Content-Type`, if any.
///
/// # Errors
///
/// - The header and the document have different media types.
/// - A media type is malformed or has more than 255 bytes.
/// - The media type is that of an image manifest and the document is an index, or the other way round.
pub(crate) fn media_type_of(header: Option<&str>, document: &Document) -> Result<MediaType, Fault> {
    let given = header.map(without_parameters).filter(|text| !text.is_empty());
    let known = if document.is_index { INDEX_TYPES[0] } else { IMAGE_TYPES[0] };
    let is_given = given.is_some() || document.media_type.is_some();
    let text = match (given, document.media_type.as_deref()) {
        (Some(given), Some(own)) if !given.eq_ignore_ascii_case(own) => {
            let message = format!("Content-Type is {given:.255}, but the manifest's mediaType is {own:.255}");
            return Err(Fault::manifest_invalid(message));
        }
        (_, Some(own)) => own.to_string(),
        (Some(given), None) => given.to_ascii_lowercase(),
        (None, None) => known.to_string(),
    };
    if !is_media_type(&text) {
        return Err(Fault::manifest_invalid(format!("{text:.255} is not a media type of at most {MAX_LEN} bytes")));
    }
    let others = if document.is_index { IMAGE_TYPES } else { INDEX_TYPES };
    if others.iter().any(|other| other.eq_ignore_ascii_case(&text)) {
        let form = if document.is_index { "an index" } else { "an image manifest" };
        return Err(Fault::manifest_invalid(format!("the manifest is {form}, but its media type is {text}")));
    }
    Ok(MediaType { text, is_given })
}

/// Checks that a browser shows no content with this media type of a manifest as a page or runs it as a script: it is of
/// `application`, and neither XML (RFC 7303) nor a script (RFC 9239).
///
/// # Errors
///
/// Fails with any other media type.
pub(crate) fn check_inert(text: &str) -> Result<(), Fault> {
    let text = text.to_ascii_lowercase();
    let is_active = |subtype: &str| {
        subtype == "xml" || subtype.starts_with("xml-") || subtype.ends_with("+xml") || subtype.ends_with("script")
    };
    match text.split_once('/') {
        Some(("application", subtype)) if !is_active(subtype) => Ok(()),
        _ => Err(Fault::manifest_invalid(format!(
            "the media type of a manifest is of `application`, not XML and no script: {text:.255}"
        ))),
    }
}

/// Returns a media type without its parameters (RFC 9110, 8.3.1).
fn without_parameters(text: &str) -> &str {
    text.split(';').next().unwrap_or("").trim()
}

/// Returns whether a text is a media type without parameters: two tokens (RFC 9110, 5.6.2).
fn is_media_type(text: &str) -> bool {
    let is_token = |word: &str| {
        !word.is_empty() && word.bytes().all(|byte| byte.is_ascii_alphanumeric() || b"!#$%&'*+-.^_`|~".contains(&byte))
    };
    text.len() <= MAX_LEN && text.split_once('/').map_or(false, |(kind, subtype)| is_token(kind) && is_token(subtype))
}

#[cfg(test)]
mod tests {
    use super::*;
    use crate::metadata::document::read;
    use bytes::Bytes;

    const IMAGE: &str = IMAGE_TYPES[0];
    const DOCKER_IMAGE: &str = IMAGE_TYPES[1];
    const INDEX: &str = INDEX_TYPES[0];

    fn media_type_text(header: Option<&str>, text: &str) -> Option<String> {
        let document = read(&[Bytes::copy_from_slice(text.as_bytes())]).ok()?;
        media_type_of(header, &document).ok().map(|media_type| media_type.text)
    }

    #[test]
    fn a_media_type_is_the_header_s_or_the_document_s_own() {
        let (plain, index) = (r#"{"config":{}}"#, r#"{"manifests":null}"#);
        let own = format!(r#"{{"config":{{}},"mediaType":"{DOCKER_IMAGE}"}}"#);
        let other = format!(r#"{{"config":{{}},"mediaType":"{INDEX}"}}"#);
        let cases = [
            (None, plain, Some(IMAGE)),
            (Some(""), plain, Some(IMAGE)),
            (None, index, Some(INDEX)),
            (None, &own, Some(DOCKER_IMAGE)),
            (Some(IMAGE), plain, Some(IMAGE)),
            (Some(DOCKER_IMAGE), plain, Some(DOCKER_IMAGE)),
            (Some("Application/Vnd.OCI.Image.Manifest.v1+json; charset=utf-8"), plain, Some(IMAGE)),
            (Some("application/vnd.example+json"), index, Some("application/vnd.example+json")),
            (Some(DOCKER_IMAGE), &own, Some(DOCKER_IMAGE)),
            (Some(IMAGE), &own, None),
            (Some(IMAGE), index, None),
            (Some(INDEX), plain, None),
            (None, &other, None),
        ];
        for (header, text, media_type) in cases {
            assert_eq!(media_type_text(header, text).as_deref(), media_type, "{header:?} {text}");
        }
    }

    #[test]
    fn what_is_no_media_type_is_refused() {
        let long = format!("a/{}", "b".repeat(MAX_LEN - 2));
        assert_eq!(media_type_text(Some(&long), "{}").as_deref(), Some(&*long));
        for text in [&*format!("{long}b"), "a", "a/", "/b", "a/b/c", "a b/c", "ä/b"] {
            assert_eq!(media_type_text(Some(text), "{}"), None, "{text}");
        }
        for text in [r#"{"mediaType":"a\nb/c"}"#, r#"{"mediaType":5}"#, "[]", "{", "", r#"{} {}"#] {
            assert_eq!(media_type_text(None, text), None, "{text}");
        }
    }

    #[test]
    fn what_a_browser_shows_or_runs_is_refused() {
        for text in [IMAGE, DOCKER_IMAGE, INDEX, "application/json", "application/vnd.example.xml.v1+json", "Application/JSON"] {
            assert!(check_inert(text).is_ok(), "{text}");
        }
        let types = [
            "text/html",
            "TEXT/HTML",
            "text/javascript",
            "text/plain",
            "text/xsl",
            "image/svg+xml",
            "application/xhtml+xml",
            "Application/XHTML+XML",
            "application/xml",
            "application/xml-dtd",
            "application/atom+xml",
            "application/javascript",
            "application/x-ecmascript",
            "multipart/x-mixed-replace",
            "applications/json",
        ];
        for text in types {
            assert!(check_inert(text).is_err(), "{text}");
        }
    }

    #[test]
    fn a_media_type_is_given_or_the_form_s() {
        let is_given = |header, text: &'static str| media_type_of(header, &read(&[Bytes::from(text)]).unwrap()).unwrap().is_given;
        assert!(is_given(Some(IMAGE), "{}"));
        assert!(is_given(None, r#"{"mediaType":"a/b"}"#));
        assert!(!is_given(None, "{}"));
    }

    #[test]
    fn the_last_of_two_members_counts() {
        assert_eq!(media_type_text(None, r#"{"mediaType":"a/b","mediaType":"c/d"}"#).as_deref(), Some("c/d"));
        assert_eq!(media_type_text(None, r#"{"mediaType":"a/b","mediaType":null}"#).as_deref(), Some(IMAGE));
    }
}
