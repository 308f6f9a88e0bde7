//! The members of a manifest's document that the registry looks at (OCI Image Specification 1.1, "Image Manifest", "Image
//! Index", "Content Descriptors"). The last of duplicate members counts, as in the store.
use crate::http::fault::Fault;
use bytes::{Buf, Bytes};
use serde::de::{Deserialize, Deserializer, IgnoredAny, MapAccess, SeqAccess, Visitor};
use serde_json::value::RawValue;
use std::collections::VecDeque;
use std::fmt;
use std::io::{self, Read};

/// The maximum length of a media type and of a digest, in bytes.
pub(super) const MAX_LEN: usize = 255;

/// What the registry keeps of a manifest's content.
#[derive(Clone, Debug, Default, PartialEq, Eq)]
pub(crate) struct Facts {
    pub(crate) media_type: String,
    /// The length, in bytes.
    pub(crate) size: u64,
    /// The type of the artifact: that of the document, or for an image manifest without one the media type of its config.
    pub(crate) artifact_type: Option<String>,
    /// The digest of the manifest that this one describes.
    pub(crate) subject: Option<String>,
    /// The digests of the manifests that an index lists, in order and each once.
    pub(crate) lists: Vec<String>,
}

/// The members of a document that its media type and its facts depend on.
#[derive(Debug, Default, PartialEq, Eq)]
pub(crate) struct Document {
    pub(super) media_type: Option<String>,
    /// Whether it has a member `manifests`, as an index has.
    pub(super) is_index: bool,
    artifact_type: Option<String>,
    config_type: Option<String>,
    subject: Part,
    lists: Vec<String>,
}

/// A member's value, as far as the registry looks at it.
#[derive(Debug, Default, PartialEq, Eq)]
enum Part {
    #[default]
    Null,
    Text(String),
    Descriptor {
        media_type: Option<String>,
        digest: Option<String>,
    },
    /// The digests of the descriptors in an array.
    Digests(Vec<String>),
    Other,
}

impl Part {
    fn text(self) -> Option<String> {
        match self {
            Part::Text(text) => Some(text),
            _ => None,
        }
    }
}

/// Returns whether a text is a digest (OCI Image Specification 1.1, "Digests").
pub(crate) fn is_digest(text: &str) -> bool {
    let is_small = |byte: u8| byte.is_ascii_lowercase() || byte.is_ascii_digit();
    let is_hex = |text: &str, len| text.len() == len && text.bytes().all(|byte| matches!(byte, b'0'..=b'9' | b'a'..=b'f'));
    let is_algorithm = |text: &str| text.split(&['+', '.', '_', '-']).all(|word| !word.is_empty() && word.bytes().all(is_small));
    let is_encoded =
        |text: &str| !text.is_empty() && text.bytes().all(|byte| byte.is_ascii_alphanumeric() || b"=_-".contains(&byte));
    match text.split_once(':') {
        Some(("sha256", encoded)) => is_hex(encoded, 64),
        Some(("sha512", encoded)) => is_hex(encoded, 128),
        Some((algorithm, encoded)) => text.len() <= MAX_LEN && is_algorithm(algorithm) && is_encoded(encoded),
        None => false,
    }
}

/// Returns whether the store can have a manifest of this digest.
fn is_of_manifest(digest: &str) -> bool {
    digest.starts_with("sha256:") && is_digest(digest)
}

/// Reads the document of a manifest.
///
/// # Errors
///
/// - The content is not a JSON object, or its `mediaType` is not a text.
pub(crate) fn read(content: &[Bytes]) -> Result<Document, Fault> {
    serde_json::from_reader(Parts { parts: content.iter().cloned().collect() })
        .map_err(|error| Fault::manifest_invalid(format!("the content is not a manifest: {error}")))
}

impl Document {
    /// Returns the facts of a manifest with this document, of `size` bytes.
    ///
    /// # Errors
    ///
    /// - `subject` is neither null nor a descriptor with a valid digest.
    /// - The type of the artifact has more than 255 bytes.
    pub(crate) fn facts(self, media_type: String, size: u64) -> Result<Facts, Fault> {
        let subject = match self.subject {
            Part::Null => None,
            Part::Descriptor { digest: Some(digest), .. } if is_digest(&digest) => Some(digest),
            _ => return Err(Fault::manifest_invalid("subject is not a descriptor with a valid digest")),
        };
        let given = self.artifact_type.filter(|text| !text.is_empty());
        let artifact_type = given.or_else(|| self.config_type.filter(|text| !text.is_empty() && !self.is_index));
        if artifact_type.as_ref().map_or(false, |text| text.len() > MAX_LEN) {
            return Err(Fault::manifest_invalid(format!("the type of the artifact has more than {MAX_LEN} bytes")));
        }
        let mut lists = self.lists;
        lists.retain(|digest| is_of_manifest(digest));
        lists.sort_unstable();
        lists.dedup();
        Ok(Facts { media_type, size, artifact_type, subject, lists })
    }

    /// Returns the facts of a manifest that the store already has. What `facts` refuses is left out of them.
    pub(crate) fn facts_of_stored(self, media_type: String, size: u64) -> Facts {
        let bare = Facts { media_type: media_type.clone(), size, ..Facts::default() };
        self.facts(media_type, size).unwrap_or(bare)
    }
}

/// Returns the JSON text of a manifest's annotations, if they are an object of texts.
pub(crate) fn annotations(content: &[u8]) -> Option<Box<RawValue>> {
    let Annotated(found) = serde_json::from_slice(content).ok()?;
    found.filter(|value| serde_json::from_str::<Texts>(value.get()).is_ok())
}

/// Returns the digests of the blobs that a manifest refers to: those of its config and of its layers.
pub(crate) fn blobs(content: &[u8]) -> Vec<String> {
    serde_json::from_slice(content).map_or(Vec::new(), |Blobs(digests)| digests)
}

/// A reader over content in parts.
struct Parts {
    parts: VecDeque<Bytes>,
}

impl Read for Parts {
    fn read(&mut self, bytes: &mut [u8]) -> io::Result<usize> {
        while let Some(part) = self.parts.front_mut() {
            if part.is_empty() {
                self.parts.pop_front();
                continue;
            }
            let count = part.len().min(bytes.len());
            part.copy_to_slice(&mut bytes[..count]);
            return Ok(count);
        }
        Ok(0)
    }
}

impl<'de> Deserialize<'de> for Document {
    fn deserialize<D: Deserializer<'de>>(deserializer: D) -> Result<Document, D::Error> {
        deserializer.deserialize_map(Members)
    }
}

/// Reads the members of a document.
struct Members;

impl<'de> Visitor<'de> for Members {
    type Value = Document;

    fn expecting(&self, text: &mut fmt::Formatter) -> fmt::Result {
        text.write_str("an object")
    }

    fn visit_map<A: MapAccess<'de>>(self, mut members: A) -> Result<Document, A::Error> {
        let mut document = Document::default();
        while let Some(name) = members.next_key::<String>()? {
            match &*name {
                "mediaType" => document.media_type = members.next_value()?,
                "artifactType" => document.artifact_type = members.next_value::<Part>()?.text(),
                "subject" => document.subject = members.next_value()?,
                "config" => {
                    document.config_type = match members.next_value()? {
                        Part::Descriptor { media_type, .. } => media_type,
                        _ => None,
                    }
                }
                "manifests" => {
                    document.is_index = true;
                    document.lists = match members.next_value()? {
                        Part::Digests(digests) => digests,
                        _ => Vec::new(),
                    }
                }
                _ => {
                    members.next_value::<IgnoredAny>()?;
                }
            }
        }
        Ok(document)
    }
}

impl<'de> Deserialize<'de> for Part {
    fn deserialize<D: Deserializer<'de>>(deserializer: D) -> Result<Part, D::Error> {
        deserializer.deserialize_any(AnyPart)
    }
}

/// Reads any value.
struct AnyPart;

impl<'de> Visitor<'de> for AnyPart {
    type Value = Part;

    fn expecting(&self, text: &mut fmt::Formatter) -> fmt::Result {
        text.write_str("a value")
    }

    fn visit_unit<E>(self) -> Result<Part, E> {
        Ok(Part::Null)
    }

    fn visit_bool<E>(self, _: bool) -> Result<Part, E> {
        Ok(Part::Other)
    }

    fn visit_i64<E>(self, _: i64) -> Result<Part, E> {
        Ok(Part::Other)
    }

    fn visit_u64<E>(self, _: u64) -> Result<Part, E> {
        Ok(Part::Other)
    }

    fn visit_f64<E>(self, _: f64) -> Result<Part, E> {
        Ok(Part::Other)
    }

    fn visit_str<E>(self, text: &str) -> Result<Part, E> {
        Ok(Part::Text(text.to_string()))
    }

    fn visit_seq<A: SeqAccess<'de>>(self, mut elements: A) -> Result<Part, A::Error> {
        let mut digests = Vec::new();
        while let Some(element) = elements.next_element()? {
            match element {
                Part::Descriptor { digest: Some(digest), .. } if is_digest(&digest) => digests.push(digest),
                _ => {}
            }
        }
        Ok(Part::Digests(digests))
    }

    fn visit_map<A: MapAccess<'de>>(self, mut members: A) -> Result<Part, A::Error> {
        let (mut media_type, mut digest) = (None, None);
        while let Some(name) = members.next_key::<String>()? {
            match &*name {
                "mediaType" => media_type = members.next_value::<Part>()?.text(),
                "digest" => digest = members.next_value::<Part>()?.text(),
                _ => {
                    members.next_value::<IgnoredAny>()?;
                }
            }
        }
        Ok(Part::Descriptor { media_type, digest })
    }
}

/// The annotations of a document, as they are written in it.
struct Annotated(Option<Box<RawValue>>);

impl<'de> Deserialize<'de> for Annotated {
    fn deserialize<D: Deserializer<'de>>(deserializer: D) -> Result<Annotated, D::Error> {
        deserializer.deserialize_map(AnnotatedMembers)
    }
}

/// Reads the annotations among the members of a document.
struct AnnotatedMembers;

impl<'de> Visitor<'de> for AnnotatedMembers {
    type Value = Annotated;

    fn expecting(&self, text: &mut fmt::Formatter) -> fmt::Result {
        text.write_str("an object")
    }

    fn visit_map<A: MapAccess<'de>>(self, mut members: A) -> Result<Annotated, A::Error> {
        let mut found = None;
        while let Some(name) = members.next_key::<String>()? {
            match &*name {
                "annotations" => found = Some(members.next_value()?),
                _ => {
                    members.next_value::<IgnoredAny>()?;
                }
            }
        }
        Ok(Annotated(found))
    }
}

/// The digests of the blobs of a document.
struct Blobs(Vec<String>);

impl<'de> Deserialize<'de> for Blobs {
    fn deserialize<D: Deserializer<'de>>(deserializer: D) -> Result<Blobs, D::Error> {
        deserializer.deserialize_map(BlobMembers)
    }
}

/// Reads the blobs among the members of a document.
struct BlobMembers;

impl<'de> Visitor<'de> for BlobMembers {
    type Value = Blobs;

    fn expecting(&self, text: &mut fmt::Formatter) -> fmt::Result {
        text.write_str("an object")
    }

    fn visit_map<A: MapAccess<'de>>(self, mut members: A) -> Result<Blobs, A::Error> {
        let (mut config, mut layers) = (None, Vec::new());
        while let Some(name) = members.next_key::<String>()? {
            match &*name {
                "config" => {
                    config = match members.next_value()? {
                        Part::Descriptor { digest, .. } => digest.filter(|digest| is_digest(digest)),
                        _ => None,
                    }
                }
                "layers" => {
                    layers = match members.next_value()? {
                        Part::Digests(digests) => digests,
                        _ => Vec::new(),
                    }
                }
                _ => {
                    members.next_value::<IgnoredAny>()?;
                }
            }
        }
        layers.extend(config);
        layers.sort_unstable();
        layers.dedup();
        Ok(Blobs(layers))
    }
}

/// An object all of whose members are texts.
struct Texts;

impl<'de> Deserialize<'de> for Texts {
    fn deserialize<D: Deserializer<'de>>(deserializer: D) -> Result<Texts, D::Error> {
        deserializer.deserialize_map(TextMembers)
    }
}

/// Reads an object of texts, and keeps nothing.
struct TextMembers;

impl<'de> Visitor<'de> for TextMembers {
    type Value = Texts;

    fn expecting(&self, text: &mut fmt::Formatter) -> fmt::Result {
        text.write_str("an object of texts")
    }

    fn visit_map<A: MapAccess<'de>>(self, mut members: A) -> Result<Texts, A::Error> {
        while members.next_entry::<IgnoredAny, String>()?.is_some() {}
        Ok(Texts)
    }
}

#[cfg(test)]
mod tests {
    use super::*;

    fn facts(text: &str) -> Option<Facts> {
        // The text is in two parts, as content may arrive.
        let (one, two) = text.as_bytes().split_at(text.len() / 2);
        let content = [Bytes::copy_from_slice(one), Bytes::new(), Bytes::copy_from_slice(two)];
        read(&content).ok()?.facts("a/b".to_string(), text.len() as u64).ok()
    }

    fn hex(letter: &str, len: usize) -> String {
        letter.repeat(len)
    }

    /// The examples of OCI Image Specification 1.1, "Digests", and others.
    #[test]
    fn digests_have_an_algorithm_and_an_encoding() {
        let longest = format!("a:{}", "b".repeat(MAX_LEN - 2));
        for text in [
            &*format!("sha256:{}", hex("0a", 32)),
            &format!("sha512:{}", hex("f", 128)),
            "sha256+b64u:LCa0a2j_xo_5m0U8HTBBNBNCLXBkg7-g-YpeiGJm564",
            "multihash+base58:QmRZxt2b1FVZPNqd8hsiykDL3TdBDeTSPX9Kv46HmX4Gx8",
            &longest,
        ] {
            assert!(is_digest(text), "{text}");
        }
        for text in [
            "",
            ":",
            "sha256",
            "sha256:",
            "sha256:0",
            "SHA256:00",
            "sha512:00",
            "a+:b",
            "+a:b",
            "a:b c",
            "a:b:c",
            "a:",
            &*format!("sha256:{}", hex("0A", 32)),
            &format!("sha256:{}", hex("0", 65)),
            &format!("{longest}b"),
        ] {
            assert!(!is_digest(text), "{text}");
        }
    }

    /// OCI Distribution Specification 1.1, "Listing Referrers": the rules for `artifactType`.
    #[test]
    fn the_type_of_an_artifact_is_its_own_or_its_config_s() {
        let cases = [
            (r#"{"config":{"mediaType":"c/d"}}"#, Some("c/d")),
            (r#"{"config":{"mediaType":"c/d"},"artifactType":"e/f"}"#, Some("e/f")),
            (r#"{"config":{"mediaType":"c/d"},"artifactType":""}"#, Some("c/d")),
            (r#"{"config":{"mediaType":"c/d"},"artifactType":5}"#, Some("c/d")),
            (r#"{"config":{},"artifactType":"e/f"}"#, Some("e/f")),
            (r#"{"config":{}}"#, None),
            (r#"{"manifests":[],"artifactType":"e/f"}"#, Some("e/f")),
            (r#"{"manifests":[]}"#, None),
        ];
        for (text, artifact_type) in cases {
            assert_eq!(facts(text).unwrap().artifact_type.as_deref(), artifact_type, "{text}");
        }
        let long = |len| format!(r#"{{"manifests":[],"artifactType":"{}"}}"#, "a".repeat(len));
        assert!(facts(&long(MAX_LEN)).is_some());
        assert!(facts(&long(MAX_LEN + 1)).is_none());
    }

    #[test]
    fn a_subject_is_a_descriptor_or_nothing() {
        let digest = format!("sha256:{}", hex("0", 64));
        let with = |subject: &str| facts(&format!(r#"{{"config":{{}},"subject":{subject}}}"#)).map(|facts| facts.subject);
        assert_eq!(with("null"), Some(None));
        assert_eq!(with(&format!(r#"{{"digest":"{digest}","size":2,"data":[[1]]}}"#)), Some(Some(digest.clone())));
        assert_eq!(with(&format!(r#"{{"digest":"{digest}","digest":5}}"#)), None);
        for subject in ["{}", "5", "[]", r#""x""#, "true", r#"{"digest":"sha256:0"}"#, &format!(r#""{digest}""#)] {
            assert_eq!(with(subject), None, "{subject}");
        }
    }

    #[test]
    fn an_index_lists_manifests() {
        let digests = ["1", "0"].map(|letter| format!("sha256:{}", hex(letter, 64)));
        let [one, two] = &digests;
        let other = format!("sha512:{}", hex("0", 128));
        let entries = [one, two, one, &other, "x"].map(|digest| format!(r#"{{"size":1,"digest":"{digest}"}}"#)).join(",");
        let text = format!(r#"{{"manifests":[{entries},5,[],[{{}}],null,{{}}]}}"#);
        assert_eq!(facts(&text).unwrap().lists, [two.clone(), one.clone()]);
        for text in [r#"{"manifests":null}"#, r#"{"manifests":{}}"#, r#"{"manifests":"x"}"#] {
            assert_eq!(facts(text).unwrap().lists, [""; 0], "{text}");
        }
    }

    #[test]
    fn blobs_are_the_config_and_the_layers() {
        let [one, two] = ["1", "0"].map(|letter| format!("sha256:{}", hex(letter, 64)));
        let long = format!("sha512:{}", hex("0", 128));
        let entry = |digest: &String| format!(r#"{{"digest":"{digest}"}}"#);
        let layers = [&two, &long, &two].map(entry).join(",");
        let text = format!(r#"{{"config":{},"layers":[{layers},{{"digest":"x"}},5]}}"#, entry(&one));
        assert_eq!(blobs(text.as_bytes()), [two, one, long]);
        for text in ["{}", "[]", "{", r#"{"config":5,"layers":{}}"#, r#"{"manifests":[{"digest":"sha256:0"}]}"#] {
            assert_eq!(blobs(text.as_bytes()), [""; 0], "{text}");
        }
    }

    #[test]
    fn annotations_are_texts() {
        let annotations = |text: &str| annotations(text.as_bytes()).map(|value| value.get().to_string());
        assert_eq!(annotations(r#"{"annotations":{"a":"\u00e4", "b":""}}"#).as_deref(), Some(r#"{"a":"\u00e4", "b":""}"#));
        assert_eq!(annotations(r#"{"annotations":{"a":"b"},"annotations":{}}"#).as_deref(), Some("{}"));
        for text in ["{}", r#"{"annotations":null}"#, r#"{"annotations":[]}"#, r#"{"annotations":{"a":5}}"#, "[]", "{"] {
            assert_eq!(annotations(text), None, "{text}");
        }
    }
}
