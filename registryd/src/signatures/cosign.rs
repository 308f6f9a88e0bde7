//! Signatures in the form of cosign (sigstore's SIGNATURE_SPEC.md): a manifest whose layers are payloads in JSON ("simple signing"), each with
//! its signature in an annotation.
use crate::metadata::manifest_lists::NewestReferrers;
use crate::signatures::keys::PublicKey;
use serde::Deserialize;
use std::collections::HashMap;

/// The type of an artifact that has signatures of its subject.
const ARTIFACT_TYPE: &str = "application/vnd.dev.cosign.artifact.sig.v1+json";

/// The media type of a payload.
const PAYLOAD_TYPE: &str = "application/vnd.dev.cosign.simplesigning.v1+json";

/// The annotation of a payload that has its signature, in base64.
const ANNOTATION: &str = "dev.cosignproject.cosign/signature";

/// The type that a payload has in its text.
const SIGNATURE_TYPE: &str = "cosign container image signature";

/// The maximum length of a signature in base64. One of P-256 in ASN.1 has at most 72 bytes.
const MAX_ENCODED: usize = 128;

/// The maximum length of a manifest with signatures, in bytes.
pub(super) const MAX_MANIFEST: u64 = 128 << 10;

/// The maximum length of a payload, in bytes.
pub(super) const MAX_PAYLOAD: u64 = 64 << 10;

/// The maximum number of manifests, and of signatures in them, that are tried for an image and a rule.
pub(super) const MOST_TRIED: usize = 100;

/// Which referrers of an image are tried.
pub(super) const TRIED: NewestReferrers<'static> =
    NewestReferrers { artifact_type: ARTIFACT_TYPE, most: MOST_TRIED, most_bytes: MAX_MANIFEST };

/// A signature of a payload.
#[derive(Debug, PartialEq, Eq)]
pub(super) struct Signature {
    /// The digest of the payload.
    pub(super) payload: String,
    /// The signature in ASN.1.
    bytes: Vec<u8>,
}

#[derive(Deserialize)]
struct Manifest {
    #[serde(default)]
    layers: Vec<Layer>,
}

#[derive(Deserialize)]
#[serde(rename_all = "camelCase")]
struct Layer {
    media_type: String,
    digest: String,
    annotations: Option<HashMap<String, String>>,
}

/// A payload, as far as it is compared. Duplicate members make it invalid.
#[derive(Deserialize)]
struct Payload {
    critical: Critical,
}

#[derive(Deserialize)]
struct Critical {
    image: Image,
    #[serde(rename = "type")]
    kind: String,
}

#[derive(Deserialize)]
#[serde(rename_all = "kebab-case")]
struct Image {
    docker_manifest_digest: String,
}

/// Returns the tag that the manifest with an image's signatures has in the same repository, if the image has no referrers.
pub(super) fn tag_of(digest: &str) -> String {
    format!("{}.sig", digest.replacen(':', "-", 1))
}

/// Returns the signatures in a manifest, the last one first. If it is not the manifest of an image, it has none.
pub(super) fn signatures_in(manifest: &[u8]) -> Vec<Signature> {
    let layers = serde_json::from_slice::<Manifest>(manifest).map_or(Vec::new(), |manifest| manifest.layers);
    layers.into_iter().rev().filter_map(Layer::signature).collect()
}

impl Layer {
    /// Returns the signature of this layer, if it is a payload with one.
    fn signature(self) -> Option<Signature> {
        let annotations = self.annotations.filter(|_| self.media_type == PAYLOAD_TYPE)?;
        let encoded = annotations.get(ANNOTATION).filter(|text| text.len() <= MAX_ENCODED)?;
        Some(Signature { payload: self.digest, bytes: base64::decode(encoded).ok()? })
    }
}

impl Signature {
    /// Returns whether this is a signature of a payload by one of some keys, and the payload is about the image with a digest. The name of
    /// the image in the payload (`docker-reference`) is not compared.
    pub(super) fn is_good(&self, payload: &[u8], keys: &[PublicKey], image: &str) -> bool {
        keys.iter().any(|key| key.verifies(payload, &self.bytes)) && is_about(payload, image)
    }
}

/// Returns whether a payload is about the image with a digest.
fn is_about(payload: &[u8], image: &str) -> bool {
    let is_of = |critical: Critical| critical.kind == SIGNATURE_TYPE && critical.image.docker_manifest_digest == image;
    serde_json::from_slice(payload).map_or(false, |Payload { critical }| is_of(critical))
}

#[cfg(test)]
mod tests {
    use super::*;
    use crate::signatures::keys::tests::Signer;
    use serde_json::{json, Value};

    const IMAGE: &str = "sha256:aaaaaaaaaaaaaaaaaaaaaaaaaaaaaaaaaaaaaaaaaaaaaaaaaaaaaaaaaaaaaaaa";

    /// The example of SIGNATURE_SPEC.md, with another digest.
    fn payload() -> Value {
        json!({
            "critical": {
                "identity": { "docker-reference": "testing/manifest" },
                "image": { "docker-manifest-digest": IMAGE },
                "type": "cosign container image signature"
            },
            "optional": { "creator": "Bob the Builder", "timestamp": 1458239713 }
        })
    }

    fn is_signed(payload: &str) -> bool {
        let signer = Signer::new();
        let signature = Signature { payload: String::new(), bytes: signer.sign(payload.as_bytes()) };
        signature.is_good(payload.as_bytes(), &[Signer::new().key(), signer.key()], IMAGE)
    }

    #[test]
    fn a_payload_is_about_one_image() {
        let good = payload();
        assert!(is_signed(&good.to_string()));
        let with = |pointer: &str, value: Value| {
            let mut changed = good.clone();
            *changed.pointer_mut(pointer).unwrap() = value;
            is_signed(&changed.to_string())
        };
        assert!(with("/optional", Value::Null) && with("/critical/identity", json!({ "docker-reference": "" })));
        let other = IMAGE.replace("sha256:a", "sha256:b");
        for (pointer, value) in [
            ("", json!([])),
            ("/critical", json!({})),
            ("/critical/type", json!("atomic container signature")),
            ("/critical/type", Value::Null),
            ("/critical/image", Value::Null),
            ("/critical/image/docker-manifest-digest", json!(other)),
            ("/critical/image/docker-manifest-digest", json!(IMAGE.to_uppercase())),
            ("/critical/image/docker-manifest-digest", json!(&IMAGE["sha256:".len()..])),
            ("/critical/image/docker-manifest-digest", json!([IMAGE])),
        ] {
            assert!(!with(pointer, value.clone()), "{pointer} {value}");
        }
        let text = good.to_string();
        let twice = text.replace(
            "{\"docker-manifest-digest\"",
            &format!("{{\"docker-manifest-digest\":\"{other}\",\"docker-manifest-digest\""),
        );
        assert!(twice.matches("docker-manifest-digest").count() == 2);
        for text in [&*twice, &format!("{text}{text}"), &text[..text.len() - 1], "", "null", &"[".repeat(9000)] {
            assert!(!is_signed(text), "{text}");
        }
    }

    #[test]
    fn a_signature_is_of_its_payload_and_a_key() {
        let (signer, text) = (Signer::new(), payload().to_string());
        let signature = Signature { payload: String::new(), bytes: signer.sign(text.as_bytes()) };
        let is_good = |payload: &str, keys: &[PublicKey]| signature.is_good(payload.as_bytes(), keys, IMAGE);
        assert!(is_good(&text, &[signer.key()]));
        assert!(
            !is_good(&text, &[]) && !is_good(&text, &[Signer::new().key()]) && !is_good(&format!("{text} "), &[signer.key()])
        );
        assert!(!signature.is_good(text.as_bytes(), &[signer.key()], "sha256:b"));
    }

    #[test]
    fn a_manifest_has_signatures_in_its_layers() {
        let layer = |kind: &str, digest: &str, more: Value| json!({ "mediaType": kind, "digest": digest, "annotations": more });
        let with = |text: &str| json!({ ANNOTATION: text, "other": "text" });
        let found = |layers: Value| signatures_in(json!({ "schemaVersion": 2, "layers": layers }).to_string().as_bytes());
        let good = [layer(PAYLOAD_TYPE, "sha256:1", with("AQI=")), layer(PAYLOAD_TYPE, "sha256:2", with("Aw=="))];
        let expected = |digest: &str, bytes: &[u8]| Signature { payload: digest.to_string(), bytes: bytes.to_vec() };
        assert_eq!(found(json!(good)), [expected("sha256:2", &[3]), expected("sha256:1", &[1, 2])]);
        for other in [
            layer("text/plain", "sha256:3", with("AQI=")),
            layer(PAYLOAD_TYPE, "sha256:3", json!({})),
            layer(PAYLOAD_TYPE, "sha256:3", Value::Null),
            layer(PAYLOAD_TYPE, "sha256:3", with("AQI==")),
            layer(PAYLOAD_TYPE, "sha256:3", with("AQI!")),
            layer(PAYLOAD_TYPE, "sha256:3", with("AQI=\n")),
            layer(PAYLOAD_TYPE, "sha256:3", with("-_8=")),
            layer(PAYLOAD_TYPE, "sha256:3", with(&"A".repeat(MAX_ENCODED + 4))),
            json!({ "mediaType": PAYLOAD_TYPE, "digest": "sha256:3" }),
        ] {
            assert_eq!(found(json!([good[0], other])), [expected("sha256:1", &[1, 2])], "{other}");
        }
        for text in ["", "[]", "{}", "{\"manifests\":[]}", "{\"layers\":5}", "{\"layers\":[{}]}"] {
            assert_eq!(signatures_in(text.as_bytes()), [], "{text}");
        }
        assert_eq!(tag_of("sha256:0a"), "sha256-0a.sig");
    }
}
