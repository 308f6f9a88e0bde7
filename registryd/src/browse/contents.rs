//! Manifests and configs as pages show them (OCI Image Specification 1.1). Clients wrote them, so each member that is not needed may be
//! anything: what is not of its type is left out.
use crate::browse::visit::Visit;
use crate::http::content::MAX_MANIFEST;
use crate::http::fault::Fault;
use crate::metadata::repository::NamedManifest;
use crate::store::calls::FetchResult;
use bytes::Bytes;
use serde::de::{DeserializeOwned, Deserializer, IgnoredAny};
use serde::Deserialize;
use std::collections::BTreeMap;

/// The maximum length of a config and of a text that is shown, in bytes.
pub(super) const MOST_TEXT: u64 = 256 << 10;

/// The maximum length of a manifest that is read for a row of a list, in bytes.
pub(super) const MOST_OF_ROW: u64 = 64 << 10;

/// The memory for a parsed document, in lengths of its text.
const PARSED: u64 = 4;

/// The types of the configs of images.
const CONFIG_TYPES: [&str; 2] = ["application/vnd.oci.image.config.v1+json", "application/vnd.docker.container.image.v1+json"];

/// A manifest or an index.
#[derive(Debug, Default, Deserialize)]
#[serde(default, rename_all = "camelCase")]
pub(super) struct Manifest {
    /// Whether it was not understood, so that all else is missing.
    #[serde(skip)]
    pub(super) is_unreadable: bool,
    #[serde(deserialize_with = "lenient")]
    pub(super) artifact_type: Option<String>,
    pub(super) config: Option<Descriptor>,
    pub(super) layers: Vec<Descriptor>,
    pub(super) manifests: Vec<Descriptor>,
    #[serde(deserialize_with = "lenient")]
    pub(super) subject: Option<Descriptor>,
    #[serde(deserialize_with = "lenient")]
    pub(super) annotations: BTreeMap<String, String>,
}

/// What a manifest says of a content.
#[derive(Clone, Debug, Default, Deserialize)]
#[serde(default, rename_all = "camelCase")]
pub(super) struct Descriptor {
    #[serde(deserialize_with = "lenient")]
    pub(super) media_type: String,
    #[serde(deserialize_with = "lenient")]
    pub(super) digest: String,
    #[serde(deserialize_with = "lenient")]
    pub(super) size: u64,
    #[serde(deserialize_with = "lenient")]
    pub(super) platform: Option<Platform>,
    #[serde(deserialize_with = "lenient")]
    pub(super) annotations: BTreeMap<String, String>,
}

/// The platform of an image.
#[derive(Clone, Debug, Default, Deserialize)]
#[serde(default)]
pub(super) struct Platform {
    #[serde(deserialize_with = "lenient")]
    os: String,
    #[serde(deserialize_with = "lenient")]
    architecture: String,
    #[serde(deserialize_with = "lenient")]
    variant: String,
}

/// The config of an image.
#[derive(Debug, Default, Deserialize)]
#[serde(default)]
pub(super) struct Config {
    #[serde(deserialize_with = "lenient")]
    pub(super) created: String,
    #[serde(flatten)]
    pub(super) platform: Platform,
    #[serde(deserialize_with = "lenient")]
    pub(super) config: Execution,
    #[serde(deserialize_with = "lenient")]
    history: Vec<Step>,
}

/// How a container of an image runs.
#[derive(Debug, Default, Deserialize)]
#[serde(default, rename_all = "PascalCase")]
pub(super) struct Execution {
    #[serde(deserialize_with = "lenient")]
    pub(super) entrypoint: Vec<String>,
    #[serde(deserialize_with = "lenient")]
    pub(super) cmd: Vec<String>,
    #[serde(deserialize_with = "lenient")]
    pub(super) user: String,
    #[serde(deserialize_with = "lenient")]
    pub(super) working_dir: String,
    #[serde(deserialize_with = "lenient")]
    pub(super) exposed_ports: BTreeMap<String, IgnoredAny>,
    #[serde(deserialize_with = "lenient")]
    pub(super) labels: BTreeMap<String, String>,
}

/// A step in the making of an image.
#[derive(Debug, Default, Deserialize)]
#[serde(default)]
struct Step {
    #[serde(deserialize_with = "lenient")]
    created_by: String,
    #[serde(deserialize_with = "lenient")]
    empty_layer: bool,
}

/// Reads a member, or returns its default if it is of another type.
fn lenient<'de, D: Deserializer<'de>, T: DeserializeOwned + Default>(deserializer: D) -> Result<T, D::Error> {
    #[derive(Deserialize)]
    #[serde(untagged)]
    enum Read<T> {
        Value(T),
        Other(IgnoredAny),
    }
    Ok(match Read::deserialize(deserializer)? {
        Read::Value(value) => value,
        Read::Other(_) => T::default(),
    })
}

/// Parses a content. A long one takes long, so other tasks of the thread go to another one first, which costs more than to parse a short
/// one.
fn parsed<T>(content: &[u8], parse: impl FnOnce(&[u8]) -> T) -> T {
    match content.len() as u64 > MOST_OF_ROW {
        true => tokio::task::block_in_place(|| parse(content)),
        false => parse(content),
    }
}

impl Manifest {
    fn of(content: &[u8]) -> Manifest {
        serde_json::from_slice(content).unwrap_or_else(|_| Manifest { is_unreadable: true, ..Manifest::default() })
    }

    /// Returns the length of an image's contents as a pull transfers them.
    pub(super) fn content_size(&self) -> u64 {
        self.blobs().fold(0, |sum, blob| sum.saturating_add(blob.size))
    }

    /// Returns the config and the layers.
    pub(super) fn blobs(&self) -> impl Iterator<Item = &Descriptor> {
        self.config.iter().chain(&self.layers)
    }

    /// Returns the images of an index, without the attestations that some builders list for them.
    pub(super) fn platforms(&self) -> impl Iterator<Item = &Descriptor> {
        self.manifests.iter().filter(|listed| listed.platform.as_ref().map_or(true, |platform| platform.os != "unknown"))
    }

    /// Returns the config, if it is that of an image.
    pub(super) fn image_config(&self) -> Option<&Descriptor> {
        self.config.as_ref().filter(|config| CONFIG_TYPES.contains(&config.media_type.as_str()))
    }
}

impl Descriptor {
    /// Returns whether the content is text by its type.
    pub(super) fn is_text(&self) -> bool {
        let kind = self.media_type.split(';').next().unwrap_or_default().trim().to_ascii_lowercase();
        let names = ["application/json", "application/xml", "application/yaml", "application/x-yaml", "application/toml"];
        let is_named = names.contains(&kind.as_str()) || ["+json", "+xml", "+yaml"].iter().any(|end| kind.ends_with(end));
        kind.starts_with("text/") || is_named
    }
}

impl Platform {
    /// Returns the platform as clients write it.
    pub(super) fn text(&self) -> String {
        let words = [&self.os, &self.architecture, &self.variant];
        words.into_iter().filter(|word| !word.is_empty()).map(String::as_str).collect::<Vec<_>>().join("/")
    }
}

impl Config {
    /// Returns what made the layers, one text for each of the first layers.
    pub(super) fn made_by(&self) -> Vec<&str> {
        self.history.iter().filter(|step| !step.empty_layer).map(|step| step.created_by.as_str()).collect()
    }
}

impl Visit {
    /// Reads a manifest. Returns `None` if it was deleted meanwhile.
    ///
    /// # Errors
    ///
    /// - There is no memory for it.
    /// - The store fails.
    pub(super) async fn manifest(&self, repo: &str, named: &NamedManifest) -> Result<Option<Manifest>, Fault> {
        let room = named.size.saturating_mul(PARSED).min(MAX_MANIFEST as u64);
        let _reserved = self.reserve(repo, room).await?;
        let content = match self.registry.store.get_manifest(repo, &named.digest).await? {
            Err(refusal) if Fault::from(refusal.clone()).is_unknown() => return Ok(None),
            content => content?,
        };
        Ok(Some(parsed(&content, Manifest::of)))
    }

    /// Reads the first bytes of a blob, at most `MOST_TEXT`, and returns them with its length. Returns `None` if it is not there.
    pub(super) async fn blob(&self, repo: &str, digest: &str) -> Result<Option<(u64, Bytes)>, Fault> {
        let store = &self.registry.store;
        let fetched = store.fetch(repo, digest, Some((0, MOST_TEXT - 1))).await?;
        match self.registry.check_read(repo, digest, fetched) {
            Ok(FetchResult::Piece { size, bytes }) => Ok(Some((size, bytes))),
            Ok(FetchResult::LeasedBlob(leased)) => {
                let (last, size) = (leased.size.min(MOST_TEXT).saturating_sub(1), leased.size);
                let read = store.read_last(leased.number, digest, Some((0, last))).await?;
                Ok(Some((size, self.registry.check_read(repo, digest, read)?)))
            }
            Err(refusal) => match Fault::from(refusal) {
                fault if fault.is_unknown() => Ok(None),
                fault => Err(fault),
            },
        }
    }

    /// Reads the config of an image. Returns `None` if it is not there, is too long, or cannot be understood.
    pub(super) async fn config(&self, repo: &str, manifest: &Manifest) -> Result<Option<Config>, Fault> {
        let descriptor = match manifest.image_config() {
            Some(descriptor) => descriptor,
            None => return Ok(None),
        };
        let _reserved = self.reserve(repo, PARSED * MOST_TEXT).await?;
        let found = self.blob(repo, &descriptor.digest).await?.filter(|(size, _)| *size <= MOST_TEXT);
        Ok(found.and_then(|(_, content)| parsed(&content, |content| serde_json::from_slice(content).ok())))
    }
}

#[cfg(test)]
mod tests {
    use super::*;
    use serde_json::json;

    fn manifest(value: serde_json::Value) -> Manifest {
        serde_json::from_value(value).unwrap()
    }

    #[test]
    fn members_of_other_types_are_left_out() {
        let odd = manifest(json!({
            "artifactType": 1, "annotations": ["x"], "subject": 2,
            "layers": [{ "digest": 7, "size": "x", "mediaType": null, "platform": 1, "annotations": { "a": 1 } }, { "size": -1 }, {}],
            "manifests": [{ "digest": "sha256:a", "size": 7, "platform": { "os": 1, "architecture": "arm64" } }]
        }));
        assert_eq!((odd.layers.len(), odd.content_size(), odd.annotations.len()), (3, 0, 0));
        assert_eq!(odd.manifests[0].platform.as_ref().map(Platform::text).as_deref(), Some("arm64"));
        let config: Config =
            serde_json::from_value(json!({ "config": { "Cmd": "x", "User": 7, "Entrypoint": ["a"] }, "os": 1 })).unwrap();
        assert_eq!(
            (config.config.entrypoint, config.config.cmd.len(), config.created),
            (vec!["a".to_string()], 0, String::new())
        );
    }

    #[test]
    fn a_manifest_that_is_not_understood_has_nothing() {
        for content in ["", "[]", "{\"layers\":1}", "{\"config\":[]}", "{\"layers\":[],\"layers\":[]}", "\u{0}"] {
            let manifest = Manifest::of(content.as_bytes());
            assert!(manifest.is_unreadable && manifest.layers.is_empty(), "{content}");
        }
        assert!(!Manifest::of(b"{}").is_unreadable);
    }

    #[test]
    fn an_index_has_images_and_attestations() {
        let platform = |os, variant| json!({ "platform": { "os": os, "architecture": "arm", "variant": variant } });
        let index = manifest(json!({ "manifests": [platform("linux", "v7"), platform("unknown", ""), {}] }));
        let names = |listed: &Descriptor| listed.platform.as_ref().map_or(String::new(), Platform::text);
        assert_eq!(index.platforms().map(names).collect::<Vec<_>>(), ["linux/arm/v7", ""]);
    }

    #[test]
    fn history_names_layers() {
        let config: Config = serde_json::from_value(json!({
            "os": "linux", "architecture": "amd64",
            "history": [{ "created_by": "a" }, { "created_by": "b", "empty_layer": true }, { "created_by": "c" }, {}]
        }))
        .unwrap();
        assert_eq!((config.made_by(), config.platform.text()), (vec!["a", "c", ""], "linux/amd64".to_string()));
    }

    #[test]
    fn texts_are_known_by_their_types() {
        for (kind, expected) in [
            ("application/spdx+json", true),
            ("text/plain; charset=utf-8", true),
            ("APPLICATION/JSON", true),
            ("application/vnd.in-toto+json", true),
            ("image/svg+xml", true),
            ("application/vnd.oci.image.layer.v1.tar+gzip", false),
            ("application/octet-stream", false),
            ("", false),
        ] {
            assert_eq!(Descriptor { media_type: kind.to_string(), ..Descriptor::default() }.is_text(), expected, "{kind}");
        }
    }
}
