//! Parses manifests and their references.

use crate::digest::Digest;
use serde_json::Value;
use std::collections::HashSet;

pub const MAX_MANIFEST: usize = 4_194_304;

pub struct Manifest {
    pub bytes: Vec<u8>,
    pub digest: Digest,
    pub refs: Vec<Digest>,
}

fn descriptor(value: &Value) -> Option<Digest> {
    Digest::parse(value.as_object()?.get("digest")?.as_str()?)
}

/// Returns the digest of a layer, or `Some(None)` for a layer that is fetched from elsewhere.
fn layer(value: &Value) -> Option<Option<Digest>> {
    let urls = value.as_object().and_then(|layer| layer.get("urls")).and_then(Value::as_array);
    if urls.map_or(false, |urls| !urls.is_empty()) {
        return Some(None);
    }
    descriptor(value).map(Some)
}

fn array(value: Option<&Value>) -> Option<&[Value]> {
    match value {
        None | Some(Value::Null) => Some(&[]),
        Some(value) => value.as_array().map(Vec::as_slice),
    }
}

fn refs(bytes: &[u8]) -> Option<Vec<Digest>> {
    let root: Value = serde_json::from_slice(bytes).ok()?;
    let root = root.as_object()?;
    if root.get("schemaVersion")?.as_u64()? != 2 {
        return None;
    }
    match (root.get("manifests"), root.get("config")) {
        (Some(manifests), None) if root.get("layers").is_none() => {
            array(Some(manifests))?;
            Some(Vec::new())
        }
        (None, Some(config)) => {
            let mut refs = vec![descriptor(config)?];
            for value in array(root.get("layers"))? {
                refs.extend(layer(value)?);
            }
            let mut seen = HashSet::new();
            refs.retain(|digest| seen.insert(*digest));
            Some(refs)
        }
        _ => None,
    }
}

pub fn read(bytes: &[u8]) -> Option<Manifest> {
    let refs = refs(bytes)?;
    Some(Manifest {
        bytes: bytes.to_vec(),
        digest: Digest::of(bytes),
        refs,
    })
}
