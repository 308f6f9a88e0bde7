//! Deletes a tenant that has moved at the registry that it has left.
use crate::http::client::read_at_most;
use crate::http::content::MAX_MANIFEST;
use crate::metadata::document;
use crate::moving::copying::{blob_path, delete_all, each, manifest_path};
use crate::moving::peer::Peer;
use crate::operation::locks::guard_of;
use hyper::{Method, StatusCode};
use std::collections::BTreeSet;
use std::sync::{Arc, Mutex};

/// Deletes the manifests of a tenant and the blobs to which they refer. Returns the number of manifests.
pub(super) async fn delete_tenant(peer: &Arc<Peer>) -> Result<usize, String> {
    let contents = peer.contents().await?;
    let blobs: Arc<Mutex<BTreeSet<String>>> = Arc::default();
    guard_of(blobs.lock()).extend(contents.blobs.iter().map(|(repo, digest)| blob_path(repo, digest)));
    let (reader, found) = (peer.clone(), blobs.clone());
    let read = move |(repo, digest): (String, String)| {
        let (reader, found) = (reader.clone(), found.clone());
        async move {
            let paths = blobs_of(&reader, &repo, &digest).await?;
            guard_of(found.lock()).extend(paths);
            Ok(())
        }
    };
    each(contents.images.keys().cloned().collect(), read).await?;
    let mut images: Vec<_> = contents.images.values().collect();
    images.sort_by_key(|image| image.lists.is_empty());
    let paths = images.into_iter().map(|image| manifest_path(&image.repository, &image.digest)).collect();
    let count = delete_all(peer, paths).await?;
    let blobs = std::mem::take(&mut *guard_of(blobs.lock()));
    delete_all(peer, blobs.into_iter().collect()).await?;
    Ok(count)
}

/// Returns the paths of the blobs to which a manifest refers.
async fn blobs_of(peer: &Peer, repo: &str, digest: &str) -> Result<Vec<String>, String> {
    let path = manifest_path(repo, digest);
    let response = peer.ask(&Method::GET, &path, None).await?;
    if response.status() == StatusCode::NOT_FOUND {
        return Ok(Vec::new());
    }
    let content = read_at_most(response.into_body(), MAX_MANIFEST).await.map_err(|why| format!("{path}: {why}"))?;
    Ok(document::blobs(&content).iter().map(|blob| blob_path(repo, blob)).collect())
}
