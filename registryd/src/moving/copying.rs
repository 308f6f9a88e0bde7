//! Makes the tenant's content at the target that of the source: what is missing is copied, and what the source does not have is deleted.
use crate::http::client::read_at_most;
use crate::http::content::MAX_MANIFEST;
use crate::metadata::document;
use crate::moving::contents::Image;
use crate::moving::peer::{is_temporary, Contents, Peer, Sent};
use crate::operation::locks::guard_of;
use bytes::Bytes;
use hyper::header::{HeaderMap, LOCATION};
use hyper::{Method, StatusCode};
use sha2::{Digest, Sha256};
use std::collections::{HashSet, VecDeque};
use std::future::Future;
use std::sync::{Arc, Mutex};
use std::time::Duration;
use tokio::task::JoinSet;
use tokio::time::sleep;

/// The number of manifests that are copied or deleted at once.
const WORKERS: usize = 8;

/// The number of times that a blob is sent, and the pause between two.
const TIMES: (usize, Duration) = (5, Duration::from_secs(1));

/// The maximum number of attempts at making both sides equal that change something.
const MOST_ROUNDS: usize = 5;

/// The numbers of things that were copied and deleted.
#[derive(Clone, Copy, Debug, Default, PartialEq, Eq)]
pub(super) struct Tally {
    pub(super) manifests: usize,
    pub(super) tags: usize,
    pub(super) blobs: usize,
    pub(super) deleted: usize,
}

impl Tally {
    pub(super) fn sum(&self) -> usize {
        self.manifests + self.tags + self.blobs + self.deleted
    }

    pub(super) fn add(&mut self, other: Tally) {
        self.manifests += other.manifests;
        self.tags += other.tags;
        self.blobs += other.blobs;
        self.deleted += other.deleted;
    }
}

/// A part of the work.
#[derive(Debug, PartialEq, Eq)]
enum Job {
    /// A manifest that the target gets with its blobs, or the tags of one that it has.
    Image {
        image: Image,
        tags: Vec<String>,
        is_new: bool,
    },
    Blob(String, String),
}

/// The paths of things that the target has and the source does not.
#[derive(Debug, Default, PartialEq, Eq)]
struct Superfluous {
    tags: Vec<String>,
    /// Indexes come before other manifests, since an index protects what it lists.
    manifests: Vec<String>,
}

/// Copies from one registry to another.
pub(super) struct Copier {
    pub(super) source: Arc<Peer>,
    pub(super) target: Arc<Peer>,
    /// The blobs that the target has, by repository and digest.
    known: Mutex<HashSet<(String, String)>>,
}

/// Returns the path of a manifest.
pub(super) fn manifest_path(repo: &str, reference: &str) -> String {
    format!("/v2/{repo}/manifests/{reference}")
}

/// Returns the path of a blob.
pub(super) fn blob_path(repo: &str, digest: &str) -> String {
    format!("/v2/{repo}/blobs/{digest}")
}

/// Returns the work that makes `target` have what `source` has.
fn jobs(source: &Contents, target: &Contents) -> Vec<Job> {
    let images = source.images.iter().filter_map(|(key, image)| {
        let found = target.images.get(key);
        let has = |tag: &&String| found.map_or(true, |found| !found.tags.contains(*tag));
        let tags: Vec<String> = image.tags.iter().filter(has).cloned().collect();
        let is_new = found.map_or(true, |found| found.media_type != image.media_type);
        (is_new || !tags.is_empty()).then(|| Job::Image { image: image.clone(), tags, is_new })
    });
    images.collect()
}

/// Returns what `target` has and `source` does not. A tag that names another manifest at the source is moved by its push.
fn superfluous(source: &Contents, target: &Contents) -> Superfluous {
    let tags_of = |contents: &Contents| -> HashSet<(String, String)> {
        let named =
            contents.images.values().flat_map(|image| image.tags.iter().map(|tag| (image.repository.clone(), tag.clone())));
        named.collect()
    };
    let kept = tags_of(source);
    let tags = tags_of(target).into_iter().filter(|tag| !kept.contains(tag)).map(|(repo, tag)| manifest_path(&repo, &tag));
    let mut images: Vec<&Image> =
        target.images.iter().filter(|(key, _)| !source.images.contains_key(*key)).map(|(_, image)| image).collect();
    images.sort_by_key(|image| image.lists.is_empty());
    let manifests = images.into_iter().map(|image| manifest_path(&image.repository, &image.digest)).collect();
    Superfluous { tags: tags.collect(), manifests }
}

/// Returns the path of an upload that was opened.
fn location(headers: &HeaderMap) -> Result<String, String> {
    let text = headers.get(LOCATION).and_then(|value| value.to_str().ok()).ok_or("an upload without Location")?;
    match text.find("/v2/") {
        Some(start) => Ok(text[start..].to_string()),
        None => Err(format!("an upload with another Location: {text}")),
    }
}

/// Does something with each item, several at once. Ends at the first failure.
pub(super) async fn each<T, R>(items: Vec<T>, make: impl Fn(T) -> R + Clone + Send + 'static) -> Result<(), String>
where
    T: Send + 'static,
    R: Future<Output = Result<(), String>> + Send + 'static,
{
    let waiting = Arc::new(Mutex::new(VecDeque::from(items)));
    let mut workers = JoinSet::new();
    for _ in 0..WORKERS {
        let (waiting, make) = (waiting.clone(), make.clone());
        workers.spawn(async move {
            loop {
                let next = guard_of(waiting.lock()).pop_front();
                match next {
                    Some(item) => {
                        let made = make(item);
                        made.await?;
                    }
                    None => return Ok::<_, String>(()),
                }
            }
        });
    }
    while let Some(ended) = workers.join_next().await {
        ended.map_err(|error| error.to_string())??;
    }
    Ok(())
}

/// Deletes what has these paths, those that an index protects after the index. Returns their number.
pub(super) async fn delete_all(peer: &Arc<Peer>, mut paths: Vec<String>) -> Result<usize, String> {
    let count = paths.len();
    while !paths.is_empty() {
        let before = paths.len();
        let left: Arc<Mutex<Vec<(String, String)>>> = Arc::default();
        let (peer, failed) = (peer.clone(), left.clone());
        let delete = move |path: String| {
            let (peer, failed) = (peer.clone(), failed.clone());
            async move {
                if let Err(why) = peer.ask(&Method::DELETE, &path, None).await {
                    guard_of(failed.lock()).push((path, why));
                }
                Ok(())
            }
        };
        each(paths, delete).await?;
        let left = std::mem::take(&mut *guard_of(left.lock()));
        if left.len() == before {
            return Err(left.into_iter().map(|(_, why)| why).next().unwrap_or_default());
        }
        paths = left.into_iter().map(|(path, _)| path).collect();
    }
    Ok(count)
}

impl Copier {
    pub(super) fn new(source: Peer, target: Peer) -> Copier {
        Copier { source: Arc::new(source), target: Arc::new(target), known: Mutex::default() }
    }

    /// Copies what the source has now. What is deleted meanwhile is left to the next round.
    pub(super) async fn round(self: &Arc<Self>) -> Result<Tally, String> {
        let (source, target) = (self.source.contents().await?, self.target.contents().await?);
        self.make_equal(&source, &target).await
    }

    /// Copies the rest of a source that nobody changes, and compares.
    ///
    /// # Errors
    ///
    /// - Something cannot be copied.
    /// - Both sides differ afterwards: in manifests, in their media types, subjects or lists, or in tags.
    pub(super) async fn finish(self: &Arc<Self>) -> Result<Tally, String> {
        let source = self.source.contents().await?;
        let mut tally = Tally::default();
        for _ in 0..MOST_ROUNDS {
            let target = self.target.contents().await?;
            let done = self.make_equal(&source, &target).await?;
            tally.add(done);
            if source.images == target.images {
                return Ok(tally);
            }
        }
        let target = self.target.contents().await?;
        let differing = source.images.iter().find(|(key, image)| target.images.get(*key) != Some(*image));
        let which = differing.map_or("the target has more".to_string(), |((repo, digest), _)| format!("{repo}@{digest}"));
        Err(format!("both registries differ after the copy: {which}"))
    }

    async fn make_equal(self: &Arc<Self>, source: &Contents, target: &Contents) -> Result<Tally, String> {
        let Superfluous { tags, manifests } = superfluous(source, target);
        let deleted = delete_all(&self.target, tags).await? + delete_all(&self.target, manifests).await?;
        let mut tally = self.work(jobs(source, target)).await?;
        tally.deleted += deleted;
        let is_unknown = |blob: &&(String, String)| !guard_of(self.known.lock()).contains(*blob);
        let blobs: Vec<Job> =
            source.blobs.iter().filter(is_unknown).map(|(repo, digest)| Job::Blob(repo.clone(), digest.clone())).collect();
        tally.add(self.work(blobs).await?);
        Ok(tally)
    }

    /// Does jobs, several at once.
    async fn work(self: &Arc<Self>, jobs: Vec<Job>) -> Result<Tally, String> {
        let all: Arc<Mutex<Tally>> = Arc::default();
        let (copier, sum) = (self.clone(), all.clone());
        let make = move |job: Job| {
            let (copier, sum) = (copier.clone(), sum.clone());
            async move {
                let mut tally = Tally::default();
                copier.make(job, &mut tally).await?;
                guard_of(sum.lock()).add(tally);
                Ok(())
            }
        };
        each(jobs, make).await?;
        let tally = *guard_of(all.lock());
        Ok(tally)
    }

    async fn make(&self, job: Job, tally: &mut Tally) -> Result<(), String> {
        match job {
            Job::Image { image, tags, is_new } => self.copy_image(&image, &tags, is_new, tally).await,
            Job::Blob(repo, digest) => self.copy_blob(&repo, &digest, tally).await.map(|_| ()),
        }
    }

    /// Copies a manifest with its blobs, and under its tags. Nothing is copied of one that was deleted meanwhile.
    async fn copy_image(&self, image: &Image, tags: &[String], is_new: bool, tally: &mut Tally) -> Result<(), String> {
        let Image { repository, digest, media_type, .. } = image;
        let path = manifest_path(repository, digest);
        let response = self.source.ask(&Method::GET, &path, None).await?;
        if response.status() == StatusCode::NOT_FOUND {
            return Ok(());
        }
        let content = read_at_most(response.into_body(), MAX_MANIFEST).await.map_err(|why| format!("{path}: {why}"))?;
        let found = Sha256::digest(&content).iter().map(|byte| format!("{byte:02x}")).collect::<String>();
        if *digest != format!("sha256:{found}") {
            return Err(format!("{}{path} has another digest: sha256:{found}", self.source.url));
        }
        if is_new {
            for blob in document::blobs(&content) {
                if !self.copy_blob(repository, &blob, tally).await? {
                    return Ok(());
                }
            }
        }
        let references = if tags.is_empty() { std::slice::from_ref(digest) } else { tags };
        let content = Bytes::from(content);
        for reference in references {
            let path = manifest_path(repository, reference);
            let put = self.target.ask(&Method::PUT, &path, Some((content.clone(), media_type.clone()))).await?;
            if put.status() != StatusCode::CREATED {
                return Err(self.target.fault(&Method::PUT, &path, put).await);
            }
        }
        tally.manifests += usize::from(is_new);
        tally.tags += tags.len();
        Ok(())
    }

    /// Copies a blob, unless the target has it. Returns false if the source does not have it any more.
    async fn copy_blob(&self, repo: &str, digest: &str, tally: &mut Tally) -> Result<bool, String> {
        let key = (repo.to_string(), digest.to_string());
        if guard_of(self.known.lock()).contains(&key) {
            return Ok(true);
        }
        let mut why = String::new();
        for _ in 0..TIMES.0 {
            match self.try_blob(repo, digest, tally).await? {
                Ok(is_there) => {
                    if is_there {
                        guard_of(self.known.lock()).insert(key);
                    }
                    return Ok(is_there);
                }
                Err(error) => why = error,
            }
            sleep(TIMES.1).await;
        }
        Err(why)
    }

    /// Links a blob in a repository of the target, or sends it. The inner failure may be temporary.
    async fn try_blob(&self, repo: &str, digest: &str, tally: &mut Tally) -> Result<Result<bool, String>, String> {
        let path = format!("/v2/{repo}/blobs/uploads/?mount={digest}");
        let opened = self.target.ask(&Method::POST, &path, None).await?;
        match opened.status() {
            StatusCode::CREATED => return Ok(Ok(true)),
            StatusCode::ACCEPTED => {}
            _ => return Err(self.target.fault(&Method::POST, &path, opened).await),
        }
        let upload = location(opened.headers())?;
        let blob = self.source.ask(&Method::GET, &blob_path(repo, digest), None).await;
        let sent = match blob {
            Ok(blob) if blob.status() == StatusCode::NOT_FOUND => Ok(false),
            Ok(blob) => self.send_blob(&format!("{upload}?digest={digest}"), blob).await?.map(|()| true),
            Err(why) => Err(why),
        };
        match sent {
            Ok(true) => tally.blobs += 1,
            _ => drop(self.target.ask(&Method::DELETE, &upload, None).await),
        }
        Ok(sent)
    }

    /// Sends a blob, whose digest the target checks. The inner failure may be temporary.
    async fn send_blob(&self, path: &str, blob: hyper::Response<hyper::Body>) -> Result<Result<(), String>, String> {
        let closed = match self.target.send(&Method::PUT, path, Sent::Blob(blob)).await {
            Ok(closed) => closed,
            Err(why) => return Ok(Err(why)),
        };
        let status = closed.status();
        match status {
            StatusCode::CREATED => Ok(Ok(())),
            _ if is_temporary(status) || status == StatusCode::REQUEST_TIMEOUT => {
                Ok(Err(self.target.fault(&Method::PUT, path, closed).await))
            }
            _ => Err(self.target.fault(&Method::PUT, path, closed).await),
        }
    }
}

#[cfg(test)]
mod tests {
    use super::*;

    fn image(digest: &str, tags: &[&str]) -> Image {
        Image {
            repository: "acme/web".to_string(),
            digest: digest.to_string(),
            media_type: "x/y".to_string(),
            size: 1,
            artifact_type: None,
            subject: None,
            lists: Vec::new(),
            tags: tags.iter().map(|tag| tag.to_string()).collect(),
        }
    }

    fn contents(images: &[Image]) -> Contents {
        let key = |image: &Image| (image.repository.clone(), image.digest.clone());
        Contents { images: images.iter().map(|image| (key(image), image.clone())).collect(), blobs: Vec::new() }
    }

    #[test]
    fn what_differs_is_copied() {
        let source = contents(&[image("a", &["v1", "v2"]), image("b", &[]), image("c", &["v3"])]);
        let other = Image { media_type: "z".to_string(), ..image("c", &["v3"]) };
        let target = contents(&[image("a", &["v1"]), other, image("d", &["v2"])]);
        let expected = [
            Job::Image { image: image("a", &["v1", "v2"]), tags: vec!["v2".to_string()], is_new: false },
            Job::Image { image: image("b", &[]), tags: Vec::new(), is_new: true },
            Job::Image { image: image("c", &["v3"]), tags: Vec::new(), is_new: true },
        ];
        assert_eq!(jobs(&source, &target), expected);
        assert_eq!(jobs(&source, &source), []);
    }

    #[test]
    fn what_the_source_lacks_is_deleted() {
        let source = contents(&[image("a", &["v1"])]);
        let index = Image { lists: vec!["c".to_string()], ..image("d", &["v1"]) };
        let target = contents(&[image("a", &["old"]), image("c", &[]), index]);
        let path = |reference: &str| manifest_path("acme/web", reference);
        let expected = Superfluous { tags: vec![path("old")], manifests: vec![path("d"), path("c")] };
        assert_eq!(superfluous(&source, &target), expected);
        assert_eq!(superfluous(&source, &source), Superfluous::default());
    }

    #[test]
    fn a_location_is_a_path_of_the_target() {
        let of = |text: &str| location(&[(LOCATION, text.parse().unwrap())].into_iter().collect());
        assert_eq!(of("/v2/a/blobs/uploads/x").as_deref(), Ok("/v2/a/blobs/uploads/x"));
        assert_eq!(of("http://two:5000/v2/a/blobs/uploads/x").as_deref(), Ok("/v2/a/blobs/uploads/x"));
        assert!(of("x").is_err() && location(&HeaderMap::new()).is_err());
    }
}
