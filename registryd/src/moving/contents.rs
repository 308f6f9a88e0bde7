//! The contents of a tenant, a line of JSON for each manifest, as the owner's socket serves it and the command reads it.
use crate::endpoints::registry::Registry;
use crate::http::responses::{with_body, HandlerResult};
use crate::metadata::names::tenant_of;
use hyper::{Body, StatusCode};
use serde::{Deserialize, Serialize};
use std::sync::Arc;

/// A manifest of a repository, with all that the registry knows of it.
#[derive(Clone, Debug, Serialize, Deserialize, PartialEq, Eq, PartialOrd, Ord)]
pub(crate) struct Image {
    pub(crate) repository: String,
    pub(crate) digest: String,
    pub(crate) media_type: String,
    pub(crate) size: u64,
    pub(crate) artifact_type: Option<String>,
    pub(crate) subject: Option<String>,
    /// The digests of the manifests that an index lists, in its order.
    pub(crate) lists: Vec<String>,
    /// The tags that name it, sorted.
    pub(crate) tags: Vec<String>,
}

/// A line.
#[derive(Debug, Serialize, Deserialize, PartialEq, Eq)]
#[serde(rename_all = "lowercase")]
pub(crate) enum Line {
    Image(Image),
    /// A blob that a reply named, by its repository and its digest. A manifest that refers to it may follow.
    Blob(String, String),
    /// The last line.
    End,
}

impl Line {
    fn text(&self) -> String {
        serde_json::to_string(self).map_or_else(|_| String::new(), |text| text + "\n")
    }
}

impl Registry {
    /// Returns the contents of a tenant: a line for each manifest and for each blob that a reply named, and the last line.
    pub(crate) fn contents(self: Arc<Self>, tenant: String) -> HandlerResult {
        let (mut sender, body) = Body::channel();
        tokio::spawn(async move {
            for repo in self.manifests.names(&tenant, "").filter(|repo| tenant_of(repo) == tenant) {
                let lines: String = self.manifests.images(&repo).into_iter().map(|image| Line::Image(image).text()).collect();
                if !lines.is_empty() && sender.send_data(lines.into()).await.is_err() {
                    return;
                }
            }
            let named = self.moves.named(&tenant).into_iter().map(|(repo, digest)| Line::Blob(repo, digest).text());
            let _ = sender.send_data((named.collect::<String>() + &Line::End.text()).into()).await;
        });
        with_body(StatusCode::OK, &[("Content-Type", "application/x-ndjson")], body)
    }
}

#[cfg(test)]
mod tests {
    use super::*;

    #[test]
    fn lines_are_read_as_they_were_written() {
        let image = Image {
            repository: "acme/web".to_string(),
            digest: "sha256:a".to_string(),
            media_type: "x/y".to_string(),
            size: 7,
            artifact_type: None,
            subject: Some("sha256:b".to_string()),
            lists: vec!["sha256:d".to_string(), "sha256:c".to_string()],
            tags: vec!["v1".to_string()],
        };
        for line in [Line::Image(image), Line::Blob("acme/web".to_string(), "sha256:a".to_string()), Line::End] {
            assert_eq!(serde_json::from_str::<Line>(line.text().trim()).unwrap(), line);
        }
        assert!(serde_json::from_str::<Line>("{\"image\":{}}").is_err());
    }
}
