//! Paths and queries of the API (OCI Distribution Specification 1.1, "Endpoints").

use std::borrow::Cow;

/// The resource that a path names.
#[derive(Debug, PartialEq, Eq)]
pub(crate) enum Target<'p> {
    /// end-1.
    Base,
    /// The list of repositories.
    Catalog,
    /// end-8.
    Tags { repo: &'p str },
    /// end-3, end-7, end-9: a tag or a digest.
    Manifest { repo: &'p str, reference: &'p str },
    /// end-4, end-11.
    Uploads { repo: &'p str },
    /// end-5, end-6, end-13, end-14.
    Upload { repo: &'p str, name: &'p str },
    /// end-2, end-10.
    Blob { repo: &'p str, digest: &'p str },
    /// end-12.
    Referrers { repo: &'p str, digest: &'p str },
}

/// Decodes the percent-encoding of a path once (RFC 3986, 2.4). Returns `None` if the result is not UTF-8.
pub(crate) fn decoded(path: &str) -> Option<Cow<'_, str>> {
    percent_encoding::percent_decode_str(path).decode_utf8().ok()
}

impl<'p> Target<'p> {
    /// Returns the resource of a path, if there is one. The path is parsed from its end: `manifests`, `blobs`, `uploads`,
    /// `tags` and `list` may be parts of a repository's name, but a tag, a digest and an upload's name contain no `/`.
    pub(crate) fn of(path: &'p str) -> Option<Target<'p>> {
        if path == "/v2" || path == "/v2/" {
            return Some(Target::Base);
        }
        if path == "/v2/_catalog" {
            return Some(Target::Catalog);
        }
        let rest = path.strip_prefix("/v2/")?;
        if let Some(repo) = rest.strip_suffix("/tags/list") {
            return Some(Target::Tags { repo });
        }
        if let Some(repo) = rest.strip_suffix("/blobs/uploads/").or_else(|| rest.strip_suffix("/blobs/uploads")) {
            return Some(Target::Uploads { repo });
        }
        let (before, name) = rest.rsplit_once('/')?;
        if let Some(repo) = before.strip_suffix("/manifests") {
            return Some(Target::Manifest { repo, reference: name });
        }
        if let Some(repo) = before.strip_suffix("/blobs/uploads") {
            return Some(Target::Upload { repo, name });
        }
        if let Some(repo) = before.strip_suffix("/referrers") {
            return Some(Target::Referrers { repo, digest: name });
        }
        before.strip_suffix("/blobs").map(|repo| Target::Blob { repo, digest: name })
    }

    /// Returns the methods that the path supports, in the form of a header `Allow`.
    pub(crate) fn methods(&self) -> &'static str {
        match self {
            Target::Base | Target::Catalog | Target::Tags { .. } | Target::Referrers { .. } => "GET, HEAD",
            Target::Manifest { .. } => "GET, HEAD, PUT, DELETE",
            Target::Uploads { .. } => "POST",
            Target::Upload { .. } => "GET, PATCH, PUT, DELETE",
            Target::Blob { .. } => "GET, HEAD, DELETE",
        }
    }

    /// Returns the repository of the path.
    pub(crate) fn repo(&self) -> Option<&'p str> {
        match *self {
            Target::Base | Target::Catalog => None,
            Target::Tags { repo }
            | Target::Manifest { repo, .. }
            | Target::Uploads { repo }
            | Target::Upload { repo, .. }
            | Target::Blob { repo, .. }
            | Target::Referrers { repo, .. } => Some(repo),
        }
    }
}

/// Returns the first value of a name in a query.
pub(crate) fn query_value(query: Option<&str>, name: &str) -> Option<String> {
    let mut pairs = form_urlencoded::parse(query?.as_bytes());
    pairs.find(|(key, _)| key == name).map(|(_, value)| value.into_owned())
}

#[cfg(test)]
mod tests {
    use super::*;

    #[test]
    fn paths_name_what_the_specification_says() {
        let cases = [
            ("/v2/", Some(Target::Base)),
            ("/v2", Some(Target::Base)),
            ("/v2/a/b/tags/list", Some(Target::Tags { repo: "a/b" })),
            ("/v2/a/b/manifests/v1", Some(Target::Manifest { repo: "a/b", reference: "v1" })),
            ("/v2/a/manifests/manifests/v1", Some(Target::Manifest { repo: "a/manifests", reference: "v1" })),
            ("/v2/a/b/blobs/uploads/", Some(Target::Uploads { repo: "a/b" })),
            ("/v2/a/b/blobs/uploads", Some(Target::Uploads { repo: "a/b" })),
            ("/v2/a/b/blobs/uploads/x", Some(Target::Upload { repo: "a/b", name: "x" })),
            ("/v2/a/b/blobs/sha256:0", Some(Target::Blob { repo: "a/b", digest: "sha256:0" })),
            ("/v2/a/blobs/blobs/sha256:0", Some(Target::Blob { repo: "a/blobs", digest: "sha256:0" })),
            ("/v2/a/manifests/blobs/sha256:0", Some(Target::Blob { repo: "a/manifests", digest: "sha256:0" })),
            ("/v2/a/manifests/blobs/uploads/", Some(Target::Uploads { repo: "a/manifests" })),
            ("/v2/a/manifests/blobs/uploads/x", Some(Target::Upload { repo: "a/manifests", name: "x" })),
            ("/v2/a/manifests/tags/list", Some(Target::Tags { repo: "a/manifests" })),
            ("/v2/a/blobs/uploads/manifests/v1", Some(Target::Manifest { repo: "a/blobs/uploads", reference: "v1" })),
            ("/v2/a/blobs/uploads/blobs/sha256:0", Some(Target::Blob { repo: "a/blobs/uploads", digest: "sha256:0" })),
            ("/v2/a/blobs/uploads/blobs/uploads/", Some(Target::Uploads { repo: "a/blobs/uploads" })),
            ("/v2/a/blobs/uploads/blobs/uploads/x", Some(Target::Upload { repo: "a/blobs/uploads", name: "x" })),
            ("/v2/a/blobs/uploads/tags/list", Some(Target::Tags { repo: "a/blobs/uploads" })),
            ("/v2/a/tags/list/manifests/list", Some(Target::Manifest { repo: "a/tags/list", reference: "list" })),
            ("/v2/a/b/referrers/sha256:0", Some(Target::Referrers { repo: "a/b", digest: "sha256:0" })),
            ("/v2/a/referrers/referrers/sha256:0", Some(Target::Referrers { repo: "a/referrers", digest: "sha256:0" })),
            ("/v2/a/referrers/manifests/v1", Some(Target::Manifest { repo: "a/referrers", reference: "v1" })),
            ("/v2/a/manifests/referrers/sha256:0", Some(Target::Referrers { repo: "a/manifests", digest: "sha256:0" })),
            ("/v2/_catalog", Some(Target::Catalog)),
            ("/v2/_catalog/", None),
            ("/v2/a/_catalog", None),
            ("/v2/referrers/sha256:0", None),
            ("/v2/a/manifests/b/c", None),
            ("/v2/manifests/v1", None),
            ("/v2/a/b/blobs/uploadsx", Some(Target::Blob { repo: "a/b", digest: "uploadsx" })),
            ("/v2/a/b", None),
            ("/v1/", None),
        ];
        for (path, target) in cases {
            assert_eq!(Target::of(path), target, "{path}");
        }
    }

    #[test]
    fn paths_are_decoded_once() {
        assert_eq!(decoded("/v2/a%2Fb/blobs/sha256%3a0").as_deref(), Some("/v2/a/b/blobs/sha256:0"));
        assert_eq!(decoded("/v2/a%252Fb/tags/list").as_deref(), Some("/v2/a%2Fb/tags/list"));
        assert_eq!(decoded("/v2/a%zz/b%").as_deref(), Some("/v2/a%zz/b%"));
        assert_eq!(decoded("/v2/a%ff/tags/list"), None);
    }

    #[test]
    fn queries_are_decoded() {
        let query = Some("mount=sha256%3Aab&from=acme%2Fone&from=other");
        assert_eq!(query_value(query, "mount").as_deref(), Some("sha256:ab"));
        assert_eq!(query_value(query, "from").as_deref(), Some("acme/one"));
        assert_eq!(query_value(query, "digest"), None);
        assert_eq!(query_value(None, "digest"), None);
    }
}
