//! The paths of the pages. A name of a repository has no `:` and no `@`, so a path with a tag or a digest is read in one way.
use crate::metadata::document::is_digest;
use crate::metadata::names::{is_component, is_repository, is_tag};
use std::fmt::{self, Display, Formatter};

/// The path below which all pages are.
const ROOT: &str = "/ui/";

/// What a path names.
#[derive(Clone, Copy, Debug, PartialEq, Eq)]
pub(crate) enum Place<'p> {
    /// The list of tenants.
    Tenants,
    /// The repositories of a tenant.
    Tenant(&'p str),
    /// The tags of a repository.
    Repository(&'p str),
    /// An image, or another manifest.
    Image(Image<'p>),
    /// The question whether to delete a tag or an image, and the delete itself.
    Delete(Image<'p>),
    /// The text of a blob that a manifest refers to.
    Text(Image<'p>),
    Login,
    Logout,
    Style,
    Script,
    Icon,
}

/// A manifest of a repository, by a tag or by its digest.
#[derive(Clone, Copy, Debug, PartialEq, Eq)]
pub(crate) struct Image<'p> {
    pub(crate) repo: &'p str,
    pub(crate) reference: Reference<'p>,
}

#[derive(Clone, Copy, Debug, PartialEq, Eq)]
pub(crate) enum Reference<'p> {
    Tag(&'p str),
    Digest(&'p str),
}

/// Returns whether a path is that of a page.
pub(crate) fn is_page(path: &str) -> bool {
    path == ROOT.trim_end_matches('/') || path.starts_with(ROOT)
}

impl<'p> Reference<'p> {
    /// Returns the text of a tag or a digest.
    pub(crate) fn text(self) -> &'p str {
        match self {
            Reference::Tag(text) | Reference::Digest(text) => text,
        }
    }
}

impl<'p> Image<'p> {
    pub(super) fn tagged(repo: &'p str, tag: &'p str) -> Image<'p> {
        Image { repo, reference: Reference::Tag(tag) }
    }

    pub(super) fn by_digest(repo: &'p str, digest: &'p str) -> Image<'p> {
        Image { repo, reference: Reference::Digest(digest) }
    }

    /// Reads `REPOSITORY:TAG` or `REPOSITORY@DIGEST`.
    fn of(text: &'p str) -> Option<Image<'p>> {
        let image = match text.split_once('@') {
            Some((repo, digest)) => Image::by_digest(repo, digest),
            None => text.split_once(':').map(|(repo, tag)| Image::tagged(repo, tag))?,
        };
        let is_named = match image.reference {
            Reference::Tag(tag) => is_tag(tag),
            Reference::Digest(digest) => is_digest(digest),
        };
        Some(image).filter(|image| is_named && is_repository(image.repo))
    }
}

impl Display for Image<'_> {
    fn fmt(&self, text: &mut Formatter<'_>) -> fmt::Result {
        match self.reference {
            Reference::Tag(tag) => write!(text, "{}:{tag}", self.repo),
            Reference::Digest(digest) => write!(text, "{}@{digest}", self.repo),
        }
    }
}

impl<'p> Place<'p> {
    /// Returns what a decoded path names, if it names something.
    pub(crate) fn of(path: &'p str) -> Option<Place<'p>> {
        let rest = path.strip_prefix(ROOT)?;
        match rest {
            "" => return Some(Place::Tenants),
            "login" => return Some(Place::Login),
            "logout" => return Some(Place::Logout),
            "style.css" => return Some(Place::Style),
            "copy.js" => return Some(Place::Script),
            "icon.svg" => return Some(Place::Icon),
            _ => {}
        }
        let (kind, name) = rest.split_once('/')?;
        match kind {
            "tenants" => Some(Place::Tenant(name)).filter(|_| is_component(name)),
            "repositories" => Some(Place::Repository(name)).filter(|_| is_repository(name)),
            "images" => Image::of(name).map(Place::Image),
            "delete" => Image::of(name).map(Place::Delete),
            "text" => Image::of(name).map(Place::Text),
            _ => None,
        }
    }

    /// Returns the repository of a page, and the tag or the digest.
    pub(crate) fn subject(self) -> Option<(&'p str, Option<Reference<'p>>)> {
        match self {
            Place::Repository(repo) => Some((repo, None)),
            Place::Image(Image { repo, reference })
            | Place::Delete(Image { repo, reference })
            | Place::Text(Image { repo, reference }) => Some((repo, Some(reference))),
            _ => None,
        }
    }

    /// Returns the methods of a page, in the form of a header `Allow`.
    pub(super) fn methods(self) -> &'static str {
        match self {
            Place::Login | Place::Delete(_) => "GET, HEAD, POST",
            Place::Logout => "POST",
            _ => "GET, HEAD",
        }
    }

    /// Returns the path with a query.
    pub(super) fn with(self, pairs: &[(&str, &str)]) -> String {
        let query = form_urlencoded::Serializer::new(String::new()).extend_pairs(pairs).finish();
        format!("{self}?{query}")
    }
}

/// The path. The names need no percent-encoding, because they have only letters that a path may have.
impl Display for Place<'_> {
    fn fmt(&self, text: &mut Formatter<'_>) -> fmt::Result {
        text.write_str(ROOT)?;
        match self {
            Place::Tenants => Ok(()),
            Place::Tenant(name) => write!(text, "tenants/{name}"),
            Place::Repository(name) => write!(text, "repositories/{name}"),
            Place::Image(image) => write!(text, "images/{image}"),
            Place::Delete(image) => write!(text, "delete/{image}"),
            Place::Text(image) => write!(text, "text/{image}"),
            Place::Login => text.write_str("login"),
            Place::Logout => text.write_str("logout"),
            Place::Style => text.write_str("style.css"),
            Place::Script => text.write_str("copy.js"),
            Place::Icon => text.write_str("icon.svg"),
        }
    }
}

#[cfg(test)]
mod tests {
    use super::*;

    #[test]
    fn a_path_is_read_as_it_was_written() {
        let digest = format!("sha256:{}", "0".repeat(64));
        let tagged = Image::tagged("acme/web", "v1.0");
        let by_digest = Image::by_digest("acme/a__b/c-d", &digest);
        for place in [
            Place::Tenants,
            Place::Tenant("acme"),
            Place::Repository("acme/web"),
            Place::Image(tagged),
            Place::Image(by_digest),
            Place::Delete(tagged),
            Place::Delete(by_digest),
            Place::Text(by_digest),
            Place::Login,
            Place::Logout,
            Place::Style,
            Place::Script,
            Place::Icon,
        ] {
            let path = place.to_string();
            assert!(is_page(&path));
            assert_eq!(Place::of(&path), Some(place), "{path}");
        }
    }

    #[test]
    fn other_paths_name_nothing() {
        for path in [
            "/ui",
            "/ui/x",
            "/ui/tenants/",
            "/ui/tenants/a/b",
            "/ui/tenants/Acme",
            "/ui/repositories/acme//web",
            "/ui/repositories/../acme",
            "/ui/images/acme/web",
            "/ui/images/acme/web:",
            "/ui/images/acme/web:<script>",
            "/ui/images/acme/web:v1:v2",
            "/ui/images/acme/web@sha256:0",
            "/ui/images/acme/web@v1",
            "/ui/images/:v1",
            "/ui/login/",
            "/v2/",
        ] {
            assert_eq!(Place::of(path), None, "{path}");
        }
        assert!(is_page("/ui") && is_page("/ui/x") && !is_page("/uix") && !is_page("/v2/ui/"));
    }

    #[test]
    fn a_query_is_encoded() {
        let link = Place::Tenant("acme").with(&[("prefix", "a&b"), ("last", "acme/x+y")]);
        assert_eq!(link, "/ui/tenants/acme?prefix=a%26b&last=acme%2Fx%2By");
    }
}
