//! Tags that a line of a file covers: a prefix of repositories, and a pattern of tags.
use crate::metadata::names::{check_prefix, is_below, is_tag, tenant_of};
use crate::metadata::wildcards::is_matched;
use std::fmt;

/// Tags of some repositories.
#[derive(Debug, PartialEq, Eq)]
pub(crate) struct TagPattern {
    prefix: String,
    pattern: String,
}

impl TagPattern {
    /// Parses a prefix of repositories and a pattern of tags.
    ///
    /// # Errors
    ///
    /// - The prefix is neither `*` nor the name of a repository.
    /// - The pattern matches no tag.
    pub(crate) fn parse(prefix: &str, pattern: &str) -> Result<TagPattern, String> {
        check_prefix(prefix)?;
        if !is_tag(&pattern.replace(&['*', '?'][..], "x")) {
            return Err(format!("not a pattern of tags: `{pattern}`: write v1.0, v* or v?"));
        }
        Ok(TagPattern { prefix: prefix.to_string(), pattern: pattern.to_string() })
    }

    /// Returns whether it may cover tags of a repository.
    pub(crate) fn is_of(&self, repo: &str) -> bool {
        is_below(repo, &self.prefix)
    }

    /// Returns whether it may cover tags of a tenant.
    pub(crate) fn reaches(&self, tenant: &str) -> bool {
        self.is_of(tenant) || tenant_of(&self.prefix) == tenant
    }

    /// Returns whether it covers a tag of each repository that it is of.
    pub(crate) fn matches(&self, tag: &str) -> bool {
        is_matched(&self.pattern, tag)
    }

    /// Returns whether it covers a tag of a repository.
    pub(crate) fn covers(&self, repo: &str, tag: &str) -> bool {
        self.is_of(repo) && self.matches(tag)
    }
}

impl fmt::Display for TagPattern {
    fn fmt(&self, text: &mut fmt::Formatter) -> fmt::Result {
        write!(text, "{} {}", self.prefix, self.pattern)
    }
}
