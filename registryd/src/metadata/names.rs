//! The names of tenants, repositories and tags (OCI Distribution Specification 1.1, "Pulling manifests").

/// The maximum length of a repository's name, and so of a tenant's, in bytes.
const MAX_NAME: usize = 255;

/// Returns whether a text is a repository's name (OCI Distribution Specification 1.1, "Pulling manifests").
pub(crate) fn is_repository(text: &str) -> bool {
    text.len() <= MAX_NAME && text.split('/').all(is_component)
}

/// Returns whether a text is one component of a repository's name (OCI Distribution Specification 1.1, "Pulling manifests").
pub(crate) fn is_component(text: &str) -> bool {
    let is_letter = |byte: u8| byte.is_ascii_lowercase() || byte.is_ascii_digit();
    let bytes = text.as_bytes();
    let has_ends = bytes.first().map_or(false, |byte| is_letter(*byte)) && bytes.last().map_or(false, |byte| is_letter(*byte));
    let is_separator = |run: &str| matches!(run, "." | "_" | "__") || run.bytes().all(|byte| byte == b'-');
    let mut runs = text.split(|letter: char| letter.is_ascii_lowercase() || letter.is_ascii_digit());
    has_ends && bytes.len() <= MAX_NAME && runs.all(is_separator)
}

/// The prefix of all repositories in the files of rights and of immutable tags.
pub(crate) const EVERYWHERE: &str = "*";

/// Checks that a text of a file is a prefix of repositories: `*`, or a repository's name.
///
/// # Errors
///
/// Fails with what to write instead.
pub(crate) fn check_prefix(text: &str) -> Result<(), String> {
    match text == EVERYWHERE || is_repository(text) {
        true => Ok(()),
        false => Err(format!("not the name of a repository: `{text}`: write acme or acme/app, or * for all")),
    }
}

/// Returns whether a repository is the one that a prefix names, or is below it.
pub(crate) fn is_below(repo: &str, prefix: &str) -> bool {
    prefix == EVERYWHERE || repo.strip_prefix(prefix).map_or(false, |rest| rest.is_empty() || rest.starts_with('/'))
}

/// Returns the tenant of a repository.
pub(crate) fn tenant_of(repo: &str) -> &str {
    repo.split('/').next().unwrap_or(repo)
}

/// Returns whether a text is a tag (OCI Distribution Specification 1.1, "Pulling manifests").
pub(crate) fn is_tag(text: &str) -> bool {
    let is_word = |byte: u8| byte.is_ascii_alphanumeric() || byte == b'_';
    let bytes = text.as_bytes();
    (1..=128).contains(&bytes.len())
        && is_word(bytes[0])
        && bytes.iter().all(|byte| is_word(*byte) || *byte == b'.' || *byte == b'-')
}

#[cfg(test)]
mod tests {
    use super::*;

    /// The examples of docs/SEMANTICS.md, and others.
    #[test]
    fn names_are_components() {
        for name in ["a", "a__b", "a---b", "a.b", "0", &"a".repeat(255)] {
            assert!(is_component(name), "{name}");
        }
        for name in ["", "a___b", "a._b", "a/b", "-a", "a-", "A", "ä", "a b", &"a".repeat(256)] {
            assert!(!is_component(name), "{name}");
        }
    }

    #[test]
    fn a_prefix_is_of_whole_components() {
        for (repo, prefix) in
            [("acme", "acme"), ("acme/app", "acme"), ("acme/app", "acme/app"), ("acme/app/x", "acme/app"), ("b", "*")]
        {
            assert!(is_below(repo, prefix), "{repo} {prefix}");
        }
        for (repo, prefix) in
            [("acme/apple", "acme/app"), ("acmes/app", "acme"), ("acme", "acme/app"), ("b/acme", "acme"), ("", "acme")]
        {
            assert!(!is_below(repo, prefix), "{repo} {prefix}");
        }
    }

    #[test]
    fn repositories_are_components() {
        let (longest, longer) = ("a/".repeat(127) + "a", "a/".repeat(127) + "aa");
        for name in ["acme", "acme/web", "acme/a/b-c", &longest] {
            assert!(is_repository(name), "{name}");
        }
        for name in ["", "/", "acme/", "/acme", "acme//web", "acme/Web", &longer] {
            assert!(!is_repository(name), "{name}");
        }
    }

    #[test]
    fn tags_are_words_of_the_specification() {
        for tag in ["v1", "_", "1.0-rc.2", &"a".repeat(128)] {
            assert!(is_tag(tag), "{tag}");
        }
        for tag in ["", ".a", "-a", "a/b", "a:b", "ä", &"a".repeat(129)] {
            assert!(!is_tag(tag), "{tag}");
        }
    }
}
