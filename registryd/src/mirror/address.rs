//! Which tenant is a mirror of which registry, and the names of its repositories there.
use crate::http::client::ip_of;
use crate::metadata::names::{is_component, is_repository};
use hyper::Uri;

/// The address of the registry that a mirror copies, with a prefix of its repositories.
#[derive(Clone, Debug, PartialEq, Eq)]
pub(crate) struct Address {
    scheme: String,
    authority: String,
    /// The beginning of the names of all repositories, without slashes at its ends. It may be empty.
    prefix: String,
}

/// An argument `[TENANT=]URL`. Without a tenant it is for the only one.
#[derive(Clone, Debug, PartialEq, Eq)]
pub(crate) struct MirrorOf {
    pub(crate) tenant: Option<String>,
    pub(crate) address: Address,
}

impl Address {
    /// Parses a URL.
    ///
    /// # Errors
    ///
    /// - It is not `http://` or `https://` with a host, or it has a user, a query or a fragment.
    /// - It is `https` with an IP address.
    /// - Its path is not the name of a repository, or nothing.
    fn parse(text: &str) -> Result<Address, String> {
        let fault = |why: &str| format!("invalid URL `{text}`: {why}");
        let (scheme, rest) = text.split_once("://").ok_or_else(|| fault("write https://HOST[:PORT][/PREFIX]"))?;
        if !matches!(scheme, "http" | "https") {
            return Err(fault("write http or https"));
        }
        if rest.contains('@') {
            return Err(fault("write users and passwords into the file of --mirror-credentials"));
        }
        let (authority, path) = rest.split_once('/').unwrap_or((rest, ""));
        let url = format!("{scheme}://{authority}/").parse::<Uri>().map_err(|_| fault("it has no valid host"))?;
        if authority.is_empty() || authority.contains(&['?', '#'][..]) {
            return Err(fault("it has no valid host"));
        }
        if scheme == "https" && ip_of(&url).is_some() {
            return Err(fault("write the name of the host: certificates of addresses are not supported"));
        }
        let prefix = path.trim_end_matches('/');
        if !prefix.is_empty() && !is_repository(prefix) {
            return Err(fault("its path is not the beginning of repositories' names"));
        }
        Ok(Address { scheme: scheme.to_string(), authority: authority.to_string(), prefix: prefix.to_string() })
    }

    /// Returns the name that a repository of the tenant has at the upstream, if it can have one. A name that is none of a repository
    /// gets nowhere: it could have parts of another path.
    pub(crate) fn name_of(&self, repo: &str) -> Option<String> {
        if !is_repository(repo) {
            return None;
        }
        let own = repo.split_once('/').map_or("", |(_, rest)| rest);
        match (self.prefix.is_empty(), own.is_empty()) {
            (true, true) => None,
            (true, false) => Some(own.to_string()),
            (false, true) => Some(self.prefix.clone()),
            (false, false) => Some(format!("{}/{own}", self.prefix)),
        }
    }

    /// Returns the repository of a tenant that has a name at the upstream, if it is below the prefix.
    pub(super) fn repo_of(&self, tenant: &str, name: &str) -> Option<String> {
        let own = match self.prefix.is_empty() {
            true => name,
            false => name.strip_prefix(&self.prefix)?,
        };
        match own.strip_prefix('/') {
            None if own.is_empty() => Some(tenant.to_string()),
            None if !self.prefix.is_empty() => None,
            None => Some(format!("{tenant}/{own}")),
            Some(own) => Some(format!("{tenant}/{own}")),
        }
    }

    /// Returns whether the upstream has TLS.
    pub(crate) fn has_tls(&self) -> bool {
        self.scheme == "https"
    }

    /// Returns the URL of a path.
    pub(super) fn url(&self, path: &str) -> String {
        format!("{}://{}{path}", self.scheme, self.authority)
    }

    /// Returns the URL of the registry with the prefix, for messages.
    pub(crate) fn text(&self) -> String {
        match self.prefix.is_empty() {
            true => self.url(""),
            false => self.url(&format!("/{}", self.prefix)),
        }
    }
}

/// Parses an argument `[TENANT=]URL`.
///
/// # Errors
///
/// Fails with a message that quotes the argument.
pub(crate) fn mirror_of(text: &str) -> Result<MirrorOf, String> {
    if text.starts_with("http://") || text.starts_with("https://") {
        return Ok(MirrorOf { tenant: None, address: Address::parse(text)? });
    }
    match text.split_once('=') {
        Some((tenant, url)) if is_component(tenant) => {
            Ok(MirrorOf { tenant: Some(tenant.to_string()), address: Address::parse(url)? })
        }
        _ => Err(format!("`{text}` is not [TENANT=]URL: write https://HOST or acme=https://HOST/PREFIX")),
    }
}

#[cfg(test)]
mod tests {
    use super::*;

    #[test]
    fn names_have_the_prefix_and_no_tenant() {
        let plain = mirror_of("https://registry-1.docker.io").unwrap();
        assert_eq!((plain.tenant, plain.address.text()), (None, "https://registry-1.docker.io".to_string()));
        let name = |repo| plain.address.name_of(repo);
        assert_eq!(
            (name("hub/library/debian").as_deref(), name("hub/a").as_deref(), name("hub")),
            (Some("library/debian"), Some("a"), None)
        );
        let prefixed = mirror_of("acme=http://127.0.0.1:5000/team/a/").unwrap();
        assert_eq!(prefixed.tenant.as_deref(), Some("acme"));
        let name = |repo| prefixed.address.name_of(repo);
        assert_eq!((name("acme/app/web").as_deref(), name("acme").as_deref()), (Some("team/a/app/web"), Some("team/a")));
        for (address, repo, name) in [
            (&plain.address, "acme/library/debian", "library/debian"),
            (&prefixed.address, "acme/app", "team/a/app"),
            (&prefixed.address, "acme", "team/a"),
        ] {
            assert_eq!((address.name_of(repo).as_deref(), address.repo_of("acme", name).as_deref()), (Some(name), Some(repo)));
        }
        assert_eq!(["team/ab", "team", "other"].map(|name| prefixed.address.repo_of("acme", name)), [None, None, None]);
        for repo in ["hub/a?b", "hub/../x", "hub/a#b", "hub/a/", "hub//a", "Hub/a", "hub/a b", ""] {
            assert_eq!((plain.address.name_of(repo), prefixed.address.name_of(repo)), (None, None), "{repo}");
        }
        assert_eq!(prefixed.address.url("/v2/"), "http://127.0.0.1:5000/v2/");
        assert_eq!(prefixed.address.text(), "http://127.0.0.1:5000/team/a");
    }

    #[test]
    fn bad_arguments_are_quoted() {
        let words = [
            "",
            "acme",
            "acme=",
            "acme=registry.example",
            "ftp://a",
            "acme=ftp://a",
            "https://",
            "https:///x",
            "A=https://a",
            "https://user:secret@a",
            "https://a?x=1",
            "https://a/x?y",
            "https://a/X",
            "https://a/x//y",
            "https://a b",
            "https://a/x#y",
            "https://127.0.0.1",
            "https://127.0.0.1:5000/x",
            "https://[::1]:5000",
        ];
        for word in words {
            assert!(mirror_of(word).unwrap_err().contains('`'), "{word}");
        }
        assert!(!mirror_of("https://user:secret@a").unwrap_err().is_empty());
    }
}
