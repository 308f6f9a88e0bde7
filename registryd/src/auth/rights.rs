//! Rights of users in repositories, and the file that lists them.
use crate::auth::reserved::check_unreserved;
use crate::http::paths::Target;
use crate::metadata::names::{check_prefix, is_below, is_repository, tenant_of, EVERYWHERE};
use crate::operation::reload::{parse_lines, read_parsed};
use hyper::Method;
use std::collections::HashMap;
use std::fmt;
use std::path::Path;

/// The user of lines that hold for every request, also for one without credentials.
const EVERYBODY: &str = "*";

/// A right in a repository.
#[derive(Clone, Copy, Debug, PartialEq, Eq)]
pub(crate) enum Right {
    Read,
    Write,
    Delete,
}

impl Right {
    /// Returns the right that a request needs in the repository of its path.
    pub(super) fn of(method: &Method, target: &Target<'_>) -> Right {
        match (target, method) {
            (Target::Uploads { .. } | Target::Upload { .. }, _) => Right::Write,
            (_, &Method::GET | &Method::HEAD) => Right::Read,
            (_, &Method::DELETE) => Right::Delete,
            _ => Right::Write,
        }
    }

    /// Returns the right's word in the file.
    pub(super) fn word(self) -> &'static str {
        match self {
            Right::Read => "read",
            Right::Write => "write",
            Right::Delete => "delete",
        }
    }

    /// Returns the right with a word.
    fn named(word: &str) -> Option<Right> {
        [Right::Read, Right::Write, Right::Delete].into_iter().find(|right| right.word() == word)
    }
}

/// What a request needs: a right in a repository.
#[derive(Clone, Copy, Debug, PartialEq, Eq)]
pub(crate) struct Demand<'p> {
    pub(super) right: Right,
    pub(crate) repo: &'p str,
}

impl<'p> Demand<'p> {
    /// Returns the word of the right.
    pub(crate) fn word(&self) -> &'static str {
        self.right.word()
    }

    /// Returns what a request needs, if its path names a repository.
    pub(crate) fn of(method: &Method, target: &Target<'p>) -> Option<Demand<'p>> {
        target.repo().map(|repo| Demand { right: Right::of(method, target), repo })
    }
}

/// What a token has to list for a request.
#[derive(Clone, Copy, Debug, PartialEq, Eq)]
pub(crate) enum Scope<'p> {
    /// Nothing: any token is enough.
    Nothing,
    /// The list of all repositories. A token without it lists those that it may read.
    Catalog,
    Repository(Demand<'p>),
}

impl<'p> Scope<'p> {
    /// Returns what a token has to list for a request to a resource.
    pub(crate) fn of(target: Option<&Target<'p>>, demand: Option<Demand<'p>>) -> Scope<'p> {
        match (target, demand) {
            (Some(Target::Catalog), _) => Scope::Catalog,
            (_, Some(demand)) => Scope::Repository(demand),
            (_, None) => Scope::Nothing,
        }
    }

    /// Returns the scope's text in a challenge (Docker's "Token Scope Documentation"), if it has one.
    pub(super) fn text(&self) -> Option<String> {
        match self {
            Scope::Nothing => None,
            Scope::Catalog => Some("registry:catalog:*".to_string()),
            Scope::Repository(Demand { right, repo }) => {
                let actions = match right {
                    Right::Read => "pull",
                    Right::Write => "pull,push",
                    Right::Delete => "delete",
                };
                is_repository(repo).then(|| format!("repository:{repo}:{actions}"))
            }
        }
    }
}

/// Rights in the repositories of a prefix.
#[derive(Clone, Debug, PartialEq, Eq)]
pub(super) struct Grant {
    rights: Vec<Right>,
    prefix: String,
}

impl Grant {
    /// Makes the grant of two words of a line.
    pub(super) fn of(rights: &str, prefix: &str) -> Result<Grant, String> {
        let right = |word| Right::named(word).ok_or_else(|| format!("no such right: `{word}`: write read, write or delete"));
        let rights = rights.split(',').map(right).collect::<Result<Vec<Right>, String>>()?;
        check_prefix(prefix)?;
        Ok(Grant { rights, prefix: prefix.to_string() })
    }

    /// Parses a text `RIGHTS PREFIX`.
    pub(super) fn parse(text: &str) -> Result<Grant, String> {
        let words: Vec<&str> = text.split_whitespace().collect();
        match words[..] {
            [rights, prefix] => Grant::of(rights, prefix),
            _ => Err("not RIGHTS PREFIX".to_string()),
        }
    }

    /// Returns whether it has a right in a repository.
    pub(super) fn allows(&self, right: Right, repo: &str) -> bool {
        self.rights.contains(&right) && is_below(repo, &self.prefix)
    }

    /// Returns whether it is one of a tenant alone.
    pub(super) fn is_within(&self, tenant: &str) -> bool {
        tenant_of(&self.prefix) == tenant
    }

    /// Returns the part of it that holds in a tenant, if there is one.
    pub(super) fn within(&self, tenant: &str) -> Option<Grant> {
        match self.prefix == EVERYWHERE {
            true => Some(Grant { rights: self.rights.clone(), prefix: tenant.to_string() }),
            false => self.is_within(tenant).then(|| self.clone()),
        }
    }

    /// Returns whether it lets something of a tenant be read.
    pub(super) fn reaches(&self, tenant: &str) -> bool {
        self.rights.contains(&Right::Read) && (is_below(tenant, &self.prefix) || tenant_of(&self.prefix) == tenant)
    }
}

impl fmt::Display for Grant {
    fn fmt(&self, text: &mut fmt::Formatter) -> fmt::Result {
        let rights: Vec<&str> = self.rights.iter().map(|right| right.word()).collect();
        write!(text, "{} {}", rights.join(","), self.prefix)
    }
}

/// The rights of a file.
#[derive(Debug, Default)]
pub(crate) struct Rights {
    by_user: HashMap<String, Vec<Grant>>,
}

/// Parses a line `USER RIGHTS PREFIX`.
fn parse_line(line: &str) -> Result<(&str, Grant), String> {
    let words: Vec<&str> = line.split_whitespace().collect();
    let (user, rights, prefix) = match words[..] {
        [user, rights, prefix] => (user, rights, prefix),
        _ => return Err("not USER RIGHTS PREFIX".to_string()),
    };
    let grant = Grant::of(rights, prefix)?;
    if user == EVERYBODY && grant.rights.iter().any(|right| *right != Right::Read) {
        return Err("everybody may only read: write `* read PREFIX`".to_string());
    }
    check_unreserved(user)?;
    Ok((user, grant))
}

impl Rights {
    /// Reads the lines of a file.
    ///
    /// # Errors
    ///
    /// - The file cannot be read.
    /// - A line is not `USER RIGHTS PREFIX`. The message has the number of the first such line.
    pub(crate) fn read(path: &Path) -> Result<Rights, String> {
        read_parsed(path, "rights", Rights::parse)
    }

    /// Parses the text of a file.
    pub(super) fn parse(text: &str) -> Result<Rights, String> {
        let mut rights = Rights::default();
        for (user, grant) in parse_lines(text, |_, line| parse_line(line))? {
            rights.by_user.entry(user.to_string()).or_default().push(grant);
        }
        Ok(rights)
    }

    /// Returns whether everybody has a right in a repository.
    pub(super) fn are_public(&self, right: Right, repo: &str) -> bool {
        self.allow(EVERYBODY, right, repo)
    }

    /// Returns the lines for a user.
    fn grants(&self, user: &str) -> &[Grant] {
        self.by_user.get(user).map_or(&[][..], Vec::as_slice)
    }

    /// Returns whether a user has a right in a repository by a line for the user.
    pub(super) fn allow(&self, user: &str, right: Right, repo: &str) -> bool {
        self.grants(user).iter().any(|grant| grant.allows(right, repo))
    }

    /// Returns whether a line for the user lets something of a tenant be read.
    pub(super) fn reach(&self, user: &str, tenant: &str) -> bool {
        self.grants(user).iter().any(|grant| grant.reaches(tenant))
    }

    /// Returns whether everybody may read something of a tenant.
    pub(super) fn everybody_reaches(&self, tenant: &str) -> bool {
        self.reach(EVERYBODY, tenant)
    }
}

#[cfg(test)]
mod tests {
    use super::*;

    #[test]
    fn lines_add_up() {
        let text = "# comment\n\nacme read,write,delete acme\n ci\tread,write  acme/app \nci read other\n* read acme/public\n";
        let rights = Rights::parse(text).unwrap();
        for (user, right, repo, expected) in [
            ("acme", Right::Delete, "acme/x", true),
            ("acme", Right::Read, "other/x", false),
            ("ci", Right::Write, "acme/app/x", true),
            ("ci", Right::Delete, "acme/app", false),
            ("ci", Right::Write, "acme/apple", false),
            ("ci", Right::Read, "other/x", true),
            ("ci", Right::Write, "other/x", false),
            ("ci", Right::Read, "acme/public/x", false),
            ("", Right::Read, "acme", false),
        ] {
            assert_eq!(rights.allow(user, right, repo), expected, "{user} {right:?} {repo}");
        }
        for (repo, expected) in [("acme/public", true), ("acme/public/x", true), ("acme/publics", false), ("acme", false)] {
            assert_eq!(rights.are_public(Right::Read, repo), expected, "{repo}");
        }
        assert!(!rights.are_public(Right::Write, "acme/public"));
    }

    #[test]
    fn bad_lines_are_errors() {
        let lines = [
            "acme",
            "acme read",
            "acme read acme extra",
            "acme reed acme",
            "acme Read acme",
            "acme read, acme",
            "acme , acme",
            "* write acme",
            "* read,delete acme",
            "acme read acme/",
            "acme read /acme",
            "acme read Acme",
            "acme read acme/*",
            "acme read ..",
            "acme\u{0}read acme",
            "robot+ci read acme",
            "oidc+ci read acme",
        ];
        for line in lines {
            let why = Rights::parse(&format!("# rights\nacme read acme\n{line}\n")).unwrap_err();
            assert!(why.starts_with("line 3: "), "{line}: {why}");
        }
        assert!(Rights::parse("").unwrap().by_user.is_empty());
    }

    #[test]
    fn requests_need_rights() {
        let right = |method, path| Right::of(&method, &Target::of(path).unwrap());
        for (method, path, expected) in [
            (Method::GET, "/v2/a/tags/list", Right::Read),
            (Method::GET, "/v2/a/manifests/v1", Right::Read),
            (Method::HEAD, "/v2/a/manifests/v1", Right::Read),
            (Method::PUT, "/v2/a/manifests/v1", Right::Write),
            (Method::DELETE, "/v2/a/manifests/v1", Right::Delete),
            (Method::GET, "/v2/a/blobs/x", Right::Read),
            (Method::HEAD, "/v2/a/blobs/x", Right::Read),
            (Method::DELETE, "/v2/a/blobs/x", Right::Delete),
            (Method::POST, "/v2/a/blobs/uploads/", Right::Write),
            (Method::GET, "/v2/a/blobs/uploads/x", Right::Write),
            (Method::PATCH, "/v2/a/blobs/uploads/x", Right::Write),
            (Method::PUT, "/v2/a/blobs/uploads/x", Right::Write),
            (Method::DELETE, "/v2/a/blobs/uploads/x", Right::Write),
        ] {
            assert_eq!(right(method.clone(), path), expected, "{method} {path}");
        }
    }
}
