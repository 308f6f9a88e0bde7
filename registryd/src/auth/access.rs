//! Authentication and authorization. A user has a password (RFC 7617), or a token of an issuer (RFC 6750). A token lists rights. An
//! account of a machine has a secret instead of a password, and rights of its own; or a token whose claims have rights by a file. A file has
//! the rights of users with a password; without it, such a user may use the repositories of the tenant that has the user's name.
use crate::auth::oidc::{Account, Oidc, TokenFault};
use crate::auth::reserved::{is_oidc, is_robot, mover_of};
use crate::auth::rights::{Demand, Right, Rights, Scope};
use crate::auth::robots::{Robot, Robots};
use crate::auth::tokens::{Issuer, Token};
use crate::auth::users::Users;
use crate::http::fault::Fault;
use crate::metadata::names::tenant_of;
use crate::operation::reload::FromFile;
use hyper::header::AUTHORIZATION;
use hyper::HeaderMap;
use std::net::IpAddr;
use std::sync::Arc;

/// The challenge to a client that has to send a user and a password (RFC 7617, 2).
const BASIC: &str = "Basic realm=\"registry\", charset=\"UTF-8\"";

/// The rules that decide which requests are accepted. Without users and issuers every request is.
#[derive(Default)]
pub(crate) struct Access {
    pub(crate) users: Option<Arc<FromFile<Users>>>,
    pub(crate) rights: Option<Arc<FromFile<Rights>>>,
    pub(crate) issuer: Option<Arc<Issuer>>,
    /// The issuers of tokens that machines have anyway.
    pub(crate) oidc: Option<Oidc>,
    /// The accounts of machines. They count only if requests need credentials.
    pub(crate) robots: Robots,
}

/// The sender of a request, as far as it is known.
#[derive(Debug)]
pub(super) enum Identity {
    /// Anybody, in a registry without users and without issuers.
    Anybody,
    /// A client that sent no credentials.
    Anonymous,
    /// A user whose password was right.
    User(String),
    /// A machine whose secret was right.
    Robot(Arc<Robot>),
    /// A machine whose token was good.
    Account(Account),
    /// The holder of a valid token.
    Holder(Token),
}

/// The sender of a request, and its rights.
pub(crate) struct Caller {
    identity: Identity,
    /// The rights of the file, if there is one.
    rights: Option<Arc<Rights>>,
    issuer: Option<Arc<Issuer>>,
}

/// The header `Authorization` of a request.
#[derive(Debug, PartialEq, Eq)]
enum Credentials {
    /// No header, or an empty user with an empty password, which some clients send if they have neither.
    Missing,
    Password(String, String),
    Token(String),
    /// A header that is not understood.
    Invalid,
}

/// Returns the credentials of a request.
fn credentials(headers: &HeaderMap) -> Credentials {
    let text = match headers.get(AUTHORIZATION) {
        Some(value) => value.to_str().unwrap_or_default(),
        None => return Credentials::Missing,
    };
    match text.split_once(' ') {
        Some((scheme, words)) if scheme.eq_ignore_ascii_case("basic") => match password(words.trim()) {
            Some((user, password)) if user.is_empty() && password.is_empty() => Credentials::Missing,
            Some((user, password)) => Credentials::Password(user, password),
            None => Credentials::Invalid,
        },
        Some((scheme, words)) if scheme.eq_ignore_ascii_case("bearer") => Credentials::Token(words.trim().to_string()),
        _ => Credentials::Invalid,
    }
}

/// Decodes a user and a password (RFC 7617, 2).
fn password(words: &str) -> Option<(String, String)> {
    let words = String::from_utf8(base64::decode(words).ok()?).ok()?;
    let (user, password) = words.split_once(':')?;
    Some((user.to_string(), password.to_string()))
}

/// Returns the failure of a request whose credentials are missing, wrong or insufficient. With an issuer the challenge is for a token
/// with what the request needs, since clients do not choose among several challenges in the same way.
fn unauthorized(issuer: &Option<Arc<Issuer>>, scope: Scope<'_>, error: Option<&str>) -> Fault {
    Fault::unauthorized(issuer.as_ref().map_or_else(|| BASIC.to_string(), |issuer| issuer.challenge(scope, error)))
}

impl Access {
    /// Returns whether requests need credentials.
    pub(crate) fn wants_credentials(&self) -> bool {
        self.users.is_some() || self.issuer.is_some() || self.oidc.is_some()
    }

    /// Returns the sender of a request after checking its credentials. A challenge names what the request needs.
    pub(crate) async fn caller(&self, headers: &HeaderMap, scope: Scope<'_>, client: Option<IpAddr>) -> Result<Caller, Fault> {
        let identity = match credentials(headers) {
            Credentials::Password(user, secret) if mover_of(&user).is_some() => {
                self.by_password(user, &secret, scope, client).await?
            }
            _ if !self.wants_credentials() => Identity::Anybody,
            Credentials::Missing => Identity::Anonymous,
            Credentials::Password(user, secret) => self.by_password(user, &secret, scope, client).await?,
            Credentials::Token(text) => self.by_token(&text, scope).await?,
            Credentials::Invalid => return Err(unauthorized(&self.issuer, scope, None)),
        };
        Ok(self.caller_with(identity))
    }

    /// Returns who has a name and a password, or a name and a secret, if they are right.
    pub(super) async fn identify(&self, user: String, password: &str, client: Option<IpAddr>) -> Result<Option<Identity>, Fault> {
        if is_robot(&user) {
            return Ok(self.robots.accept(&user, password).map(Identity::Robot));
        }
        if is_oidc(&user) {
            return Ok(None);
        }
        match &self.users {
            Some(users) if users.get().accept(&user, password, client).await? => Ok(Some(Identity::User(user))),
            _ => Ok(None),
        }
    }

    /// Returns a sender with the rights that it has now.
    pub(super) fn caller_with(&self, identity: Identity) -> Caller {
        let rights = self.rights.as_ref().map(|rights| rights.get());
        Caller { identity, rights, issuer: self.issuer.clone() }
    }

    /// Returns the sender of a user and a password, or of what a machine sends in its place.
    async fn by_password(&self, user: String, secret: &str, scope: Scope<'_>, client: Option<IpAddr>) -> Result<Identity, Fault> {
        match &self.oidc {
            Some(oidc) if is_oidc(&user) => self.account(oidc.by_user(&user, secret).await, scope),
            _ => self.identify(user, secret, client).await?.ok_or_else(|| unauthorized(&self.issuer, scope, None)),
        }
    }

    /// Returns the sender of a token. Its issuer decides who verifies it.
    async fn by_token(&self, text: &str, scope: Scope<'_>) -> Result<Identity, Fault> {
        if let Some(oidc) = &self.oidc {
            if let Some(result) = oidc.by_issuer(text).await {
                return self.account(result, scope);
            }
        }
        match &self.issuer {
            Some(issuer) => {
                let token = issuer.verify(text).ok_or_else(|| unauthorized(&self.issuer, scope, Some("invalid_token")))?;
                Ok(Identity::Holder(token))
            }
            None => Err(unauthorized(&self.issuer, scope, None)),
        }
    }

    /// Returns the sender of a machine's token. The message of a failure is for those who configure the machine.
    fn account(&self, result: Result<Account, TokenFault>, scope: Scope<'_>) -> Result<Identity, Fault> {
        result.map(Identity::Account).map_err(|fault| match fault {
            TokenFault::Refused(refusal) => {
                unauthorized(&self.issuer, scope, None).because(&format!("the token is refused: {}", refusal.text()))
            }
            TokenFault::NoKeys => Fault::unavailable("the keys of the token's issuer cannot be fetched"),
        })
    }
}

impl Caller {
    /// Returns the user's name, if it is known.
    pub(crate) fn user(&self) -> Option<&str> {
        match &self.identity {
            Identity::User(user) => Some(user),
            Identity::Robot(robot) => Some(&robot.name),
            Identity::Account(account) => Some(&account.name),
            Identity::Holder(token) => token.user(),
            Identity::Anybody | Identity::Anonymous => None,
        }
    }

    /// Returns whether the sender is the command that moves a tenant.
    pub(crate) fn is_mover_of(&self, tenant: &str) -> bool {
        matches!(&self.identity, Identity::Robot(robot) if robot.is_mover_of(tenant))
    }

    /// Returns whether the sender is a user of the file of users with this name.
    pub(crate) fn is_user(&self, name: &str) -> bool {
        matches!(&self.identity, Identity::User(user) if user == name)
    }

    /// Returns whether the sender has a right in a repository.
    pub(crate) fn may(&self, right: Right, repo: &str) -> bool {
        let has = match (&self.identity, &self.rights) {
            (Identity::Anybody, _) => true,
            (Identity::Anonymous, _) => false,
            (Identity::User(user), Some(rights)) => rights.allow(user, right, repo),
            (Identity::User(user), None) => tenant_of(repo) == user,
            (Identity::Robot(robot), _) => robot.allows(right, repo),
            (Identity::Account(account), _) => account.allows(right, repo),
            (Identity::Holder(token), _) => token.allows(right, repo),
        };
        has || self.rights.as_ref().map_or(false, |rights| rights.are_public(right, repo))
    }

    /// Returns whether the sender has a right in all repositories of a tenant. A line of the file for the tenant's name holds for
    /// all of them. An entry of a token holds for one repository only, which may have the tenant's name.
    pub(crate) fn may_in_tenant(&self, right: Right, tenant: &str) -> bool {
        match (&self.identity, &self.rights) {
            (Identity::Holder(_), rights) => rights.as_ref().map_or(false, |rights| rights.are_public(right, tenant)),
            _ => self.may(right, tenant),
        }
    }

    /// Returns whether the sender may read something of a tenant, whether it is there or not.
    pub(crate) fn may_read_some_of(&self, tenant: &str) -> bool {
        let reaches = match (&self.identity, &self.rights) {
            (Identity::Robot(robot), _) => robot.reaches(tenant),
            (Identity::User(user), Some(rights)) => rights.reach(user, tenant),
            _ => self.may(Right::Read, tenant),
        };
        reaches || self.rights.as_ref().map_or(false, |rights| rights.everybody_reaches(tenant))
    }

    /// Returns whether the list of repositories shows a repository to the sender.
    pub(crate) fn may_list(&self, repo: &str) -> bool {
        matches!(&self.identity, Identity::Holder(token) if token.lists_catalog()) || self.may(Right::Read, repo)
    }

    /// Fails if the sender does not have the right that a request needs.
    pub(crate) fn check(&self, demand: &Demand<'_>) -> Result<(), Fault> {
        match &self.identity {
            _ if self.may(demand.right, demand.repo) => Ok(()),
            Identity::User(user) => Err(Fault::denied(user, demand.right.word(), demand.repo)),
            Identity::Robot(robot) => Err(Fault::denied(&robot.name, demand.right.word(), demand.repo)),
            Identity::Account(account) => Err(Fault::denied(&account.name, demand.right.word(), demand.repo)),
            Identity::Holder(_) => Err(unauthorized(&self.issuer, Scope::Repository(*demand), Some("insufficient_scope"))),
            Identity::Anybody | Identity::Anonymous => Err(unauthorized(&self.issuer, Scope::Repository(*demand), None)),
        }
    }

    /// Fails if the sender sent no credentials, and the registry has users or issuers.
    pub(crate) fn check_known(&self, scope: Scope<'_>) -> Result<(), Fault> {
        match &self.identity {
            Identity::Anonymous => Err(unauthorized(&self.issuer, scope, None)),
            Identity::Anybody | Identity::User(_) | Identity::Robot(_) | Identity::Account(_) | Identity::Holder(_) => Ok(()),
        }
    }
}

#[cfg(test)]
mod tests {
    use super::*;

    fn caller(identity: Identity, rights: Option<&str>) -> Caller {
        Caller { identity, rights: rights.map(|text| Arc::new(Rights::parse(text).unwrap())), issuer: None }
    }

    fn user(name: &str) -> Identity {
        Identity::User(name.to_string())
    }

    #[test]
    fn a_user_is_the_tenant_of_his_name() {
        let acme = caller(user("acme"), None);
        for (repo, expected) in [("acme/web", true), ("acme", true), ("acmes/web", false), ("other/acme", false)] {
            for right in [Right::Read, Right::Write, Right::Delete] {
                assert_eq!(acme.may(right, repo), expected, "{repo}");
            }
        }
        assert!(caller(Identity::Anybody, None).may(Right::Delete, "other/acme"));
        assert!(!caller(Identity::Anonymous, None).may(Right::Read, "acme"));
    }

    #[test]
    fn a_file_has_all_rights() {
        let lines = Some("acme read acme/app\n* read acme/public\n");
        for (identity, right, repo, expected) in [
            (user("acme"), Right::Read, "acme/app", true),
            (user("acme"), Right::Write, "acme/app", false),
            (user("acme"), Right::Read, "acme/other", false),
            (user("other"), Right::Read, "other/app", false),
            (user("other"), Right::Read, "acme/public", true),
            (Identity::Anonymous, Right::Read, "acme/public", true),
            (Identity::Anonymous, Right::Read, "acme/app", false),
            (user(""), Right::Read, "acme/app", false),
            (user("*"), Right::Write, "acme/public", false),
        ] {
            let text = format!("{identity:?} {right:?} {repo}");
            let sender = caller(identity, lines);
            assert_eq!(sender.may(right, repo), expected, "{text}");
            assert_eq!(sender.check(&Demand { right, repo }).is_ok(), expected);
        }
        for (identity, tenant, expected) in [
            (user("acme"), "acme", true),
            (user("other"), "acme", true),
            (Identity::Anonymous, "acme", true),
            (user("acme"), "other", false),
            (Identity::Anonymous, "acmes", false),
        ] {
            assert_eq!(caller(identity, lines).may_read_some_of(tenant), expected, "{tenant}");
        }
        assert!(
            !caller(Identity::Anonymous, None).may_read_some_of("acme") && caller(user("acme"), None).may_read_some_of("acme")
        );
        assert!(caller(Identity::Anonymous, lines).check_known(Scope::Nothing).is_err());
        assert!(caller(user("x"), lines).check_known(Scope::Nothing).is_ok());
    }

    #[test]
    fn credentials_are_basic() {
        let of = |text: &[u8]| {
            let value = hyper::header::HeaderValue::from_bytes(text).unwrap();
            credentials(&[(AUTHORIZATION, value)].into_iter().collect())
        };
        let sent = |user: &str, password: &str| Credentials::Password(user.to_string(), password.to_string());
        assert_eq!(credentials(&HeaderMap::new()), Credentials::Missing);
        // The example of RFC 7617, section 2.
        assert_eq!(of(b"Basic QWxhZGRpbjpvcGVuIHNlc2FtZQ=="), sent("Aladdin", "open sesame"));
        assert_eq!(of(b"bASIC  QWxhZGRpbjpvcGVuIHNlc2FtZQ=="), sent("Aladdin", "open sesame"));
        // `:`, `a:`, `:b`.
        assert_eq!(of(b"Basic Og=="), Credentials::Missing);
        assert_eq!((of(b"Basic YTo="), of(b"Basic OmI=")), (sent("a", ""), sent("", "b")));
        assert_eq!(of(b"bearer  a.b.c "), Credentials::Token("a.b.c".to_string()));
        for text in
            [&b""[..], b"Basic", b"Basic ", b"Basic !", b"Basic YQ==", b"Basic /w==", b"Bearer", b"Digest a", b"\xff \xff"]
        {
            assert_eq!(of(text), Credentials::Invalid, "{text:?}");
        }
    }
}
