//! The files of users, rights, keys of tokens, issuers, immutable and signed tags, rules for tags, receivers of events, credentials of
//! mirrors and the certificate, and the audit log.
use crate::auth::access::Access;
use crate::auth::oidc::Oidc;
use crate::auth::rights::Rights;
use crate::auth::tokens::{Issuer, Key};
use crate::auth::users::{Logins, Users};
use crate::events::receivers::ReceiversFile;
use crate::http::tls;
use crate::http::tls::Tls;
use crate::metadata::immutable_tags::{ImmutableTags, Rules};
use crate::metadata::retention_rules::RetentionRules;
use crate::operation::audit::AuditLog;
use crate::operation::exit::Failure;
use crate::operation::reload::{FromFile, Reloads};
use crate::operation::tag_rules::Retention;
use crate::signatures::checking::SignedTags;
use crate::signatures::rules::SigningRules;
use crate::start::options::Options;
use crate::start::upstreams::Upstreams;
use std::path::Path;
use std::sync::Arc;
use std::time::Duration;

/// Reads the users of a file. The user who may read the metrics has to be one of them.
fn read_users(path: &Path, metrics_user: &Option<String>, logins: &Arc<Logins>) -> Result<Users, String> {
    let users = Users::read(path, logins).map_err(|error| format!("cannot read the users: {}: {error}", path.display()))?;
    match metrics_user.as_ref().filter(|user| !users.has(user)) {
        Some(user) => Err(format!("cannot find the user of --metrics-user: {user}: not in {}", path.display())),
        None => Ok(users),
    }
}

/// Reads the keys of the issuer of tokens, if there is one.
fn issuer(options: &Options, reloads: &mut Reloads) -> Result<Option<Arc<Issuer>>, Failure> {
    let path = match options.token_key.clone() {
        Some(path) => path,
        None => return Ok(None),
    };
    let keys = FromFile::new(move || Key::read(&path))?;
    reloads.push(("token keys", keys.clone()));
    let text = |option: &Option<String>| option.clone().unwrap_or_default();
    let (realm, service, name) = (text(&options.token_realm), text(&options.token_service), text(&options.token_issuer));
    Ok(Some(Arc::new(Issuer { realm, service, name, keys })))
}

/// Reads the issuers of machines' tokens, if there is a file of them.
fn oidc(options: &Options, reloads: &mut Reloads) -> Result<Option<Oidc>, Failure> {
    let path = match options.oidc.clone() {
        Some(path) => path,
        None => return Ok(None),
    };
    let oidc = Oidc::new(path)?;
    reloads.push(("issuers", oidc.file()));
    Ok(Some(oidc))
}

/// Reads the files of users, rights and issuers that there are, and the keys of the issuer of tokens that list rights.
fn access(options: &Options, reloads: &mut Reloads) -> Result<Access, Failure> {
    let mut access = Access { issuer: issuer(options, reloads)?, oidc: oidc(options, reloads)?, ..Access::default() };
    if let Some(path) = options.htpasswd.clone() {
        let (metrics_user, logins) = (options.metrics_user.clone(), Logins::new());
        let users = FromFile::new(move || read_users(&path, &metrics_user, &logins))?;
        reloads.push(("users", users.clone()));
        access.users = Some(users);
    }
    if let Some(path) = options.rights.clone() {
        let rights = FromFile::new(move || Rights::read(&path))?;
        reloads.push(("rights", rights.clone()));
        access.rights = Some(rights);
    }
    Ok(access)
}

/// What a registry reads from files, and its audit log.
pub(crate) struct Files {
    pub(crate) access: Access,
    pub(crate) immutable_tags: Option<ImmutableTags>,
    pub(crate) signed_tags: Option<SignedTags>,
    pub(crate) retention: Option<Retention>,
    /// The receivers of events.
    pub(crate) receivers: Option<Arc<ReceiversFile>>,
    pub(crate) audit_log: Option<Arc<AuditLog>>,
    /// The upstreams of mirrors.
    pub(crate) upstreams: Option<Upstreams>,
}

/// Reads the files that there are, except the certificate.
pub(crate) fn files(options: &Options, reloads: &mut Reloads) -> Result<Files, Failure> {
    let access = access(options, reloads)?;
    let immutable_tags = immutable_tags(options, reloads)?;
    let signed_tags = signed_tags(options, reloads)?;
    let retention = retention(options, reloads)?;
    let receivers = receivers(options, reloads)?;
    let audit_log = audit_log(options, reloads)?;
    let upstreams = Upstreams::of(options, reloads)?;
    Ok(Files { access, immutable_tags, signed_tags, retention, receivers, audit_log, upstreams })
}

/// Reads the rules that let tags go, if there is a file of them.
fn retention(options: &Options, reloads: &mut Reloads) -> Result<Option<Retention>, Failure> {
    let path = match options.retention.clone() {
        Some(path) => path,
        None => return Ok(None),
    };
    let rules = FromFile::new(move || RetentionRules::read(&path))?;
    reloads.push(("retention rules", rules.clone()));
    Ok(Some(Retention::new(rules)))
}

/// Reads the immutable tags, if there is a file of them.
fn immutable_tags(options: &Options, reloads: &mut Reloads) -> Result<Option<ImmutableTags>, Failure> {
    let path = match options.immutable_tags.clone() {
        Some(path) => path,
        None => return Ok(None),
    };
    let rules = FromFile::new(move || Rules::read(&path))?;
    reloads.push(("immutable tags", rules.clone()));
    Ok(Some(ImmutableTags::new(rules)))
}

/// Reads the tags that need a signature with their keys, if there is a file of them.
fn signed_tags(options: &Options, reloads: &mut Reloads) -> Result<Option<SignedTags>, Failure> {
    let path = match options.signed_tags.clone() {
        Some(path) => path,
        None => return Ok(None),
    };
    let rules = FromFile::new(move || SigningRules::read(&path))?;
    reloads.push(("signed tags", rules.clone()));
    Ok(Some(SignedTags::new(rules)))
}

/// Reads the receivers of events, if there is a file of them.
fn receivers(options: &Options, reloads: &mut Reloads) -> Result<Option<Arc<ReceiversFile>>, Failure> {
    let path = match &options.events {
        Some(path) => path,
        None => return Ok(None),
    };
    let file = ReceiversFile::new(path)?;
    reloads.push(("receivers of events", file.clone()));
    Ok(Some(file))
}

/// Opens the audit log, if there is one.
fn audit_log(options: &Options, reloads: &mut Reloads) -> Result<Option<Arc<AuditLog>>, Failure> {
    let path = match &options.audit_log {
        Some(path) => path,
        None => return Ok(None),
    };
    let log = AuditLog::begin(path)?;
    reloads.push(("audit log", log.clone()));
    Ok(Some(log))
}

/// Reads the certificate and its key, if there are files of them.
pub(crate) fn tls(options: &Options, reloads: &mut Reloads) -> Result<Option<Tls>, Failure> {
    let (certificate, key) = match (options.tls_cert.clone(), options.tls_key.clone()) {
        (Some(certificate), Some(key)) => (certificate, key),
        _ => return Ok(None),
    };
    let config = FromFile::new(move || tls::read(&certificate, &key))?;
    reloads.push(("certificate and its key", config.clone()));
    Ok(Some(Tls { config, limit: Duration::from_secs(options.head_s) }))
}
