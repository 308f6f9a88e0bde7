//! The options and arguments of the command line.
use crate::control::commands::Command;
use crate::mirror::address::{mirror_of, MirrorOf};
use crate::start::option_values::{hours, prefix, quotable, LogFormat, LogLevel, SyncPolicy};
use crate::tenants::file::TenantLine;
use crate::tenants::words::{self, tenant_word};
use clap::Parser;
use std::net::SocketAddr;
use std::path::PathBuf;
use std::time::Duration;

/// Container registry (OCI Distribution Specification 1.1). Without --data, all data is lost when the program exits.
#[derive(Clone, Debug, Parser)]
#[command(name = "registryd", version, args_conflicts_with_subcommands = true, subcommand_negates_reqs = true)]
pub(crate) struct Options {
    #[command(subcommand)]
    pub(crate) command: Option<Command>,
    /// Listen on this address
    #[arg(long, value_name = "ADDR:PORT", default_value = "127.0.0.1:5000")]
    pub(super) listen: SocketAddr,
    /// Serve the tenants of this file too
    #[arg(long = "tenants", value_name = "FILE")]
    pub(super) tenants_file: Option<PathBuf>,
    /// Set the maximum number of different blobs
    #[arg(long, value_name = "N", default_value_t = 1 << 20, value_parser = clap::value_parser!(u32).range(1..=1 << 24))]
    pub(super) slots: u32,
    /// Limit the length of a blob
    #[arg(long, value_name = "BYTES", default_value_t = 1 << 32)]
    pub(super) max_blob: u64,
    /// Limit the number of each tenant's repositories
    #[arg(long, value_name = "N", default_value_t = 65536, value_parser = clap::value_parser!(u32).range(1..=65536))]
    pub(super) repositories: u32,
    /// Limit the number of each repository's manifests
    #[arg(long, value_name = "N", default_value_t = 65536, value_parser = clap::value_parser!(u32).range(1..=1 << 20))]
    pub(super) repository_manifests: u32,
    /// Limit the number of each tenant's open uploads
    #[arg(long, value_name = "N", default_value_t = 1024, value_parser = clap::value_parser!(u32).range(5..=4096))]
    pub(super) uploads: u32,
    /// Limit manifest bytes [default: a tenth of the quota]
    #[arg(long, value_name = "BYTES")]
    pub(super) manifest_bytes: Option<u64>,
    /// Limit the number of each tenant's manifests
    #[arg(long, value_name = "N")]
    pub(super) manifests: Option<u64>,
    /// Limit the number of each tenant's tags
    #[arg(long, value_name = "N")]
    pub(super) tags: Option<u64>,
    /// Open N connections to the store; a large read takes two
    #[arg(long, value_name = "N", default_value_t = 32, value_parser = clap::value_parser!(u16).range(1..=1024))]
    pub(super) lines: u16,
    /// Limit the time of a call to the store
    #[arg(long, value_name = "S", default_value_t = 60, value_parser = clap::value_parser!(u64).range(1..=86400))]
    pub(super) call_s: u64,
    /// Limit the memory of requests and responses in progress
    #[arg(long, value_name = "BYTES", default_value_t = 1 << 29, value_parser = clap::value_parser!(u64).range(8 << 20..))]
    pub(super) memory_in_flight: u64,
    /// Limit the number of client connections
    #[arg(long, value_name = "N", default_value_t = 2048, value_parser = clap::value_parser!(u32).range(1..=1 << 20))]
    pub(super) connections: u32,
    /// Close a connection if a request head takes longer
    #[arg(long, value_name = "S", default_value_t = 30, value_parser = clap::value_parser!(u64).range(1..=86400))]
    pub(super) head_s: u64,
    /// Close a connection after this time without a byte
    #[arg(long, value_name = "S", default_value_t = 120, value_parser = clap::value_parser!(u64).range(1..=86400))]
    pub(super) idle_s: u64,
    /// Pause between garbage-collection sweeps
    #[arg(long, value_name = "MS", default_value_t = 1000)]
    pub(super) sweep_ms: u64,
    /// Abandon an upload after this time without a request
    #[arg(long, value_name = "S", default_value_t = 3600)]
    pub(super) session_s: u64,
    /// Abandon an upload without bytes after this time
    #[arg(long, value_name = "S", default_value_t = 60)]
    pub(super) empty_session_s: u64,
    /// Delete manifests that nothing has held for this time
    #[arg(long, value_name = "HOURS", value_parser = hours)]
    pub(super) keep_untagged: Option<Duration>,
    /// Let clients delete manifests that an index lists
    #[arg(long)]
    pub(super) delete_listed: bool,
    /// Keep all data in this folder
    #[arg(long, value_name = "DIR")]
    pub(crate) data: Option<PathBuf>,
    /// Use the folder on any kind of file system
    #[arg(long, requires = "data")]
    pub(super) any_file_system: bool,
    /// Decide what is on the disk before a reply [default: closes]
    #[arg(long, value_name = "POLICY", requires = "data")]
    pub(super) sync: Option<SyncPolicy>,
    /// Hash uploads by SHA-512 too, so that it can close them
    #[arg(long, requires = "data")]
    pub(super) sha512: bool,
    /// Cut a damaged log at this byte and start
    #[arg(long, value_name = "BYTE", requires = "data")]
    pub(super) accept_loss_after: Option<u64>,
    /// Drop what a log or database has lost and start
    #[arg(long, requires = "data")]
    pub(super) accept_loss: bool,
    /// Read all files again at this pace [default: 4]; 0: never
    #[arg(long, value_name = "N", requires = "data", value_parser = clap::value_parser!(u64).range(..=1 << 20))]
    pub(super) scrub_mib_s: Option<u64>,
    /// Accept no content if less is free [default: 67108864]
    #[arg(long, value_name = "BYTES", requires = "data")]
    pub(super) min_free: Option<u64>,
    /// Keep a reserve for deletes on a full disk [default: 67108864]
    #[arg(long, value_name = "BYTES", requires = "data")]
    pub(super) reserve: Option<u64>,
    /// Serve HTTPS with this certificate and its chain in PEM
    #[arg(long, value_name = "FILE", requires = "tls_key")]
    pub(super) tls_cert: Option<PathBuf>,
    /// Use this private key in PEM for HTTPS
    #[arg(long, value_name = "FILE", requires = "tls_cert")]
    pub(super) tls_key: Option<PathBuf>,
    /// Require a user and password of this htpasswd file
    #[arg(long, value_name = "FILE")]
    pub(super) htpasswd: Option<PathBuf>,
    /// Give users the rights of this file
    #[arg(long, value_name = "FILE", requires = "htpasswd")]
    pub(super) rights: Option<PathBuf>,
    /// Let no client move or delete the tags of this file
    #[arg(long, value_name = "FILE")]
    pub(super) immutable_tags: Option<PathBuf>,
    /// Serve the tags of this file only if they are signed
    #[arg(long, value_name = "FILE")]
    pub(super) signed_tags: Option<PathBuf>,
    /// Remove tags that no rule of this file keeps
    #[arg(long, value_name = "FILE")]
    pub(super) retention: Option<PathBuf>,
    /// Take commands of this user on a socket
    #[arg(long, value_name = "SOCKET")]
    pub(super) control: Option<PathBuf>,
    /// Send events to the receivers of this file
    #[arg(long, value_name = "FILE")]
    pub(super) events: Option<PathBuf>,
    /// Limit the events that wait for a receiver [default: 10000]
    #[arg(long, value_name = "N", requires = "events", value_parser = clap::value_parser!(u32).range(1..=1_000_000))]
    pub(super) event_queue: Option<u32>,
    /// Copy what this tenant lacks from a registry; repeatable
    #[arg(long, value_name = "[TENANT=]URL", value_parser = mirror_of)]
    pub(super) mirror_of: Vec<MirrorOf>,
    /// Ask upstreams with the users and passwords of this file
    #[arg(long, value_name = "FILE", requires = "mirror_of")]
    pub(super) mirror_credentials: Option<PathBuf>,
    /// Believe a mirrored tag for this time
    #[arg(long, value_name = "S", default_value_t = 60, value_parser = clap::value_parser!(u64).range(..=31_536_000))]
    pub(super) mirror_tag_s: u64,
    /// Give up an upstream after this time without a byte
    #[arg(long, value_name = "S", default_value_t = 30, value_parser = clap::value_parser!(u64).range(1..=3600))]
    pub(super) mirror_timeout_s: u64,
    /// Copy all tags of upstreams at this interval
    #[arg(long, value_name = "S", requires = "mirror_of", value_parser = clap::value_parser!(u64).range(1..=31_536_000))]
    pub(super) mirror_s: Option<u64>,
    /// Accept tokens that are signed with these public keys
    #[arg(long, value_name = "FILE", requires_all = ["token_realm", "token_service", "token_issuer"])]
    pub(super) token_key: Option<PathBuf>,
    /// Let clients ask for tokens at this URL
    #[arg(long, value_name = "URL", requires = "token_key", value_parser = quotable)]
    pub(super) token_realm: Option<String>,
    /// Accept tokens for a service with this name
    #[arg(long, value_name = "NAME", requires = "token_key", value_parser = quotable)]
    pub(super) token_service: Option<String>,
    /// Accept tokens of an issuer with this name
    #[arg(long, value_name = "NAME", requires = "token_key", value_parser = quotable)]
    pub(super) token_issuer: Option<String>,
    /// Give tokens of the issuers of this file its rights
    #[arg(long, value_name = "FILE")]
    pub(super) oidc: Option<PathBuf>,
    /// Serve without passwords on non-loopback addresses
    #[arg(long)]
    pub(super) let_anybody_in: bool,
    /// Serve the metrics only to this user
    #[arg(long, value_name = "USER", requires = "htpasswd")]
    pub(super) metrics_user: Option<String>,
    /// Serve the metrics only on this address, to everybody
    #[arg(long, value_name = "ADDR:PORT", conflicts_with = "metrics_user")]
    pub(super) metrics_listen: Option<SocketAddr>,
    /// Serve pages to browse and delete images, below /ui/
    #[arg(long)]
    pub(super) browse: bool,
    /// Fail /readyz for this time after SIGTERM, and then stop
    #[arg(long, value_name = "S", default_value_t = 0, value_parser = clap::value_parser!(u64).range(..=3600))]
    pub(crate) drain_s: u64,
    /// Write the log in this form
    #[arg(long, value_name = "FORM", default_value = "text")]
    pub(crate) log_format: LogFormat,
    /// Log messages of this level and above
    #[arg(long, value_name = "LEVEL", default_value = "info")]
    pub(crate) log_level: LogLevel,
    /// Log details only of this tenant or repository
    #[arg(long, value_name = "PREFIX", value_parser = prefix)]
    pub(super) debug_only: Vec<String>,
    /// Write a line for each request to a repository
    #[arg(long, value_name = "FILE")]
    pub(crate) audit_log: Option<PathBuf>,
    /// Run this program as the store
    #[arg(long, value_name = "PATH", default_value = "blobd")]
    pub(super) blobd: PathBuf,
    /// Serve this tenant with a quota in bytes and a number of blobs
    #[arg(value_name = "TENANT=QUOTA[,BLOBS]", required_unless_present = "tenants_file", value_parser = tenant_word)]
    pub(super) tenants: Vec<String>,
    /// The lines of the file of tenants, when it was read.
    #[arg(skip)]
    pub(super) tenant_lines: Vec<TenantLine>,
}

impl Options {
    /// Returns why the options contradict each other, if they do.
    pub(crate) fn conflict(&self) -> Option<String> {
        let open = !self.has_users() && !self.listen.ip().is_loopback() && !self.let_anybody_in;
        let text = format!("cannot listen: {}: give --htpasswd, --oidc, --token-key or --let-anybody-in", self.listen);
        open.then_some(text)
            .or_else(|| words::conflict(&self.tenants))
            .or_else(|| self.without_tenants())
            .or_else(|| self.mirrors().err())
    }

    /// Returns whether requests need credentials.
    pub(super) fn has_users(&self) -> bool {
        self.htpasswd.is_some() || self.token_key.is_some() || self.oidc.is_some()
    }
}

/// Returns the options of a command line.
#[cfg(test)]
pub(super) fn parsed(words: &[&str]) -> Options {
    let words = [&["registryd"], words].concat();
    Options::parse_from(words)
}

#[cfg(test)]
mod tests {
    use super::*;
    use crate::endpoints::registry::MetricsAccess;

    #[test]
    fn the_defaults_are_for_this_machine_alone() {
        let options = parsed(&["acme=1000"]);
        assert_eq!(options.listen.to_string(), "127.0.0.1:5000");
        assert_eq!(options.tenant_names(), ["acme"]);
        assert!(options.conflict().is_none());
    }

    #[test]
    fn other_addresses_want_users_or_a_word() {
        assert!(parsed(&["--listen", "0.0.0.0:80", "a=1"]).conflict().is_some());
        assert!(parsed(&["--listen", "0.0.0.0:80", "--htpasswd", "users", "a=1"]).conflict().is_none());
        assert!(parsed(&["--listen", "0.0.0.0:80", "--oidc", "issuers", "a=1"]).conflict().is_none());
        assert!(parsed(&["--listen", "0.0.0.0:80", "--let-anybody-in", "a=1"]).conflict().is_none());
        let tls = ["--tls-cert", "c", "--tls-key", "k"];
        assert!(parsed(&[&["--listen", "0.0.0.0:443", "a=1"], &tls[..]].concat()).conflict().is_some());
        assert!(Options::try_parse_from([&["registryd", "a=1"], &tls[..2]].concat()).is_err());
    }

    #[test]
    fn an_issuer_has_three_names() {
        let words =
            ["a=1", "--token-key", "k", "--token-realm", "https://a/token", "--token-service", "r", "--token-issuer", "i"];
        let options = parsed(&[&words[..], &["--listen", "0.0.0.0:80"]].concat());
        assert!(options.conflict().is_none());
        assert_eq!(options.metrics_access(), MetricsAccess::Nobody);
        for count in [3, 5, 7] {
            assert!(Options::try_parse_from([&["registryd"], &words[..count]].concat()).is_err(), "{count}");
        }
        assert!(Options::try_parse_from(["registryd", "a=1", "--token-realm", "https://a"]).is_err());
    }

    #[test]
    fn words_that_are_no_tenants_are_refused() {
        for word in ["acme", "acme=", "=1", "acme=-1", "acme=x"] {
            assert!(Options::try_parse_from(["registryd", word]).is_err(), "{word}");
        }
        assert!(Options::try_parse_from(["registryd"]).is_err());
    }
}
