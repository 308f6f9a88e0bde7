//! The commands of the command line. All but one ask a registry that runs.
use crate::http::client::ip_of;
use clap::{ArgGroup, Args, Subcommand, ValueEnum};
use hyper::Uri;
use std::path::PathBuf;
use time::{Date, Month};

/// The socket of the package's service.
const SOCKET: &str = "/var/lib/registryd/control";

/// A day, in seconds.
const DAY: u64 = 86_400;

/// A command.
#[derive(Clone, Debug, Subcommand)]
pub(crate) enum Command {
    /// List which file of a folder has which content
    Contents(ContentsCommand),
    /// Move a tenant to another registry while it serves
    Move(MoveCommand),
    /// Show which tags rules would remove now
    Retention(RetentionCommand),
    /// Make, list and revoke accounts of machines
    #[command(subcommand)]
    Robot(RobotCommand),
}

/// How the registry is reached, and how its reply is shown.
#[derive(Clone, Debug, Args)]
pub(crate) struct Reaching {
    /// Reach the registry that has --control SOCKET
    #[arg(long, value_name = "SOCKET", default_value = SOCKET)]
    pub(super) control: PathBuf,
    /// Print JSON
    #[arg(long)]
    pub(super) json: bool,
}

/// A list of the contents that lie in files.
#[derive(Clone, Debug, Args)]
pub(crate) struct ContentsCommand {
    /// Folder of --data, or a copy of it
    pub(crate) folder: PathBuf,
    /// Read the files, and compare them with their digests
    #[arg(long)]
    pub(crate) verify: bool,
}

/// A move of a tenant.
#[derive(Clone, Debug, Args)]
pub(crate) struct MoveCommand {
    /// Name of the tenant
    pub(crate) tenant: String,
    /// URL of the registry that has the tenant
    #[arg(long, value_name = "URL", value_parser = url)]
    pub(crate) from: String,
    /// URL of the registry that gets the tenant
    #[arg(long, value_name = "URL", value_parser = url)]
    pub(crate) to: String,
    /// Reach the registry of --from by its --control SOCKET
    #[arg(long, value_name = "SOCKET", default_value = SOCKET)]
    pub(crate) from_control: PathBuf,
    /// Reach the registry of --to by its --control SOCKET
    #[arg(long, value_name = "SOCKET")]
    pub(crate) to_control: PathBuf,
    /// Switch the tenant's route to this server of HAProxy
    #[arg(long, value_name = "NAME", requires_all = ["haproxy", "routes"])]
    pub(crate) server: Option<String>,
    /// Command HAProxy by this socket
    #[arg(long, value_name = "SOCKET", requires = "server")]
    pub(crate) haproxy: Option<PathBuf>,
    /// Routes of HAProxy's configuration
    #[arg(long, value_name = "FILE", requires = "server")]
    pub(crate) routes: Option<PathBuf>,
    /// Wait for open uploads, and cut them after this time
    #[arg(long, value_name = "S", default_value_t = 600)]
    pub(crate) uploads_s: u64,
    /// Delete what the tenant has at --to and not at --from
    #[arg(long)]
    pub(crate) replace: bool,
    /// Delete the tenant's content at --from at the end
    #[arg(long)]
    pub(crate) delete: bool,
    /// Give an interrupted move up, and let clients write here
    #[arg(long, value_name = "from|to", conflicts_with_all = ["replace", "delete"])]
    pub(crate) keep: Option<Side>,
}

/// A side of a move.
#[derive(Clone, Copy, Debug, PartialEq, Eq, ValueEnum)]
pub(crate) enum Side {
    From,
    To,
}

/// The tags that rules would remove.
#[derive(Clone, Debug, Args)]
pub(crate) struct RetentionCommand {
    /// Change nothing
    #[arg(long)]
    pub(super) dry_run: bool,
    /// Take the rules of this file instead of those that hold
    #[arg(long, value_name = "FILE")]
    pub(super) rules: Option<PathBuf>,
    #[command(flatten)]
    pub(super) reaching: Reaching,
}

/// A command about accounts of machines.
#[derive(Clone, Debug, Subcommand)]
pub(crate) enum RobotCommand {
    /// Make an account, and print its secret once
    Add(NewAccount),
    /// List the accounts
    List(Reaching),
    /// Revoke an account at once
    Revoke {
        /// Name of the account, with or without robot+
        name: String,
        #[command(flatten)]
        reaching: Reaching,
    },
}

/// An account that is made.
#[derive(Clone, Debug, Args)]
#[command(group(ArgGroup::new("end").args(["days", "until"]).required(true)))]
pub(crate) struct NewAccount {
    /// Name of the account, with or without robot+
    pub(super) name: String,
    /// Give rights, such as read,write:acme/app
    #[arg(long, value_name = "RIGHTS:PREFIX", required = true, value_parser = rights)]
    pub(super) allow: Vec<String>,
    /// Let it end after this number of days
    #[arg(long, value_name = "N", value_parser = clap::value_parser!(u64).range(1..=36_525))]
    days: Option<u64>,
    /// Let it end at the begin of this day, in UTC
    #[arg(long, value_name = "YYYY-MM-DD", value_parser = date)]
    until: Option<u64>,
    #[command(flatten)]
    pub(super) reaching: Reaching,
}

impl NewAccount {
    /// Returns the time of its end, in seconds since 1970.
    pub(super) fn ends(&self, now: u64) -> u64 {
        self.until.unwrap_or_else(|| now + DAY * self.days.unwrap_or_default())
    }
}

/// Returns the text `RIGHTS PREFIX` that an argument means. The registry checks the words.
fn rights(text: &str) -> Result<String, String> {
    match text.split_once(':') {
        Some((rights, prefix)) => Ok(format!("{rights} {prefix}")),
        None => Err("write rights and a prefix, such as read,write:acme/app".to_string()),
    }
}

/// Returns the URL of a registry, without a slash at its end.
fn url(text: &str) -> Result<String, String> {
    let text = text.trim_end_matches('/');
    let uri: Uri = text.parse().map_err(|_| "write https://HOST[:PORT]")?;
    match uri.scheme_str() {
        Some("http" | "https") if uri.path().len() > 1 || text.contains(&['@', '?', '#'][..]) => {
            Err("write no path and no user".to_string())
        }
        Some("https") if ip_of(&uri).is_some() => {
            Err("write the name of the host: TLS knows no certificates of addresses".to_string())
        }
        Some("http" | "https") => Ok(text.to_string()),
        _ => Err("write https://HOST[:PORT]".to_string()),
    }
}

/// Returns the begin of a day in UTC, in seconds since 1970.
fn date(text: &str) -> Result<u64, String> {
    let wrong = || "write a day as 2027-01-31".to_string();
    let numbers: Vec<u16> = text.split('-').filter_map(|part| part.parse().ok()).collect();
    let (year, month, day) = match (text.len(), &numbers[..]) {
        (10, &[year, month, day]) => (year.into(), u8::try_from(month), u8::try_from(day)),
        _ => return Err(wrong()),
    };
    let month = month.ok().and_then(|month| Month::try_from(month).ok()).ok_or_else(wrong)?;
    let date = Date::from_calendar_date(year, month, day.map_err(|_| wrong())?).map_err(|_| wrong())?;
    u64::try_from(date.midnight().assume_utc().unix_timestamp()).map_err(|_| wrong())
}

#[cfg(test)]
mod tests {
    use super::*;
    use crate::start::options::Options;
    use clap::Parser;

    fn is_good(words: &str) -> bool {
        Options::try_parse_from(words.split(' ')).is_ok()
    }

    /// The expected times are those of `date -u -d DAY +%s`.
    #[test]
    fn days_are_in_utc() {
        for (text, expected) in [("1970-01-01", 0), ("2026-11-28", 1_795_824_000), ("2028-02-29", 1_835_395_200)] {
            assert_eq!(date(text), Ok(expected), "{text}");
        }
        for text in [
            "",
            "2026",
            "2026-1-1",
            "2026-13-01",
            "2027-02-29",
            "2026-11-31",
            "1969-12-31",
            "26-11-28",
            "2026/11/28",
            "2026-11-28x",
        ] {
            assert!(date(text).is_err(), "{text}");
        }
    }

    #[test]
    fn commands_need_no_tenant() {
        for words in [
            "registryd retention --dry-run",
            "registryd retention --dry-run --rules x --json --control y",
            "registryd robot list",
            "registryd robot revoke ci",
            "registryd robot add ci --allow read:acme --allow write:acme/app --days 90",
            "registryd robot add ci --allow read:* --until 2030-01-01",
            "registryd move acme --from http://127.0.0.1:5001 --to https://two.example/ --to-control x",
            "registryd move acme --from http://a --to http://b --to-control x --server two --haproxy y --routes z --delete",
            "registryd move acme --from http://a --to http://b --to-control x --keep from",
            "registryd acme=1",
        ] {
            assert!(is_good(words), "{words}");
        }
        for words in [
            "registryd robot",
            "registryd robot add ci --allow read:acme",
            "registryd robot add ci --days 9",
            "registryd robot add --allow read:acme --days 9",
            "registryd robot add ci --allow read --days 9",
            "registryd robot add ci --allow read:acme --days 0",
            "registryd robot add ci --allow read:acme --days 9 --until 2030-01-01",
            "registryd robot revoke",
            "registryd move acme --from http://a --to http://b",
            "registryd move acme --from a:1 --to http://b --to-control x",
            "registryd move acme --from http://a/x --to http://b --to-control x",
            "registryd move acme --from http://u@a --to http://b --to-control x",
            "registryd move acme --from https://10.0.0.1 --to http://b --to-control x",
            "registryd move acme --from http://a --to http://b --to-control x --server two",
            "registryd move acme --from http://a --to http://b --to-control x --haproxy y --routes z",
            "registryd move acme --from http://a --to http://b --to-control x --keep from --delete",
            "registryd --listen 127.0.0.1:0 robot list",
        ] {
            assert!(!is_good(words), "{words}");
        }
    }
}
