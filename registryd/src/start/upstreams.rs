//! The upstreams of mirrors, made before the store starts, so that a wrong file or a missing certificate ends the start at once.
use crate::http::client::{http_client, HttpClient};
use crate::mirror::address::Address;
use crate::mirror::client::Upstream;
use crate::mirror::counts::CountsByTenant;
use crate::mirror::credentials::Credentials;
use crate::mirror::mirrors::{Mirror, Mirrors, Settings};
use crate::operation::exit::Failure;
use crate::operation::metrics::Metrics;
use crate::operation::reload::{FromFile, Reloads};
use crate::start::options::Options;
use std::sync::Arc;
use std::time::Duration;

/// The upstreams of mirrors.
pub(crate) struct Upstreams {
    mirrors: Vec<(String, Address)>,
    client: HttpClient,
    credentials: Option<Arc<FromFile<Credentials>>>,
}

impl Upstreams {
    /// Reads the credentials, if there are any, and makes the client. Returns `None` if no tenant is a mirror.
    pub(crate) fn of(options: &Options, reloads: &mut Reloads) -> Result<Option<Upstreams>, Failure> {
        let mirrors = options.mirrors()?;
        if mirrors.is_empty() {
            return Ok(None);
        }
        let credentials = match options.mirror_credentials.clone() {
            Some(path) => Some(FromFile::new(move || Credentials::read(&path))?),
            None => None,
        };
        if let Some(read) = &credentials {
            reloads.push(("credentials of mirrors", read.clone()));
        }
        let client =
            http_client(Duration::from_secs(options.mirror_timeout_s), mirrors.iter().any(|(_, address)| address.has_tls()))?;
        Ok(Some(Upstreams { mirrors, client, credentials }))
    }

    /// Makes the mirrors.
    pub(super) fn mirrors(self, options: &Options, metrics: &Metrics) -> Mirrors {
        let Upstreams { mirrors, client, credentials } = self;
        let counts = CountsByTenant::new(metrics);
        let limit = Duration::from_secs(options.mirror_timeout_s);
        let settings = Settings {
            tag_time: Duration::from_secs(options.mirror_tag_s),
            copy_rest: options.mirror_s.map(Duration::from_secs),
        };
        let made = mirrors.into_iter().map(|(tenant, address)| {
            tracing::info!(tenant = %tenant, upstream = %address.text(), "a tenant is a mirror");
            let upstream = Upstream::new(&tenant, address, (client.clone(), limit), credentials.clone(), counts.of(&tenant));
            Mirror::new(upstream, &tenant, settings.clone())
        });
        Mirrors::new(made.collect())
    }
}
