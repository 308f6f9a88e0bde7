//! Requests of this program to other servers: what it trusts, a client for HTTP and HTTPS, and the texts of failures.
use hyper::body::HttpBody;
use hyper::client::HttpConnector;
use hyper::{Body, Client, Uri};
use hyper_rustls::{HttpsConnector, HttpsConnectorBuilder};
use rustls::{ClientConfig, RootCertStore};
use std::net::IpAddr;
use std::time::Duration;

/// The name of this program in requests (RFC 9110, 10.1.5).
pub(crate) const AGENT: &str = concat!("registryd/", env!("CARGO_PKG_VERSION"));

/// The time for which an unused connection is kept, and the number of such connections to one host.
const POOL: (Duration, usize) = (Duration::from_secs(30), 8);

/// A client for HTTP and HTTPS.
pub(crate) type HttpClient = Client<HttpsConnector<HttpConnector>>;

/// Returns the settings of TLS that trust these certificates.
fn trusting(roots: RootCertStore) -> ClientConfig {
    ClientConfig::builder().with_safe_defaults().with_root_certificates(roots).with_no_client_auth()
}

/// Returns the settings of TLS that trust the certificate authorities of the system. One that is not understood is left out.
///
/// # Errors
///
/// Fails if they cannot be read, or there are none.
pub(crate) fn trusted_by_system() -> Result<ClientConfig, String> {
    let fault = |why: String| format!("cannot read the certificates of the system's authorities: {why}");
    let found = rustls_native_certs::load_native_certs().map_err(|error| fault(error.to_string()))?;
    let ders: Vec<Vec<u8>> = found.into_iter().map(|certificate| certificate.0).collect();
    let mut roots = RootCertStore::empty();
    match roots.add_parsable_certificates(&ders).0 {
        0 => Err(fault("there are none: install ca-certificates".to_string())),
        _ => Ok(trusting(roots)),
    }
}

/// Makes a client that trusts the certificate authorities of the system. `limit` is the time for a connection.
///
/// # Errors
///
/// Fails if the system has none and `has_tls`: a server that the client is made for has TLS.
pub(crate) fn http_client(limit: Duration, has_tls: bool) -> Result<HttpClient, String> {
    let config = match trusted_by_system() {
        Err(why) if has_tls => return Err(why),
        found => found.unwrap_or_else(|_| trusting(RootCertStore::empty())),
    };
    let mut connector = HttpConnector::new();
    connector.enforce_http(false);
    connector.set_nodelay(true);
    connector.set_connect_timeout(Some(limit));
    let https = HttpsConnectorBuilder::new().with_tls_config(config).https_or_http().enable_http1().wrap_connector(connector);
    Ok(Client::builder().pool_idle_timeout(POOL.0).pool_max_idle_per_host(POOL.1).build(https))
}

/// Returns the address of a URL whose host is one. The library of TLS knows no certificates of addresses.
pub(crate) fn ip_of(url: &Uri) -> Option<IpAddr> {
    url.host()?.trim_start_matches('[').trim_end_matches(']').parse().ok()
}

/// Reads all of a response of at most `most` bytes.
///
/// # Errors
///
/// - The response was cut.
/// - It is longer.
pub(crate) async fn read_at_most(mut body: Body, most: usize) -> Result<Vec<u8>, String> {
    let mut bytes = Vec::new();
    while let Some(part) = body.data().await {
        let part = part.map_err(|error| format!("its response was cut: {}", with_causes(&error)))?;
        if bytes.len() + part.len() > most {
            return Err(format!("its response is longer than {most} bytes"));
        }
        bytes.extend_from_slice(&part);
    }
    Ok(bytes)
}

/// Returns the text of an error with those of its causes.
pub(crate) fn with_causes(error: &dyn std::error::Error) -> String {
    let mut text = error.to_string();
    let mut cause = error.source();
    while let Some(inner) = cause {
        let own = inner.to_string();
        if !text.contains(&own) {
            text = format!("{text}: {own}");
        }
        cause = inner.source();
    }
    text
}

#[cfg(test)]
mod tests {
    use super::*;

    #[test]
    fn a_host_may_be_an_address() {
        let of = |text: &str| ip_of(&text.parse().unwrap()).map(|ip| ip.to_string());
        assert_eq!(of("https://127.0.0.1:5000/x").as_deref(), Some("127.0.0.1"));
        assert_eq!(of("http://[::1]/").as_deref(), Some("::1"));
        for text in ["https://localhost/", "http://127.0.0.1.example/", "/x"] {
            assert_eq!(of(text), None, "{text}");
        }
    }

    #[tokio::test]
    async fn a_response_has_a_bound() {
        assert_eq!(read_at_most(Body::from("abcd"), 4).await.unwrap(), b"abcd");
        assert_eq!(read_at_most(Body::from("abcde"), 4).await.unwrap_err(), "its response is longer than 4 bytes");
        let (mut sender, body) = Body::channel();
        tokio::spawn(async move {
            sender.send_data("ab".into()).await.unwrap();
            sender.abort();
        });
        assert!(read_at_most(body, 4).await.unwrap_err().starts_with("its response was cut"));
    }
}
