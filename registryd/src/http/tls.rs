//! TLS 1.2 and 1.3 for clients that connect without a proxy: the certificate, its key, and handshakes.
use crate::http::connections::WatchedStream;
use crate::operation::reload::{read_file, FromFile};
use rustls::sign::{any_supported_type, SigningKey};
use rustls::{Certificate, PrivateKey, ServerConfig, SignatureScheme};
use rustls_pemfile::Item;
use std::io;
use std::path::Path;
use std::sync::Arc;
use std::time::Duration;
use tokio_rustls::server::TlsStream;
use tokio_rustls::TlsAcceptor;

/// The text that is signed to find out whether a key belongs to a certificate.
const PROBE: &[u8] = b"registryd";

/// For each type of key, the scheme by which `PROBE` is signed, and the algorithm that verifies it.
static SCHEMES: [(SignatureScheme, &webpki::SignatureAlgorithm); 4] = [
    (SignatureScheme::ECDSA_NISTP256_SHA256, &webpki::ECDSA_P256_SHA256),
    (SignatureScheme::ECDSA_NISTP384_SHA384, &webpki::ECDSA_P384_SHA384),
    (SignatureScheme::RSA_PKCS1_SHA256, &webpki::RSA_PKCS1_2048_8192_SHA256),
    (SignatureScheme::ED25519, &webpki::ED25519),
];

/// Reads the items of a PEM file.
fn items(path: &Path) -> Result<Vec<Item>, String> {
    let read = || rustls_pemfile::read_all(&mut &*read_file(path)?);
    read().map_err(|error| format!("cannot read PEM: {}: {error}", path.display()))
}

/// Reads the certificates of a PEM file: the server's first, and then those of its issuers.
fn certificates(path: &Path) -> Result<Vec<Certificate>, String> {
    let certificate = |item| match item {
        Item::X509Certificate(der) => Some(Certificate(der)),
        _ => None,
    };
    let found: Vec<Certificate> = items(path)?.into_iter().filter_map(certificate).collect();
    match found.is_empty() {
        true => Err(format!("cannot read the certificate: {}: no certificate in PEM", path.display())),
        false => Ok(found),
    }
}

/// Reads the first private key of a PEM file.
fn private_key(path: &Path) -> Result<PrivateKey, String> {
    let key = |item| match item {
        Item::RSAKey(der) | Item::PKCS8Key(der) | Item::ECKey(der) => Some(PrivateKey(der)),
        _ => None,
    };
    let none = || format!("cannot read the private key: {}: no unencrypted private key in PEM", path.display());
    items(path)?.into_iter().find_map(key).ok_or_else(none)
}

/// Checks that a certificate is one of a key.
fn check_pair(certificate: &Certificate, key: &dyn SigningKey) -> Result<(), &'static str> {
    let certificate = webpki::EndEntityCert::try_from(certificate.0.as_slice()).map_err(|_| "not a certificate X.509 v3")?;
    let sign = |scheme| key.choose_scheme(&[scheme])?.sign(PROBE).ok();
    let signed = SCHEMES.iter().find_map(|(scheme, algorithm)| Some((algorithm, sign(*scheme)?)));
    let (algorithm, signature) = signed.ok_or("the key is of no supported type")?;
    certificate.verify_signature(algorithm, PROBE, &signature).map_err(|_| "it is of another key")
}

/// Reads a certificate with its chain, and its key.
///
/// # Errors
///
/// - A file cannot be read, or has no PEM of its kind.
/// - The key is of no supported type: RSA from 2,048 bits, ECDSA with P-256 or P-384, Ed25519.
/// - The certificate is of another key.
pub(crate) fn read(certificate: &Path, key: &Path) -> Result<ServerConfig, String> {
    let (chain, private) = (certificates(certificate)?, private_key(key)?);
    let unsupported = || format!("cannot use the private key: {}: not RSA, ECDSA or Ed25519", key.display());
    let signing = any_supported_type(&private).map_err(|_| unsupported())?;
    let fault = |why| format!("cannot use the certificate: {}: {why} ({})", certificate.display(), key.display());
    check_pair(&chain[0], &*signing).map_err(fault)?;
    let config = ServerConfig::builder().with_safe_defaults().with_no_client_auth().with_single_cert(chain, private);
    let mut config = config.map_err(|_| unsupported())?;
    config.alpn_protocols = vec![b"http/1.1".to_vec()];
    Ok(config)
}

/// The settings of handshakes.
#[derive(Clone)]
pub(crate) struct Tls {
    pub(crate) config: Arc<FromFile<ServerConfig>>,
    /// The time for a handshake.
    pub(crate) limit: Duration,
}

impl Tls {
    /// Makes a handshake with the certificate that was read last.
    pub(super) async fn accept(&self, stream: WatchedStream) -> io::Result<TlsStream<WatchedStream>> {
        let handshake = TlsAcceptor::from(self.config.get()).accept(stream);
        tokio::time::timeout(self.limit, handshake).await.unwrap_or_else(|_| Err(io::ErrorKind::TimedOut.into()))
    }
}
