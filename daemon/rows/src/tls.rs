//! How a server is known: by a certificate of the one authority that the operator names.
use crate::engine::Fault;
use rustls::{Certificate, ClientConfig, RootCertStore};
use std::fs::File;
use std::io::BufReader;
use std::path::Path;

/// What a client asks of a server that speaks TLS: a certificate for its name, of an authority whose certificates stand in this PEM file.
/// No other authority is trusted, the machine's own neither.
///
/// # Errors
/// `Refused`, where the file can't be read, or has no certificate of an authority.
pub(crate) fn client_config(authority: &Path) -> Result<ClientConfig, Fault> {
    let refused = |why: String| Fault::Refused(format!("{}: {why}", authority.display()));
    let file = File::open(authority).map_err(|error| refused(error.to_string()))?;
    let found = rustls_pemfile::certs(&mut BufReader::new(file));
    let found = found.map_err(|error| refused(error.to_string()))?;
    let mut roots = RootCertStore::empty();
    for certificate in found {
        let added = roots.add(&Certificate(certificate));
        added.map_err(|error| refused(error.to_string()))?;
    }
    if roots.is_empty() {
        return Err(refused("it has no certificate".to_owned()));
    }
    let config = ClientConfig::builder().with_safe_defaults();
    Ok(config.with_root_certificates(roots).with_no_client_auth())
}
