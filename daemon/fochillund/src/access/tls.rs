//! TLS of the network address: the process's certificate, and the authority of its callers' certificates.
use rustls::server::AllowAnyAnonymousOrAuthenticatedClient;
use rustls::{Certificate, PrivateKey, RootCertStore, ServerConfig};
use rustls_pemfile::Item;
use std::fs::File;
use std::io::{self, BufReader};
use std::path::{Path, PathBuf};
use std::sync::{Arc, Mutex, PoisonError};
use thiserror::Error;

/// Where certificates and the key lie, as PEM.
#[derive(Clone, Debug)]
pub struct TlsFiles {
    /// The process's certificate, and those between it and its authority.
    pub certificate: PathBuf,
    /// Its key.
    pub key: PathBuf,
    /// The authority of which a caller's certificate has to be, where a caller shows one.
    pub client_authority: Option<PathBuf>,
}

/// Why there is no TLS by these files.
#[derive(Debug, Error)]
#[error("{path}: {why}")]
pub struct TlsFault {
    path: String,
    why: String,
}

fn fault(path: &Path, why: impl ToString) -> TlsFault {
    TlsFault {
        path: path.display().to_string(),
        why: why.to_string(),
    }
}

/// What connections are taken by; the files are read again when that is asked for.
#[derive(Debug)]
pub struct Tls {
    files: TlsFiles,
    config: Mutex<Arc<ServerConfig>>,
}

impl Tls {
    /// By these files.
    ///
    /// # Errors
    /// Where one of them can't be read, or is not what it has to be.
    pub fn of(files: TlsFiles) -> Result<Tls, TlsFault> {
        let config = Mutex::new(config(&files)?);
        Ok(Tls { files, config })
    }

    /// Reads the files again, for new connections.
    ///
    /// # Errors
    /// As [`Tls::of`]. Then all stays as it was.
    pub fn reread(&self) -> Result<(), TlsFault> {
        let read = config(&self.files)?;
        *self.config.lock().unwrap_or_else(PoisonError::into_inner) = read;
        Ok(())
    }

    pub(crate) fn config(&self) -> Arc<ServerConfig> {
        Arc::clone(&self.config.lock().unwrap_or_else(PoisonError::into_inner))
    }
}

fn config(files: &TlsFiles) -> Result<Arc<ServerConfig>, TlsFault> {
    let config = ServerConfig::builder().with_safe_defaults();
    let config = match &files.client_authority {
        Some(authority) => {
            let mut roots = RootCertStore::empty();
            for certificate in certificates(authority)? {
                roots
                    .add(&certificate)
                    .map_err(|error| fault(authority, error))?;
            }
            config.with_client_cert_verifier(AllowAnyAnonymousOrAuthenticatedClient::new(roots))
        }
        None => config.with_no_client_auth(),
    };
    let (own, key) = (certificates(&files.certificate)?, key(&files.key)?);
    let config = config.with_single_cert(own, key);
    let mut config = config.map_err(|error| fault(&files.certificate, error))?;
    config.alpn_protocols = vec![b"http/1.1".to_vec()];
    Ok(Arc::new(config))
}

fn items(path: &Path) -> Result<Vec<Item>, TlsFault> {
    let file = File::open(path).map_err(|error| fault(path, error))?;
    let read: io::Result<_> = rustls_pemfile::read_all(&mut BufReader::new(file));
    read.map_err(|error| fault(path, error))
}

fn certificates(path: &Path) -> Result<Vec<Certificate>, TlsFault> {
    let found = items(path)?.into_iter().filter_map(|item| match item {
        Item::X509Certificate(certificate) => Some(Certificate(certificate)),
        _ => None,
    });
    let found: Vec<Certificate> = found.collect();
    match found.is_empty() {
        true => Err(fault(path, "it has no certificate")),
        false => Ok(found),
    }
}

fn key(path: &Path) -> Result<PrivateKey, TlsFault> {
    let mut found = items(path)?.into_iter().filter_map(|item| match item {
        Item::RSAKey(key) | Item::PKCS8Key(key) | Item::ECKey(key) => Some(PrivateKey(key)),
        _ => None,
    });
    found.next().ok_or_else(|| fault(path, "it has no key"))
}
