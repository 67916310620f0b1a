//! Where callers come in: the unix socket, and the network address; and who they are there.
use super::replies::Told;
use super::{Callers, Serving};
use crate::access::{Access, Caller, Tls, TlsFiles};
use crate::stop::Stop;
use hyper::header::AUTHORIZATION;
use hyper::server::conn::Http;
use hyper::service::service_fn;
use hyper::HeaderMap;
use std::convert::Infallible;
use std::fs::Permissions;
use std::io;
use std::os::unix::fs::PermissionsExt;
use std::path::Path;
use std::sync::Arc;
use std::time::Duration;
use tokio::io::{AsyncRead, AsyncWrite};
use tokio::net::{TcpListener, TcpStream, UnixListener, UnixStream};
use tokio::sync::Semaphore;
use tokio_rustls::TlsAcceptor;

/// How many connections of the network are open at once.
const MOST_CONNECTIONS: usize = 4096;

/// How long a connection of the network may take to agree on TLS.
const HANDSHAKE: Duration = Duration::from_secs(10);

/// After this time connections are taken again where too many files are open.
const PAUSE: Duration = Duration::from_millis(100);

/// Through which door a connection came, and what is known of who has opened it.
#[derive(Debug)]
pub(super) enum Door {
    /// One of the machine's users, by the unix socket.
    Machine(Arc<Caller>),
    /// The network: whoever shows a token or a certificate of the callers' file.
    Known {
        access: Arc<Access>,
        certificate: Option<Vec<u8>>,
        address: Address,
    },
    /// A network on which anybody may ask anything, as the operator has said.
    Open {
        caller: Arc<Caller>,
        address: Address,
    },
}

/// What is known of the address at which a connection came in.
#[derive(Clone, Copy, Debug)]
pub(super) struct Address {
    is_tls: bool,
    /// Whether the machine's own programs alone reach it.
    is_loopback: bool,
}

impl Door {
    /// Who asks, by the head of its request.
    pub(super) fn caller(&self, headers: &HeaderMap) -> Result<Arc<Caller>, Told> {
        let (access, certificate) = match self {
            Door::Machine(caller) | Door::Open { caller, .. } => return Ok(Arc::clone(caller)),
            Door::Known {
                access,
                certificate,
                ..
            } => (access, certificate),
        };
        // A token that is shown has to be one, whatever certificate is shown beside it.
        let known = match (headers.get(AUTHORIZATION), certificate) {
            (Some(shown), _) => bearer(shown.as_bytes()).and_then(|token| access.by_token(token)),
            (None, Some(certificate)) => access.by_certificate(certificate),
            (None, None) => None,
        };
        known.ok_or(Told::Unknown)
    }

    pub(super) fn is_tls(&self) -> bool {
        match self {
            Door::Machine(_) => false,
            Door::Known { address, .. } | Door::Open { address, .. } => address.is_tls,
        }
    }

    /// Whether the machine's own programs alone reach it, and so a browser on this machine that asks what another's page tells it to.
    pub(super) fn is_loopback(&self) -> bool {
        match self {
            Door::Machine(_) => true,
            Door::Known { address, .. } | Door::Open { address, .. } => address.is_loopback,
        }
    }
}

/// The token of an Authorization header.
fn bearer(shown: &[u8]) -> Option<&str> {
    let (scheme, token) = std::str::from_utf8(shown).ok()?.split_once(' ')?;
    let token = token.trim_matches(' ');
    scheme.eq_ignore_ascii_case("bearer").then_some(token)
}

/// A network address that is listened at.
pub(super) struct Network {
    listener: TcpListener,
    pub(super) tls: Option<Arc<Tls>>,
    pub(super) access: Option<Arc<Access>>,
}

/// Listens at the network address, where one is asked for.
pub(super) async fn network(serving: &Serving) -> Result<Option<Network>, Stop> {
    let Some(address) = serving.listen else {
        return Ok(None);
    };
    let is_secure = serving.certificate.is_some() && serving.callers.is_some();
    if !is_secure && !serving.insecure_network {
        let why = "--listen needs --certificate and --key, and --callers; or --insecure-network";
        return Err(Stop::Serving(why.to_owned()));
    }
    let tls = match (&serving.certificate, &serving.key) {
        (Some(certificate), Some(key)) => {
            let files = TlsFiles {
                certificate: certificate.clone(),
                key: key.clone(),
                client_authority: serving.client_authority.clone(),
            };
            let tls = Tls::of(files).map_err(|fault| Stop::Serving(fault.to_string()))?;
            Some(Arc::new(tls))
        }
        _ => None,
    };
    let access = match &serving.callers {
        Some(file) => {
            let named = |fault| Stop::Serving(format!("{}: {fault}", file.display()));
            Some(Arc::new(Access::of(file.clone()).map_err(named)?))
        }
        None => None,
    };
    let listener = TcpListener::bind(address).await;
    let listener =
        listener.map_err(|error| Stop::Serving(format!("--listen {address}: {error}")))?;
    if !is_secure {
        tracing::warn!("{address} is open to whoever reaches it");
    }
    Ok(Some(Network {
        listener,
        tls,
        access,
    }))
}

/// Takes connections of the network from now on.
pub(super) fn open_network(network: Network, callers: Arc<Callers>) {
    if let Ok(address) = network.listener.local_addr() {
        tracing::info!("callers are answered at {address}");
    }
    let room = Arc::new(Semaphore::new(MOST_CONNECTIONS));
    let network = Arc::new(network);
    tokio::spawn(async move {
        loop {
            let Ok(place) = Arc::clone(&room).acquire_owned().await else {
                return;
            };
            match network.listener.accept().await {
                Ok((stream, _)) => {
                    let (callers, network) = (Arc::clone(&callers), Arc::clone(&network));
                    tokio::spawn(async move {
                        let _place = place;
                        take_connection(callers, &network, stream).await;
                    });
                }
                Err(_) => tokio::time::sleep(PAUSE).await,
            }
        }
    });
}

async fn take_connection(callers: Arc<Callers>, network: &Network, stream: TcpStream) {
    // Answers are short: none waits for more to come.
    let _ = stream.set_nodelay(true);
    let local = stream.local_addr();
    let address = Address {
        is_tls: network.tls.is_some(),
        is_loopback: local.is_ok_and(|it| it.ip().to_canonical().is_loopback()),
    };
    let Some(tls) = &network.tls else {
        let door = door(network.access.as_ref(), None, address);
        return serve_stream(callers, stream, door).await;
    };
    let accepted = TlsAcceptor::from(tls.config()).accept(stream);
    match tokio::time::timeout(HANDSHAKE, accepted).await {
        Ok(Ok(stream)) => {
            let certificates = stream.get_ref().1.peer_certificates();
            let first = certificates.and_then(|them| them.first());
            let certificate = first.map(|it| it.0.clone());
            let door = door(network.access.as_ref(), certificate, address);
            serve_stream(callers, stream, door).await;
        }
        Ok(Err(error)) => tracing::debug!("no TLS: {error}"),
        Err(_) => {}
    }
}

fn door(access: Option<&Arc<Access>>, certificate: Option<Vec<u8>>, address: Address) -> Door {
    match access {
        Some(access) => Door::Known {
            access: Arc::clone(access),
            certificate,
            address,
        },
        None => Door::Open {
            caller: Arc::new(Caller::of_open_network()),
            address,
        },
    }
}

/// Takes calls at a unix socket, from now on. A socket that an earlier process left is replaced.
pub(super) fn open_socket(socket: &Path, mode: u32, callers: Arc<Callers>) -> io::Result<()> {
    let listener = listener(socket, mode)?;
    tokio::spawn(async move {
        loop {
            match listener.accept().await {
                Ok((stream, _)) => {
                    tokio::spawn(take_from_machine(Arc::clone(&callers), stream));
                }
                // As where too many files are open: later it may go.
                Err(_) => tokio::time::sleep(PAUSE).await,
            }
        }
    });
    Ok(())
}

/// A socket that takes the place of the old one at once: a caller finds the one or the other. Two processes may do so at one time.
fn listener(socket: &Path, mode: u32) -> io::Result<UnixListener> {
    let new = socket.with_extension(format!("{}.new", std::process::id()));
    match std::fs::remove_file(&new) {
        Err(error) if error.kind() != io::ErrorKind::NotFound => return Err(error),
        _ => {}
    }
    let listener = UnixListener::bind(&new)?;
    std::fs::set_permissions(&new, Permissions::from_mode(mode))?;
    std::fs::rename(&new, socket)?;
    Ok(listener)
}

async fn take_from_machine(callers: Arc<Callers>, stream: UnixStream) {
    let Ok(peer) = stream.peer_cred() else {
        return;
    };
    let caller = Arc::new(Caller::of_machine(peer.uid()));
    serve_stream(callers, stream, Door::Machine(caller)).await;
}

async fn serve_stream<S>(callers: Arc<Callers>, stream: S, door: Door)
where
    S: AsyncRead + AsyncWrite + Unpin + Send + 'static,
{
    let door = Arc::new(door);
    let answer = service_fn(|request| {
        let (callers, door) = (Arc::clone(&callers), Arc::clone(&door));
        async move { Ok::<_, Infallible>(callers.answer(&door, request).await) }
    });
    let connection = Http::new()
        .http1_only(true)
        .serve_connection(stream, answer);
    if let Err(error) = connection.await {
        tracing::debug!("a connection ended: {error}");
    }
}
