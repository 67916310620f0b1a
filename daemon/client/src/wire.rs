//! Requests and replies over connections, which are kept.
use crate::address::Address;
use hyper::body::{to_bytes, Bytes};
use hyper::client::conn::{handshake, SendRequest};
use hyper::{Body, HeaderMap, Request, Response, StatusCode};
use rustls::{ClientConfig, ServerName};
use std::collections::HashMap;
use std::io;
use std::sync::{Arc, Mutex, PoisonError};
use thiserror::Error;
use tokio::io::{AsyncRead, AsyncWrite};
use tokio::net::{TcpStream, UnixStream};
use tokio_rustls::TlsConnector;

/// How many connections to one address are kept.
const MOST_IDLE: usize = 16;

/// A whole reply.
#[derive(Clone, Debug)]
pub struct Reply {
    /// Its status.
    pub status: StatusCode,
    /// Its headers.
    pub headers: HeaderMap,
    /// Its body.
    pub body: Bytes,
}

/// Why there is no reply.
#[derive(Debug, Error)]
pub enum Fault {
    /// The process was not reached, and nothing was sent.
    #[error("{0}")]
    Unsent(String),
    /// It was sent, and no whole reply came.
    #[error("{0}")]
    Lost(String),
}

impl From<Fault> for io::Error {
    fn from(fault: Fault) -> io::Error {
        io::Error::other(fault)
    }
}

/// Connections, each for one request at a time.
#[derive(Default)]
pub struct Wire {
    tls: Option<Arc<ClientConfig>>,
    idle: Mutex<HashMap<Address, Vec<SendRequest<Body>>>>,
}

impl Wire {
    /// One that speaks TLS so, where it is spoken.
    pub fn of(tls: Option<Arc<ClientConfig>>) -> Wire {
        Wire {
            tls,
            idle: Mutex::default(),
        }
    }

    /// Sends a request once, and waits for its reply.
    ///
    /// # Errors
    /// Where none comes.
    pub async fn ask(&self, address: &Address, request: Request<Body>) -> Result<Reply, Fault> {
        let mut connection = self.connection(address).await?;
        let response = sent(&mut connection, request).await?;
        let reply = whole(response).await?;
        let mut idle = self.idle.lock().unwrap_or_else(PoisonError::into_inner);
        let idle = idle.entry(address.clone()).or_default();
        if idle.len() < MOST_IDLE {
            idle.push(connection);
        }
        Ok(reply)
    }

    /// The same of a reply that comes piece by piece, over a connection of its own.
    pub(crate) async fn open(
        &self,
        address: &Address,
        request: Request<Body>,
    ) -> Result<(SendRequest<Body>, Response<Body>), Fault> {
        let mut connection = self.connect(address).await?;
        let response = sent(&mut connection, request).await?;
        Ok((connection, response))
    }

    /// One that is kept and takes a request, or else a new one.
    async fn connection(&self, address: &Address) -> Result<SendRequest<Body>, Fault> {
        while let Some(mut kept) = self.take(address) {
            let ready = std::future::poll_fn(|context| kept.poll_ready(context)).await;
            if ready.is_ok() {
                return Ok(kept);
            }
        }
        self.connect(address).await
    }

    fn take(&self, address: &Address) -> Option<SendRequest<Body>> {
        let mut idle = self.idle.lock().unwrap_or_else(PoisonError::into_inner);
        idle.get_mut(address).and_then(Vec::pop)
    }

    async fn connect(&self, address: &Address) -> Result<SendRequest<Body>, Fault> {
        let unsent = |error: io::Error| Fault::Unsent(format!("{address}: {error}"));
        match address {
            Address::Unix(path) => {
                let stream = UnixStream::connect(path).await.map_err(unsent)?;
                over(stream).await.map_err(unsent)
            }
            Address::Network { host, port, is_tls } => {
                let stream = TcpStream::connect((host.as_str(), *port)).await;
                let stream = stream.map_err(unsent)?;
                // What is asked is short: none of it waits for more to come.
                stream.set_nodelay(true).map_err(unsent)?;
                if !is_tls {
                    return over(stream).await.map_err(unsent);
                }
                let tls = self.tls.clone();
                let tls = tls.ok_or_else(|| unsent(io::Error::other("no TLS is set up")))?;
                let name = ServerName::try_from(host.as_str());
                let name = name.map_err(|error| unsent(io::Error::other(error)))?;
                let stream = TlsConnector::from(tls).connect(name, stream).await;
                over(stream.map_err(unsent)?).await.map_err(unsent)
            }
        }
    }
}

async fn over<S>(stream: S) -> io::Result<SendRequest<Body>>
where
    S: AsyncRead + AsyncWrite + Unpin + Send + 'static,
{
    let (sender, connection) = handshake(stream).await.map_err(io::Error::other)?;
    tokio::spawn(connection);
    Ok(sender)
}

async fn sent(
    connection: &mut SendRequest<Body>,
    request: Request<Body>,
) -> Result<Response<Body>, Fault> {
    let response = connection.send_request(request).await;
    response.map_err(|error| Fault::Lost(error.to_string()))
}

/// A reply with all of its body.
pub(crate) async fn whole(response: Response<Body>) -> Result<Reply, Fault> {
    let (head, body) = response.into_parts();
    let body = to_bytes(body).await;
    Ok(Reply {
        status: head.status,
        headers: head.headers,
        body: body.map_err(|error| Fault::Lost(error.to_string()))?,
    })
}
