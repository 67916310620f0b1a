//! TLS for the client of PostgreSQL: joins it to rustls.
use std::future::Future;
use std::io;
use std::pin::Pin;
use std::sync::Arc;
use std::task::{Context, Poll};
use tokio::io::{AsyncRead, AsyncWrite, ReadBuf};
use tokio_postgres::tls::{ChannelBinding, MakeTlsConnect, TlsConnect};
use tokio_postgres::Socket;
use tokio_rustls::client::TlsStream;
use tokio_rustls::rustls::{ClientConfig, ServerName};
use tokio_rustls::TlsConnector;

/// Makes the TLS of each connection. Without a configuration there is none, and a connection that wants it is not made.
#[derive(Clone)]
pub(super) struct MakeTls(pub(super) Option<Arc<ClientConfig>>);

/// The TLS of a connection to a host of this name.
pub(super) struct Tls {
    config: Option<Arc<ClientConfig>>,
    host: String,
}

/// A connection that speaks TLS.
pub(super) struct Stream(TlsStream<Socket>);

impl MakeTlsConnect<Socket> for MakeTls {
    type Stream = Stream;
    type TlsConnect = Tls;
    type Error = io::Error;

    fn make_tls_connect(&mut self, host: &str) -> io::Result<Tls> {
        Ok(Tls {
            config: self.0.clone(),
            host: host.to_owned(),
        })
    }
}

impl Tls {
    async fn begin(self, socket: Socket) -> io::Result<Stream> {
        let refused = |why: &str| io::Error::new(io::ErrorKind::InvalidInput, why);
        let config = self.config.ok_or(refused("no authority is named"))?;
        let name = ServerName::try_from(self.host.as_str());
        let name = name.map_err(|_| refused("the host has no name"))?;
        let stream = TlsConnector::from(config).connect(name, socket).await?;
        Ok(Stream(stream))
    }
}

impl TlsConnect<Socket> for Tls {
    type Stream = Stream;
    type Error = io::Error;
    type Future = Pin<Box<dyn Future<Output = io::Result<Stream>> + Send>>;

    fn connect(self, socket: Socket) -> Self::Future {
        Box::pin(self.begin(socket))
    }
}

impl tokio_postgres::tls::TlsStream for Stream {
    /// None: a server is known by the one authority, which no other server has a certificate of.
    fn channel_binding(&self) -> ChannelBinding {
        ChannelBinding::none()
    }
}

impl AsyncRead for Stream {
    fn poll_read(
        mut self: Pin<&mut Self>,
        context: &mut Context<'_>,
        bytes: &mut ReadBuf<'_>,
    ) -> Poll<io::Result<()>> {
        Pin::new(&mut self.0).poll_read(context, bytes)
    }
}

impl AsyncWrite for Stream {
    fn poll_write(
        mut self: Pin<&mut Self>,
        context: &mut Context<'_>,
        bytes: &[u8],
    ) -> Poll<io::Result<usize>> {
        Pin::new(&mut self.0).poll_write(context, bytes)
    }

    fn poll_flush(mut self: Pin<&mut Self>, context: &mut Context<'_>) -> Poll<io::Result<()>> {
        Pin::new(&mut self.0).poll_flush(context)
    }

    fn poll_shutdown(mut self: Pin<&mut Self>, context: &mut Context<'_>) -> Poll<io::Result<()>> {
        Pin::new(&mut self.0).poll_shutdown(context)
    }
}
