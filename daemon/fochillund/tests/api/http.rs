//! A client.
use crate::group::Group;
use hyper::body::{to_bytes, Bytes};
use hyper::client::conn::{handshake, SendRequest};
use hyper::{Body, HeaderMap, Method, Request, Response};
use serde_json::Value;
use std::path::Path;
use std::time::Duration;
use tokio::io::{AsyncRead, AsyncWrite};
use tokio::net::{TcpStream, UnixStream};

/// What a process answers.
#[derive(Debug)]
pub struct Reply {
    pub status: u16,
    pub headers: HeaderMap,
    pub body: Bytes,
}

impl Reply {
    /// Its body as JSON.
    pub fn json(&self) -> Value {
        serde_json::from_slice(&self.body).unwrap_or_else(|_| panic!("{self:?}"))
    }

    pub fn error(&self) -> (u16, Value) {
        (self.status, self.json()["error"].clone())
    }
}

/// A connection.
pub struct Client(SendRequest<Body>);

impl Client {
    pub async fn over<S: AsyncRead + AsyncWrite + Unpin + Send + 'static>(stream: S) -> Client {
        let (sender, connection) = handshake(stream).await.unwrap();
        tokio::spawn(connection);
        Client(sender)
    }

    /// To a socket, once it is there.
    pub async fn at(socket: &Path) -> Client {
        loop {
            match UnixStream::connect(socket).await {
                Ok(stream) => return Client::over(stream).await,
                Err(_) => tokio::time::sleep(Duration::from_millis(10)).await,
            }
        }
    }

    /// To the first member of a group.
    pub async fn of(group: &Group) -> Client {
        Client::at(&group.socket(1)).await
    }

    /// To a port of this machine, without TLS.
    pub async fn to(port: u16) -> Client {
        loop {
            match TcpStream::connect(("127.0.0.1", port)).await {
                Ok(stream) => return Client::over(stream).await,
                Err(_) => tokio::time::sleep(Duration::from_millis(10)).await,
            }
        }
    }

    /// None where the connection is ended without an answer.
    pub async fn try_send(&mut self, request: Request<Body>) -> Option<Response<Body>> {
        std::future::poll_fn(|context| self.0.poll_ready(context))
            .await
            .ok()?;
        self.0.send_request(request).await.ok()
    }

    pub async fn send(&mut self, request: Request<Body>) -> Reply {
        let response = self.try_send(request).await.expect("it answers");
        let (head, body) = response.into_parts();
        Reply {
            status: head.status.as_u16(),
            headers: head.headers,
            body: to_bytes(body).await.unwrap(),
        }
    }

    pub async fn ask(
        &mut self,
        method: Method,
        path: &str,
        headers: &[(&str, &str)],
        body: &str,
    ) -> Reply {
        self.send(request(method, path, headers, body)).await
    }

    pub async fn post(&mut self, path: &str, body: &Value) -> Reply {
        self.ask(Method::POST, path, &[], &body.to_string()).await
    }

    pub async fn get(&mut self, path: &str) -> Reply {
        self.ask(Method::GET, path, &[], "").await
    }
}

pub fn request(method: Method, path: &str, headers: &[(&str, &str)], body: &str) -> Request<Body> {
    let mut request = Request::builder().method(method).uri(path);
    for (name, value) in headers {
        request = request.header(*name, *value);
    }
    request.body(Body::from(body.to_owned())).unwrap()
}

/// A header that shows a token.
pub fn bearer(token: &str) -> (&'static str, String) {
    ("authorization", format!("Bearer {token}"))
}
