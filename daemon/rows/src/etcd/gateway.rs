//! The gateway of etcd: JSON over HTTP, asked of one member of the cluster until it fails, and then of the next.
use super::failure::Failure;
use super::messages::{Authenticate, Authenticated, Empty, Status, AUTHENTICATE, STATUS};
use super::options::{Login, Options};
use crate::engine::Fault;
use crate::tls;
use bytes::Bytes;
use hyper::body::to_bytes;
use hyper::client::HttpConnector;
use hyper::header::{HeaderValue, AUTHORIZATION};
use hyper::{Body, Client, Request, Response, StatusCode};
use hyper_rustls::{HttpsConnector, HttpsConnectorBuilder};
use rustls::{ClientConfig, RootCertStore};
use serde::de::DeserializeOwned;
use serde::Serialize;
use std::future::Future;
use std::time::Duration;
use tokio::sync::{watch, Mutex};
use tokio::time::timeout;

/// After so long the kernel asks whether the other end of a connection is still there.
const KEPT_ALIVE: Duration = Duration::from_secs(15);

/// Of the members, which is asked.
pub(super) struct Gateway {
    client: Client<HttpsConnector<HttpConnector>>,
    /// Each as `scheme://host:port`.
    endpoints: Vec<String>,
    /// The place of the one that is asked.
    used: watch::Sender<usize>,
    login: Option<Login>,
    token: Mutex<Option<HeaderValue>>,
    reply: Duration,
}

impl Gateway {
    /// Nothing is asked yet.
    ///
    /// # Errors
    /// `Refused`, where the options can't be.
    pub(super) fn of(options: &Options) -> Result<Gateway, Fault> {
        options.check()?;
        let endpoint = |uri: &hyper::Uri| uri.to_string().trim_end_matches('/').to_owned();
        Ok(Gateway {
            client: Client::builder().build(connector(options)?),
            endpoints: options.endpoints.iter().map(endpoint).collect(),
            used: watch::channel(0).0,
            login: options.login.clone(),
            token: Mutex::new(None),
            reply: options.reply,
        })
    }

    /// Asks each member what it is, and gives the number of the cluster. Where one does not answer, others do.
    ///
    /// # Errors
    /// `Refused`, where one is no member of such a cluster, or lets nobody in by this login; `Silent`, where none answers.
    pub(super) async fn cluster(&self) -> Result<u64, Fault> {
        let mut known = None;
        let mut silent = Fault::Silent("no member of etcd answers".to_owned());
        for (place, endpoint) in self.endpoints.iter().enumerate() {
            let refused = |why: String| Fault::Refused(format!("{endpoint}: {why}"));
            match self.ask(place, STATUS, body_of(&Empty {})).await {
                Ok(status) => {
                    let cluster = cluster_of(&status).map_err(refused)?;
                    if known.is_none() {
                        self.used.send_replace(place);
                    }
                    if *known.get_or_insert(cluster) != cluster {
                        return Err(refused("it is of another cluster".to_owned()));
                    }
                }
                Err(Failure::Unknown(why)) => {
                    return Err(refused(format!("it is no gateway of etcd 3.4: {why}")));
                }
                Err(failure) if failure.is_of_the_member() => {
                    let fault = failure.fault();
                    tracing::warn!("{endpoint}: {fault}");
                    silent = worse(silent, fault);
                }
                Err(failure) => return Err(failure.fault()),
            }
        }
        known.ok_or(silent)
    }

    /// Asks what may be carried out twice, of one member after the other until one answers.
    pub(super) async fn ask_again<T: DeserializeOwned>(
        &self,
        path: &str,
        request: &impl Serialize,
    ) -> Result<T, Failure> {
        let body = body_of(request);
        self.ask_members(path, body, Failure::is_of_the_member)
            .await
    }

    /// Asks for a change. It is sent once; where it can't be sent to one member it is to the next.
    pub(super) async fn change<T: DeserializeOwned>(
        &self,
        path: &str,
        request: &impl Serialize,
    ) -> Result<T, Failure> {
        let was_not_sent = |failure: &Failure| matches!(failure, Failure::Unsent(_));
        self.ask_members(path, body_of(request), was_not_sent).await
    }

    async fn ask_members<T: DeserializeOwned>(
        &self,
        path: &str,
        body: Bytes,
        goes_on: impl Fn(&Failure) -> bool,
    ) -> Result<T, Failure> {
        // One is asked twice: a connection that was kept may have ended with a member that was started again.
        let most = self.endpoints.len().max(2);
        let mut tried = 1;
        loop {
            let place = self.place();
            let told = self.ask(place, path, body.clone()).await;
            let Err(failure) = told else {
                return told;
            };
            if failure.is_of_the_member() {
                self.turn_from(place);
            }
            if tried == most || !goes_on(&failure) {
                return Err(failure);
            }
            tried += 1;
        }
    }

    /// The place of the member that is asked.
    pub(super) fn place(&self) -> usize {
        *self.used.borrow()
    }

    /// Has the next member asked from now on, unless another one is already.
    pub(super) fn turn_from(&self, place: usize) {
        let next = (place + 1) % self.endpoints.len();
        self.used.send_if_modified(|used| {
            let turns = *used == place && next != place;
            if turns {
                *used = next;
            }
            turns
        });
    }

    /// Returns once another member is asked than this one.
    pub(super) async fn is_turned_from(&self, place: usize) {
        let mut used = self.used.subscribe();
        while *used.borrow_and_update() == place {
            // Its sender is this gateway's own.
            let _ = used.changed().await;
        }
    }

    /// Asks one member.
    async fn ask<T: DeserializeOwned>(
        &self,
        place: usize,
        path: &str,
        body: Bytes,
    ) -> Result<T, Failure> {
        self.with_token(place, |token| {
            let sent = self.send(place, path, body.clone(), token);
            self.in_time(async { reply_of(sent.await?).await })
        })
        .await
    }

    /// Asks with the token, where there is a login; and once more, with a new one, where it is one no more: tokens last for minutes, and
    /// a member that was started again knows none.
    pub(super) async fn with_token<T, F>(
        &self,
        place: usize,
        ask: impl Fn(Option<HeaderValue>) -> F,
    ) -> Result<T, Failure>
    where
        F: Future<Output = Result<T, Failure>>,
    {
        let token = self.token_but(None, place).await?;
        match ask(token.clone()).await {
            Err(Failure::Token) => ask(self.token_but(token, place).await?).await,
            told => told,
        }
    }

    /// The token; where there is none but this old one, a new one.
    async fn token_but(
        &self,
        old: Option<HeaderValue>,
        place: usize,
    ) -> Result<Option<HeaderValue>, Failure> {
        let Some(login) = &self.login else {
            return Ok(None);
        };
        let mut token = self.token.lock().await;
        if *token == old {
            *token = Some(self.log_in(login, place).await?);
        }
        Ok(token.clone())
    }

    async fn log_in(&self, login: &Login, place: usize) -> Result<HeaderValue, Failure> {
        let unsent = |fault| Failure::Unsent(fault);
        let password = password_of(login).map_err(unsent)?;
        let body = body_of(&Authenticate {
            name: &login.user,
            password: &password,
        });
        let sent = self.send(place, AUTHENTICATE, body, None);
        let told = self.in_time(async { reply_of(sent.await?).await }).await;
        let told: Authenticated = told.map_err(|failure| match failure {
            Failure::Lost(why) => unsent(Fault::Silent(why)),
            other => other,
        })?;
        let mut token = HeaderValue::from_str(&told.token)
            .map_err(|_| Failure::Unknown("a token that is none".to_owned()))?;
        token.set_sensitive(true);
        Ok(token)
    }

    /// Sends a request, and gives what its reply begins with.
    pub(super) async fn send(
        &self,
        place: usize,
        path: &str,
        body: Bytes,
        token: Option<HeaderValue>,
    ) -> Result<Response<Body>, Failure> {
        let mut request = Request::post(format!("{}{path}", self.endpoints[place]))
            .body(Body::from(body))
            .expect("an endpoint and a path are an address");
        if let Some(token) = token {
            request.headers_mut().insert(AUTHORIZATION, token);
        }
        let sent = self.client.request(request).await;
        sent.map_err(|error| Failure::of_connection(&error))
    }

    /// Waits no longer than for a reply.
    pub(super) async fn in_time<T>(
        &self,
        asked: impl Future<Output = Result<T, Failure>>,
    ) -> Result<T, Failure> {
        let told = timeout(self.reply, asked).await;
        told.unwrap_or_else(|_| Err(Failure::Lost("there is no reply in time".to_owned())))
    }
}

/// What connects to a member.
fn connector(options: &Options) -> Result<HttpsConnector<HttpConnector>, Fault> {
    let config = match &options.authority {
        Some(authority) => tls::client_config(authority)?,
        // No endpoint is https then.
        None => ClientConfig::builder()
            .with_safe_defaults()
            .with_root_certificates(RootCertStore::empty())
            .with_no_client_auth(),
    };
    let mut http = HttpConnector::new();
    http.enforce_http(false);
    http.set_connect_timeout(Some(options.connect));
    http.set_keepalive(Some(KEPT_ALIVE));
    http.set_nodelay(true);
    let builder = HttpsConnectorBuilder::new().with_tls_config(config);
    Ok(builder.https_or_http().enable_http1().wrap_connector(http))
}

/// What a request says.
pub(super) fn body_of(request: &impl Serialize) -> Bytes {
    let body = serde_json::to_vec(request);
    body.expect("each field of a request has a text").into()
}

/// Reads a reply to its end.
async fn reply_of<T: DeserializeOwned>(response: Response<Body>) -> Result<T, Failure> {
    let status = response.status();
    let body = to_bytes(response.into_body()).await;
    let body = body.map_err(|error| Failure::Lost(error.to_string()))?;
    if status != StatusCode::OK {
        return Err(Failure::of_reply(status, &body));
    }
    serde_json::from_slice(&body).map_err(|error| Failure::Unknown(error.to_string()))
}

fn password_of(login: &Login) -> Result<String, Fault> {
    let path = &login.password;
    let read = std::fs::read_to_string(path);
    let read = read.map_err(|error| Fault::Refused(format!("{}: {error}", path.display())))?;
    Ok(read.lines().next().unwrap_or_default().to_owned())
}

/// The number of a member's cluster, where the member is of a version that keeps what it tells. Those before did not sync first in a cluster
/// of one member.
fn cluster_of(status: &Status) -> Result<u64, String> {
    let mut numbers = status.version.split('.').map(leading_number);
    let mut next = || numbers.next().unwrap_or(0);
    let version = (next(), next(), next());
    if version < (3, 4, 21) || ((3, 5, 0)..(3, 5, 5)).contains(&version) {
        return Err(format!(
            "it is etcd {}: 3.4.21 or later is needed, and of 3.5 3.5.5",
            status.version
        ));
    }
    Ok(status.header.cluster_id)
}

fn leading_number(part: &str) -> u32 {
    let digits = part.split(|letter: char| !letter.is_ascii_digit()).next();
    digits.and_then(|digits| digits.parse().ok()).unwrap_or(0)
}

/// Of two faults the one that tells an operator more.
fn worse(one: Fault, other: Fault) -> Fault {
    match one {
        Fault::Refused(_) => one,
        _ => other,
    }
}

#[cfg(test)]
mod tests {
    use super::{cluster_of, Status};

    #[test]
    fn a_version_that_keeps_what_it_tells_is_asked_for() {
        let is_taken = |version: &str| {
            let header = r#"{"cluster_id":"7"}"#;
            let told = format!(r#"{{"header":{header},"version":"{version}"}}"#);
            let status: Status = serde_json::from_str(&told).unwrap();
            cluster_of(&status) == Ok(7)
        };
        for version in ["3.4.21", "3.4.23", "3.5.5", "3.5.16", "3.6.0-rc.1", "4.0"] {
            assert!(is_taken(version), "{version}");
        }
        for version in ["", "2.3.8", "3.3.25", "3.4.20", "3.5.0", "3.5.4", "3.4"] {
            assert!(!is_taken(version), "{version}");
        }
    }
}
