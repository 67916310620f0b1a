//! Callers over TLS.
use crate::authzen::{evaluation, has_policy};
use crate::group::Group;
use crate::http::{bearer, request, Client};
use fochillun_client::{Evaluation, Rests, Subject};
use hyper::{Body, Method, Request};
use rustls::{ClientConfig, PrivateKey, RootCertStore, ServerName};
use servers::certificates::Authority;
use servers::etcd::{free_port, Certificate};
use std::path::Path;
use std::process::Command;
use std::sync::Arc;
use std::time::Duration;
use tokio::net::TcpStream;
use tokio_rustls::TlsConnector;

fn certificates(path: &Path) -> Vec<rustls::Certificate> {
    let pem = std::fs::read(path).unwrap();
    let read = rustls_pemfile::certs(&mut &pem[..]).unwrap();
    read.into_iter().map(rustls::Certificate).collect()
}

/// A client that trusts an authority, and shows a certificate.
fn config(trusted: &Authority, shown: Option<&Certificate>) -> Arc<ClientConfig> {
    let mut roots = RootCertStore::empty();
    roots.add(&certificates(&trusted.pem())[0]).unwrap();
    let config = ClientConfig::builder().with_safe_defaults();
    let config = config.with_root_certificates(roots);
    Arc::new(match shown {
        None => config.with_no_client_auth(),
        Some(shown) => {
            let pem = std::fs::read(&shown.key).unwrap();
            let key = rustls_pemfile::pkcs8_private_keys(&mut &pem[..]).unwrap();
            let key = PrivateKey(key.into_iter().next().unwrap());
            config
                .with_single_cert(certificates(&shown.certificate), key)
                .unwrap()
        }
    })
}

/// What a client is answered; none where there is no agreement on TLS.
async fn status(port: u16, config: Arc<ClientConfig>, request: Request<Body>) -> Option<u16> {
    let stream = loop {
        match TcpStream::connect(("127.0.0.1", port)).await {
            Ok(stream) => break stream,
            Err(_) => tokio::time::sleep(Duration::from_millis(10)).await,
        }
    };
    let name = ServerName::try_from("localhost").unwrap();
    let stream = TlsConnector::from(config)
        .connect(name, stream)
        .await
        .ok()?;
    let mut client = Client::over(stream).await;
    Some(client.try_send(request).await?.status().as_u16())
}

fn asked(token: Option<&str>) -> Request<Body> {
    let body = evaluation("session", "s1", "read", "chart").to_string();
    let token = token.map(bearer);
    let headers: Vec<(&str, &str)> = token
        .iter()
        .map(|(name, value)| (*name, value.as_str()))
        .collect();
    request(Method::POST, "/access/v1/evaluation", &headers, &body)
}

fn issue(file: &Path, words: &[&str]) -> String {
    let mut command = Command::new(env!("CARGO_BIN_EXE_fochillund"));
    let told = command.arg("token").arg(file).args(words).output().unwrap();
    assert!(told.status.success(), "{told:?}");
    String::from_utf8(told.stdout).unwrap().trim().to_owned()
}

#[tokio::test]
async fn callers_are_known_by_their_certificates_and_tokens() {
    let (authority, other) = (Authority::new(), Authority::new());
    let server = authority.certificate("localhost");
    let group = Group::of(1);
    let file = group.folder().join("callers.toml");
    let token = issue(&file, &["clinic", "--scopes", "check"]);
    issue(
        &file,
        &["ward", "--scopes", "check", "--certificate", "ward.example"],
    );
    issue(
        &file,
        &[
            "desk",
            "--scopes",
            "operate",
            "--certificate",
            "desk.example",
        ],
    );
    let port = free_port();
    let listen = format!("127.0.0.1:{port}");
    let path = |path: &Path| path.display().to_string();
    let words = [
        ("--listen", listen),
        ("--callers", path(&file)),
        ("--certificate", path(&server.certificate)),
        ("--key", path(&server.key)),
        ("--client-authority", path(&authority.pem())),
    ];
    let words: Vec<&str> = words
        .iter()
        .flat_map(|(word, is)| [*word, is.as_str()])
        .collect();
    let mut process = group.spawn(1, &words);
    has_policy(&mut Client::of(&group).await).await;
    let ward = authority.certificate("ward.example");
    let cases = [
        ("a token", None, Some(token.as_str()), Some(200)),
        ("a certificate", Some(ward.clone()), None, Some(200)),
        ("neither", None, None, Some(401)),
        ("a token that is none", None, Some("0"), Some(401)),
        (
            "a certificate, and a token that is none",
            Some(ward),
            Some("0"),
            Some(401),
        ),
        (
            "one of nobody",
            Some(authority.certificate("nobody.example")),
            None,
            Some(401),
        ),
        (
            "one of another scope",
            Some(authority.certificate("desk.example")),
            None,
            Some(403),
        ),
        (
            "one of another authority",
            Some(other.certificate("ward.example")),
            None,
            None,
        ),
        (
            "one that has run out",
            Some(authority.expired("ward.example")),
            None,
            None,
        ),
    ];
    for (what, shown, token, wanted) in cases {
        let config = config(&authority, shown.as_ref());
        let told = status(port, config, asked(token)).await;
        assert_eq!(told, wanted, "{what}");
    }
    // A client believes no server of another authority, and is told nothing without TLS.
    assert_eq!(
        status(port, config(&other, None), asked(Some(&token))).await,
        None
    );
    let mut plain = Client::to(port).await;
    assert!(plain.try_send(asked(Some(&token))).await.is_none());
    let url = format!("https://localhost:{port}");
    for (trusted, shown, wanted) in [
        (&authority, token.clone(), Ok(true)),
        (&authority, "0".to_owned(), Err(Some(401))),
        (&other, token, Err(None)),
    ] {
        let client = fochillun_client::Client::of(vec![url.parse().unwrap()])
            .with_tls(config(trusted, None))
            .with_token(move || shown.clone());
        let asked = Subject::session("s1");
        let asked = Evaluation::of(asked, "read", "chart");
        let told = client.evaluate(&asked, &Rests::default()).await;
        let told = told.map(|told| told.is_granted());
        assert_eq!(told.map_err(|error| error.status()), wanted);
    }
    process.kill().unwrap();
    process.wait().unwrap();
}
