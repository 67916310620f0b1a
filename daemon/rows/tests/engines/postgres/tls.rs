//! A server that speaks TLS.
use super::open;
use super::server::{give, Server};
use rows::postgres::Options;
use rows::{Engine, Fault, Postgres, RowName};
use std::fs;
use std::net::TcpListener;
use std::os::unix::fs::PermissionsExt;
use std::path::{Path, PathBuf};
use std::process::Command;
use tempfile::TempDir;

fn openssl(folder: &Path, words: &str) {
    let mut command = Command::new("openssl");
    let told = command.args(words.split(' ')).current_dir(folder).output();
    let told = told.unwrap();
    assert!(told.status.success(), "{words}: {told:?}");
}

const NEW_KEY: &str = "-newkey ec -pkeyopt ec_paramgen_curve:prime256v1 -nodes";

/// An authority, with a certificate for one name.
fn authority(name: &str) -> TempDir {
    let folder = tempfile::tempdir().unwrap();
    openssl(
        folder.path(),
        &format!("req -x509 {NEW_KEY} -keyout authority.key -out authority.pem -days 2 -subj /CN=authority"),
    );
    openssl(
        folder.path(),
        &format!("req {NEW_KEY} -keyout server.key -out server.csr -subj /CN={name}"),
    );
    let names = format!("subjectAltName=DNS:{name}\nbasicConstraints=CA:FALSE\n");
    fs::write(folder.path().join("names"), names).unwrap();
    openssl(
        folder.path(),
        "x509 -req -in server.csr -CA authority.pem -CAkey authority.key -CAcreateserial -days 2 -extfile names -out server.pem",
    );
    folder
}

fn free_port() -> u16 {
    let listener = TcpListener::bind("127.0.0.1:0").unwrap();
    listener.local_addr().unwrap().port()
}

/// Gives a server the certificate, with its key.
fn install(server: &Server, authority: &TempDir) {
    for name in ["server.pem", "server.key"] {
        let file = server.file(name);
        fs::copy(authority.path().join(name), &file).unwrap();
        fs::set_permissions(&file, fs::Permissions::from_mode(0o600)).unwrap();
        give(&file);
    }
}

fn over_tls(host: &str, port: u16, authority: Option<PathBuf>) -> Options {
    Options {
        authority,
        ..Options::of(format!("postgresql://operator@{host}:{port}/postgres"))
    }
}

async fn refusal(options: Options) -> String {
    match Postgres::open(options).await {
        Err(Fault::Refused(why)) => why,
        Err(fault) => panic!("{fault}"),
        Ok(_) => panic!("it was opened"),
    }
}

#[tokio::test]
async fn a_server_is_known_by_its_authority_and_its_name() {
    let port = free_port();
    let (right, other) = (authority("localhost"), authority("localhost"));
    let wrong_name = authority("db.example");
    let file = |authority: &TempDir| Some(authority.path().join("authority.pem"));
    let listens = "listen_addresses=127.0.0.1";
    let server = Server::start(&[listens, &format!("port={port}")]);
    let plain = refusal(over_tls("localhost", port, file(&right))).await;
    assert!(plain.contains("TLS"), "{plain}");
    install(&server, &right);
    server
        .run("ALTER SYSTEM SET ssl_cert_file = 'server.pem'")
        .await;
    server
        .run("ALTER SYSTEM SET ssl_key_file = 'server.key'")
        .await;
    server.run("ALTER SYSTEM SET ssl = on").await;
    let rules = fs::read_to_string(server.file("pg_hba.conf")).unwrap();
    let rules = rules.replace("host ", "hostssl ");
    fs::write(server.file("pg_hba.conf"), rules).unwrap();
    server.run("SELECT pg_reload_conf()").await;
    let engine = open(over_tls("localhost", port, file(&right))).await;
    let there = engine.get(&RowName::founding(), 1).await;
    assert_eq!(there, Ok(Vec::new()));
    let unknown = refusal(over_tls("localhost", port, file(&other))).await;
    assert!(unknown.contains("UnknownIssuer"), "{unknown}");
    // The server takes no connection without TLS.
    refusal(over_tls("localhost", port, None)).await;
    // An address is no name that a certificate is asked for.
    refusal(over_tls("127.0.0.1", port, file(&right))).await;
    install(&server, &wrong_name);
    server.run("SELECT pg_reload_conf()").await;
    let named = refusal(over_tls("localhost", port, file(&wrong_name))).await;
    assert!(named.contains("CertNotValidForName"), "{named}");
}
