//! Certificates that a test makes, by openssl.
use crate::etcd::Certificate;
use std::fs;
use std::path::{Path, PathBuf};
use std::process::Command;
use tempfile::TempDir;

/// An authority of its own.
pub struct Authority(TempDir);

impl Default for Authority {
    fn default() -> Authority {
        Authority::new()
    }
}

impl Authority {
    /// One that nobody knows yet.
    pub fn new() -> Authority {
        let authority = Authority(tempfile::tempdir().expect("a folder"));
        let (pem, key) = (authority.pem(), authority.file("authority.key"));
        let key = key.display().to_string();
        let out = pem.display().to_string();
        let words = "req -x509 -newkey ec -pkeyopt ec_paramgen_curve:prime256v1 -nodes -days 2 -subj /CN=authority";
        openssl(words, &["-keyout", &key, "-out", &out]);
        authority
    }

    /// Its own certificate.
    pub fn pem(&self) -> PathBuf {
        self.file("authority.pem")
    }

    /// The certificate of a host of this name.
    pub fn certificate(&self, host: &str) -> Certificate {
        self.certificate_for(host, 2)
    }

    /// The same that has run out: a day ago.
    pub fn expired(&self, host: &str) -> Certificate {
        self.certificate_for(host, -1)
    }

    fn certificate_for(&self, host: &str, days: i32) -> Certificate {
        let file = |end: &str| {
            self.file(&format!("{host}.{days}.{end}"))
                .display()
                .to_string()
        };
        let [request, key, certificate, named] = ["csr", "key", "pem", "cnf"].map(file);
        let words = "req -newkey ec -pkeyopt ec_paramgen_curve:prime256v1 -nodes -subj /CN=host";
        openssl(words, &["-keyout", &key, "-out", &request]);
        fs::write(&named, format!("subjectAltName=DNS:{host}")).expect("it is written");
        let authority = ["authority.pem", "authority.key"].map(|name| self.file(name));
        let [pem, signs] = authority.map(|path| path.display().to_string());
        let files = [
            "-in", &request, "-CA", &pem, "-CAkey", &signs, "-extfile", &named,
        ];
        openssl(
            &format!("x509 -req -days {days} -CAcreateserial"),
            &[&files[..], &["-out", &certificate]].concat(),
        );
        Certificate {
            certificate: certificate.into(),
            key: key.into(),
        }
    }

    fn file(&self, name: &str) -> PathBuf {
        Path::new(self.0.path()).join(name)
    }
}

fn openssl(words: &str, files: &[&str]) {
    let words = words.split(' ').chain(files.iter().copied());
    let told = Command::new("openssl").args(words).output();
    let told = told.expect("openssl: apt-get install openssl");
    assert!(told.status.success(), "{told:?}");
}
