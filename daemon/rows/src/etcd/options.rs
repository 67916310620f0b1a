//! What the engine is opened with, and what of it is refused before anything is asked.
use crate::engine::Fault;
use hyper::Uri;
use std::net::IpAddr;
use std::path::PathBuf;
use std::time::Duration;

const CONNECT: Duration = Duration::from_secs(2);
const REPLY: Duration = Duration::from_secs(5);

/// Where the rows are, and how they are reached.
#[derive(Clone, Debug)]
pub struct Options {
    /// Members of one cluster, one or more: `http://host:port` or `https://host:port`, and no more. An https host is a name, no number.
    pub endpoints: Vec<Uri>,
    /// What the key of each cell begins with: 1 to 128 bytes of `A-Z a-z 0-9 _ - . /`, of which the last is no `/`. Each group has one of its
    /// own, and none lies under another's.
    pub prefix: String,
    /// The PEM file with the certificates of the authority that an https endpoint's own is of. No other authority is trusted.
    pub authority: Option<PathBuf>,
    /// As whom etcd is asked; needed where its authentication is enabled. Over http only on this machine.
    pub login: Option<Login>,
    /// After this time an endpoint that takes no connection is silent: 2 s by default.
    pub connect: Duration,
    /// After this time the reply to a request is lost: 5 s by default.
    pub reply: Duration,
}

/// A user of etcd.
#[derive(Clone, Debug)]
pub struct Login {
    /// Its name.
    pub user: String,
    /// The file whose first line is its password. It is read each time etcd asks for it.
    pub password: PathBuf,
}

impl Options {
    /// Over these members of a cluster, under this prefix, without authority and login.
    pub fn of(endpoints: Vec<Uri>, prefix: impl Into<String>) -> Options {
        Options {
            endpoints,
            prefix: prefix.into(),
            authority: None,
            login: None,
            connect: CONNECT,
            reply: REPLY,
        }
    }

    /// Looks at the endpoints.
    ///
    /// # Errors
    /// `Refused`.
    pub(super) fn check(&self) -> Result<(), Fault> {
        if self.endpoints.is_empty() {
            return Err(Fault::Refused("no endpoint of etcd is named".to_owned()));
        }
        let mut faults = self.endpoints.iter().filter_map(|uri| self.fault_of(uri));
        faults.next().map_or(Ok(()), |why| Err(Fault::Refused(why)))
    }

    /// What is wrong with an endpoint. One with a password in it is not told on.
    fn fault_of(&self, uri: &Uri) -> Option<String> {
        let authority = uri.authority().map_or("", |authority| authority.as_str());
        let is_bare = uri.path_and_query().is_none_or(|path| path == "/");
        let host = uri.host().unwrap_or_default();
        if authority.contains('@') || host.is_empty() || !is_bare {
            return Some("an endpoint is http:// or https://, a host and a port".to_owned());
        }
        let why = match uri.scheme_str() {
            Some("https") if self.authority.is_none() => "https needs the file of an authority",
            Some("https") if address_of(host).is_some() => {
                "https needs the host's name: certificates are not looked at for numbers"
            }
            Some("https") => return None,
            Some("http") if self.login.is_some() && !is_loopback(host) => {
                "a password goes to another machine over https alone"
            }
            Some("http") => return None,
            _ => "an endpoint is http:// or https://, a host and a port",
        };
        Some(format!("{uri}: {why}"))
    }
}

fn address_of(host: &str) -> Option<IpAddr> {
    host.trim_matches(['[', ']']).parse().ok()
}

fn is_loopback(host: &str) -> bool {
    host == "localhost" || address_of(host).is_some_and(|address| address.is_loopback())
}

#[cfg(test)]
mod tests {
    use super::{Login, Options};
    use crate::engine::Fault;

    fn check(uri: &str, change: fn(&mut Options)) -> Result<(), Fault> {
        let mut options = Options::of(vec![uri.parse().unwrap()], "rows");
        change(&mut options);
        options.check()
    }

    fn with_login(options: &mut Options) {
        options.login = Some(Login {
            user: "n1".to_owned(),
            password: "n1.password".into(),
        });
    }

    fn with_authority(options: &mut Options) {
        options.authority = Some("authority.pem".into());
    }

    #[test]
    fn an_endpoint_is_a_member_of_a_cluster() {
        for uri in [
            "http://10.0.0.7:2379",
            "http://etcd.example/",
            "http://[::1]:1",
        ] {
            assert_eq!(check(uri, |_| {}), Ok(()), "{uri}");
        }
        for uri in [
            "ftp://a",
            "/v3",
            "http://a/v3",
            "http://a:1?b",
            "http://u:secret@a",
        ] {
            let Err(Fault::Refused(why)) = check(uri, |_| {}) else {
                panic!("{uri}");
            };
            assert!(!why.contains("secret"));
        }
        let none = Options::of(Vec::new(), "rows");
        assert!(matches!(none.check(), Err(Fault::Refused(_))));
    }

    #[test]
    fn https_is_asked_of_a_name_by_an_authority() {
        assert_eq!(check("https://etcd.example", with_authority), Ok(()));
        for uri in ["https://10.0.0.7:2379", "https://[::1]:2379"] {
            assert!(matches!(check(uri, with_authority), Err(Fault::Refused(_))));
        }
        let told = check("https://etcd.example", |_| {});
        assert!(matches!(told, Err(Fault::Refused(_))));
    }

    #[test]
    fn a_password_leaves_the_machine_over_https_alone() {
        for uri in ["http://127.0.0.1:1", "http://localhost:1", "http://[::1]:1"] {
            assert_eq!(check(uri, with_login), Ok(()), "{uri}");
        }
        for uri in [
            "http://10.0.0.7:1",
            "http://localhost.example",
            "http://127.example",
        ] {
            assert!(
                matches!(check(uri, with_login), Err(Fault::Refused(_))),
                "{uri}"
            );
        }
    }
}
