//! Where a process is found.
use hyper::Uri;
use std::fmt;
use std::path::PathBuf;
use std::str::FromStr;
use thiserror::Error;

/// Where a process is found.
#[derive(Clone, Debug, PartialEq, Eq, Hash)]
pub enum Address {
    /// `unix:PATH`: a socket of this machine.
    Unix(PathBuf),
    /// `http://HOST:PORT`, or `https://HOST:PORT`.
    Network {
        /// A name, or a number without brackets.
        host: String,
        /// The port.
        port: u16,
        /// Whether TLS is spoken there.
        is_tls: bool,
    },
}

/// A text that is no address.
#[derive(Clone, Debug, Error, PartialEq, Eq)]
#[error("{0} is none of unix:PATH, http://HOST:PORT, https://HOST:PORT")]
pub struct NoAddress(String);

impl FromStr for Address {
    type Err = NoAddress;

    fn from_str(text: &str) -> Result<Address, NoAddress> {
        let none = || NoAddress(text.to_owned());
        if let Some(path) = text.strip_prefix("unix:") {
            return match path.is_empty() {
                true => Err(none()),
                false => Ok(Address::Unix(path.into())),
            };
        }
        let uri: Uri = text.parse().map_err(|_| none())?;
        let is_tls = match uri.scheme_str() {
            Some("https") => true,
            Some("http") => false,
            _ => return Err(none()),
        };
        let authority = uri.authority().ok_or_else(none)?;
        let host = authority.host().trim_matches(|it| it == '[' || it == ']');
        let is_bare = uri.path() == "/" && uri.query().is_none() && !text.contains(['@', '#']);
        if host.is_empty() || !is_bare {
            return Err(none());
        }
        let port = authority
            .port_u16()
            .unwrap_or(if is_tls { 443 } else { 80 });
        Ok(Address::Network {
            host: host.to_owned(),
            port,
            is_tls,
        })
    }
}

impl fmt::Display for Address {
    fn fmt(&self, f: &mut fmt::Formatter<'_>) -> fmt::Result {
        match self {
            Address::Unix(path) => write!(f, "unix:{}", path.display()),
            Address::Network { is_tls: true, .. } => write!(f, "https://{}", self.host()),
            Address::Network { .. } => write!(f, "http://{}", self.host()),
        }
    }
}

impl Address {
    /// What the header `Host` says.
    pub(crate) fn host(&self) -> String {
        match self {
            Address::Unix(_) => "localhost".to_owned(),
            Address::Network { host, port, .. } if host.contains(':') => format!("[{host}]:{port}"),
            Address::Network { host, port, .. } => format!("{host}:{port}"),
        }
    }

    /// Whether what is sent there can be read by this machine alone, or by nobody else.
    pub(crate) fn is_private(&self) -> bool {
        match self {
            Address::Unix(_) => true,
            Address::Network { host, is_tls, .. } => {
                *is_tls || ["localhost", "127.0.0.1", "::1"].contains(&host.as_str())
            }
        }
    }
}

#[cfg(test)]
mod tests {
    use super::Address;

    #[test]
    fn what_is_no_address_is_refused() {
        for text in [
            "unix:/run/n1.sock",
            "http://a",
            "https://[::1]:8443",
            "https://a.example:1/",
        ] {
            let address: Address = text.parse().unwrap();
            let again: Address = address.to_string().parse().unwrap();
            assert_eq!(address, again, "{text}");
        }
        for text in [
            "",
            "unix:",
            "n1.sock",
            "ftp://a",
            "https://",
            "https://a/b",
            "https://a?b",
            "https://u@a",
            "https://a#b",
        ] {
            assert!(text.parse::<Address>().is_err(), "{text}");
        }
    }
}
