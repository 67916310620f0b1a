//! From which pages a request may come. A browser asks what any page has it ask: so a request of another page is told apart by what the browser says
//! of it, and refused.
//!
//! - On a loopback address, and on the unix socket, `Host` is a name of this machine or that of the public URL. A name that was pointed at this
//!   machine by a stranger's name server is neither.
//! - A request that may change something comes of no page, or of one of the same host.
use super::replies::Told;
use hyper::header::{HOST, ORIGIN};
use hyper::{HeaderMap, Method, Uri};
use std::net::{IpAddr, Ipv6Addr};

/// Refuses what another host's page may have had a browser ask.
pub(super) fn check(
    is_loopback: bool,
    public_url: Option<&str>,
    method: &Method,
    headers: &HeaderMap,
) -> Result<(), Told> {
    let text = |name| headers.get(name).map(|it| it.to_str().unwrap_or(""));
    let public: Option<Uri> = public_url.and_then(|url| url.parse().ok());
    let public = public.as_ref().and_then(Uri::host);
    let is_public = |host: &str| public.is_some_and(|public| public.eq_ignore_ascii_case(host));
    let host: Option<&str> = text(HOST);
    let is_ours = |host: &str| is_local(name_of(host)) || is_public(name_of(host));
    if is_loopback && !host.is_none_or(is_ours) {
        return Err(Told::OtherHost);
    }
    let changes = *method != Method::GET && *method != Method::HEAD;
    let Some(origin) = text(ORIGIN).filter(|_| changes) else {
        return Ok(());
    };
    let (_, page) = origin.split_once("://").unwrap_or(("", ""));
    let is_same = host.is_some_and(|host| host.eq_ignore_ascii_case(page));
    match !page.is_empty() && (is_same || is_public(name_of(page))) {
        true => Ok(()),
        false => Err(Told::OtherOrigin),
    }
}

/// The name of a host and perhaps a port.
fn name_of(host: &str) -> &str {
    let is_port = |port: &str| port.bytes().all(|it| it.is_ascii_digit());
    match host.rsplit_once(':') {
        Some((name, port)) if is_port(port) => name,
        _ => host,
    }
}

/// Whether a name is one of this machine alone.
fn is_local(name: &str) -> bool {
    let name = name.to_ascii_lowercase();
    if name == "localhost" || name.ends_with(".localhost") {
        return true;
    }
    let address = name.strip_prefix('[').and_then(|it| it.strip_suffix(']'));
    match address {
        Some(address) => address.parse().is_ok_and(|it: Ipv6Addr| it.is_loopback()),
        None => name.parse().is_ok_and(|it: IpAddr| it.is_loopback()),
    }
}

#[cfg(test)]
mod tests {
    use super::check;
    use hyper::header::{HeaderValue, HOST, ORIGIN};
    use hyper::{HeaderMap, Method};

    fn is_let_in(is_loopback: bool, method: Method, host: &str, origin: Option<&str>) -> bool {
        let mut headers = HeaderMap::new();
        headers.insert(HOST, HeaderValue::from_str(host).unwrap());
        if let Some(origin) = origin {
            headers.insert(ORIGIN, HeaderValue::from_str(origin).unwrap());
        }
        check(
            is_loopback,
            Some("https://Rbac.example/x"),
            &method,
            &headers,
        )
        .is_ok()
    }

    #[test]
    fn a_host_is_of_this_machine_or_the_public_one() {
        let ours = [
            "localhost",
            "LOCALHOST:80",
            "n1.localhost:1",
            "127.0.0.1:8443",
            "127.9.9.9",
            "[::1]:80",
            "rbac.example:443",
        ];
        let others = [
            "evil.example",
            "localhost.evil.example",
            "127.0.0.1.evil.example",
            "evil.example:80",
            "10.0.0.1",
            "[::2]",
            "",
            "::1:x",
        ];
        for host in ours {
            assert!(is_let_in(true, Method::GET, host, None), "{host}");
        }
        for host in others {
            assert!(!is_let_in(true, Method::GET, host, None), "{host}");
            // A network address has any name.
            assert!(is_let_in(false, Method::GET, host, None), "{host}");
        }
        assert!(check(true, None, &Method::POST, &HeaderMap::new()).is_ok());
    }

    #[test]
    fn what_may_change_something_comes_of_no_other_page() {
        let of = |origin| is_let_in(true, Method::POST, "localhost:8080", origin);
        let ours = [
            None,
            Some("http://localhost:8080"),
            Some("https://rbac.example"),
        ];
        assert!(ours.into_iter().all(of));
        for origin in [
            "null",
            "",
            "http://localhost",
            "http://localhost:81",
            "https://evil.example",
            "http://",
        ] {
            assert!(!of(Some(origin)), "{origin}");
            assert!(
                !is_let_in(false, Method::DELETE, "10.0.0.1", Some(origin)),
                "{origin}"
            );
            assert!(
                is_let_in(true, Method::GET, "localhost", Some(origin)),
                "{origin}"
            );
        }
    }
}
