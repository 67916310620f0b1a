//! The hosts that the words of a connection name.
use crate::engine::Fault;
use std::net::IpAddr;
use tokio_postgres::config::Host;
use tokio_postgres::{Config, Error};

const PORT: u16 = 5432;

/// What the words say, once for each host: so that one that hangs keeps nobody from the next.
pub(super) fn hosts_of(words: &str) -> Result<Vec<Config>, Fault> {
    let read: Result<Config, Error> = words.parse();
    let read = read.map_err(|error| Fault::Refused(error.to_string()))?;
    if read.get_password().is_some() {
        let why = "the password stands in a file, and not in the words of the connection";
        return Err(Fault::Refused(why.to_owned()));
    }
    let (hosts, ports) = (read.get_hosts(), read.get_ports());
    if hosts.is_empty() || (ports.len() > 1 && ports.len() != hosts.len()) {
        let why = "the words of the connection name a host, and a port for all or each";
        return Err(Fault::Refused(why.to_owned()));
    }
    let port = |place: usize| ports.get(place).or(ports.first()).unwrap_or(&PORT);
    let each = hosts.iter().enumerate();
    Ok(each
        .map(|(place, host)| one_host(&read, host, *port(place)))
        .collect())
}

fn one_host(read: &Config, host: &Host, port: u16) -> Config {
    let mut config = Config::new();
    match host {
        Host::Tcp(name) => config.host(name),
        Host::Unix(path) => config.host_path(path),
    };
    config.port(port);
    config.application_name(read.get_application_name().unwrap_or("fochillund"));
    config.keepalives(read.get_keepalives());
    config.keepalives_idle(read.get_keepalives_idle());
    config.channel_binding(read.get_channel_binding());
    if let Some(user) = read.get_user() {
        config.user(user);
    }
    if let Some(name) = read.get_dbname() {
        config.dbname(name);
    }
    if let Some(options) = read.get_options() {
        config.options(options);
    }
    config
}

/// Whether nobody but this machine hears what is sent there.
pub(super) fn is_local(host: &Host) -> bool {
    match host {
        Host::Unix(_) => true,
        Host::Tcp(name) => {
            let address: Option<IpAddr> = name.parse().ok();
            name == "localhost" || address.is_some_and(|address| address.is_loopback())
        }
    }
}

#[cfg(test)]
mod tests {
    use super::{hosts_of, is_local};
    use tokio_postgres::config::Host;

    #[test]
    fn each_host_is_asked_by_itself() {
        let configs = hosts_of("postgresql://ann@a:1,b:2/groups?options=-c%20geqo%3Doff").unwrap();
        let told: Vec<_> = configs
            .iter()
            .map(|it| {
                (
                    it.get_hosts(),
                    it.get_ports(),
                    it.get_user(),
                    it.get_dbname(),
                    it.get_options(),
                )
            })
            .collect();
        let of = |host: &str| [Host::Tcp(host.to_owned())];
        let (ann, groups, options) = (Some("ann"), Some("groups"), Some("-c geqo=off"));
        assert_eq!(told[0], (&of("a")[..], &[1][..], ann, groups, options));
        assert_eq!(told[1], (&of("b")[..], &[2][..], ann, groups, options));
        let one_port = hosts_of("host=a,b port=7 user=ann").unwrap();
        assert!(one_port.iter().all(|it| it.get_ports() == [7]));
        for words in [
            "user=ann",
            "host=a,b,c port=1,2 user=ann",
            "host=a password=b",
            "host=a port=b",
            "=",
        ] {
            assert!(hosts_of(words).is_err(), "{words}");
        }
    }

    #[test]
    fn this_machine_is_known() {
        let tcp = |name: &str| Host::Tcp(name.to_owned());
        for name in ["localhost", "127.0.0.1", "127.1.2.3", "::1"] {
            assert!(is_local(&tcp(name)), "{name}");
        }
        for name in ["localhost.example", "10.0.0.1", "0.0.0.0", "::", "db"] {
            assert!(!is_local(&tcp(name)), "{name}");
        }
        assert!(is_local(&Host::Unix("/run/postgresql".into())));
    }
}
