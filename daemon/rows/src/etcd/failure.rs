//! Why etcd did not do what it was asked for, and what that says of a set and of a get.
use super::messages::ReplyError;
use crate::engine::{Fault, Told};
use crate::text::MOST;
use hyper::StatusCode;
use std::error::Error;
use std::io;

/// Why there is no reply of the kind that was asked for.
#[derive(Debug, PartialEq, Eq)]
pub(super) enum Failure {
    /// There is no connection, or no token: it was not sent.
    Unsent(Fault),
    /// It was sent, and its reply is lost: it is carried out, now or later, or not.
    Lost(String),
    /// What came back is none of what is known here: as if it were lost.
    Unknown(String),
    /// The token is one no more. It is not carried out.
    Token,
    /// The user has no right to it, or there is none. It is not carried out.
    Denied(String),
    /// Its operations or bytes are too many, by the server's settings. It is not carried out.
    TooMuch,
    /// The server has too much to do. It is not carried out.
    Busy,
    /// The store is full. It is not carried out, or, where this very request has filled it, it is.
    NoSpace,
    /// Members of the cluster were found to differ.
    Corrupt,
}

impl Failure {
    /// By what came back in place of a reply.
    pub(super) fn of_reply(status: StatusCode, body: &[u8]) -> Failure {
        match serde_json::from_slice::<ReplyError>(body) {
            Ok(error) => Failure::of_error(error.code, &error.message),
            Err(_) => Failure::Unknown(format!("status {status}")),
        }
    }

    /// By an error of etcd: the number of its kind in gRPC, and its text.
    pub(super) fn of_error(code: u32, message: &str) -> Failure {
        const CANCELLED: u32 = 1;
        const TOO_LATE: u32 = 4;
        const UNAVAILABLE: u32 = 14;
        let text = message.rsplit("desc = ").next().unwrap_or(message);
        let known = text.strip_prefix("etcdserver: ").unwrap_or(text);
        match known {
            "mvcc: database space exceeded" => Failure::NoSpace,
            "request is too large" | "too many operations in txn request" => Failure::TooMuch,
            "too many requests" => Failure::Busy,
            "invalid auth token" | "revision of auth store is old" => Failure::Token,
            "permission denied"
            | "user name is empty"
            | "authentication is not enabled"
            | "authentication failed, invalid user ID or password" => {
                Failure::Denied(known.to_owned())
            }
            "corrupt cluster" => Failure::Corrupt,
            _ if matches!(code, CANCELLED | TOO_LATE | UNAVAILABLE) => {
                Failure::Lost(text.to_owned())
            }
            _ => Failure::Unknown(text.to_owned()),
        }
    }

    /// By an error of the connection.
    pub(super) fn of_connection(error: &hyper::Error) -> Failure {
        if !error.is_connect() {
            return Failure::Lost(error.to_string());
        }
        Failure::Unsent(match refused_by_tls(error) {
            Some(why) => Fault::Refused(why.to_string()),
            None => Fault::Silent(told_by_all(error)),
        })
    }

    /// Whether another member of the cluster may do it.
    pub(super) fn is_of_the_member(&self) -> bool {
        matches!(
            self,
            Failure::Unsent(_) | Failure::Lost(_) | Failure::Unknown(_) | Failure::Busy
        )
    }

    /// What a set is told. Where it may have been carried out, it is `Unsure`.
    ///
    /// # Errors
    /// Where nothing was set.
    pub(super) fn of_set(self) -> Result<Told, Fault> {
        match self {
            Failure::Lost(why) => {
                tracing::debug!("the reply to a set is lost: {why}");
                Ok(Told::Unsure)
            }
            Failure::Unknown(why) => {
                tracing::warn!("what etcd answers to a set is not known: {why}");
                Ok(Told::Unsure)
            }
            other => Err(other.fault()),
        }
    }

    /// What a get is told, and a set that was not carried out.
    pub(super) fn fault(self) -> Fault {
        match self {
            Failure::Unsent(fault) => fault,
            Failure::Lost(why) | Failure::Unknown(why) => Fault::Silent(why),
            Failure::Busy => Fault::Silent("too many requests".to_owned()),
            Failure::Token => Fault::Silent("the token is none already".to_owned()),
            Failure::Denied(why) => Fault::Refused(why),
            Failure::TooMuch => Fault::TooMuch(MOST),
            Failure::NoSpace => Fault::Full,
            Failure::Corrupt => Fault::Broken("members of the cluster differ".to_owned()),
        }
    }
}

/// What TLS has against the server, where that is why there is no connection.
fn refused_by_tls<'e>(error: &'e (dyn Error + 'static)) -> Option<&'e rustls::Error> {
    if let Some(found) = error.downcast_ref() {
        return Some(found);
    }
    let within = error
        .downcast_ref::<io::Error>()
        .and_then(io::Error::get_ref);
    match within {
        Some(within) => refused_by_tls(within),
        None => error.source().and_then(refused_by_tls),
    }
}

/// The text of an error and of what it came of.
fn told_by_all(error: &(dyn Error + 'static)) -> String {
    match error.source() {
        Some(source) => format!("{error}: {}", told_by_all(source)),
        None => error.to_string(),
    }
}

#[cfg(test)]
mod tests {
    use super::Failure;
    use crate::engine::{Fault, Told};
    use hyper::StatusCode;

    fn of_set(code: u32, message: &str) -> Result<Told, Fault> {
        Failure::of_error(code, message).of_set()
    }

    #[test]
    fn a_set_is_unsure_where_it_may_have_been_carried_out() {
        for (code, message) in [
            (14, "etcdserver: request timed out"),
            (
                14,
                "etcdserver: request timed out, possibly due to previous leader failure",
            ),
            (
                14,
                "etcdserver: request timed out, possibly due to connection lost",
            ),
            (14, "etcdserver: leader changed"),
            (14, "etcdserver: no leader"),
            (14, "etcdserver: server stopped"),
            (14, "transport is closing"),
            (4, "context deadline exceeded"),
            (2, "what no version says so far"),
            (0, ""),
        ] {
            assert_eq!(of_set(code, message), Ok(Told::Unsure), "{message}");
            let of_get = Failure::of_error(code, message).fault();
            assert!(matches!(of_get, Fault::Silent(_)), "{message}");
        }
        for body in ["", "<html>", "{}", r#"{"error":"bad gateway"}"#] {
            let failure = Failure::of_reply(StatusCode::BAD_GATEWAY, body.as_bytes());
            assert_eq!(failure.of_set(), Ok(Told::Unsure), "{body}");
        }
    }

    #[test]
    fn what_was_not_carried_out_says_why() {
        let refused = |message| matches!(of_set(7, message), Err(Fault::Refused(_)));
        assert!(refused("etcdserver: permission denied"));
        assert!(refused("etcdserver: user name is empty"));
        assert!(refused("etcdserver: authentication is not enabled"));
        assert!(refused(
            "etcdserver: authentication failed, invalid user ID or password"
        ));
        let too_much = of_set(3, "etcdserver: request is too large");
        assert!(matches!(too_much, Err(Fault::TooMuch(_))));
        let busy = of_set(8, "etcdserver: too many requests");
        assert!(matches!(busy, Err(Fault::Silent(_))));
        let corrupt = of_set(15, "etcdserver: corrupt cluster");
        assert!(matches!(corrupt, Err(Fault::Broken(_))));
        let full = Failure::of_error(8, "etcdserver: mvcc: database space exceeded");
        assert_eq!(full, Failure::NoSpace);
        let reason = "rpc error: code = PermissionDenied desc = etcdserver: permission denied";
        assert!(matches!(Failure::of_error(0, reason), Failure::Denied(_)));
    }
}
