//! What an error means.
//!
//! An error of severity ERROR says that the transaction was rolled back: what is behind a commit's record is never told by one. FATAL and PANIC,
//! and a connection that ends, say nothing of what became of it.
use crate::engine::{Fault, Told};
use std::error::Error as _;
use std::io;
use tokio_postgres::error::{DbError, Severity, SqlState};
use tokio_postgres::Error;
use tokio_rustls::rustls;

/// The server's own error, where it says that the statement was rolled back and the session goes on.
pub(super) fn rolled_back(error: &Error) -> Option<&DbError> {
    error
        .as_db_error()
        .filter(|told| told.parsed_severity() == Some(Severity::Error))
}

/// What became of a set that was sent and was answered so.
pub(super) fn told_of_set(error: &Error) -> Result<Told, Fault> {
    let Some(told) = rolled_back(error) else {
        return Ok(unsure(error));
    };
    match *told.code() {
        SqlState::UNIQUE_VIOLATION => Ok(Told::Taken),
        SqlState::DISK_FULL | SqlState::OUT_OF_MEMORY => Err(Fault::Full),
        // Another session stood in the way, or the server lets nobody write now; later it may.
        SqlState::T_R_SERIALIZATION_FAILURE
        | SqlState::T_R_DEADLOCK_DETECTED
        | SqlState::LOCK_NOT_AVAILABLE
        | SqlState::READ_ONLY_SQL_TRANSACTION => Err(Fault::Silent(error.to_string())),
        _ if is_refusal(told.code()) => Err(Fault::Refused(error.to_string())),
        _ => Ok(unsure(error)),
    }
}

fn unsure(error: &Error) -> Told {
    tracing::warn!("PostgreSQL: it is not known what became of a set: {error}");
    Told::Unsure
}

/// Why nothing was read.
pub(super) fn fault_of_read(error: &Error) -> Fault {
    match error.as_db_error() {
        Some(told) if is_refusal(told.code()) => Fault::Refused(error.to_string()),
        _ => Fault::Silent(error.to_string()),
    }
}

/// Why there is no connection.
pub(super) fn fault_of_connect(error: &Error) -> Fault {
    let is_refused = match (error.as_db_error(), error.source()) {
        (Some(told), _) => is_refusal(told.code()),
        (None, Some(source)) => match source.downcast_ref::<io::Error>() {
            Some(error) => is_wrong_server(error),
            // What the client itself says of its words, and of a server that has no TLS.
            None => true,
        },
        (None, None) => false,
    };
    match is_refused {
        true => Fault::Refused(error.to_string()),
        false => Fault::Silent(error.to_string()),
    }
}

/// Whether an operator has to mend it: rights, passwords, names of what is not there.
fn is_refusal(code: &SqlState) -> bool {
    let class = code.code().get(..2).unwrap_or_default();
    matches!(class, "28" | "3D" | "3F" | "42")
}

/// Whether the server is none that the authority knows, or does not know the password itself.
fn is_wrong_server(error: &io::Error) -> bool {
    let inner = error.get_ref();
    error.kind() == io::ErrorKind::InvalidInput || inner.is_some_and(|it| it.is::<rustls::Error>())
}
