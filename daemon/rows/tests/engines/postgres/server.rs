//! Rows that are opened in a server of PostgreSQL.
use rows::postgres::Options;
pub use servers::postgres::{give, Server};

/// What has rows.
pub trait HasRows {
    /// By what those of a schema are opened as a role.
    fn options(&self, role: &str, schema: &str) -> Options;
}

impl HasRows for Server {
    fn options(&self, role: &str, schema: &str) -> Options {
        Options {
            schema: schema.to_owned(),
            ..Options::of(self.words(role))
        }
    }
}
