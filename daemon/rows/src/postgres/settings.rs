//! What is asked of a server, and of the session itself, before anything is set or read there.
use super::faults::fault_of_read;
use crate::engine::Fault;
use std::time::Duration;
use tokio_postgres::Client;

const OLDEST: i32 = 150_000;

/// What the server says of itself.
pub(super) struct Settings {
    version: i32,
    is_standby: bool,
    is_read_only: bool,
    fsync: String,
    full_page_writes: String,
    synchronous_commit: String,
    standbys: String,
}

const ASKED: &str = "SELECT current_setting('server_version_num')::int, pg_is_in_recovery(),
    current_setting('default_transaction_read_only')::bool, current_setting('fsync'), current_setting('full_page_writes'),
    current_setting('synchronous_commit'), current_setting('synchronous_standby_names')";

impl Settings {
    pub(super) async fn ask(client: &Client) -> Result<Settings, Fault> {
        let asked = client.query_one(ASKED, &[]).await;
        let row = asked.map_err(|error| fault_of_read(&error))?;
        Ok(Settings {
            version: row.get(0),
            is_standby: row.get(1),
            is_read_only: row.get(2),
            fsync: row.get(3),
            full_page_writes: row.get(4),
            synchronous_commit: row.get(5),
            standbys: row.get(6),
        })
    }

    /// Whether what is told to be set there outlives a crash of the server, and where it has synchronous standbys the loss of its machine.
    ///
    /// `synchronous_commit` has to be `on`, where a commit is told once it is on this disk and on those of the synchronous standbys, or `remote_apply`,
    /// which waits longer. With `off` it is on no disk, with `local` on no standby's, with `remote_write` in a standby's memory. The session could
    /// set it for itself, and does; but whoever set another one for the role, the database or the server meant something else, and is asked.
    pub(super) fn check(&self) -> Result<(), Fault> {
        let refused = |why: String| Err(Fault::Refused(why));
        if self.version < OLDEST {
            return refused("PostgreSQL before 15".to_owned());
        }
        // What it shows may be old, and it takes no set. It may be promoted.
        if self.is_standby {
            return Err(Fault::Silent("this server is a standby".to_owned()));
        }
        if self.is_read_only {
            return refused("default_transaction_read_only = on".to_owned());
        }
        for (name, value) in [
            ("fsync", &self.fsync),
            ("full_page_writes", &self.full_page_writes),
        ] {
            if value != "on" {
                return refused(format!("{name} = {value}: a crash loses what was told"));
            }
        }
        if !matches!(self.synchronous_commit.as_str(), "on" | "remote_apply") {
            return refused(format!(
                "synchronous_commit = {}: it has to be on, or remote_apply",
                self.synchronous_commit
            ));
        }
        Ok(())
    }

    /// Whether one disk is all that keeps what is set.
    pub(super) fn is_alone(&self) -> bool {
        self.standbys.is_empty()
    }

    /// Sets for the session what it rests on, whatever the server's files, the database and the role say, now or later.
    pub(super) async fn fix(&self, client: &Client, patience: Duration) -> Result<(), Fault> {
        let words = [
            // No function or operator of another schema is taken for the server's own.
            "SET search_path = pg_catalog".to_owned(),
            format!("SET synchronous_commit = {}", self.synchronous_commit),
            // That a wait for a standby was cancelled is told by a warning alone.
            "SET client_min_messages = warning".to_owned(),
            // A cell that another transaction has just set is seen by the next statement.
            "SET default_transaction_isolation = 'read committed'".to_owned(),
            // Who waits for the same cell in vain is told so before it gives up.
            format!("SET lock_timeout = {}", patience.as_millis() / 2),
            // A row is read for as long as cells come.
            "SET statement_timeout = 0".to_owned(),
            "SET idle_session_timeout = 0".to_owned(),
            // Where the server has commits wait for others (commit_delay), these do however few there are: members set at one time, and are few.
            "SET commit_siblings = 0".to_owned(),
            // Each statement is planned once, and goes by the key, however large the table is: planning takes longer than the reading of a cell.
            "SET plan_cache_mode = force_generic_plan".to_owned(),
            "SET enable_seqscan = off".to_owned(),
            "SET enable_bitmapscan = off".to_owned(),
            // A statement that has to go by no key, as that of tidings, is none that is worth to be compiled.
            "SET jit = off".to_owned(),
        ];
        let fixed = client.batch_execute(&words.join("; ")).await;
        fixed.map_err(|error| fault_of_read(&error))
    }
}

#[cfg(test)]
mod tests {
    use super::Settings;

    fn settings() -> Settings {
        Settings {
            version: 150_000,
            is_standby: false,
            is_read_only: false,
            fsync: "on".to_owned(),
            full_page_writes: "on".to_owned(),
            synchronous_commit: "on".to_owned(),
            standbys: String::new(),
        }
    }

    #[test]
    fn a_server_that_is_too_old_or_loses_what_it_told_is_refused() {
        assert!(settings().check().is_ok());
        for change in [
            |it: &mut Settings| it.version = 140_009,
            |it: &mut Settings| it.is_standby = true,
            |it: &mut Settings| it.is_read_only = true,
            |it: &mut Settings| it.fsync = "off".to_owned(),
            |it: &mut Settings| it.full_page_writes = "off".to_owned(),
            |it: &mut Settings| it.synchronous_commit = "remote_write".to_owned(),
        ] {
            let mut wrong = settings();
            change(&mut wrong);
            assert!(wrong.check().is_err());
        }
    }
}
