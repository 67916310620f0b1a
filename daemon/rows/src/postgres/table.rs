//! The table of the cells: how it is made, what it has to be, and what is asked of it.
use super::faults::{fault_of_read, rolled_back};
use super::telling;
use crate::engine::Fault;
use tokio_postgres::error::SqlState;
use tokio_postgres::Client;

/// The columns, as the catalogue tells them. Names are compared byte by byte, so that no index goes wrong where a machine's order of letters changes;
/// a text is bytes, so that no encoding touches it.
const COLUMNS: &str = "row text C, number bigint, text bytea";

const KEY: &str = r#"PRIMARY KEY ("row", number)"#;

/// How often a table is looked for that another process makes meanwhile.
const TRIES: u32 = 5;

const LONGEST_NAME: usize = 63;

/// The table `cells` of a schema.
#[derive(Clone, Debug)]
pub(super) struct Table {
    schema: String,
}

/// What the server has in its place, and what the role may do with it.
struct Shape {
    is_kept: bool,
    columns: String,
    has_key: bool,
    may_set: bool,
    sees_all: bool,
    may_change: bool,
}

impl Table {
    pub(super) fn of(schema: &str) -> Result<Table, Fault> {
        let is_named = (1..=LONGEST_NAME).contains(&schema.len());
        let is_plain =
            |byte: u8| byte.is_ascii_lowercase() || byte.is_ascii_digit() || byte == b'_';
        match is_named && schema.bytes().all(is_plain) {
            true => Ok(Table {
                schema: schema.to_owned(),
            }),
            false => Err(Fault::Refused(
                "a schema's name has 1 to 63 bytes of a-z 0-9 _".to_owned(),
            )),
        }
    }

    /// The schema, which is the channel of its tidings too.
    pub(super) fn schema(&self) -> &str {
        &self.schema
    }

    fn name(&self) -> String {
        format!(r#""{}".cells"#, self.schema)
    }

    /// Sets the text `$3` in the row `$1` as number `$2`, where that is its next; else nothing.
    pub(super) fn insert_next(&self) -> String {
        let cells = self.name();
        format!(
            "INSERT INTO {cells} (row, number, text) SELECT $1, $2, $3
            WHERE $2 - 1 = (SELECT coalesce(max(number), 0) FROM {cells} WHERE row = $1)"
        )
    }

    /// Sets the texts `$3` in the row `$1` from number `$2` on: all, or none where one is taken or the one before is not there. A cell that another
    /// transaction is about to set is waited for: so of two sets of one cell the second inserts only where the first was rolled back. They go by
    /// their numbers, so that no two sets wait for each other. Where the row goes on behind the first of them, its last cell is set once more, in
    /// vain, like one that is taken: the first may be removed.
    pub(super) fn insert(&self) -> String {
        let cells = self.name();
        format!(
            "INSERT INTO {cells} (row, number, text)
            SELECT $1, CASE WHEN last < $2 THEN $2 + place - 1 ELSE last END, told
            FROM (SELECT coalesce(max(number), 0) AS last FROM {cells} WHERE row = $1) AS there,
                unnest($3) WITH ORDINALITY AS texts (told, place)
            WHERE last >= $2 - 1 ORDER BY place"
        )
    }

    /// Returns once each set that has begun has ended. One that begins later sees all that is there now.
    pub(super) fn wait_for_sets(&self) -> String {
        format!("BEGIN; LOCK TABLE {} IN SHARE MODE; COMMIT", self.name())
    }

    /// Removes the cells of the row `$1` before number `$2`.
    pub(super) fn delete(&self) -> String {
        format!("DELETE FROM {} WHERE row = $1 AND number < $2", self.name())
    }

    /// The first and the last number of the cells of the row `$1`.
    pub(super) fn ends(&self) -> String {
        let cells = self.name();
        format!("SELECT min(number), max(number) FROM {cells} WHERE row = $1")
    }

    /// The cells of the row `$1` from number `$2` on, each with whether the server has standbys that commits wait for.
    pub(super) fn select(&self) -> String {
        let cells = self.name();
        format!(
            "SELECT number, text, (SELECT current_setting('synchronous_standby_names') <> '')
            FROM {cells} WHERE row = $1 AND number >= $2 ORDER BY number"
        )
    }

    /// Makes it where it is not there.
    ///
    /// # Errors
    /// `Refused`, where this role may not.
    pub(super) async fn make(&self, client: &Client) -> Result<(), Fault> {
        for _ in 0..TRIES {
            if let Some(shape) = self.shape(client).await? {
                if shape.may_change {
                    tracing::info!("PostgreSQL: this role may change what is set: another one that may not is safer");
                }
                return Ok(());
            }
            match client.batch_execute(&self.making()).await {
                Err(error) if !is_race(&error) => return Err(fault_of_read(&error)),
                _ => {}
            }
        }
        Err(Fault::Silent(format!("{} can't be made", self.name())))
    }

    fn making(&self) -> String {
        let (schema, cells) = (&self.schema, self.name());
        let telling = telling::making(schema);
        format!(
            r#"DO $$ BEGIN
                IF to_regnamespace('"{schema}"') IS NULL THEN CREATE SCHEMA "{schema}"; END IF;
            END $$;
            CREATE TABLE {cells} (row text COLLATE "C" NOT NULL, number bigint NOT NULL CHECK (number > 0), text bytea NOT NULL,
                PRIMARY KEY (row, number));
            {telling}"#
        )
    }

    /// Whether it is there, is what it has to be, and may be used.
    ///
    /// # Errors
    /// `Refused`, where it is not.
    pub(super) async fn check(&self, client: &Client) -> Result<(), Fault> {
        let cells = self.name();
        let refused = |why: String| Err(Fault::Refused(format!("{cells} {why}")));
        let Some(shape) = self.shape(client).await? else {
            return refused("is not there".to_owned());
        };
        if shape.columns != COLUMNS || !shape.has_key {
            return refused(format!("has to have the columns {COLUMNS}, and {KEY}"));
        }
        if !shape.is_kept {
            return refused("is no table whose rows outlive a crash".to_owned());
        }
        if !shape.may_set {
            return refused("may not be read and inserted into by this role".to_owned());
        }
        if !shape.sees_all {
            return refused(
                "is shown to this role by a policy, which has to be USING (true)".to_owned(),
            );
        }
        Ok(())
    }

    async fn shape(&self, client: &Client) -> Result<Option<Shape>, Fault> {
        let asked = client.query_opt(SHAPE, &[&self.name(), &KEY]).await;
        let found = asked.map_err(|error| fault_of_read(&error))?;
        Ok(found.map(|row| Shape {
            is_kept: row.get(0),
            columns: row.get(1),
            has_key: row.get(2),
            may_set: row.get(3),
            sees_all: row.get(4),
            may_change: row.get(5),
        }))
    }
}

/// An unlogged table is empty after a crash; a view or a partition is another thing. Who is shown some rows alone takes the others for empty.
const SHAPE: &str = "SELECT relkind = 'r' AND relpersistence = 'p',
    (SELECT string_agg(concat_ws(' ', attname, format_type(atttypid, atttypmod), collname), ', ' ORDER BY attnum)
        FROM pg_attribute LEFT JOIN pg_collation ON pg_collation.oid = attcollation
        WHERE attrelid = cells.oid AND attnum > 0 AND NOT attisdropped),
    EXISTS (SELECT FROM pg_constraint WHERE conrelid = cells.oid AND contype = 'p' AND pg_get_constraintdef(oid) = $2),
    has_table_privilege(cells.oid, 'SELECT') AND has_table_privilege(cells.oid, 'INSERT'),
    NOT row_security_active(cells.oid) OR (SELECT coalesce(bool_and(polpermissive) AND bool_or(pg_get_expr(polqual, polrelid) = 'true'), false)
        FROM pg_policy WHERE polrelid = cells.oid AND polcmd IN ('r', '*')
        AND EXISTS (SELECT FROM unnest(polroles) AS role WHERE role = 0 OR pg_has_role(role, 'USAGE'))),
    has_table_privilege(cells.oid, 'UPDATE, TRUNCATE')
    FROM pg_class AS cells WHERE oid = to_regclass($1)";

/// Whether another process made it at the same time.
fn is_race(error: &tokio_postgres::Error) -> bool {
    rolled_back(error).is_some_and(|told| {
        [
            SqlState::UNIQUE_VIOLATION,
            SqlState::DUPLICATE_SCHEMA,
            SqlState::DUPLICATE_TABLE,
            SqlState::DUPLICATE_FUNCTION,
            SqlState::T_R_DEADLOCK_DETECTED,
        ]
        .contains(told.code())
    })
}

#[cfg(test)]
mod tests {
    use super::Table;

    #[test]
    fn a_schema_has_a_plain_name() {
        assert!(Table::of("a_group_2").is_ok());
        for name in ["", "A", "a b", "a\"b", "a;b", &"a".repeat(64)] {
            assert!(Table::of(name).is_err(), "{name}");
        }
    }
}
