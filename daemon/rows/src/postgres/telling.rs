//! Tidings with the texts of cells: two functions of the schema, by which the server itself tells them, and nobody else can.
//!
//! A channel is anybody's to hear and tell on who may connect and knows its name. So each process that hears texts has a channel of its own, whose
//! name is random, and known to that process and to the functions' owner alone: `hear_cells` makes it, and `tell_cells` tells there what the table has.
//! Whoever calls that one says which cells are told, and not what they are.

/// As the operator makes it, of the schema `fochillun`. The README has the same text.
const MAKING: &str = include_str!("telling.sql");

/// A schema's name as it stands there, behind a blank or a quotation mark.
const SCHEMA: &str = "fochillun";

/// What makes the functions of a schema, and the table that they use.
pub(super) fn making(schema: &str) -> String {
    let named = MAKING.replace(&format!(" {SCHEMA}."), &format!(r#" "{schema}"."#));
    named.replace(&format!("'{SCHEMA}'"), &format!("'{schema}'"))
}

/// Whether there are such functions, and this role may call them.
pub(super) fn is_there(schema: &str) -> String {
    let may = |function: &str| {
        format!(r#"has_function_privilege(to_regprocedure('"{schema}".{function}'), 'EXECUTE')"#)
    };
    let functions = [
        may("hear_cells()"),
        may("tell_cells(text, bigint, bigint, text)"),
    ];
    format!("SELECT coalesce({}, false)", functions.join(" AND "))
}

/// Has the connection hear texts, and tells the name of its channel; none where as many hear them already as may.
pub(super) fn hear(schema: &str) -> String {
    format!(r#"SELECT "{schema}".hear_cells()"#)
}

/// Tells of the cells from number `$2` to `$3` of the row `$1`, but not on the channel `$4`.
pub(super) fn tell(schema: &str) -> String {
    format!(r#"SELECT "{schema}".tell_cells($1, $2, $3, $4)"#)
}

#[cfg(test)]
mod tests {
    use super::{making, MAKING};

    #[test]
    fn the_page_has_what_the_operator_makes() {
        assert!(include_str!("../../README.md").contains(MAKING));
    }

    #[test]
    fn each_name_is_that_of_the_schema() {
        let made = making("a_group");
        assert_eq!(made.matches("fochillun").count(), 1);
        assert!(made.contains("'fochillun_'"));
        assert_eq!(made.matches(r#""a_group"."#).count(), 10);
    }
}
