//! Hierarchies in which a role is the ascendant of one declared pair at most.

mod answering;
mod playing;

use answering::check;

const DONE: &str = r#""Done""#;
const LIMITED: &str = r#"{"denied":"Limited","number":29}"#;
const INHERITS: &str = r#"{"denied":"Inherits","number":15}"#;
const CYCLE: &str = r#"{"denied":"Cycle","number":17}"#;
const SSD_VIOLATED: &str = r#"{"denied":"SsdViolated","number":18}"#;
const NO_ROLE: &str = r#"{"denied":"NoRole","number":4}"#;
const ROLE_EXISTS: &str = r#"{"denied":"RoleExists","number":3}"#;
const LIMIT: &str = r#"{"denied":"Limit","number":26}"#;

/// The sample founding with another version.
fn founding(version: &str) -> String {
    format!(
        "{version}
members = 1
operations = [\"approve\", \"pay\", \"read\"]
objects = [\"invoice\", \"ledger\"]
permissions = [[\"approve\", \"invoice\"], [\"pay\", \"invoice\"], [\"read\", \"ledger\"]]
"
    )
}

fn limited() -> String {
    founding("version = 2\nhierarchy = \"limited\"")
}

/// The pairs of a limited hierarchy, whose answers under a general one stand beside them.
const PAIRS: [(&str, &str, &str); 10] = [
    ("AddRole role=a", DONE, DONE),
    ("AddRole role=b", DONE, DONE),
    ("AddRole role=c", DONE, DONE),
    ("AddInheritance ascendant=a descendant=b", DONE, DONE),
    ("AddInheritance ascendant=a descendant=c", LIMITED, DONE),
    ("AddInheritance ascendant=a descendant=b", INHERITS, INHERITS),
    ("AddInheritance ascendant=b descendant=a", CYCLE, CYCLE),
    ("AddInheritance ascendant=c descendant=b", DONE, DONE),
    ("AddDescendant ascendant=a descendant=d", LIMITED, DONE),
    ("AddAscendant ascendant=e descendant=a", DONE, DONE),
];

#[test]
fn a_role_is_the_ascendant_of_one_pair() {
    let mut rows: Vec<(&str, &str)> = PAIRS.iter().map(|(command, answer, _)| (*command, *answer)).collect();
    rows.extend([
        ("DeleteInheritance ascendant=a descendant=b", DONE),
        ("AddInheritance ascendant=a descendant=c", DONE),
    ]);
    check(&limited(), &rows);
}

#[test]
fn a_general_hierarchy_is_that_of_version_1() {
    let rows: Vec<(&str, &str)> = PAIRS.iter().map(|(command, _, answer)| (*command, *answer)).collect();
    for version in ["version = 1", "version = 2\nhierarchy = \"general\""] {
        check(&founding(version), &rows);
    }
}

/// What comes before it and after it in the rows of both commands.
#[test]
fn the_first_failing_precondition_is_named() {
    check(
        &limited(),
        &[
            ("AddUser user=ann", DONE),
            ("AddRole role=a", DONE),
            ("AddRole role=b", DONE),
            ("AddRole role=c", DONE),
            ("AssignUser user=ann role=a", DONE),
            ("CreateSsdSet set=s roles=[a,c] n=2", DONE),
            // While a has no descendant, the set is what denies it.
            ("AddInheritance ascendant=a descendant=c", SSD_VIOLATED),
            ("AddInheritance ascendant=a descendant=b", DONE),
            ("AddInheritance ascendant=a descendant=c", LIMITED),
            ("AddInheritance ascendant=a descendant=z", NO_ROLE),
            ("AddInheritance ascendant=a descendant=a", CYCLE),
            ("AddDescendant ascendant=a descendant=c", ROLE_EXISTS),
            ("AddDescendant ascendant=z descendant=d", NO_ROLE),
            ("AddDescendant ascendant=a descendant=d", LIMITED),
            ("AddDescendant ascendant=b descendant=d", DONE),
            ("AddDescendant ascendant=b descendant=e", LIMITED),
            // A new role is the ascendant of no pair, and a role may have any number of ascendants.
            ("AddAscendant ascendant=e descendant=b", DONE),
            ("AddAscendant ascendant=f descendant=b", DONE),
            ("AddInheritance ascendant=e descendant=d", LIMITED),
            // The pair goes with either of its roles.
            ("DeleteRole role=b", DONE),
            ("AddInheritance ascendant=e descendant=d", DONE),
            ("AddDescendant ascendant=a descendant=g", DONE),
        ],
    );
}

/// At the limit of roles, too, it is named before Limit.
#[test]
fn limited_comes_before_limit() {
    let mut rows =
        vec![("AddRole role=a".to_owned(), DONE), ("AddDescendant ascendant=a descendant=b".to_owned(), DONE)];
    rows.extend((2..1_024).map(|number| (format!("AddRole role=r{number}"), DONE)));
    rows.push(("AddDescendant ascendant=a descendant=x".to_owned(), LIMITED));
    rows.push(("AddDescendant ascendant=b descendant=x".to_owned(), LIMIT));
    rows.push(("AddAscendant ascendant=x descendant=a".to_owned(), LIMIT));
    let rows: Vec<(&str, &str)> = rows.iter().map(|(command, answer)| (command.as_str(), *answer)).collect();
    check(&limited(), &rows);
}
