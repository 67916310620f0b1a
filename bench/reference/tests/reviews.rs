//! Commands and the answers that the rules give them, written by hand.

mod answering;
mod playing;

fn check(rows: &[(&str, &str)]) {
    answering::check("", rows);
}

const DONE: &str = r#""Done""#;
const LEDGER: &str = r#"{"permissions":[["read","ledger"]]}"#;
const NOTHING: &str = r#"{"permissions":[]}"#;

#[test]
fn permissions_follow_the_declared_pairs() {
    check(&[
        ("AddRole role=a", DONE),
        ("AddRole role=b", DONE),
        ("AddRole role=c", DONE),
        ("AddInheritance ascendant=a descendant=b", DONE),
        ("AddInheritance ascendant=b descendant=c", DONE),
        ("AddInheritance ascendant=a descendant=c", DONE),
        ("GrantPermission operation=read object=ledger role=c", DONE),
        ("RolePermissions role=b", LEDGER),
        ("DeleteInheritance ascendant=b descendant=c", DONE),
        ("RolePermissions role=b", NOTHING),
        ("RolePermissions role=a", LEDGER),
        ("DeleteInheritance ascendant=a descendant=c", DONE),
        ("RolePermissions role=a", NOTHING),
        ("RolePermissions role=z", r#"{"denied":"NoRole","number":4}"#),
    ]);
}

#[test]
fn a_static_set_counts_inherited_roles() {
    check(&[
        ("AddUser user=ann", DONE),
        ("AddRole role=boss", DONE),
        ("AddRole role=payer", DONE),
        ("AddRole role=approver", DONE),
        ("AssignUser user=ann role=boss", DONE),
        ("CreateSsdSet set=duty roles=[approver,payer,approver] n=2", DONE),
        ("AddInheritance ascendant=boss descendant=payer", DONE),
        ("AddInheritance ascendant=boss descendant=approver", r#"{"denied":"SsdViolated","number":18}"#),
        ("DeleteInheritance ascendant=boss descendant=approver", r#"{"denied":"NoInheritance","number":16}"#),
        ("AssignUser user=ann role=approver", r#"{"denied":"SsdViolated","number":18}"#),
        ("AuthorizedRoles user=ann", r#"{"names":["boss","payer"]}"#),
        ("AssignedRoles user=ann", r#"{"names":["boss"]}"#),
        ("AuthorizedUsers role=payer", r#"{"names":["ann"]}"#),
        ("AssignedUsers role=payer", r#"{"names":[]}"#),
        ("GrantPermission operation=pay object=invoice role=payer", DONE),
        ("CreateSession user=ann session=s1 roles=[payer]", DONE),
        ("DeleteRole role=payer", r#"{"denied":"RoleConstrained","number":25}"#),
        ("DeleteSsdSet set=duty", DONE),
        ("DeleteRole role=payer", DONE),
        ("CheckAccess session=s1 operation=pay object=invoice", r#"{"denied":"NoSession","number":10}"#),
        ("RolePermissions role=boss", NOTHING),
        ("AuthorizedRoles user=ann", r#"{"names":["boss"]}"#),
    ]);
}

#[test]
fn what_a_user_and_a_session_have() {
    check(&[
        ("AddUser user=ann", DONE),
        ("AddRole role=clerk", DONE),
        ("AssignUser user=ann role=clerk", DONE),
        ("GrantPermission operation=read object=ledger role=clerk", DONE),
        ("CreateSession user=ann session=s1 roles=[clerk]", DONE),
        ("UserPermissions user=ann", LEDGER),
        ("SessionPermissions session=s1", LEDGER),
        ("SessionRoles session=s1", r#"{"names":["clerk"]}"#),
        ("RoleOperationsOnObject role=clerk object=ledger", r#"{"names":["read"]}"#),
        ("RoleOperationsOnObject role=clerk object=moon", r#"{"denied":"NoObject","number":28}"#),
        ("RoleOperationsOnObject role=z object=moon", r#"{"denied":"NoRole","number":4}"#),
        ("UserOperationsOnObject user=ann object=invoice", r#"{"names":[]}"#),
        ("UserOperationsOnObject user=z object=moon", r#"{"denied":"NoUser","number":2}"#),
        ("SessionRoles session=z", r#"{"denied":"NoSession","number":10}"#),
    ]);
}

#[test]
fn what_a_set_has() {
    check(&[
        ("AddRole role=c", DONE),
        ("AddRole role=b", DONE),
        ("AddRole role=a", DONE),
        ("SsdRoleSets", r#"{"names":[]}"#),
        ("CreateSsdSet set=d roles=[c,a,b] n=3", DONE),
        ("CreateSsdSet set=B roles=[c,a] n=2", DONE),
        ("CreateDsdSet set=d roles=[a,b] n=2", DONE),
        ("SsdRoleSets", r#"{"names":["B","d"]}"#),
        ("DsdRoleSets", r#"{"names":["d"]}"#),
        ("SsdRoleSetRoles set=d", r#"{"names":["a","b","c"]}"#),
        ("SsdRoleSetCardinality set=d", r#"{"count":3}"#),
        ("DsdRoleSetCardinality set=d", r#"{"count":2}"#),
        ("SsdRoleSetRoles set=e", r#"{"denied":"NoSet","number":21}"#),
        ("DsdRoleSetRoles set=B", r#"{"denied":"NoSet","number":21}"#),
    ]);
}
