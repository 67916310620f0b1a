//! What a caller may ask.
use serde::{Deserialize, Serialize};
use std::fmt;
use std::str::FromStr;

/// A part of what can be asked.
#[derive(Clone, Copy, Debug, PartialEq, Eq, Serialize, Deserialize)]
#[serde(rename_all = "lowercase")]
pub enum Scope {
    /// Whether access is granted.
    Check,
    /// That sessions begin, end, and change their active roles.
    Session,
    /// What the policy says, and what became of it.
    Review,
    /// That the policy changes.
    Administer,
    /// How the process does.
    Operate,
}

impl Scope {
    /// All of them.
    pub const ALL: [Scope; 5] = [
        Scope::Check,
        Scope::Session,
        Scope::Review,
        Scope::Administer,
        Scope::Operate,
    ];

    fn word(self) -> &'static str {
        match self {
            Scope::Check => "check",
            Scope::Session => "session",
            Scope::Review => "review",
            Scope::Administer => "administer",
            Scope::Operate => "operate",
        }
    }
}

impl fmt::Display for Scope {
    fn fmt(&self, f: &mut fmt::Formatter<'_>) -> fmt::Result {
        f.write_str(self.word())
    }
}

impl FromStr for Scope {
    type Err = String;

    fn from_str(text: &str) -> Result<Scope, String> {
        let named = Scope::ALL.into_iter().find(|scope| scope.word() == text);
        let known = Scope::ALL.map(Scope::word).join(", ");
        named.ok_or_else(|| format!("{text} is none of {known}"))
    }
}

/// The scope of the command of this name: of one that is not known, as of one that changes the policy.
pub fn scope_of(command: &str) -> Scope {
    match command {
        "CheckAccess" => Scope::Check,
        "CreateSession" | "DeleteSession" | "AddActiveRole" | "DropActiveRole" => Scope::Session,
        "AssignedUsers"
        | "AssignedRoles"
        | "AuthorizedUsers"
        | "AuthorizedRoles"
        | "RolePermissions"
        | "UserPermissions"
        | "SessionRoles"
        | "SessionPermissions"
        | "RoleOperationsOnObject"
        | "UserOperationsOnObject"
        | "SsdRoleSets"
        | "DsdRoleSets"
        | "SsdRoleSetRoles"
        | "DsdRoleSetRoles"
        | "SsdRoleSetCardinality"
        | "DsdRoleSetCardinality" => Scope::Review,
        _ => Scope::Administer,
    }
}

#[cfg(test)]
mod tests {
    use super::{scope_of, Scope};
    use serde_json::Value;
    use std::collections::BTreeSet;

    /// The names of all commands, as the shape of lines has them.
    fn commands() -> BTreeSet<String> {
        let schema = include_str!("../../../../docs/lines.schema.json");
        let schema: Value = serde_json::from_str(schema).unwrap();
        let shapes = schema["$defs"]["command"]["oneOf"].as_array().unwrap();
        let names = shapes.iter().flat_map(|shape| {
            let name = &shape["properties"]["name"];
            let one = [name["const"].clone()];
            name["enum"].as_array().cloned().unwrap_or(one.to_vec())
        });
        names
            .map(|name| name.as_str().unwrap().to_owned())
            .collect()
    }

    /// The names in the first column of the page's table under a heading.
    fn listed(heading: &str) -> BTreeSet<String> {
        let page = include_str!("../../../../docs/USE.md");
        let (_, behind) = page.split_once(&format!("### {heading}\n")).unwrap();
        let rows = behind.lines().take_while(|line| !line.starts_with("```"));
        let rows = rows.filter_map(|row| row.strip_prefix("| ")?.split(" |").next());
        let names = rows.flat_map(|names| names.split(", "));
        let is_name = |name: &&str| !["Command", "Commands"].contains(name);
        names.filter(is_name).map(str::to_owned).collect()
    }

    #[test]
    fn each_command_has_the_scope_of_its_kind() {
        let of = |scope| -> BTreeSet<String> {
            let all = commands().into_iter();
            all.filter(|name| scope_of(name) == scope).collect()
        };
        assert_eq!(commands().len(), 43);
        assert_eq!(of(Scope::Review), listed("Reviews"));
        let checks = BTreeSet::from(["CheckAccess".to_owned()]);
        assert_eq!(of(Scope::Check), checks);
        let sessions = listed("Sessions and checks");
        let sessions: BTreeSet<String> = sessions.difference(&checks).cloned().collect();
        assert_eq!(of(Scope::Session), sessions);
        assert_eq!(of(Scope::Administer).len(), 22);
        assert_eq!(scope_of("checkAccess"), Scope::Administer);
    }

    #[test]
    fn scopes_have_words() {
        for scope in Scope::ALL {
            assert_eq!(scope.to_string().parse(), Ok(scope));
        }
        assert!("all".parse::<Scope>().is_err());
    }
}
