//! Who may perform an operation on an object.

/// Who may perform an operation on an object. Each list is sorted by bytes, and has a name once.
#[derive(Clone, Debug, Default, PartialEq, Eq)]
pub struct Subjects {
    /// The sessions in which a role is active that has the permission, itself or by one that it inherits: `check` grants it to them.
    pub sessions: Vec<String>,
    /// The users that are authorized for such a role, whether or not it is active in a session of theirs.
    pub users: Vec<String>,
}

impl Subjects {
    /// Those of the library's text, in which a name has no byte that JSON escapes.
    pub(crate) fn of(text: &str) -> Subjects {
        let lists = text
            .strip_prefix(r#"{"sessions":["#)
            .and_then(|rest| rest.strip_suffix("]}"))
            .and_then(|lists| lists.split_once(r#"],"users":["#));
        let (sessions, users) = lists.expect("the library's text has two lists");
        Subjects {
            sessions: names(sessions),
            users: names(users),
        }
    }
}

/// The names of an array's elements.
fn names(elements: &str) -> Vec<String> {
    elements
        .split(',')
        .map(|element| element.trim_matches('"').to_owned())
        .filter(|name| !name.is_empty())
        .collect()
}
