//! Random commands, over few names, so that they meet.
use rand::rngs::StdRng;
use rand::seq::SliceRandom;
use rand::Rng;

/// Which operations and objects there are.
pub const VOCABULARY: &str = r#"operations = ["read", "write"]
objects = ["book", "drug"]
permissions = [["read", "book"], ["read", "drug"], ["write", "book"]]
"#;

/// A founding file for so many members: of that vocabulary, or of less, or of limited hierarchies, which a policy may not fit in.
pub fn any_file(random: &mut StdRng, members: usize) -> String {
    let vocabulary = match random.gen_range(0..3) {
        0 => VOCABULARY.replace(r#", ["write", "book"]"#, ""),
        1 => {
            let less = VOCABULARY.replace(r#"["read", "drug"], "#, "");
            less.replace(r#", "drug""#, "")
        }
        _ => VOCABULARY.to_owned(),
    };
    let version = match random.gen_ratio(1, 4) {
        true => "version = 2\nhierarchy = \"limited\"",
        false => "version = 1",
    };
    format!("{version}\nmembers = {members}\n{vocabulary}")
}

/// Each command, with a mark for each name: of a user, role, session, set, operation, object, number.
const FORMS: &[&str] = &[
    r#"{"name":"AddUser","user":"U"}"#,
    r#"{"name":"AddUser","user":"U"}"#,
    r#"{"name":"DeleteUser","user":"U"}"#,
    r#"{"name":"AddRole","role":"R"}"#,
    r#"{"name":"AddRole","role":"R"}"#,
    r#"{"name":"DeleteRole","role":"R"}"#,
    r#"{"name":"AssignUser","user":"U","role":"R"}"#,
    r#"{"name":"AssignUser","user":"U","role":"R"}"#,
    r#"{"name":"DeassignUser","user":"U","role":"R"}"#,
    r#"{"name":"GrantPermission","operation":"P","object":"O","role":"R"}"#,
    r#"{"name":"GrantPermission","operation":"P","object":"O","role":"R"}"#,
    r#"{"name":"GrantPermission","operation":"P","object":"O","role":"R"}"#,
    r#"{"name":"RevokePermission","operation":"P","object":"O","role":"R"}"#,
    r#"{"name":"AddInheritance","ascendant":"R","descendant":"R"}"#,
    r#"{"name":"DeleteInheritance","ascendant":"R","descendant":"R"}"#,
    r#"{"name":"CreateSession","user":"U","session":"S","roles":["R"]}"#,
    r#"{"name":"CreateSession","user":"U","session":"S","roles":[]}"#,
    r#"{"name":"DeleteSession","user":"U","session":"S"}"#,
    r#"{"name":"AddActiveRole","user":"U","session":"S","role":"R"}"#,
    r#"{"name":"DropActiveRole","user":"U","session":"S","role":"R"}"#,
    r#"{"name":"CheckAccess","session":"S","operation":"P","object":"O"}"#,
    r#"{"name":"CheckAccess","session":"S","operation":"P","object":"O"}"#,
    r#"{"name":"CreateSsdSet","set":"X","roles":["r1","r2"],"n":2}"#,
    r#"{"name":"DeleteSsdSet","set":"X"}"#,
    r#"{"name":"AddSsdRoleMember","set":"X","role":"R"}"#,
    r#"{"name":"SetSsdSetCardinality","set":"X","n":N}"#,
    r#"{"name":"CreateDsdSet","set":"X","roles":["r1","r3"],"n":2}"#,
    r#"{"name":"AssignedUsers","role":"R"}"#,
    r#"{"name":"UserPermissions","user":"U"}"#,
    r#"{"name":"SessionRoles","session":"S"}"#,
    r#"{"name":"SsdRoleSets"}"#,
];

/// The names that stand for a mark.
const NAMES: &[(char, &[&str])] = &[
    ('U', &["ann", "bob"]),
    ('R', &["r1", "r2", "r3"]),
    ('S', &["s1", "s2"]),
    ('X', &["x1", "x2"]),
    ('P', &["read", "write"]),
    ('O', &["book", "drug"]),
    ('N', &["2", "3"]),
];

/// A command.
pub fn any(random: &mut StdRng) -> String {
    let form = FORMS.choose(random).expect("there are some");
    let mut told = String::with_capacity(form.len() + 8);
    let mut before = ' ';
    for (letter, after) in form.chars().zip(form.chars().skip(1).chain([' '])) {
        let names = NAMES.iter().find(|(mark, _)| *mark == letter);
        let is_mark = !before.is_alphabetic() && !after.is_alphabetic() && !after.is_numeric();
        match names.filter(|_| is_mark) {
            Some((_, names)) => told.push_str(names.choose(random).expect("there are some")),
            None => told.push(letter),
        }
        before = letter;
    }
    told
}

/// A check that no other call has: it changes nothing, and tells in the history whose it is.
pub fn tag(call: usize) -> String {
    format!(r#"{{"name":"CheckAccess","session":"call{call}","operation":"read","object":"book"}}"#)
}

/// The commands of a call, a JSON array; one of twenty is none that can be carried out.
pub fn call(random: &mut StdRng, call: usize, is_tagged: bool) -> String {
    let mut commands: Vec<String> = (0..random.gen_range(0..3)).map(|_| any(random)).collect();
    if random.gen_ratio(1, 40) {
        commands.push(r#"{"name":"AddUser","user":"no name"}"#.to_owned());
    } else if is_tagged || random.gen_ratio(1, 4) {
        commands.push(tag(call));
    }
    format!("[{}]", commands.join(","))
}
