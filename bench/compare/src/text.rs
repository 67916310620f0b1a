//! Finds what stands where in a line.

use std::ops::Range;

/// The number behind this key, and where it stands.
pub fn number_after(line: &[u8], key: &str) -> Option<(Range<usize>, u32)> {
    let key = format!("\"{key}\":").into_bytes();
    let start = line.windows(key.len()).position(|window| window == key)? + key.len();
    let length = line[start..].iter().take_while(|byte| byte.is_ascii_digit()).count();
    let number = str::from_utf8(&line[start..start + length]).ok()?.parse().ok()?;
    Some((start..start + length, number))
}

/// The texts of the objects behind this key, which has an array of them. None is a line that has none, or a text that is cut off.
pub fn objects_after<'a>(line: &'a [u8], key: &str) -> Option<Vec<&'a [u8]>> {
    let array = behind(line, key)?.strip_prefix(b"[")?;
    let (mut objects, mut rest) = (Vec::new(), array);
    loop {
        let next = rest.iter().position(|byte| matches!(byte, b'{' | b'[' | b']' | b'"'))?;
        if rest[next] == b']' {
            return Some(objects);
        }
        let object = first_value(&rest[next..])?;
        if rest[next] != b'"' {
            objects.push(object);
        }
        rest = &rest[next + object.len()..];
    }
}

/// The text of the object behind this key. None is a line that has none, or a text that is cut off.
pub fn object_after<'a>(line: &'a [u8], key: &str) -> Option<&'a [u8]> {
    let value = behind(line, key)?;
    if value.starts_with(b"{") { first_value(value) } else { None }
}

/// What stands behind this key.
fn behind<'a>(line: &'a [u8], key: &str) -> Option<&'a [u8]> {
    let key = format!("\"{key}\":").into_bytes();
    let start = line.windows(key.len()).position(|window| window == key)? + key.len();
    Some(line[start..].trim_ascii_start())
}

/// The text, object or array that a text begins with.
fn first_value(text: &[u8]) -> Option<&[u8]> {
    let (mut open, mut in_text, mut place) = (0, false, 0);
    while place < text.len() {
        match text[place] {
            b'\\' if in_text => place += 1,
            b'"' => in_text = !in_text,
            _ if in_text => {}
            b'{' | b'[' => open += 1,
            b'}' | b']' => open -= 1,
            _ => {}
        }
        if open == 0 && !in_text {
            return Some(&text[..=place]);
        }
        place += 1;
    }
    None
}

/// How many commands a line that is an event sends.
pub fn count_of_commands(line: &[u8]) -> u32 {
    objects_after(line, "commands").map_or(1, |commands| commands.len() as u32)
}

pub fn text_between<'a>(text: &'a str, before: &str, after: &str) -> Option<&'a str> {
    text.split_once(before)?.1.split_once(after).map(|(between, _)| between)
}

/// How often a part stands in a text.
pub fn count(text: &[u8], part: &[u8]) -> usize {
    text.windows(part.len()).filter(|window| *window == part).count()
}

pub fn contains(text: &[u8], part: &[u8]) -> bool {
    text.windows(part.len()).any(|window| window == part)
}

#[cfg(test)]
mod tests {
    use super::*;

    #[test]
    fn the_objects_of_an_array() {
        let objects = |line: &'static str| objects_after(line.as_bytes(), "commands");
        assert_eq!(objects(r#"{"commands":[]}"#), Some(vec![]));
        let two: [&[u8]; 2] = [br#"{"a":"}]\"","b":["x"]}"#, b"{ }"];
        assert_eq!(objects(r#"{"at":1,"commands": [{"a":"}]\"","b":["x"]} ,{ }],"n":[{}]}"#), Some(two.to_vec()));
        assert_eq!(objects(r#"{"command":{}}"#), None);
        assert_eq!(objects(r#"{"commands":[{"a":1}"#), None);
        assert_eq!(objects(r#"{"commands":["]",7,{}]}"#), Some(vec![b"{}".as_slice()]));
        assert_eq!((count_of_commands(b"{\"commands\":[{},{}]}"), count_of_commands(b"{\"command\":{}}")), (2, 1));
    }

    #[test]
    fn the_object_behind_a_key() {
        let object = |line: &'static str| object_after(line.as_bytes(), "command");
        let text = br#"{"a":"}\"","b":["}"]}"#.as_slice();
        assert_eq!(object(r#"{"at":1,"command": {"a":"}\"","b":["}"]} ,"n":{}}"#), Some(text));
        assert_eq!(object(r#"{"command":[{}]}"#), None);
        assert_eq!(object(r#"{"command":{"a":1"#), None);
        assert_eq!(object(r#"{"a":{}}"#), None);
    }
}
