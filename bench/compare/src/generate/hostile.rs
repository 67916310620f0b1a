//! Lines that are refused, most of them: good lines with faults of one kind or several, and lines that never were good.

use crate::random::Random;
use crate::tree::{self, Tree};

/// A bad line made of a good event, or of nothing. A change of some bytes may leave the line good.
pub fn line(random: &mut Random, event: Tree) -> Vec<u8> {
    match random.below(10) {
        0 => fixed(random),
        1..4 => mutated(random, event.compact().into_bytes()),
        4 => misspelled(random, event).into_bytes(),
        _ => {
            let mut event = event;
            for _ in 0..random.pick(&[1, 1, 2, 3]) {
                damage(random, &mut event);
            }
            if random.chance(30) { event.varied(random).into_bytes() } else { event.compact().into_bytes() }
        }
    }
}

/// Values of each kind, names that are none, and numbers at their limits.
fn odd_value(random: &mut Random) -> Tree {
    const RAW: [&str; 34] = [
        "null",
        "true",
        "false",
        "0",
        "1",
        "-0",
        "-1",
        "1.0",
        "1e0",
        "1E-1",
        "-0.0",
        "4294967295",
        "4294967296",
        "18446744073709551615",
        "18446744073709551616",
        "-9223372036854775809",
        "1e308",
        "1e309",
        "-1e400",
        "1e-400",
        "0e99999999999",
        "[]",
        "{}",
        "[1]",
        "[null]",
        "[\"a\",1]",
        "[\"a b\",1]",
        "[\"a b\"]",
        "[\"a\",\"\"]",
        "[[\"a\"]]",
        "{\"name\":\"AddUser\"}",
        "[{}]",
        "[{\"name\":\"SsdRoleSets\"}]",
        "[{\"name\":\"SsdRoleSets\"},1]",
    ];
    const TEXTS: [&str; 12] =
        ["", "a b", "a/b", "a\u{e9}", "\u{1f600}", "\u{0}", "a\n", "a,b", "1", "ann", "submit", "AddRole"];
    match random.below(8) {
        0..5 => Tree::Raw(random.pick(&RAW).to_string()),
        5 => tree::text(&"a".repeat(random.between(63, 66))),
        _ => tree::text(random.pick(&TEXTS)),
    }
}

/// Takes out, changes, renames, adds or doubles an entry of the event, or of a command in it.
fn damage(random: &mut Random, event: &mut Tree) {
    let Tree::Object(entries) = event else {
        return;
    };
    let inner = entries.iter_mut().find_map(|(_, value)| match value {
        Tree::Object(_) => Some(value),
        Tree::List(items) if matches!(items[..], [Tree::Object(_), ..]) => {
            let place = random.below(items.len());
            Some(&mut items[place])
        }
        _ => None,
    });
    if let Some(inner) = inner
        && random.chance(65)
    {
        return if random.chance(10) { *inner = odd_value(random) } else { damage(random, inner) };
    }
    let place = random.below(entries.len() + 1);
    if place == entries.len() {
        let key = random.pick(&["now", "", "Do", "role ", "user", "n", "roles", "member"]);
        return entries.push((key.to_owned(), odd_value(random)));
    }
    match random.below(5) {
        0 => {
            entries.remove(place);
        }
        1 => {
            let doubled = (entries[place].0.clone(), odd_value(random));
            let at = random.below(entries.len() + 1);
            entries.insert(at, doubled);
        }
        2 => {
            let key = &mut entries[place].0;
            *key = if random.chance(50) { key.to_uppercase() } else { format!("{key}s") };
        }
        _ => entries[place].1 = odd_value(random),
    }
}

/// The event, or its command, by a name that is none.
fn misspelled(random: &mut Random, event: Tree) -> String {
    let written = event.compact();
    let words =
        ["AddUsers", "addUser", "", "Ssd", "SsdRoleSet", "CreateXSet", "CreateSsdDsdSet", "SetSsdCardinality", "Serve"];
    match random.below(3) {
        0 => {
            let word = if written.contains("\"do\":\"batch\"") { "batch" } else { "submit" };
            written.replacen(word, random.pick(&["Submit", "submit", "batch", "Batch", "", "deliver", "receive"]), 1)
        }
        1 => written.replacen("\"name\":\"", "\"name\":\"Xx", 1),
        _ => {
            let start = written.find("\"name\":\"").map_or(0, |place| place + 8);
            let end = start + written[start..].find('"').unwrap_or(0);
            format!("{}{}{}", &written[..start], random.pick(&words), &written[end..])
        }
    }
}

/// Changes one to three bytes, wherever they are.
fn mutated(random: &mut Random, mut line: Vec<u8>) -> Vec<u8> {
    for _ in 0..random.between(1, 3) {
        let place = random.below(line.len().max(1));
        match random.below(7) {
            _ if line.is_empty() => line.push(b'{'),
            0 => line[place] ^= 1 << random.below(8),
            1 => {
                line.remove(place);
            }
            2 => line.insert(place, random.next() as u8),
            3 => line.insert(place, random.pick(b"\"\\{}[],:0-.e \t\r\0u")),
            4 => line.truncate(place),
            5 => {
                let other = random.below(line.len());
                line.swap(place, other);
            }
            _ => {
                let end = (place + random.between(1, 12)).min(line.len());
                let again = line[place..end].to_vec();
                line.splice(place..place, again);
            }
        }
    }
    line
}

/// Lines that are no object, or no JSON.
fn fixed(random: &mut Random) -> Vec<u8> {
    const LINES: [&[u8]; 40] = [
        b"",
        b" ",
        b"\r",
        b"\t",
        b"null",
        b"true",
        b"0",
        b"-1",
        b"\"submit\"",
        b"[]",
        b"{}",
        b"[{}]",
        b"{}{}",
        b"{} x",
        b"nul",
        b"NaN",
        b"01",
        b"1.",
        b"+1",
        b"1e999",
        b"-",
        b"{",
        b"}",
        b"[",
        b"\"",
        b"{\"do\"}",
        b"{\"do\":}",
        b"{\"do\":\"deliver\",}",
        b"{do:\"deliver\"}",
        b"{'do':'deliver'}",
        b"{\"do\":\"deliver\",\"at\":1}}",
        b"\xef\xbb\xbf{\"do\":\"deliver\",\"at\":1}",
        b"{\"do\":\"deliver\",\"at\":1}\0",
        b"{\"do\":\"\xff\",\"at\":1}",
        b"{\"do\":\"\\ud800\",\"at\":1}",
        b"{\"do\":\"\\udc00\\ud800\",\"at\":1}",
        b"{\"do\":\"\\ud83d\\ude00\",\"at\":1}",
        b"{\"do\":\"a\tb\",\"at\":1}",
        b"{\"d\\u006f\":\"deliver\",\"at\":1}",
        b"{\"do\":\"deliver\",\"at\":1,\"at\":2}",
    ];
    match random.below(6) {
        0 => nested(random),
        1 => padded(random),
        _ => random.pick(&LINES).to_vec(),
    }
}

/// Arrays or objects at about the deepest nesting that is read, alone or in an event.
fn nested(random: &mut Random) -> Vec<u8> {
    let levels = random.between(125, 129);
    let (open, close) = random.pick(&[("[", "]"), ("{\"a\":", "}")]);
    let value = format!("{}1{}", open.repeat(levels), close.repeat(levels));
    if random.chance(50) { value.into_bytes() } else { format!("{{\"do\":{value}}}").into_bytes() }
}

/// A good line, with blanks up to about the longest that is read.
fn padded(random: &mut Random) -> Vec<u8> {
    if random.chance(80) {
        return b"{\"do\":\"deliver\" , \"at\" : 1 }  ".to_vec();
    }
    let mut line = b"{\"do\":\"deliver\",\"at\":1}".to_vec();
    line.resize(random.between(65_535, 65_538), b' ');
    line
}
