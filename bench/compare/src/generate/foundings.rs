//! Founding files: good ones in each form, and bad ones with one fault or several.

use super::Extent;
use crate::case::Case;
use crate::random::Random;

const SCHEDULE: &[u8] = b"{\"do\":\"submit\",\"at\":1,\"caller\":0,\"serial\":0,\"command\":{\"name\":\"AddRole\",\"role\":\"r\"}}
{\"do\":\"deliver\",\"at\":1}
{\"do\":\"submit\",\"at\":1,\"caller\":0,\"serial\":1,\"command\":{\"name\":\"GrantPermission\",\"operation\":\"o\",\"object\":\"x\",\"role\":\"r\"}}
{\"do\":\"deliver\",\"at\":1}
{\"do\":\"submit\",\"at\":1,\"caller\":0,\"serial\":2,\"command\":{\"name\":\"AddDescendant\",\"ascendant\":\"r\",\"descendant\":\"s\"}}
{\"do\":\"deliver\",\"at\":1}
{\"do\":\"submit\",\"at\":1,\"caller\":0,\"serial\":3,\"command\":{\"name\":\"AddDescendant\",\"ascendant\":\"r\",\"descendant\":\"t\"}}
{\"do\":\"deliver\",\"at\":1}
";

/// A key with values that are taken, and values that are refused.
struct Key {
    name: &'static str,
    good: &'static [&'static str],
    bad: &'static [&'static str],
}

const KEYS: [Key; 7] = [
    Key {
        name: "version",
        good: &["1", "0x1", "+1", "0b0_1", "0o1", "2", "0x2", "+2", "0b1_0", "0o2"],
        bad: &["3", "0", "-1", "1.0", "2.0", "'1'", "'2'", "[1]", "true", "01", "02", "1_"],
    },
    Key {
        name: "members",
        good: &["1", "+1", "0x1", "2", "0b111", "8"],
        bad: &["0", "9", "-1", "\"1\"", "1.0", "[]", "9223372036854775807", "9223372036854775808"],
    },
    Key {
        name: "clock",
        good: &["0", "-0", "1_0", "9007199254740990", "0x1FFFFFFFFFFFFF"],
        bad: &["-1", "9007199254740992", "0x20000000000000", "nan", "''", "false", "1__0", "-0x1"],
    },
    Key { name: "sent_limit", good: &["1", "65536", "0b10"], bad: &["0", "65537", "-5", "inf", "\"1\"", "1e3", "0xg"] },
    Key {
        name: "operations",
        good: &[
            "['o']",
            "[\"o\", 'p', \"\"\"q\"\"\", '''r''']",
            "[ # one\n'o'\n,\n]",
            "[\"\\u006f\"]",
            "[\"\\x6F\"]",
            "['z','o','a',]",
        ],
        bad: &[
            "[]",
            "['o','o']",
            "['o p']",
            "['']",
            "[1]",
            "'o'",
            "[['o']]",
            "['o',1.5]",
            "['o' 'p']",
            "['o',,]",
            "[\"\\q\"]",
            "[\"\\e\"]",
            "[\"\\x6\"]",
            "1",
        ],
    },
    Key {
        name: "objects",
        good: &["['x']", "['x', 'y']", "[\"x\",\r\n\t'x.'\n]"],
        bad: &["[]", "['x','x']", "['x/y']", "['\u{e9}']", "[true]", "\"x\"", "['x'", "['x\n']", "[\"\"\"\nx\n\"\"\"]"],
    },
    Key {
        name: "permissions",
        good: &["[['o','x']]", "[]", "[['o', \"x\",],]", "[\n  ['o', 'x'], # all\n]"],
        bad: &[
            "[['o','x'],['o','x']]",
            "[['x','o']]",
            "[['o','moon']]",
            "[['o']]",
            "[['o','x','x']]",
            "[[]]",
            "['o','x']",
            "[['o',1]]",
            "[['o','a b']]",
            "[['q','q'],['q','q']]",
        ],
    },
];

/// The key that a file of version 2 needs besides. To one of version 1 it is unknown.
const HIERARCHY: Key = Key {
    name: "hierarchy",
    good: &[
        "\"general\"",
        "\"limited\"",
        "'general'",
        "'limited'",
        "\"\"\"general\"\"\"",
        "\"gener\\u0061l\"",
        "\"\\u006cimited\"",
    ],
    bad: &[
        "''",
        "'Limited'",
        "\"limited \"",
        "'none'",
        "'a b'",
        "1",
        "true",
        "['limited']",
        "[]",
        "2.0",
        "limited",
        "'limited",
    ],
};

/// A founding file's version, as the file without mistakes has it.
#[derive(Clone, Copy)]
enum Version {
    First,
    Second,
}

const VERSIONS: [Version; 2] = [Version::First, Version::Second];

impl Version {
    fn number(self) -> &'static str {
        match self {
            Version::First => "1",
            Version::Second => "2",
        }
    }

    fn keys(self) -> impl Iterator<Item = &'static Key> {
        let more = match self {
            Version::First => None,
            Version::Second => Some(&HIERARCHY),
        };
        KEYS.iter().chain(more)
    }

    /// The first good value of a key.
    fn usual(self, key: &Key) -> &'static str {
        if key.name == "version" { self.number() } else { key.good[0] }
    }

    /// A file with each key once, a key's value being this one where it is named.
    fn with_value(self, changed: &str, value: &str) -> String {
        self.with_values(&[(changed, value)])
    }

    fn with_values(self, changed: &[(&str, &str)]) -> String {
        let line = |key: &Key| {
            let value = changed.iter().find(|(name, _)| *name == key.name).map_or(self.usual(key), |(_, value)| value);
            format!("{} = {value}\n", key.name)
        };
        self.keys().map(line).collect()
    }

    fn good(self) -> String {
        self.with_values(&[])
    }
}

pub fn cases(random: &mut Random, extent: Extent) -> Vec<Case> {
    let mut foundings: Vec<String> = VERSIONS.into_iter().flat_map(each_value).collect();
    foundings.extend(VERSIONS.into_iter().flat_map(at_the_limits));
    foundings.extend(VERSIONS.into_iter().flat_map(each_two_faults));
    foundings.extend((0..150).map(|_| mixed(random)));
    if extent == Extent::Short {
        random.shuffle(&mut foundings);
        foundings.truncate(12);
        foundings.extend(VERSIONS.into_iter().flat_map(each_refusal));
    }
    let named = |(number, text): (usize, String)| {
        Case::new(format!("founding-{number:04}"), Some(text.into_bytes()), SCHEDULE.to_vec())
    };
    foundings.into_iter().enumerate().map(named).collect()
}

/// Each two bad values of two keys, of which the check that comes first is named.
fn each_two_faults(version: Version) -> Vec<String> {
    let bad = version.keys().flat_map(|key| key.bad.iter().map(|value| (key.name, *value)));
    let bad: Vec<(&str, &str)> = bad.collect();
    let pairs =
        bad.iter().enumerate().flat_map(|(place, first)| bad[place + 1..].iter().map(move |second| [*first, *second]));
    pairs.filter(|[first, second]| first.0 != second.0).map(|pair| version.with_values(&pair)).collect()
}

/// One file for each refusal, and some that are taken.
fn each_refusal(version: Version) -> impl Iterator<Item = String> {
    let good = version.good();
    let changed = [
        ("version", "3"),
        // A needed key is absent, or a key is unknown.
        ("version", "2"),
        ("version", "1"),
        ("hierarchy", "['limited']"),
        ("hierarchy", "'none'"),
        ("hierarchy", "\"limited\""),
        ("members", "'1'"),
        ("members", "9"),
        ("clock", "01"),
        ("objects", "['x/y']"),
        ("operations", "['o','o']"),
        ("permissions", "[['o','moon']]"),
        ("operations", "[\"\\x6f\"]"),
    ];
    let changed = changed.map(|(key, value)| version.with_value(key, value));
    let others = [
        format!("{good}#{}", " ".repeat(1_048_576)),
        format!("{good}colour = 1\n"),
        format!("{good}hierarchy = \"general\"\n"),
        good.replace("members = 1\n", ""),
        good,
    ];
    changed.into_iter().chain(others)
}

/// Each value by itself, and each key left out.
fn each_value(version: Version) -> impl Iterator<Item = String> {
    let value_of =
        move |key: &'static Key| key.good.iter().chain(key.bad).map(move |value| version.with_value(key.name, value));
    let without = move |left_out: &Key| {
        let kept = version.keys().filter(|key| key.name != left_out.name);
        kept.map(|key| format!("{} = {}\n", key.name, version.usual(key))).collect()
    };
    let good = version.good();
    let texts = [
        String::new(),
        "# nothing".to_owned(),
        format!("version = {}", version.number()),
        good.replace('\n', "\r\n"),
        format!("\n\n  # first\n{good}"),
        good.replace("version", "\"version\"").replace("members", "'members'"),
        good.replace(" = ", "="),
        good.replace(" = ", "\t = \t"),
        format!("{good}colour = 1\n"),
        format!("{good}\"\" = 1\n"),
        format!("{good}version = 1\n"),
        format!("{good}hierarchy = 'limited'\n"),
        format!("{good}'version' = 1\n"),
        format!("{good}x"),
        good.trim_end().to_owned(),
        format!("\u{feff}{good}"),
        format!("{}# end", good),
    ];
    version.keys().flat_map(value_of).chain(version.keys().map(without)).chain(texts)
}

/// Files of about the longest size, and arrays of about the most entries.
fn at_the_limits(version: Version) -> impl Iterator<Item = String> {
    let good = version.good();
    let with_value = |key, value: &String| version.with_value(key, value);
    let long =
        [1_048_575, 1_048_576, 1_048_577].map(|length| format!("{good}#{}", " ".repeat(length - good.len() - 1)));
    let list = |items: &mut dyn Iterator<Item = String>| format!("[{}]", items.collect::<Vec<_>>().join(","));
    let name = |number: usize| if number == 0 { "'o'".to_owned() } else { format!("'o{number}'") };
    let operations = [256, 257].map(|count| with_value("operations", &list(&mut (0..count).map(name))));
    let object = |number: usize| if number == 0 { "'x'".to_owned() } else { format!("'x{number}'") };
    let objects = [4_096, 4_097].map(|count| with_value("objects", &list(&mut (0..count).map(object))));
    let pair = |number: usize| format!("['o','x{}']", number + 1);
    let permissions = [16_384, 16_385].map(|count| with_value("permissions", &list(&mut (0..count).map(pair))));
    long.into_iter().chain(operations).chain(objects).chain(permissions)
}

/// Keys in any order, most with good values, some left out, and sometimes one that is unknown.
fn mixed(random: &mut Random) -> String {
    let mut lines = Vec::new();
    let version = random.pick(&VERSIONS);
    for key in version.keys() {
        match random.below(20) {
            0 => {}
            1..4 => lines.push(format!("{} = {}", key.name, random.pick(key.bad))),
            _ if key.name == "version" => lines.push(format!("version = {}", version.number())),
            _ => lines.push(format!("{} = {}", key.name, random.pick(key.good))),
        }
    }
    if random.chance(8) {
        lines.push(
            random
                .pick(&["colour = 1", "Version = 1", "hierarchy = 'general'", "Hierarchy = 'general'", "\"a b\" = []"])
                .to_string(),
        );
    }
    random.shuffle(&mut lines);
    let end = random.pick(&["\n", "\n\n", " # why\n", "\r\n"]);
    lines.iter().map(|line| format!("{line}{end}")).collect()
}
