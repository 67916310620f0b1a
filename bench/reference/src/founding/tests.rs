use super::*;

/// What becomes of the sample with one of its lines changed, added or taken out.
fn refusal(key: &str, line: &str) -> Option<FoundingRefusal> {
    let others = SAMPLE.lines().filter(|other| !other.starts_with(&format!("{key} =")));
    let text: String = others.chain([line]).map(|line| format!("{line}\n")).collect();
    read_founding(text.as_bytes()).err()
}

#[test]
fn the_sample_is_taken() {
    let founding = read_founding(SAMPLE.as_bytes()).unwrap();
    assert_eq!((founding.members, founding.clock, founding.sent_limit), (1, 0, 65_536));
    let number = |text| Name::read(text).unwrap();
    let read = founding.vocabulary.operation(&number("read")).unwrap();
    let pay = founding.vocabulary.operation(&number("pay")).unwrap();
    let ledger = founding.vocabulary.object(&number("ledger")).unwrap();
    assert!(founding.vocabulary.permission(read, ledger).is_some());
    assert!(founding.vocabulary.permission(pay, ledger).is_none());
}

#[test]
fn each_refusal() {
    assert_eq!(refusal("none", &"#".repeat(1_048_577)), Some(TooLong));
    assert_eq!(refusal("none", "clock"), Some(NotToml));
    assert_eq!(refusal("none", "version = 1"), Some(NotToml));
    for line in ["", "version = 0", "version = 3", "version = -1", "version = 1.0", "version = 2.0", "version = \"2\""]
    {
        assert_eq!(refusal("version", line), Some(BadVersion), "{line}");
    }
    assert_eq!(refusal("none", "colour = 1"), Some(UnknownKey));
    for key in ["members", "operations", "objects", "permissions"] {
        assert_eq!(refusal(key, ""), Some(MissingKey), "{key}");
    }
    for (key, line) in [
        ("members", "members = \"1\""),
        ("none", "clock = 1.0"),
        ("none", "sent_limit = [1]"),
        ("objects", "objects = \"ledger\""),
        ("objects", "objects = [1]"),
        ("permissions", "permissions = [[\"read\"]]"),
        ("permissions", "permissions = [[\"read\", \"ledger\", \"ledger\"]]"),
        ("permissions", "permissions = [[\"read\", 1]]"),
    ] {
        assert_eq!(refusal(key, line), Some(WrongKind), "{line}");
    }
    for line in ["clock = -1", "clock = 9007199254740992", "sent_limit = 0", "sent_limit = 65537"] {
        assert_eq!(refusal("none", line), Some(OutOfRange), "{line}");
    }
    for line in ["members = 0", "members = 9", "members = -1", "members = 4294967297"] {
        assert_eq!(refusal("members", line), Some(OutOfRange), "{line}");
    }
    assert_eq!(refusal("objects", "objects = [\"\"]"), Some(BadName));
    assert_eq!(refusal("permissions", "permissions = [[\"read\", \"a b\"]]"), Some(BadName));
    assert_eq!(refusal("objects", "objects = [\"invoice\", \"ledger\", \"ledger\"]"), Some(Repeated));
    assert_eq!(refusal("permissions", "permissions = [[\"fly\", \"ledger\"], [\"fly\", \"ledger\"]]"), Some(Repeated));
    assert_eq!(refusal("permissions", "permissions = [[\"read\", \"moon\"]]"), Some(UnknownName));
}

/// What becomes of the sample in version 2 with this line.
fn refusal_of_version_2(line: &str) -> Option<FoundingRefusal> {
    refusal("version", &format!("version = 2\n{line}"))
}

#[test]
fn version_2_needs_a_kind_of_hierarchy() {
    let kind = |line: &str| {
        let text = SAMPLE.replace("version = 1", line);
        read_founding(text.as_bytes()).map(|founding| founding.hierarchy)
    };
    assert_eq!(kind("version = 1"), Ok(HierarchyKind::General));
    assert_eq!(kind("version = 2\nhierarchy = \"general\""), Ok(HierarchyKind::General));
    assert_eq!(kind("hierarchy = 'limited'\nversion = 0x2"), Ok(HierarchyKind::Limited));
    assert_eq!(refusal("none", "hierarchy = \"general\""), Some(UnknownKey));
    assert_eq!(refusal("none", "hierarchy = 1"), Some(UnknownKey));
    assert_eq!(refusal("version", "hierarchy = \"general\""), Some(BadVersion));
    assert_eq!(refusal("version", "version = 3\nhierarchy = \"general\""), Some(BadVersion));
    assert_eq!(refusal_of_version_2(""), Some(MissingKey));
    for value in ["1", "[]", "[\"limited\"]", "true", "1.0"] {
        assert_eq!(refusal_of_version_2(&format!("hierarchy = {value}")), Some(WrongKind), "{value}");
    }
    for value in ["\"\"", "\"Limited\"", "\"limited \"", "\"a b\"", "\"none\""] {
        assert_eq!(refusal_of_version_2(&format!("hierarchy = {value}")), Some(OutOfRange), "{value}");
    }
}

/// Each check is made over the whole file, so what is wrong with this key is named among what is wrong with the others.
#[test]
fn the_kind_is_looked_at_in_the_order_of_the_checks() {
    let with = |members: &str, line: &str| {
        let text = SAMPLE.replace("version = 1", &format!("version = 2\n{line}")).replace("members = 1\n", members);
        read_founding(text.as_bytes()).err()
    };
    assert_eq!(with("members = 1\ncolour = 1\n", ""), Some(UnknownKey));
    assert_eq!(with("members = \"1\"\n", ""), Some(MissingKey));
    assert_eq!(with("", "hierarchy = 1"), Some(MissingKey));
    assert_eq!(with("members = \"1\"\n", "hierarchy = \"none\""), Some(WrongKind));
    assert_eq!(with("members = 9\n", "hierarchy = 1"), Some(WrongKind));
    let bad_name = SAMPLE.replace("version = 1", "version = 2\nhierarchy = \"none\"").replace("ledger", "a b");
    assert_eq!(read_founding(bad_name.as_bytes()).err(), Some(OutOfRange));
}

#[test]
fn numbers_at_their_ends_are_taken() {
    for line in ["members = 1", "members = 2", "members = 8"] {
        assert_eq!(refusal("members", line), None, "{line}");
    }
    for line in [
        "clock = 0",
        "clock = 9007199254740991",
        "sent_limit = 1",
        "sent_limit = 65536",
        "clock = 0x1",
        "clock = +1",
        "clock = 1_0",
    ] {
        assert_eq!(refusal("none", line), None, "{line}");
    }
}

#[test]
fn arrays_at_their_ends() {
    let names = |count: usize| (0..count).map(|number| format!("\"n{number}\",")).collect::<String>();
    let pairs = |count: usize| (0..count).map(|number| format!("[\"o{number}\",\"x\"],")).collect::<String>();
    let operations =
        |count| refusal("operations", &format!("operations = [\"approve\", \"pay\", \"read\", {}]", names(count)));
    assert_eq!((operations(253), operations(254)), (None, Some(OutOfRange)));
    let objects = |count| refusal("objects", &format!("objects = [\"invoice\", \"ledger\", {}]", names(count)));
    assert_eq!((objects(4_094), objects(4_095)), (None, Some(OutOfRange)));
    let permissions = |count| refusal("permissions", &format!("permissions = [{}]", pairs(count)));
    assert_eq!((permissions(16_384), permissions(16_385)), (Some(UnknownName), Some(OutOfRange)));
}
