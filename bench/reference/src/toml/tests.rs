use super::*;

fn value(text: &str) -> Result<Value, NotToml> {
    let entries = read(format!("key = {text}").as_bytes())?;
    Ok(entries.into_iter().next().ok_or(NotToml)?.1)
}

fn list(numbers: &[i64]) -> Value {
    Value::List(numbers.iter().copied().map(Value::Whole).collect())
}

#[test]
fn lines() {
    let text = "# first\n\n a = 1 # one\r\n\"b c\"=2\n'd'\t=\t3";
    let entries = [("a", 1), ("b c", 2), ("d", 3)].map(|(key, number)| (key.to_owned(), Value::Whole(number)));
    assert_eq!(read(text.as_bytes()), Ok(entries.to_vec()));
    assert_eq!(read(b""), Ok(vec![]));
    assert_eq!(read(b"#"), Ok(vec![]));
    assert_eq!(read("\u{feff}a = 1".as_bytes()), Ok(vec![("a".to_owned(), Value::Whole(1))]));
}

#[test]
fn what_is_no_line() {
    for text in [
        "a",
        "a =",
        "= 1",
        "a = 1 b = 2",
        "a = 1\na = 2",
        "a = 1\n\"a\" = 2",
        "a = 1\rb = 2",
        "# \u{1}",
        "\u{feff}\u{feff}a = 1",
        "a = 1\n\u{feff}",
        "a\n= 1",
        "a =\n1",
    ] {
        assert_eq!(read(text.as_bytes()), Err(NotToml), "{text:?}");
    }
    assert_eq!(read(b"# \xff"), Err(NotToml));
}

#[test]
fn whole_numbers() {
    for (text, number) in [
        ("1", 1),
        ("+1", 1),
        ("-1", -1),
        ("0", 0),
        ("-0", 0),
        ("1_0", 10),
        ("0x1f", 31),
        ("0xF_f", 255),
        ("0o17", 15),
        ("0b1_1", 3),
    ] {
        assert_eq!(value(text), Ok(Value::Whole(number)), "{text}");
    }
    assert_eq!(value("9223372036854775807"), Ok(Value::Whole(i64::MAX)));
    assert_eq!(value("-9223372036854775808"), Ok(Value::Whole(i64::MIN)));
}

#[test]
fn floats_and_truth_values() {
    for text in ["1.0", "-1.5e3", "1e3", "1E+3", "0e0", "1_0.0_1", "inf", "-inf", "+nan", "true", "false"] {
        assert_eq!(value(text), Ok(Value::Other), "{text}");
    }
}

#[test]
fn what_is_no_number() {
    let refused = [
        "01",
        "+-1",
        "1_",
        "_1",
        "1__0",
        "0x",
        "0x_1",
        "-0x1",
        "0X1",
        "0xg",
        "0b2",
        "9223372036854775808",
        "1e999",
        "1.",
        ".5",
        "1.e3",
        "1e",
        "00.5",
        "True",
        "1a",
    ];
    for text in refused {
        assert_eq!(value(text), Err(NotToml), "{text}");
    }
}

#[test]
fn strings() {
    for (text, wanted) in [
        (r#""a#b""#, "a#b"),
        (r#""\"\\\b\f\n\r\t""#, "\"\\\u{8}\u{c}\n\r\t"),
        (r#""\u00e9\U0001F600""#, "\u{e9}\u{1f600}"),
        (r#""\x61\xE9\e""#, "a\u{e9}\u{1b}"),
        (r"'a\b'", r"a\b"),
        ("\"\"\"\na\r\nb\"\"\"", "a\nb"),
        ("\"\"\"a\\  \n\n  b\"\"\"", "ab"),
        ("\"\"\"a\"\"b\"\"\"\"\"", "a\"\"b\"\""),
        ("'''\n'a'\\n'''", "'a'\\n"),
        ("\"\"", ""),
        ("''", ""),
    ] {
        assert_eq!(value(text), Ok(Value::Text(wanted.into())), "{text:?}");
    }
}

#[test]
fn what_is_no_string() {
    for text in [
        "\"a",
        "'a",
        "\"a\nb\"",
        "'a\nb'",
        "\"\\x\"",
        "\"\\x6\"",
        "\"\\X61\"",
        "\"\\E\"",
        "\"\\ud800\"",
        "\"\\u12\"",
        "\"\\U00110000\"",
        "\"\"\"a\"\"",
        "\"\u{1}\"",
        "'\u{7f}'",
    ] {
        assert_eq!(value(text), Err(NotToml), "{text:?}");
    }
}

#[test]
fn arrays() {
    assert_eq!(value("[]"), Ok(list(&[])));
    assert_eq!(value("[1,2]"), Ok(list(&[1, 2])));
    assert_eq!(value("[ # one\n 1\n , # two\r\n 2 ,\n]"), Ok(list(&[1, 2])));
    let nested = |depth| value(&("[".repeat(depth) + &"]".repeat(depth)));
    assert!(nested(80).is_ok());
    assert_eq!(nested(81), Err(NotToml));
    assert_eq!(value("[[1], []]"), Ok(Value::List(vec![list(&[1]), list(&[])])));
    for text in ["[", "[1", "[,]", "[1,,2]", "[1 2]", "[1]]"] {
        assert_eq!(value(text), Err(NotToml), "{text}");
    }
}

#[test]
fn tables_and_dates_are_not_read() {
    for text in ["[a]", "[[a]]", "a.b = 1", "a = {}", "a = 2000-01-01", "a = 10:00:00"] {
        assert_eq!(read(text.as_bytes()), Err(NotToml), "{text}");
    }
}
