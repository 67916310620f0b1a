use super::*;

fn text(text: &str) -> Value<'_> {
    Value::Text(text.into())
}

fn nested(levels: usize) -> String {
    "[".repeat(levels) + &"]".repeat(levels)
}

#[test]
fn values() {
    assert_eq!(read(b" null\t"), Ok(Value::Null));
    assert_eq!(read(b"[true,false]\r"), Ok(Value::List(vec![Value::Bool, Value::Bool])));
    assert_eq!(read(b"[ ]"), Ok(Value::List(vec![])));
    assert_eq!(read(b"{ }"), Ok(Value::Object(vec![])));
    let entries = vec![("a".into(), Value::Whole(1)), ("b".into(), Value::List(vec![text("c")]))];
    assert_eq!(read(br#" { "a" : 1 , "b" : [ "c" ] } "#), Ok(Value::Object(entries)));
}

#[test]
fn a_doubled_key_stands_twice() {
    let entries = vec![("a".into(), Value::Whole(1)), ("a".into(), Value::Whole(2))];
    assert_eq!(read(br#"{"a":1,"a":2}"#), Ok(Value::Object(entries)));
}

#[test]
fn what_is_no_value() {
    let refused: [&[u8]; 24] = [
        b"",
        b" ",
        b"nul",
        b"nulll",
        b"True",
        b"[",
        b"]",
        b"[1,]",
        b"[,1]",
        b"[1 2]",
        b"{",
        b"{\"a\"}",
        b"{\"a\":}",
        b"{\"a\":1,}",
        b"{a:1}",
        b"{1:1}",
        b"'a'",
        b"1 1",
        b"{}{}",
        b"//\n1",
        b"\x0b1",
        b"\xc2\xa01",
        b"\xef\xbb\xbf1",
        b"NaN",
    ];
    for bytes in refused {
        assert_eq!(read(bytes), Err(NotJson), "{}", bytes.escape_ascii());
    }
}

#[test]
fn whole_numbers() {
    assert_eq!(read(b"0"), Ok(Value::Whole(0)));
    assert_eq!(read(b"18446744073709551615"), Ok(Value::Whole(u64::MAX)));
    for number in ["18446744073709551616", "-0", "-1", "1.0", "1e0", "1E+0", "0e0", "10e-1", "0.5", "-0.0e-1"] {
        assert_eq!(read(number.as_bytes()), Ok(Value::OtherNumber), "{number}");
    }
}

#[test]
fn numbers_that_fit_in_an_f64() {
    let long = "1".repeat(308);
    for number in ["1e308", "-1e308", "1e-400", "0e999999999999", "0.000001e313", &long] {
        assert_eq!(read(number.as_bytes()), Ok(Value::OtherNumber), "{number}");
    }
    let longer = "1".repeat(310);
    for number in ["1e309", "-1e309", "2e308", "1e999999999999", &longer] {
        assert_eq!(read(number.as_bytes()), Err(NotJson), "{number}");
    }
}

#[test]
fn what_is_no_number() {
    for number in
        ["01", "-", "- 1", "-01", "+1", ".5", "1.", "1.e1", "1e", "1e+", "1e+-1", "0x1", "1_0", "Infinity", "--1"]
    {
        assert_eq!(read(number.as_bytes()), Err(NotJson), "{number}");
    }
}

#[test]
fn strings() {
    assert_eq!(read(br#""a\"\\\/\b\f\n\r\tz""#), Ok(text("a\"\\/\u{8}\u{c}\n\r\tz")));
    assert_eq!(read(br#""\u0041\u00e9\u20ac\u0000""#), Ok(text("A\u{e9}\u{20ac}\0")));
    assert_eq!(read(br#""\ud83d\uDE00""#), Ok(text("\u{1f600}")));
    assert_eq!(read("\"\u{7f}\u{1f600}\"".as_bytes()), Ok(text("\u{7f}\u{1f600}")));
}

#[test]
fn what_is_no_string() {
    let refused: [&[u8]; 17] = [
        b"\"",
        b"\"a",
        b"\"\\\"",
        b"\"\\a\"",
        b"\"\\u12\"",
        b"\"\\u12g4\"",
        b"\"\\u+123\"",
        b"\"\\ud83d\"",
        b"\"\\ud83dx\"",
        b"\"\\ud83d\\n\"",
        b"\"\\ud83d\\u0041\"",
        b"\"\\ude00\"",
        b"\"\x1f\"",
        b"\"\0\"",
        b"\"\t\"",
        b"\"\xff\"",
        b"\"\xed\xa0\x80\"",
    ];
    for bytes in refused {
        assert_eq!(read(bytes), Err(NotJson), "{}", bytes.escape_ascii());
    }
}

#[test]
fn at_most_127_levels() {
    assert!(read(nested(127).as_bytes()).is_ok());
    assert_eq!(read(nested(128).as_bytes()), Err(NotJson));
    let objects = |levels: usize| "{\"a\":".repeat(levels) + "1" + &"}".repeat(levels);
    assert!(read(objects(127).as_bytes()).is_ok());
    assert_eq!(read(objects(128).as_bytes()), Err(NotJson));
    // Levels that were left do not count.
    assert!(read(format!("[{},{}]", nested(126), nested(126)).as_bytes()).is_ok());
}
