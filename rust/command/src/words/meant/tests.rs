use super::*;

const STRING_3: &str = "a string is in quotes, behind s: and its length in bytes, here 3";
const STRING_2: &str = "a string is in quotes, behind s: and its length in bytes, here 2";
const STRING_6: &str = "a string is in quotes, behind s: and its length in bytes, here 6";
const STRING_7: &str = "a string is in quotes, behind s: and its length in bytes, here 7";
const STRING_10: &str = "a string is in quotes, behind s: and its length in bytes, here 10";
const STRING_5: &str = "a string is in quotes, behind s: and its length in bytes, here 5";
const BLANK: &str = "no blank or newline stands around it";
const END: &str =
    "the ; at the end is missing; a shell takes it away unless it stands in single quotes";
const CAPITALS: &str = "INF and NAN are written in capitals";
const BITS: &str = "an integer has at most 64 bits";
const A_VALUE: &str = "a value is N;, b:1;, i:5;, d:9.5; or s:3:\"may\";";
const A_KEY: &str = "a key is an integer or a string: i:5; or s:3:\"may\";";
const NOTHING: &str = "nothing was given; the empty string is s:0:\"\";";
const COLON: &str = "a colon stands behind the letter";
const COMMA: &str = "a float has a point, no comma";
const POINT: &str = "an integer has no point; the letter of a float is d";
const LARGE: &str = "an integer has at most 64 bits; a larger number is a float";
const BYTES_5: &str = "the number behind s: counts bytes, and this text has 5";
const CONTAINER: &str = "an array or an object cannot be put in, only a plain value";
const REFERENCE: &str = "a reference cannot be put in, only a plain value";
const GROUPS: &str = "a number has a point at most, and no groups: i:1000; or d:9.5;";
const NO_INTEGER: &str = "between i: and ; stands an integer, as in i:29;";
const NO_FLOAT: &str = "between d: and ; stands a float, as in d:9.5;";
const NO_STRING: &str = "behind s: stand the length and the text, as in s:3:\"may\";";
const ONE: &str = "exactly one is put in, and more stands behind the first";

/// What is typed as a value, what is meant by it, and why. Nothing is meant where the text is "".
const VALUES: &[(&str, &str, &str)] = &[
    ("5", "i:5;", guesses::INTEGER),
    ("-7", "i:-7;", guesses::INTEGER),
    ("\u{2212}7", "i:-7;", guesses::INTEGER),
    ("+5", "i:+5;", guesses::INTEGER),
    ("5;", "i:5;", guesses::INTEGER),
    ("5 ;", "i:5;", guesses::INTEGER),
    ("5,", "i:5;", guesses::INTEGER),
    ("9223372036854775808", "d:9223372036854775808;", LARGE),
    ("i:9223372036854775808;", "d:9223372036854775808;", LARGE),
    ("9.5", "d:9.5;", guesses::FLOAT),
    (".5", "d:.5;", guesses::FLOAT),
    ("1e3", "d:1e3;", guesses::FLOAT),
    ("-INF", "d:-INF;", guesses::FLOAT),
    ("9,5", "d:9.5;", COMMA),
    ("-0,125", "d:-0.125;", COMMA),
    ("1234,567", "d:1234.567;", COMMA),
    ("1,000", "", GROUPS),
    ("-10,250", "", GROUPS),
    ("1.000,5", "", GROUPS),
    ("1,000.5", "", GROUPS),
    ("1,000,000", "", GROUPS),
    ("1 000", "", GROUPS),
    ("1'000", "", GROUPS),
    ("1_000", "", GROUPS),
    ("1.000.000", "", GROUPS),
    ("+1,250", "", GROUPS),
    ("\u{2212}1,000", "", GROUPS),
    ("\u{2013}1,000", "", GROUPS),
    ("1,000e3", "", GROUPS),
    ("1,000;", "", GROUPS),
    ("01,000", "", GROUPS),
    (",5", "", GROUPS),
    ("d:1,000;", "", GROUPS),
    ("d:1,250;", "", GROUPS),
    ("d:1,000e3;", "", GROUPS),
    ("d:\u{2212}1,000;", "", GROUPS),
    ("d1,000;", "", GROUPS),
    ("i:1,000;", "", GROUPS),
    ("i:9,500;", "", GROUPS),
    ("i:1.000;", "", GROUPS),
    ("i:1.000.000;", "", GROUPS),
    ("i:\"1,000\";", "", GROUPS),
    ("i:\u{2013}1,000;", "", GROUPS),
    ("0,125", "d:0.125;", COMMA),
    ("d:0,125;", "d:0.125;", COMMA),
    ("d:1234,567;", "d:1234.567;", COMMA),
    ("\u{2212}9,5", "d:-9.5;", COMMA),
    ("d:9,5;", "d:9.5;", COMMA),
    ("d:9,5", "d:9.5;", COMMA),
    ("d:-9,5e3;", "d:-9.5e3;", COMMA),
    ("i:9,5;", "d:9.5;", COMMA),
    ("i:9.5;", "d:9.5;", POINT),
    ("d:inf;", "d:INF;", CAPITALS),
    ("inf", "d:INF;", CAPITALS),
    ("-Inf", "d:-INF;", CAPITALS),
    ("\u{2212}inf", "d:-INF;", CAPITALS),
    ("nan", "d:NAN;", CAPITALS),
    ("NaN;", "d:NAN;", CAPITALS),
    ("INF", "d:INF;", guesses::FLOAT),
    ("infinity", "", A_VALUE),
    ("may", "s:3:\"may\";", STRING_3),
    ("may;", "", A_VALUE),
    ("may,", "", A_VALUE),
    ("true;", "", A_VALUE),
    ("\"may\";", "", A_VALUE),
    ("\"may", "", A_VALUE),
    ("may\"", "", A_VALUE),
    ("\"may'", "", A_VALUE),
    ("\u{201d}may\u{201c}", "", A_VALUE),
    ("\"may\" \"june\"", "", A_VALUE),
    ("may;june", "", A_VALUE),
    ("+ -", "", A_VALUE),
    ("n", "", A_VALUE),
    ("d", "", A_VALUE),
    ("\"may\"", "s:3:\"may\";", STRING_3),
    ("`may\u{b4}", "s:3:\"may\";", STRING_3),
    ("s;3;\"may\";", "s:3:\"may\";", COLON),
    ("'may'", "s:3:\"may\";", STRING_3),
    ("\u{201c}may\u{201d}", "s:3:\"may\";", STRING_3),
    ("\u{201e}may\u{201c}", "s:3:\"may\";", STRING_3),
    ("\u{ab}may\u{bb}", "s:3:\"may\";", STRING_3),
    ("M\u{e4}rz", "s:5:\"M\u{e4}rz\";", STRING_5),
    ("north", "s:5:\"north\";", STRING_5),
    ("basin", "s:5:\"basin\";", STRING_5),
    ("no. 5", "s:5:\"no. 5\";", STRING_5),
    ("may day", "s:7:\"may day\";", STRING_7),
    ("o'clock", "s:7:\"o'clock\";", STRING_7),
    (
        "\u{43c}\u{430}\u{439}",
        "s:6:\"\u{43c}\u{430}\u{439}\";",
        STRING_6,
    ),
    ("10:30", "", A_VALUE),
    ("\"10:30\"", "", A_VALUE),
    ("\"5\"", "", A_VALUE),
    ("9.5m", "", A_VALUE),
    ("0x1A", "", A_VALUE),
    ("2024-02-29", "", A_VALUE),
    ("d9.75", "", A_VALUE),
    ("i5", "", A_VALUE),
    ("i-5", "", A_VALUE),
    ("i 5", "", A_VALUE),
    ("d.5", "", A_VALUE),
    ("int:5;", "", A_VALUE),
    ("int: 5", "", A_VALUE),
    ("f:9.5;", "", A_VALUE),
    ("N:0;", "", A_VALUE),
    ("float(9.5)", "", A_VALUE),
    ("float (9.5)", "", A_VALUE),
    ("air=9.5", "", A_VALUE),
    ("air => 9.5", "", A_VALUE),
    ("may\u{a0}day", "", A_VALUE),
    ("may\u{3000}day", "", A_VALUE),
    ("may\u{200b}day", "", A_VALUE),
    ("may\tday", "", A_VALUE),
    (
        "\"\"",
        "s:0:\"\";",
        "a string is in quotes, behind s: and its length in bytes, here 0",
    ),
    ("true", "b:1;", guesses::BOOLEAN),
    ("False", "b:0;", guesses::BOOLEAN),
    ("null", "N;", "null is N;"),
    ("NULL", "N;", "null is N;"),
    ("s:4:\"M\u{e4}rz\";", "s:5:\"M\u{e4}rz\";", BYTES_5),
    ("s:4:\"M\u{e4}rz\"", "s:5:\"M\u{e4}rz\";", BYTES_5),
    ("s:+4:\"M\u{e4}rz\";", "s:5:\"M\u{e4}rz\";", BYTES_5),
    ("s:6:\"north\";", "s:5:\"north\";", BYTES_5),
    ("s:4:\"no\\rd\";", "", NO_STRING),
    ("s:4:\"M%E4rz\";", "", NO_STRING),
    ("s:4:\"M&auml;rz\";", "", NO_STRING),
    ("s:\"no\\rd\";", "", NO_STRING),
    ("\"no\\rd\"", "", A_VALUE),
    ("'5'", "", A_VALUE),
    ("- 5", "", A_VALUE),
    ("i:5.", "", NO_INTEGER),
    ("5.", "", A_VALUE),
    ("1,5,", "", GROUPS),
    ("s may", "", A_VALUE),
    ("no", "", A_VALUE),
    ("Yes", "", A_VALUE),
    ("none", "", A_VALUE),
    ("none other", "s:10:\"none other\";", STRING_10),
    (
        "s:99999999999999999999:\"north\";",
        "s:5:\"north\";",
        BYTES_5,
    ),
    ("s:3:\"no\"rd\";", "", NO_STRING),
    (
        "S:5:\"no\"rd\";",
        "s:5:\"no\"rd\";",
        "the letter is s, not S",
    ),
    ("s:3:\"may\"", "s:3:\"may\";", END),
    ("i:5", "i:5;", END),
    ("d:9.5", "d:9.5;", END),
    ("b:1", "b:1;", END),
    ("N", "N;", END),
    ("s:may;", "s:3:\"may\";", STRING_3),
    ("s:may", "s:3:\"may\";", STRING_3),
    ("s:\"may\";", "s:3:\"may\";", STRING_3),
    ("s:3:may;", "s:3:\"may\";", STRING_3),
    ("s:3:'may';", "s:3:\"may\";", STRING_3),
    ("s:3:\"may;", "", NO_STRING),
    ("s:4:\"may;", "", NO_STRING),
    ("s:3:may\";", "", NO_STRING),
    ("s:3:\"may\".", "", NO_STRING),
    ("s:3:\"may\",", "", NO_STRING),
    ("s:5:\"abc\";x", "", NO_STRING),
    ("s:2:\"may\";s:4:\"june\";", "", NO_STRING),
    ("s:\"may\";s:\"june\";", "", NO_STRING),
    ("s:3:\"may\\\";", "", NO_STRING),
    ("s:3:", "", NO_STRING),
    ("s:5;", "", NO_STRING),
    ("s:9:30;", "", NO_STRING),
    ("s:12:30:45;", "", NO_STRING),
    ("s:2024:may;", "", NO_STRING),
    ("s:-3:\"may\";", "", NO_STRING),
    ("s:3::may;", "", NO_STRING),
    ("s:may,", "", NO_STRING),
    ("s:inf;", "", NO_STRING),
    ("s3:\"may\";", "", A_VALUE),
    ("s:2:30;", "s:2:\"30\";", STRING_2),
    ("s:\"30\";", "s:2:\"30\";", STRING_2),
    ("s:3: \"may\";", "s:3:\"may\";", STRING_3),
    ("s:3:\\\"may\\\";", "s:3:\"may\";", STRING_3),
    ("s:3:&quot;may&quot;;", "s:3:\"may\";", STRING_3),
    ("s:3:&quot;may&quot;", "s:3:\"may\";", STRING_3),
    ("s:3\"may\";", "", NO_STRING),
    ("s: \"may\";", "s:3:\"may\";", STRING_3),
    ("s:3 am;", "", NO_STRING),
    ("s\"may\";", "s:3:\"may\";", COLON),
    ("b:true;", "b:1;", guesses::BOOLEAN),
    ("b:FALSE", "b:0;", guesses::BOOLEAN),
    ("b:2;", "", guesses::BOOLEAN),
    ("I:5;", "i:5;", "the letter is i, not I"),
    ("D:9.5;", "d:9.5;", "the letter is d, not D"),
    ("B:1;", "b:1;", "the letter is b, not B"),
    ("n;", "N;", "the letter is N, not n"),
    ("S:3:\"may\";", "s:3:\"may\";", "the letter is s, not S"),
    (
        "S:1:\"\\41\";",
        "",
        "S has escapes: write the bytes that they mean, with s",
    ),
    ("N:;", "N;", "null is N;"),
    ("i5;", "i:5;", COLON),
    ("d9.5;", "d:9.5;", COLON),
    ("i=5", "i:5;", COLON),
    ("i = 5", "i:5;", COLON),
    ("i: 5;", "i:5;", guesses::INTEGER),
    ("i:5 ;", "i:5;", guesses::INTEGER),
    ("i:\"5\";", "i:5;", guesses::INTEGER),
    ("i:5,", "i:5;", guesses::INTEGER),
    ("i:5:", "i:5;", guesses::INTEGER),
    ("i;5;", "i:5;", COLON),
    ("i:;", "", NO_INTEGER),
    ("i:five;", "", NO_INTEGER),
    ("i:\"5;", "", NO_INTEGER),
    ("i:.5;", "d:.5;", POINT),
    ("d:9.5 m;", "", NO_FLOAT),
    ("s:;", "", NO_STRING),
    ("s;", "", NO_STRING),
    (" i:5;", "i:5;", BLANK),
    ("i:5; ", "i:5;", BLANK),
    ("i:5;\n", "i:5;", BLANK),
    ("i:5;\r\n", "i:5;", BLANK),
    ("5\n", "i:5;", guesses::INTEGER),
    ("i:5\n", "i:5;", END),
    ("'i:5;'", "i:5;", "no quotes stand around it"),
    ("i:5;;", "i:5;", "nothing stands behind the ;"),
    ("i:3;d:9.75;", "", ONE),
    ("s:3:\"may\";s:4:\"june\";", "", ONE),
    ("", "", NOTHING),
    (" \n", "", NOTHING),
    (",", "", NOTHING),
    (";", "", NOTHING),
    ("a:0:{}", "", CONTAINER),
    ("a:1:{i:0", "", CONTAINER),
    ("O:3:\"Day\":0:{}", "", CONTAINER),
    ("E:11:\"Suit:Hearts\";", "", CONTAINER),
    ("[1, 2]", "", CONTAINER),
    ("R:5;", "", REFERENCE),
    ("R:+5;", "", REFERENCE),
    ("r:5", "", REFERENCE),
];

/// The same of keys.
const KEYS: &[(&str, &str, &str)] = &[
    ("5", "i:5;", guesses::INTEGER),
    ("29 ", "i:29;", guesses::INTEGER),
    ("may", "s:3:\"may\";", STRING_3),
    ("s:4:\"M\u{e4}rz\";", "s:5:\"M\u{e4}rz\";", BYTES_5),
    (
        "true",
        "s:4:\"true\";",
        "a string is in quotes, behind s: and its length in bytes, here 4",
    ),
    ("N", "", A_KEY),
    ("inf", "", A_KEY),
    ("may 5", "", A_KEY),
    ("s:3:", "", NO_STRING),
    ("i:29", "i:29;", END),
    ("d:29;", "i:29;", guesses::KEY),
    ("d:29.0;", "", A_KEY),
    ("i:9.5;", "", A_KEY),
    ("9,5", "", A_KEY),
    ("1,000", "", GROUPS),
    ("b:1;", "", A_KEY),
    ("N;", "", A_KEY),
    ("R:5;", "", A_KEY),
    ("a:0:{}", "", A_KEY),
    ("9223372036854775808", "", BITS),
    ("i:9223372036854775808;", "", BITS),
    ("i:3;d:9.75;", "", ONE),
    ("", "", NOTHING),
];

fn is_told(role: Role, cases: &[(&str, &str, &str)]) {
    for (typed, text, why) in cases {
        let expected = Meant {
            why: why.to_string(),
            text: Some(text.as_bytes().to_vec()).filter(|text| !text.is_empty()),
        };
        assert_eq!(
            meant(typed.as_bytes(), role),
            Some(expected),
            "{role:?} {typed}"
        );
    }
}

#[test]
fn by_a_value() {
    is_told(Role::Value, VALUES);
}

#[test]
fn by_a_key() {
    is_told(Role::Key, KEYS);
}

#[test]
fn nothing_is_said_of_a_fit_text() {
    for fit in ["N;", "b:0;", "i:+05;", "d:5.;", "s:0:\"\";"] {
        assert_eq!(meant(fit.as_bytes(), Role::Value), None);
    }
    assert_eq!(meant(b"s:3:\"a;b\";", Role::Key), None);
}

#[test]
fn only_what_can_be_copied_is_told() {
    let said = |text: &[u8]| meant(text, Role::Value).unwrap().to_string();
    assert_eq!(said(b"M\xe4rz"), A_VALUE);
    assert_eq!(said(b"s:\"M\xe4rz\";"), string_of(4));
    assert_eq!(said(b"s:\"a\0b\";"), STRING_3);
    let shown = "x".repeat(LONGEST - "s:192:\"\";".len());
    let text = format!("s:{}:\"{shown}\";", shown.len());
    assert_eq!(
        said(shown.as_bytes()),
        format!("probably meant: '{text}'   ({})", string_of(191))
    );
    assert_eq!(said((shown + "x").as_bytes()), string_of(192));
}

#[test]
fn a_shell_takes_what_is_told() {
    let said = meant(b"o'clock", Role::Value).unwrap().to_string();
    assert_eq!(
        said,
        format!("probably meant: 's:7:\"o'\\''clock\";'   ({STRING_7})")
    );
}

fn string_of(count: usize) -> String {
    format!("a string is in quotes, behind s: and its length in bytes, here {count}")
}

/// Pieces of what is typed; put together they make texts that are nearly fit.
const PIECES: [&[u8]; 43] = [
    b"i",
    b"d",
    b"s",
    b"b",
    b"N",
    b"S",
    b"I",
    b"R",
    b"a",
    b"E",
    b":",
    b";",
    b"=",
    b",",
    b".",
    b"\"",
    b"'",
    b" ",
    b"\n",
    b"-",
    b"+",
    b"5",
    b"29",
    b"3",
    b"9223372036854775808",
    b"9,5",
    b"1,000",
    b"1.000",
    b"30:45",
    b"may",
    b"M\xc3\xa4rz",
    b"\xe4",
    b"\0",
    b"\\\"",
    b"&quot;",
    b"\xe2\x80\x9c",
    b"\xe2\x88\x92",
    b"true",
    b"null",
    b"INF",
    b"{}",
    b"s:3:\"may\";",
    b"i:5;",
];

/// Texts put together by chance, and what is told for each.
fn told_by_chance() -> Vec<(Vec<u8>, Role, Vec<u8>)> {
    let mut state = 7_u64;
    let mut below = |limit: usize| {
        state = state
            .wrapping_mul(6_364_136_223_846_793_005)
            .wrapping_add(1);
        (state >> 33) as usize % limit
    };
    let mut told = Vec::new();
    for _ in 0..40_000 {
        let count = 1 + below(6);
        let text: Vec<u8> = (0..count)
            .flat_map(|_| PIECES[below(PIECES.len())])
            .copied()
            .collect();
        for role in [Role::Key, Role::Value] {
            if let Some(meant) = meant(&text, role).and_then(|meant| meant.text) {
                told.push((text.clone(), role, meant));
            }
        }
    }
    told
}

#[test]
fn whatever_is_told_is_accepted() {
    let told = told_by_chance();
    for (text, role, meant) in &told {
        assert!(is_accepted(meant, *role), "{}", text.escape_ascii());
    }
    assert!(told.len() > 5_000, "{}", told.len());
}

#[test]
fn what_is_told_has_the_digits_that_were_typed() {
    let told = told_by_chance();
    let with_digits = told.iter().filter(|(text, ..)| !digits(text).is_empty());
    let mut count = 0;
    for (text, _, meant) in with_digits {
        let typed = digits(text);
        let same = match meant.strip_prefix(b"s:") {
            None => typed == digits(meant),
            Some(string) => {
                let told = digits(without_length(string));
                typed == told || digits(without_length(after_letter(text))) == told
            }
        };
        assert!(same, "{} {}", text.escape_ascii(), meant.escape_ascii());
        count += 1;
    }
    assert!(count > 2_000, "{count}");
}

fn digits(text: &[u8]) -> Vec<u8> {
    let digits = text.iter().copied().filter(u8::is_ascii_digit);
    digits.collect()
}

/// Behind an s, what stands around it and what stands for its colon.
fn after_letter(text: &[u8]) -> &[u8] {
    let is_before = |byte: &u8| !byte.is_ascii_digit() && *byte != b'm';
    let length = text.iter().take_while(|byte| is_before(byte)).count();
    &text[length..]
}

fn without_length(string: &[u8]) -> &[u8] {
    let length = string.iter().take_while(|byte| byte.is_ascii_digit());
    &string[length.count()..]
}

/// Whether the library puts it into a plan.
fn is_accepted(text: &[u8], role: Role) -> bool {
    let (key, value): (&[u8], &[u8]) = match role {
        Role::Key => (text, b"b:1;"),
        Role::Value => (b"i:-1;", text),
    };
    let plan = Plan::read("a:1:{i:0;a:0:{}}").expect("a plan");
    let array = plan.path("/0").expect("an array");
    array.insert(0, key, value).is_ok()
}
