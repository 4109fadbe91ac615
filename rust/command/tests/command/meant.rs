//! What is said to have been meant by a text that was refused.

use crate::run::{pipe, Ran};
use std::process::Command;

const KEY: &str = "refused 13 at 0: the key is not exactly one i or s\n";
const VALUE: &str = "refused 13 at 0: the value is not exactly one N, b, i, d or s\n";

fn insert(key: &str, value: &str) -> Ran {
    let pair = ["--key", key, "--value", value];
    pipe(
        b"a:0:{}",
        [&["insert", "--quiet", "--array=/", "--at=end"], &pair[..]].concat(),
    )
}

/// A value, and what is said below the first line.
const VALUES: [(&str, &str); 12] = [
    ("5", "  5\n  probably meant: 'i:5;'   (an integer has i: before it and ; behind it)\n"),
    (
        "s:4:\"M\u{e4}rz\";",
        "  s:4:\"M%C3%A4rz\";\n  probably meant: 's:5:\"M\u{e4}rz\";'   (the number behind s: counts bytes, and this text has 5)\n",
    ),
    ("s:3:\"may\"", "  s:3:\"may\"\n  probably meant: 's:3:\"may\";'   (the ; at the end is missing; a shell takes it away unless it stands in single quotes)\n"),
    ("d:9,5;", "  d:9,5;\n  probably meant: 'd:9.5;'   (a float has a point, no comma)\n"),
    ("N;\n", "  N;%0A\n  probably meant: 'N;'   (no blank or newline stands around it)\n"),
    ("R:1;", "  R:1;\n  a reference cannot be put in, only a plain value\n"),
    ("a:0:{}", "  a:0:{}\n  an array or an object cannot be put in, only a plain value\n"),
    ("", "  \n  nothing was given; the empty string is s:0:\"\";\n"),
    // Shown, it could not be copied.
    ("s:\"a\tb\";", "  s:\"a%09b\";\n  a string is in quotes, behind s: and its length in bytes, here 3\n"),
    ("1,000", "  1,000\n  a number has a point at most, and no groups: i:1000; or d:9.5;\n"),
    ("10:30", "  10:30\n  a value is N;, b:1;, i:5;, d:9.5; or s:3:\"may\";\n"),
    (
        "o'clock",
        "  o'clock\n  probably meant: 's:7:\"o'\\''clock\";'   (a string is in quotes, behind s: and its length in bytes, here 7)\n",
    ),
];

/// A key, and the same.
const KEYS: [(&str, &str); 4] = [
    ("5", "  5\n  probably meant: 'i:5;'   (an integer has i: before it and ; behind it)\n"),
    (
        "may",
        "  may\n  probably meant: 's:3:\"may\";'   (a string is in quotes, behind s: and its length in bytes, here 3)\n",
    ),
    ("d:29;", "  d:29;\n  probably meant: 'i:29;'   (a key is an integer or a string)\n"),
    ("b:1;", "  b:1;\n  a key is an integer or a string: i:5; or s:3:\"may\";\n"),
];

#[test]
fn by_a_value() {
    for (value, said) in VALUES {
        insert("i:1;", value).fails(1, &format!("{VALUE}{said}"));
    }
}

#[test]
fn by_a_key() {
    for (key, said) in KEYS {
        insert(key, "N;").fails(1, &format!("{KEY}{said}"));
        // The key is refused first.
        insert(key, "x").fails(1, &format!("{KEY}{said}"));
    }
}

#[test]
fn what_is_told_is_accepted_when_copied() {
    for (value, said) in VALUES {
        let told = said.split_once("probably meant: ");
        let Some((copied, _)) = told.and_then(|(_, told)| told.split_once("   (")) else {
            continue;
        };
        let taken = taken_by_a_shell(copied);
        insert("i:1;", &taken).gives(format!("a:1:{{i:1;{taken}}}"));
        assert_ne!(value, taken);
    }
}

/// The argument that a shell makes of a word.
fn taken_by_a_shell(word: &str) -> String {
    let script = format!("printf %s {word}");
    let output = Command::new("bash").args(["-c", &script]).output();
    String::from_utf8(output.expect("bash starts").stdout).expect("text")
}
