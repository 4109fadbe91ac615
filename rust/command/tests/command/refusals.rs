//! Every refusal that the command can meet, with what it says.

use crate::run::{pipe, Folder, YEAR};
use std::fs;

fn refused(source: impl AsRef<[u8]>, error: &str) {
    for subcommand in ["nodes", "show", "canonical"] {
        pipe(source.as_ref(), [subcommand]).fails(1, error);
    }
    let insert = ["insert", "--array=/9", "--at=7", "--key=x", "--value=y"];
    pipe(source.as_ref(), insert).fails(1, error);
}

/// A plan, and what is said of it.
const PLANS: [(&str, &str); 19] = [
    ("", "refused 2 at 0: the plan ends where a value or a key is due; it is empty\n  \n  ^\n"),
    ("a:1:{i:0;", "refused 2 at 9: the plan ends where a value or a key is due\n  a:1:{i:0;\n           ^\n"),
    ("a:1:{i:0;N;", "refused 2 at 0: the text that begins here is not of the form a:COUNT:{PAIRS} with so many pairs, or the plan ends too soon\n  a:1:{i:0;N;\n  ^\n"),
    ("a:1:{i:0;s:3:\"ma", "refused 2 at 9: the text that begins here is not of the form s:LENGTH:\"BYTES\"; with so many bytes, or the plan ends too soon\n  a:1:{i:0;s:3:\"ma\n           ^\n"),
    ("N", "refused 2 at 0: the text that begins here is not of the form N;, or the plan ends too soon\n  N\n  ^\n"),
    ("b:2;", "refused 2 at 0: the text that begins here is not of the form b:0; or b:1;, or the plan ends too soon\n  b:2;\n  ^\n"),
    ("i:;", "refused 2 at 0: the text that begins here is not of the form i:INTEGER;, or the plan ends too soon\n  i:;\n  ^\n"),
    ("d:.;", "refused 2 at 0: the text that begins here is not of the form d:FLOAT;, or the plan ends too soon\n  d:.;\n  ^\n"),
    ("s:2:\"a\";", "refused 2 at 0: the text that begins here is not of the form s:LENGTH:\"BYTES\"; with so many bytes, or the plan ends too soon\n  s:2:\"a\";\n  ^\n"),
    ("a:0:{N;}", "refused 2 at 0: the text that begins here is not of the form a:COUNT:{PAIRS} with so many pairs, or the plan ends too soon\n  a:0:{N;}\n  ^\n"),
    (
        "O:1:\"P\"",
        "refused 2 at 0: the text that begins here is not of the form O:LENGTH:\"CLASS\":COUNT:{PAIRS} with so many bytes and pairs, or the plan ends too soon
  O:1:\"P\"
  ^
",
    ),
    ("r:-1;", "refused 2 at 0: the text that begins here is not of the form r:NUMBER;, or the plan ends too soon\n  r:-1;\n  ^\n"),
    ("R1;", "refused 2 at 0: the text that begins here is not of the form R:NUMBER;, or the plan ends too soon\n  R1;\n  ^\n"),
    ("x:1:\"X\":0:{}", "refused 3 at 0: a value begins with one of N b i d s a O r R\n  x:1:\"X\":0:{}\n  ^\n"),
    ("a:2:{i:0;N;}", "refused 4 at 11: a key begins with i or s in an array, and with s in an object\n  a:2:{i:0;N;}\n             ^\n"),
    ("i:9223372036854775808;", "refused 5 at 0: the integer has more than 64 bits, or the number is above 65,536\n  i:922337203685477580...\n  ^\n"),
    ("a:1:{i:0;R:2;}", "refused 6 at 9: the reference names a number that no earlier value carries\n  a:1:{i:0;R:2;}\n           ^\n"),
    ("a:2:{i:5;N;i:05;N;}", "refused 9 at 11: the container has this key already\n  a:2:{i:5;N;i:05;N;}\n             ^\n"),
    ("N;;", "refused 10 at 2: bytes follow the value\n  N;;\n    ^\n"),
];

#[test]
fn of_a_plan() {
    for (source, error) in PLANS {
        refused(source, error);
    }
}

#[test]
fn of_a_plan_too_long() {
    let error = "refused 1 at 0: the plan is longer than 65,536 bytes\n";
    refused(vec![b'x'; 65_537], error);
}

#[test]
fn of_a_plan_too_deep() {
    let plan = "a:1:{i:0;".repeat(65) + &"}".repeat(65);
    refused(
        plan,
        "refused 8 at 576: the value stands deeper than 64\n  \
         ...0;a:1:{i:0;a:1:{i:0;a:1:{i:0;}}}}}}}}}}}...\n                         ^\n",
    );
}

#[test]
fn bytes_around_are_cut_and_escaped() {
    let before = "s:30:\"\u{e4}%\"\t".to_owned() + &"x".repeat(25) + "\";";
    let ordinals = "a:2:{i:0;".to_owned() + &before + "i:1;Q\u{e4} %\x7f" + &"y".repeat(30);
    refused(
        ordinals,
        "refused 3 at 51: a value begins with one of N b i d s a O r R\n  \
         ...xxxxxxxxxxxxxx\";i:1;Q%C3%A4 %25%7Fyyyyyyyyyyyyyy...\n                         ^\n",
    );
}

fn insertion_refused(source: impl AsRef<[u8]>, arguments: &[&str], error: &str) {
    let arguments = [&["insert"], arguments].concat();
    pipe(source.as_ref(), arguments).fails(1, error);
}

#[test]
fn of_a_node_that_is_no_array() {
    let year = fs::read(YEAR).unwrap();
    let refused = |array: &[&str], error: &str| {
        let rest = ["--at", "end", "--key", "i:1;", "--value", "N;"];
        insertion_refused(
            &year,
            &[array, &rest].concat(),
            &format!("refused 11 at 0: {error}\n"),
        );
    };
    refused(
        &["--array", "/"],
        "/ is object \"AirPlan\" of 3, and no array",
    );
    refused(&["--array", "/year"], "/year is 2024, and no array");
    refused(&["--node", "4"], "/leap is true, and no array");
    refused(&["--node", "1"], "node 1 is the key year, and no array");
    refused(
        &["--node", "1189"],
        "there is no node 1189; the last is node 1188",
    );
    refused(
        &["--array", "/months/1/24"],
        "/months/1/24 is a reference, and no array\n  \
         It is R to /months/1/2, 10.4, and references are not followed",
    );
}

/// Place, key and value, and what is said of them.
const REQUESTS: [(&str, &str, &str, &str); 7] = [
    ("4", "i:9;", "N;", "refused 12 at 0: the place 4 is above the count of /, which is 3\n"),
    ("0", "d:5;", "N;", "refused 13 at 0: the key is not exactly one i or s\n  d:5;\n  probably meant: 'i:5;'   (a key is an integer or a string)\n"),
    ("0", "", "x", "refused 13 at 0: the key is not exactly one i or s\n  \n  nothing was given; the empty string is s:0:\"\";\n"),
    ("0", "i:9;", "R:1;", "refused 13 at 0: the value is not exactly one N, b, i, d or s\n  R:1;\n  a reference cannot be put in, only a plain value\n"),
    ("0", "i:0;", "N;\n", "refused 13 at 0: the value is not exactly one N, b, i, d or s\n  N;%0A\n  probably meant: 'N;'   (no blank or newline stands around it)\n"),
    (
        "0",
        "i:9;",
        "0123456789012345678901234567890123456789012345678901234567890",
        "refused 13 at 0: the value is not exactly one N, b, i, d or s
  012345678901234567890123456789012345678901234567890123456789...
  probably meant: 'd:0123456789012345678901234567890123456789012345678901234567890;'   (an integer has at most 64 bits; a larger number is a float)
",
    ),
    ("3", "i:+02;", "N;", "refused 9 at 0: / has this key already\n  i:+02;\n"),
];

#[test]
fn of_the_place_and_the_texts() {
    let plan = "a:3:{i:0;d:1.5;i:1;a:1:{i:0;N;}i:2;R:3;}";
    for (at, key, value, error) in REQUESTS {
        let arguments = ["--array", "/", "--at", at, "--key", key, "--value", value];
        insertion_refused(plan, &arguments, error);
    }
}

#[test]
fn of_the_new_plan() {
    let pair = ["--at", "end", "--key", "i:1;", "--value", "N;"];
    let deep = "a:1:{i:0;".repeat(63) + "a:0:{}" + &"}".repeat(63);
    let path = "/0".repeat(63);
    let error = format!("refused 8 at 0: a value would stand deeper than 64 in the array {path}\n");
    insertion_refused(deep, &[&["--array", &path], &pair[..]].concat(), &error);
    let text = "x".repeat(65_536 - "a:1:{i:0;s:65517:\"\";}".len());
    let full = format!("a:1:{{i:0;s:{}:\"{text}\";}}", text.len());
    let error = "refused 14 at 0: the new plan would be longer than 65,536 bytes\n";
    insertion_refused(full, &[&["--array", "/"], &pair[..]].concat(), error);
}

#[test]
fn a_refusal_leaves_the_output_file_as_it_was() {
    let folder = Folder::new();
    let (plan, kept) = (folder.file("plan", "N;;"), folder.file("kept", "kept"));
    let (plan, kept) = (plan.to_str().unwrap(), kept.to_str().unwrap());
    for subcommand in ["nodes", "show", "canonical"] {
        let ran = crate::run::run([subcommand, plan, "-o", kept]);
        assert_eq!(ran.status, Some(1), "{}", ran.error);
        assert_eq!(fs::read(kept).unwrap(), b"kept");
    }
    let fresh = folder.path("fresh");
    let arguments = [
        "insert",
        "-o",
        fresh.to_str().unwrap(),
        "--node=7",
        "--at=0",
        "--key=i:0;",
    ];
    let ran = pipe(b"N;", arguments.into_iter().chain(["--value=N;"]));
    assert_eq!(ran.status, Some(1), "{}", ran.error);
    assert!(!fresh.exists());
}
