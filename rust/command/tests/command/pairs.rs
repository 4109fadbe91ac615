//! Pairs to put in, and their places, as people type them.

use crate::run::{pipe, YEAR};
use std::ffi::OsStr;
use std::fs;
use std::os::unix::ffi::OsStrExt;

const PLAN: &[u8] = b"a:3:{i:1;d:9.5;s:3:\"may\";R:2;s:1:\"5\";N;}";

/// What is inserted with these arguments, parted by spaces, gives this plan.
fn gives(arguments: &str, expected: &str) {
    let arguments = ["insert", "--quiet", "--array", "/"]
        .into_iter()
        .chain(arguments.split(' '));
    pipe(PLAN, arguments).gives(expected);
}

#[test]
fn beside_a_key() {
    let new = "--int-key 7 --null";
    for (place, expected) in [
        (
            "--before 1",
            "a:4:{i:7;N;i:1;d:9.5;s:3:\"may\";R:3;s:1:\"5\";N;}",
        ),
        (
            "--after 1",
            "a:4:{i:1;d:9.5;i:7;N;s:3:\"may\";R:2;s:1:\"5\";N;}",
        ),
        (
            "--before=may",
            "a:4:{i:1;d:9.5;i:7;N;s:3:\"may\";R:2;s:1:\"5\";N;}",
        ),
        (
            "--after m%61y",
            "a:4:{i:1;d:9.5;s:3:\"may\";R:2;i:7;N;s:1:\"5\";N;}",
        ),
        (
            "--before \"5\"",
            "a:4:{i:1;d:9.5;s:3:\"may\";R:2;i:7;N;s:1:\"5\";N;}",
        ),
        (
            "--after=\"5\"",
            "a:4:{i:1;d:9.5;s:3:\"may\";R:2;s:1:\"5\";N;i:7;N;}",
        ),
    ] {
        gives(&format!("{place} {new}"), expected);
    }
}

/// The same place by its number and by the keys on either side, all through a month.
#[test]
fn beside_each_key_of_a_month() {
    let year = fs::read(YEAR).unwrap();
    let insert = |place: [&str; 2]| {
        let rest = [
            "--array=/months/2",
            "--int-key=29",
            "--float=9.5",
            "--quiet",
        ];
        let ran = pipe(&year, ["insert"].into_iter().chain(place).chain(rest));
        assert_eq!((ran.status, ran.error.as_str()), (Some(0), ""));
        ran.out
    };
    for day in 1..=28 {
        let before = insert(["--at", &(day - 1).to_string()]);
        let behind = insert(["--at", &day.to_string()]);
        assert_eq!(insert(["--before", &day.to_string()]), before);
        assert_eq!(insert(["--after", &day.to_string()]), behind);
    }
}

#[test]
fn beside_a_key_that_there_is_not() {
    for (array, place, status, error) in [
        ("/", "--before=2", 3, "tonschnecke: / has no key 2\n"),
        (
            "/",
            "--after=5",
            3,
            "tonschnecke: / has no key 5, but the string key \"5\"\n",
        ),
        // What is no array is the library's to refuse.
        (
            "/1",
            "--after=5",
            1,
            "refused 11 at 0: /1 is 9.5, and no array\n",
        ),
    ] {
        let arguments = ["insert", "--array", array, place, "--int-key=7", "--null"];
        pipe(PLAN, arguments).fails(status, error);
    }
    let arguments = ["insert", "--node=99", "--after=1", "--int-key=7", "--null"];
    let error = "refused 11 at 0: there is no node 99; the last is node 6\n";
    pipe(PLAN, arguments).fails(1, error);
}

/// A pair as it is typed, and its text.
const TYPED: [(&str, &str); 13] = [
    ("--int-key 29 --int 9", "i:29;i:9;"),
    ("--int-key -7 --int -9", "i:-7;i:-9;"),
    ("--int-key=+07 --int=+09", "i:7;i:9;"),
    (
        "--int-key=-9223372036854775808 --int=9223372036854775807",
        "i:-9223372036854775808;i:9223372036854775807;",
    ),
    ("--string-key june --float 9.5", "s:4:\"june\";d:9.5;"),
    ("--string-key=29 --float=-1e3", "s:2:\"29\";d:-1e3;"),
    ("--string-key= --string=", "s:0:\"\";s:0:\"\";"),
    (
        "--string-key März --string März",
        "s:5:\"März\";s:5:\"März\";",
    ),
    (
        "--string-key=--null --string \";N;\"",
        "s:6:\"--null\";s:5:\"\";N;\"\";",
    ),
    ("--int-key 2 --null", "i:2;N;"),
    ("--int-key 2 --true", "i:2;b:1;"),
    ("--int-key 2 --false", "i:2;b:0;"),
    ("--key i:02; --value s:1:\"x\";", "i:02;s:1:\"x\";"),
];

#[test]
fn as_they_are_typed() {
    for (typed, pair) in TYPED {
        let plan = format!("a:4:{{{pair}i:1;d:9.5;s:3:\"may\";R:3;s:1:\"5\";N;}}");
        gives(&format!("--at 0 {typed}"), &plan);
    }
}

#[test]
fn texts_of_any_bytes() {
    let arguments = [
        "insert",
        "--quiet",
        "--array=/",
        "--at=0",
        "--int-key=1",
        "--string",
    ];
    let bytes = OsStr::from_bytes(b"\xff\x01\"");
    let arguments = arguments.map(OsStr::new).into_iter().chain([bytes]);
    pipe(b"a:0:{}", arguments).gives(b"a:1:{i:1;s:3:\"\xff\x01\"\";}");
}
