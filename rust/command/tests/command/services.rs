//! What each subcommand gives, from a file and from a pipe.

use crate::run::{long_tree, pipe, run, Folder, YEAR};
use std::fs;

const PLAN: &[u8] = b"a:3:{i:0;d:1.5;i:1;d:2.5;i:2;R:3;}";

/// The same from a file, from standard input by default, by `-`, and to `-o` instead.
fn gives(source: &[u8], arguments: &[&str], expected: impl AsRef<[u8]>) {
    let folder = Folder::new();
    let file = folder.file("the plan", source);
    let (file, out) = (file.to_str().unwrap(), folder.path("out"));
    let out_name = out.to_str().unwrap();
    run([arguments, &[file]].concat()).gives(&expected);
    run([&[arguments[0], file], &arguments[1..]].concat()).gives(&expected);
    pipe(source, arguments).gives(&expected);
    pipe(source, [arguments, &["-"]].concat()).gives(&expected);
    pipe(source, [arguments, &["-o", "-"]].concat()).gives(&expected);
    run([arguments, &[file, &format!("-o{out_name}")]].concat()).gives("");
    assert_eq!(fs::read(&out).unwrap(), expected.as_ref());
    run([arguments, &[file, "-o", out_name]].concat()).gives("");
    assert_eq!(fs::read(&out).unwrap(), expected.as_ref());
    fs::remove_file(&out).unwrap();
    pipe(source, [arguments, &["-o", out_name, "--", "-"]].concat()).gives("");
    assert_eq!(fs::read(&out).unwrap(), expected.as_ref());
}

#[test]
fn nodes() {
    gives(
        b"a:1:{i:0;N;}",
        &["nodes"],
        "97,1,0,0,1,3\n105,0,0,0,0,2\n78,2,0,0,0,3\n",
    );
    gives(b"i:-1;", &["nodes"], "105,1,18446744073709551615,0,0,1\n");
    gives(b"s:5:\"basin\";", &["nodes"], "115,1,5,5,0,1\n");
}

#[test]
fn every_plan_has_room_in_the_table() {
    // The most nodes that 65,536 bytes can hold: `i:K;N;` with the shortest distinct keys.
    let pairs: String = (0..6000).map(|key| format!("i:{key};N;")).collect();
    let ran = pipe(format!("a:6000:{{{pairs}}}").as_bytes(), ["nodes"]);
    assert_eq!(ran.status, Some(0), "{}", ran.error);
    assert_eq!(
        ran.out.iter().filter(|&&byte| byte == b'\n').count(),
        12_001
    );
}

#[test]
fn show() {
    let plan = concat!(
        r#"O:3:"Day":9:{s:3:"air";i:40;s:4:"self";r:1;s:4:"open";b:1;s:1:"f";d:-2;s:1:"g";d:1e3;s:1:"n";N;"#,
        r#"s:4:"text";s:9:"a "%\|/é";s:1:"5";a:1:{i:-7;R:4;}s:3:"two";R:3;}"#
    );
    let expected = r#"/: object "Day" of 9
  air: 40
  self: r to /, object "Day" of 9
  open: true
  f: float -2
  g: 1e3
  n: null
  text: "a %22%25\|/é"
  "5": array of 1
    -7: R to /open, true
  two: R to /self, r to /
"#;
    gives(plan.as_bytes(), &["show"], expected);
    gives(b"b:0;", &["show"], "/: false\n");
    gives(b"a:0:{}", &["show"], "/: array of 0\n");
}

#[test]
fn show_cuts_what_a_reference_names() {
    let long = "x".repeat(50);
    let plan = format!("a:2:{{i:0;s:50:\"{long}\";i:1;R:2;}}");
    let cut = &long[..40];
    let expected = format!("/: array of 2\n  0: \"{long}\"\n  1: R to /0, \"{cut}\"...\n");
    pipe(plan.as_bytes(), ["show"]).gives(expected);
    for (length, named) in [
        (1000, format!("/{}", "k".repeat(1000))),
        (1001, "node 2".into()),
    ] {
        let key = "k".repeat(length);
        let plan = format!("a:2:{{s:{length}:\"{key}\";i:7;i:1;R:2;}}");
        let expected = format!("/: array of 2\n  {key}: 7\n  1: R to {named}, 7\n");
        pipe(plan.as_bytes(), ["show"]).gives(expected);
    }
}

#[test]
fn show_takes_little_time_for_the_longest_plan() {
    let plan = long_tree();
    assert!((60_000..=65_536).contains(&plan.len()), "{}", plan.len());
    let start = std::time::Instant::now();
    let ran = pipe(plan.as_bytes(), ["show"]);
    assert_eq!(ran.status, Some(0), "{}", ran.error);
    let last = format!("  5399: R to {}, null\n", "/0".repeat(63));
    assert!(ran.out.ends_with(last.as_bytes()));
    assert!(start.elapsed().as_secs() < 5);
}

#[test]
fn canonical() {
    gives(
        b"a:02:{i:+0;s:04:\"node\";i:-01;R:02;}",
        &["canonical"],
        "a:2:{i:0;s:4:\"node\";i:-1;R:2;}",
    );
    run(["canonical", YEAR]).gives(fs::read(YEAR).unwrap());
}

#[test]
fn insert() {
    let first = "a:4:{i:0;d:1.5;i:59;d:2;i:1;d:2.5;i:2;R:4;}";
    let pair = ["--key", "i:59;", "--value", "d:2;", "--quiet"];
    let insert = |arguments: &[&'static str]| [&["insert"], arguments, &pair].concat();
    gives(PLAN, &insert(&["--array", "/", "--at", "1"]), first);
    gives(PLAN, &insert(&["--node", "0", "--at=1"]), first);
    let last = "a:4:{i:0;d:1.5;i:1;d:2.5;i:2;R:3;i:59;d:2;}";
    gives(PLAN, &insert(&["--at", "end", "--array=/"]), last);
    gives(PLAN, &insert(&["--at", "3", "--node=00"]), last);
    let nested = b"O:1:\"P\":1:{s:1:\"m\";a:1:{s:1:\"5\";a:0:{}}}";
    gives(
        nested,
        &insert(&["--array", "/m/\"5\"", "--at", "end"]),
        "O:1:\"P\":1:{s:1:\"m\";a:1:{s:1:\"5\";a:1:{i:59;d:2;}}}",
    );
}

#[test]
fn texts_to_insert_are_any_bytes() {
    use std::ffi::OsStr;
    use std::os::unix::ffi::OsStrExt;
    let value = OsStr::from_bytes(b"--value=s:2:\"=\xff\";");
    let arguments = [
        "insert",
        "--quiet",
        "--array=/",
        "--at=0",
        "--key",
        "s:2:\"--\";",
    ]
    .map(OsStr::new);
    pipe(b"a:0:{}", arguments.into_iter().chain([value])).gives(b"a:1:{s:2:\"--\";s:2:\"=\xff\";}");
}

#[test]
fn the_longest_plan_that_can_be_written() {
    let text = "x".repeat(65_536 - "a:1:{i:0;s:65517:\"\";}".len());
    let value = format!("s:{}:\"{text}\";", text.len());
    let ran = pipe(
        b"a:0:{}",
        [
            "insert",
            "--quiet",
            "--node=0",
            "--at=0",
            "--key=i:0;",
            "--value",
            &value,
        ],
    );
    ran.gives(format!("a:1:{{i:0;{value}}}"));
    assert_eq!(ran.out.len(), 65_536);
}

#[test]
fn version() {
    run(["--version"]).gives("tonschnecke 0.1.0\n");
    run(["-V"]).gives("tonschnecke 0.1.0\n");
    run(["show", "-V", "/nowhere"]).gives("tonschnecke 0.1.0\n");
}

#[test]
fn show_with_places() {
    let plan = b"a:2:{s:3:\"may\";a:2:{i:7;N;i:0;b:1;}i:5;a:1:{i:0;N;}}";
    let expected = "/: array of 2
  [0] may: array of 2
    [0] 7: null
    [1] 0: true
  [1] 5: array of 1
    [0] 0: null
";
    gives(plan, &["show", "--places"], expected);
}
