//! Somebody at a terminal who gives no file.

use crate::run::{Ran, PROGRAM};
use std::io::Write;
use std::process::{Command, Stdio};

/// What the terminal shows while these keys are pressed: `script` makes one.
fn typed(arguments: &str, keys: &[u8]) -> (Option<i32>, String) {
    let mut child = Command::new("script")
        .args(["--quiet", "--return", "--command"])
        .arg(format!("'{PROGRAM}' {arguments}"))
        .arg("/dev/null")
        .stdin(Stdio::piped())
        .stdout(Stdio::piped())
        .spawn()
        .expect("script starts: Debian's bsdutils");
    let mut keyboard = child.stdin.take().expect("a pipe");
    keyboard.write_all(keys).expect("it reads");
    let ran = Ran::new(child.wait_with_output().expect("it ends"));
    (ran.status, String::from_utf8(ran.out).unwrap())
}

const HINT: &str = "tonschnecke: no FILE is given, so the plan is read from the terminal; Ctrl-D ends it, Ctrl-C leaves";

#[test]
fn is_told_what_is_awaited() {
    let end = b"N;\x04\x04";
    for arguments in ["show", "show -", "canonical"] {
        let (status, shown) = typed(arguments, end);
        assert_eq!(status, Some(0), "{arguments}: {shown}");
        assert!(shown.contains(HINT), "{arguments}: {shown}");
    }
    let (_, shown) = typed("show", end);
    assert!(shown.contains("/: null"), "{shown}");
    let (status, shown) = typed("show < /dev/null", end);
    assert_eq!(status, Some(1));
    assert!(!shown.contains(HINT), "{shown}");
}
