//! Several files: each for itself.

use crate::run::{command, pipe, run, Folder, Ran};
use std::fs;

/// Runs in a folder with some plans, so that names are short.
fn in_folder(arguments: &str) -> (Ran, Folder) {
    let folder = Folder::new();
    folder.file("a", "a:01:{i:0;N;}");
    folder.file("b", "b:1;");
    folder.file("broken", "N;;");
    let mut command = command(arguments.split(' '));
    let output = command.current_dir(folder.path("")).output();
    (Ran::new(output.unwrap()), folder)
}

#[test]
fn are_printed_below_their_names() {
    let (ran, _) = in_folder("show a b");
    ran.gives("==> a <==\n/: array of 1\n  0: null\n==> b <==\n/: true\n");
    let (ran, _) = in_folder("nodes b a");
    ran.gives("==> b <==\n98,1,1,0,0,1\n==> a <==\n97,1,0,0,1,3\n105,0,0,0,0,2\n78,2,0,0,0,3\n");
    let (ran, _) = in_folder("canonical a -- b");
    ran.gives("==> a <==\na:1:{i:0;N;}\n==> b <==\nb:1;\n");
    pipe(b"i:5;", ["show", "-"]).gives("/: 5\n");
    let ran = pipe(b"i:5;", ["show", "-", "/dev/null"]);
    assert_eq!(ran.out, b"==> standard input <==\n/: 5\n");
}

#[test]
fn one_that_fails_keeps_none_of_the_others() {
    let refused = "broken: refused 10 at 2: bytes follow the value";
    let (ran, _) = in_folder("show broken a");
    assert_eq!(
        (ran.status, ran.out.as_slice()),
        (Some(1), &b"==> a <==\n/: array of 1\n  0: null\n"[..])
    );
    assert!(ran.error.starts_with(refused), "{}", ran.error);
    let (ran, _) = in_folder("show b /nowhere broken");
    assert_eq!(
        (ran.status, ran.out.as_slice()),
        (Some(2), &b"==> b <==\n/: true\n"[..])
    );
    let error = "tonschnecke: cannot read /nowhere: No such file or directory (os error 2)\n";
    assert!(
        ran.error.starts_with(&format!("{error}{refused}")),
        "{}",
        ran.error
    );
}

#[test]
fn are_replaced_each() {
    let (ran, folder) = in_folder("canonical --in-place broken a b");
    assert_eq!((ran.status, ran.out.as_slice()), (Some(1), &b""[..]));
    let said = "a: the canonical text has 1 byte fewer\nb: the plan is canonical already\n";
    assert!(ran.error.ends_with(said), "{}", ran.error);
    assert_eq!(fs::read(folder.path("a")).unwrap(), b"a:1:{i:0;N;}");
    assert_eq!(fs::read(folder.path("broken")).unwrap(), b"N;;");
}

#[test]
fn a_dry_run_names_each() {
    let (ran, _) = in_folder("canonical --dry-run a b");
    let said = "a: dry run, nothing is written: the canonical text has 1 byte fewer\n\
                b: dry run, nothing is written: the plan is canonical already\n";
    assert_eq!((ran.status, ran.error.as_str()), (Some(0), said));
    assert_eq!(ran.out, b"");
}

#[test]
fn standard_input_has_a_name_among_others() {
    let ran = pipe(b"N", ["show", "-", "/dev/null"]);
    assert!(
        ran.error.starts_with("standard input: refused 2 at 0: "),
        "{}",
        ran.error
    );
    assert!(pipe(b"N", ["show"]).error.starts_with("refused 2 at 0: "));
}

#[test]
fn a_refusal_names_its_file() {
    let (ran, _) = in_folder("insert b --array / --at 0 --int-key 1 --null");
    ran.fails(1, "b: refused 11 at 0: / is true, and no array\n");
    let (ran, _) = in_folder("insert a --array /7 --at 0 --int-key 1 --null");
    ran.fails(3, "tonschnecke: a: / has no key 7\n");
    assert_eq!(
        run(["show", "/dev/null"])
            .error
            .lines()
            .next()
            .unwrap()
            .split(": ")
            .next(),
        Some("/dev/null")
    );
}
