//! Files and pipes that cannot be read or written.

use crate::run::{command, pipe, run, run_bound, set_mode, Folder, Ran, YEAR};
use std::fs::{self, File};
use std::io::Write;
use std::os::unix::process::ExitStatusExt;
use std::process::Stdio;

const FULL: &str = "No space left on device (os error 28)";

#[test]
fn missing() {
    let error = "cannot read /nowhere/plan: No such file or directory (os error 2)";
    run(["show", "/nowhere/plan"]).fails(2, &format!("tonschnecke: {error}\n"));
    let error = "cannot write to /nowhere/out: No such file or directory (os error 2)";
    run(["show", YEAR, "-o", "/nowhere/out"]).fails(2, &format!("tonschnecke: {error}\n"));
}

#[test]
fn folders() {
    let error = "cannot read /: Is a directory (os error 21)";
    run(["nodes", "/"]).fails(2, &format!("tonschnecke: {error}\n"));
    let error = "cannot write to /: Is a directory (os error 21)";
    run(["nodes", YEAR, "-o", "/"]).fails(2, &format!("tonschnecke: {error}\n"));
    let output = command(["nodes"]).stdin(File::open("/").unwrap()).output();
    let error = "cannot read standard input: Is a directory (os error 21)";
    Ran::new(output.unwrap()).fails(2, &format!("tonschnecke: {error}\n"));
}

#[test]
fn not_permitted() {
    let folder = Folder::new();
    let plan = folder.file("plan", "N;");
    let name = plan.to_str().unwrap();
    set_mode(&plan, 0o000);
    let denied = "Permission denied (os error 13)";
    run_bound(&folder, ["show", name])
        .fails(2, &format!("tonschnecke: cannot read {name}: {denied}\n"));
    set_mode(&plan, 0o444);
    run_bound(&folder, ["show", name]).gives("/: null\n");
    let out = run_bound(&folder, ["canonical", name, "-o", name]);
    out.fails(
        2,
        &format!("tonschnecke: cannot write to {name}: {denied}\n"),
    );
    assert_eq!(fs::read(&plan).unwrap(), b"N;");
}

#[test]
fn full_disk() {
    let year = fs::read(YEAR).unwrap();
    let error = format!("tonschnecke: cannot write to standard output: {FULL}\n");
    for arguments in [
        vec!["show", YEAR],
        vec!["canonical", YEAR],
        vec!["--help"],
        vec!["-V"],
    ] {
        let full = File::options().write(true).open("/dev/full").unwrap();
        let output = command(arguments).stdout(full).output().unwrap();
        Ran::new(output).fails(2, &error);
    }
    let error = format!("tonschnecke: cannot write to /dev/full: {FULL}\n");
    pipe(&year, ["nodes", "-o", "/dev/full"]).fails(2, &error);
    pipe(b"N;", ["canonical", "-o", "/dev/full"]).fails(2, &error);
}

#[test]
fn reader_gone() {
    for subcommand in ["show", "canonical"] {
        let mut child = command([subcommand])
            .stdin(Stdio::piped())
            .stdout(Stdio::piped())
            .stderr(Stdio::piped())
            .spawn()
            .unwrap();
        drop(child.stdout.take());
        child.stdin.take().unwrap().write_all(b"N;").unwrap();
        let output = child.wait_with_output().unwrap();
        assert_eq!(output.status.signal(), Some(13), "SIGPIPE");
        assert_eq!(output.stderr, b"");
    }
}

#[test]
fn endless_input() {
    let error = "refused 1 at 0: the plan is longer than 65,536 bytes\n";
    run(["show", "/dev/zero"]).fails(1, &format!("/dev/zero: {error}"));
    let output = command(["canonical"])
        .stdin(File::open("/dev/zero").unwrap())
        .output();
    Ran::new(output.unwrap()).fails(1, error);
}

#[test]
fn input_in_pieces() {
    let mut child = command(["show"])
        .stdin(Stdio::piped())
        .stdout(Stdio::piped())
        .stderr(Stdio::piped())
        .spawn()
        .unwrap();
    let mut input = child.stdin.take().unwrap();
    for piece in ["s:5:\"ba", "sin", "\";"] {
        input.write_all(piece.as_bytes()).unwrap();
        std::thread::sleep(std::time::Duration::from_millis(50));
    }
    drop(input);
    Ran::new(child.wait_with_output().unwrap()).gives("/: \"basin\"\n");
}
