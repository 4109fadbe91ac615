//! Files that are open already when the command begins: as the plan, and as the output.

use crate::run::{command, names, run, shell, Folder, Ran, CANONICAL, ODD, PROGRAM, YEAR};
use std::fs::{self, File};
use std::os::unix::fs::symlink;
use std::process::{Command, Stdio};

const EMPTY: &str = "a:0:{}";
const INSERT: &str = "insert --quiet --array=/ --at=end --null";
const CHANGED: &str =
    "tonschnecke: plan was changed by somebody else meanwhile; nothing was written\n";

fn content(folder: &Folder, name: &str) -> String {
    fs::read_to_string(folder.path(name)).unwrap()
}

/// The ways to name what descriptor 5 has open, which is standard input too.
const OPEN: [&str; 5] = [
    "/dev/fd/5",
    "/proc/self/fd/5",
    "/dev/stdin",
    "/dev/fd/0",
    "-",
];

/// Opens the plan, edits it, and then takes what was opened for the plan.
fn edited_since(folder: &Folder, arguments: &str) -> Ran {
    let open = "exec 5< plan < plan";
    let edit = format!("\"$0\" {INSERT} --key='i:0;' --in-place plan");
    Ran::new(shell(
        folder,
        &format!("{open}; {edit}; exec \"$0\" {arguments}"),
    ))
}

#[test]
fn a_plan_replaced_since_it_was_opened() {
    // With another name it is not deleted when it is replaced.
    for (name, linked) in OPEN
        .into_iter()
        .flat_map(|name| [(name, false), (name, true)])
    {
        let folder = Folder::new();
        let plan = folder.file("plan", EMPTY);
        if linked {
            fs::hard_link(plan, folder.path("hard")).unwrap();
        }
        let insert = format!("{INSERT} --key='i:1;' {name} -o plan");
        edited_since(&folder, &insert).fails(4, CHANGED);
        assert_eq!(content(&folder, "plan"), "a:1:{i:0;N;}", "{name}");
    }
}

#[test]
fn what_is_no_plan_does_not_replace_it() {
    for name in OPEN {
        let folder = Folder::new();
        folder.file("plan", EMPTY);
        let error = "cannot write to plan: it is the plan itself, and the result is no plan";
        edited_since(&folder, &format!("show {name} -o plan"))
            .fails(2, &format!("tonschnecke: {error}\n"));
        assert_eq!(content(&folder, "plan"), "a:1:{i:0;N;}", "{name}");
    }
}

#[test]
fn a_file_that_is_named_as_if_it_were_deleted() {
    for name in OPEN {
        let folder = Folder::new();
        folder.file("plan", EMPTY);
        folder.file("plan (deleted)", ODD);
        let script = format!("exec 5< 'plan (deleted)' <&5; exec \"$0\" canonical {name} -o plan");
        Ran::new(shell(&folder, &script)).gives("");
        assert_eq!(content(&folder, "plan"), CANONICAL, "{name}");
    }
}

#[test]
fn a_plan_in_a_folder_that_has_two_names() {
    let folder = Folder::new();
    let may = Command::new("unshare").args(["-m", "true"]).output();
    if !may.is_ok_and(|output| output.status.success()) {
        eprintln!("not permitted to mount: skipped");
        return;
    }
    for name in OPEN {
        folder.file("plan", EMPTY);
        let _ = fs::create_dir(folder.path("bound"));
        let mount = "mount --bind . bound && exec 5< bound/plan <&5";
        let edit = format!("\"$0\" {INSERT} --key='i:0;' --in-place plan");
        let again = format!("\"$0\" {INSERT} --key='i:1;' {name} -o plan");
        let script = "unshare -m bash -c \"$1\" \"$0\"";
        let inner = format!("{mount} && {edit} && exec {again}");
        let output = Command::new("bash")
            .args(["-c", script, PROGRAM, &inner])
            .current_dir(folder.path(""))
            .output();
        Ran::new(output.unwrap()).fails(4, CHANGED);
        assert_eq!(content(&folder, "plan"), "a:1:{i:0;N;}", "{name}");
    }
}

#[test]
fn the_plan_as_standard_output() {
    let insert = "insert --array /months/2 --at end --null --int-key 29";
    for (arguments, rest) in [
        ("show plan >> plan", ": plan"),
        ("nodes plan 1<> plan", ": plan"),
        ("show < plan >> plan", ""),
        ("show link >> plan", ": link"),
        ("canonical plan >> link", ": plan; use --in-place"),
        ("canonical < plan 1<> plan", "; use --in-place"),
        // The first is not written into the second.
        ("show other plan >> plan", ": plan"),
        (&format!("{insert} plan >> plan"), ": plan; use --in-place"),
        (&format!("{insert} plan 1<> plan"), ": plan; use --in-place"),
    ] {
        let folder = Folder::new();
        folder.file("plan", fs::read(YEAR).unwrap());
        folder.file("other", ODD);
        symlink("plan", folder.path("link")).unwrap();
        let output = shell(&folder, &format!("exec \"$0\" {arguments}"));
        let error = format!("tonschnecke: standard output is the plan itself{rest}\n");
        Ran::new(output).fails(2, &error);
        let left = fs::read(folder.path("plan")).unwrap();
        assert!(left == fs::read(YEAR).unwrap(), "{arguments}");
    }
}

#[test]
fn a_plan_that_the_shell_emptied() {
    let folder = Folder::new();
    for (arguments, rest) in [
        ("show plan > plan", ": plan"),
        ("canonical < plan > plan", ""),
    ] {
        folder.file("plan", ODD);
        let output = shell(&folder, &format!("exec \"$0\" {arguments}"));
        let why = "it is empty: with > the shell empties it before the command begins";
        let error = format!("tonschnecke: standard output is the plan itself{rest}; {why}\n");
        Ran::new(output).fails(2, &error);
    }
}

#[test]
fn other_uses_of_one_file_stay() {
    let folder = Folder::new();
    let plan = folder.file("plan", ODD);
    for arguments in [
        "canonical plan --dry-run --quiet >> plan",
        "canonical plan > out",
        "show /dev/null plan >> out; true",
        "canonical plan --in-place --quiet >> plan",
    ] {
        let ran = Ran::new(shell(&folder, &format!("\"$0\" {arguments}")));
        assert_eq!(ran.status, Some(0), "{arguments}: {ran:?}");
    }
    assert_eq!(fs::read_to_string(plan).unwrap(), CANONICAL);
}

#[test]
fn standard_output_that_is_not_for_writing() {
    let error = "cannot write to standard output: Bad file descriptor (os error 9)";
    for arguments in [&["show", YEAR][..], &["canonical", YEAR], &["--version"]] {
        let output = command(arguments)
            .stdout(Stdio::from(File::open("/dev/null").unwrap()))
            .output()
            .unwrap();
        Ran::new(output).fails(2, &format!("tonschnecke: {error}\n"));
    }
}

#[test]
fn standard_input_that_is_not_for_reading() {
    let output = command(["show"])
        .stdin(File::options().write(true).open("/dev/null").unwrap())
        .output();
    let error = "cannot read standard input: Bad file descriptor (os error 9)";
    Ran::new(output.unwrap()).fails(2, &format!("tonschnecke: {error}\n"));
}

#[test]
fn descriptors_go_on_where_they_are() {
    let folder = Folder::new();
    folder.file("plan", ODD);
    let insert = "insert plan --array / --at end --int-key 1 --null";
    let said = "1 pair put in at place 1 of /, no reference raised\n";
    let new = "a:2:{i:+0;N;i:1;N;}";
    for (script, out) in [
        (
            format!("\"$0\" {insert} -o /dev/stderr 2> out"),
            format!("{new}/dev/stderr: {said}"),
        ),
        (
            format!("exec 5> out; \"$0\" {insert} --quiet -o /dev/fd/5; echo behind >&5"),
            format!("{new}behind\n"),
        ),
        (
            format!("exec 5> out; \"$0\" {insert} --quiet -o /proc/self/fd/5; echo behind >&5"),
            format!("{new}behind\n"),
        ),
    ] {
        Ran::new(shell(&folder, &script)).gives("");
        assert_eq!(content(&folder, "out"), out, "{script}");
    }
    assert_eq!(names(&folder.path("")), ["out", "plan"]);
}

#[test]
fn a_descriptor_that_nobody_gave() {
    let error = "No such file or directory (os error 2)";
    for number in 3..8 {
        let name = format!("/dev/fd/{number}");
        let ran = run(["canonical", YEAR, "-o", &name]);
        let told = format!("tonschnecke: cannot write to {name}: {error}\n");
        ran.fails(2, &told);
        let ran = run(["canonical", &name, "-o", "/dev/stdout"]);
        ran.fails(2, &format!("tonschnecke: cannot read {name}: {error}\n"));
    }
}
