//! Output by `-o`: a file is written whole or not at all; what is no file, directly.

use crate::run::{
    is_root, names, run_bound, set_mode, shell, Folder, Ran, CANONICAL, FULL_DISK, ODD, YEAR,
};
use std::fs;
use std::os::unix::fs::{chown, symlink, MetadataExt};

/// The year's plan under three names, and another file.
fn linked() -> Folder {
    let folder = Folder::new();
    folder.file("plan", fs::read(YEAR).unwrap());
    folder.file("old", "old");
    symlink("plan", folder.path("link")).unwrap();
    fs::hard_link(folder.path("plan"), folder.path("hard")).unwrap();
    folder
}

#[test]
fn a_full_disk_leaves_everything() {
    let insert = "insert --array /months/2 --at end --key 'i:29;' --value 'd:9.5;'";
    for arguments in [
        "canonical plan -o plan",
        "canonical plan -o ./plan",
        "canonical plan -o link",
        "canonical link -o plan",
        "canonical plan -o hard",
        "canonical -o plan < plan",
        "canonical -o link < hard",
        "canonical plan -o old",
        "canonical plan -o new",
        "show plan -o old",
        "nodes plan -o new",
        &format!("{insert} plan -o plan"),
        &format!("{insert} plan -o old"),
    ] {
        let folder = linked();
        let output = shell(&folder, &format!("{FULL_DISK} exec \"$0\" {arguments}"));
        let name = arguments.split("-o ").nth(1).unwrap();
        let name = name.split(' ').next().unwrap();
        let error = format!("cannot write to {name}: File too large (os error 27)");
        Ran::new(output).fails(2, &format!("tonschnecke: {error}\n"));
        assert_eq!(names(&folder.path("")), ["hard", "link", "old", "plan"]);
        let year = fs::read(YEAR).unwrap();
        for (name, content) in [("plan", &year), ("hard", &year), ("old", &b"old".to_vec())] {
            let left = fs::read(folder.path(name)).unwrap();
            assert_eq!(left.len(), content.len(), "{arguments}: {name}");
            assert!(&left == content, "{arguments}: {name}");
        }
    }
}

#[test]
fn onto_the_plan_itself() {
    for arguments in [
        "plan -o plan",
        "plan -o link",
        "link -o ../$(basename $PWD)/plan",
        "hard -o plan",
        "-o plan < plan",
        "-o link < hard",
    ] {
        let folder = linked();
        folder.file("plan", ODD);
        let output = shell(&folder, &format!("exec \"$0\" canonical {arguments}"));
        Ran::new(output).gives("");
        let content = |name: &str| fs::read_to_string(folder.path(name)).unwrap();
        assert_eq!(content("plan"), CANONICAL);
        assert_eq!(content("link"), CANONICAL);
        // Renaming replaces one name.
        assert_eq!(content("hard"), ODD);
        assert_eq!(names(&folder.path("")), ["hard", "link", "old", "plan"]);
        assert!(folder.path("link").is_symlink());
    }
}

#[test]
fn what_is_no_plan_does_not_replace_the_plan() {
    for arguments in [
        "show plan -o plan",
        "show link -o plan",
        "nodes plan -o link",
        "nodes hard -o plan",
        "show -o hard < plan",
        "show plan -o /dev/fd/3 3<> plan",
    ] {
        let folder = linked();
        let output = shell(&folder, &format!("exec \"$0\" {arguments}"));
        let name = arguments.split("-o ").nth(1).unwrap();
        let name = name.split(' ').next().unwrap();
        let error = "it is the plan itself, and the result is no plan";
        Ran::new(output).fails(
            2,
            &format!("tonschnecke: cannot write to {name}: {error}\n"),
        );
        let left = fs::read(folder.path("plan")).unwrap();
        assert!(left == fs::read(YEAR).unwrap(), "{arguments}");
    }
}

#[test]
fn a_plan_that_is_open_is_not_replaced() {
    let folder = linked();
    let output = shell(&folder, "exec \"$0\" canonical plan -o /dev/fd/3 3<> plan");
    let error = "cannot write to /dev/fd/3: it is the plan itself, and no name that a file can be renamed to";
    Ran::new(output).fails(2, &format!("tonschnecke: {error}\n"));
    let left = fs::read(folder.path("plan")).unwrap();
    assert!(left == fs::read(YEAR).unwrap());
}

#[test]
fn permissions_and_owner() {
    let folder = Folder::new();
    folder.file("plan", ODD);
    for (umask, mode) in [("022", 0o644), ("027", 0o640), ("000", 0o666)] {
        let script = format!("umask {umask}; exec \"$0\" canonical plan -o new");
        Ran::new(shell(&folder, &script)).gives("");
        let new = folder.path("new");
        assert_eq!(fs::metadata(&new).unwrap().mode() & 0o7777, mode);
        fs::remove_file(new).unwrap();
    }
    for mode in [0o600, 0o664, 0o755] {
        let old = folder.file("old", "old");
        set_mode(&old, mode);
        if is_root() {
            chown(&old, Some(65_534), Some(65_533)).unwrap();
        }
        let before = fs::metadata(&old).unwrap();
        Ran::new(shell(&folder, "exec \"$0\" canonical plan -o old")).gives("");
        let after = fs::metadata(&old).unwrap();
        assert_eq!(after.mode(), before.mode());
        assert_eq!((after.uid(), after.gid()), (before.uid(), before.gid()));
        assert_eq!(fs::read_to_string(old).unwrap(), CANONICAL);
    }
}

#[test]
fn a_link_that_leads_nowhere_yet() {
    let folder = Folder::new();
    folder.file("plan", ODD);
    folder.folder("plans");
    symlink("plans/second", folder.path("first")).unwrap();
    symlink("new", folder.path("plans/second")).unwrap();
    Ran::new(shell(&folder, "exec \"$0\" canonical plan -o first")).gives("");
    let new = folder.path("plans/new");
    assert_eq!(fs::read_to_string(new).unwrap(), CANONICAL);
    assert_eq!(names(&folder.path("plans")), ["new", "second"]);
    assert!(folder.path("first").is_symlink());
    symlink("circle", folder.path("circle")).unwrap();
    let error = "cannot write to circle: Too many levels of symbolic links (os error 40)";
    let output = shell(&folder, "exec \"$0\" canonical plan -o circle");
    Ran::new(output).fails(2, &format!("tonschnecke: {error}\n"));
}

#[test]
fn names_that_are_no_file() {
    let folder = Folder::new();
    folder.file("plan", "N;");
    for (name, reason) in [
        (".", "Is a directory (os error 21)"),
        ("new/", "No such file or directory (os error 2)"),
        ("''", "No such file or directory (os error 2)"),
        ("plan/new", "Not a directory (os error 20)"),
    ] {
        let output = shell(&folder, &format!("exec \"$0\" canonical plan -o {name}"));
        let name = name.trim_matches('\'');
        let error = format!("tonschnecke: cannot write to {name}: {reason}\n");
        Ran::new(output).fails(2, &error);
        assert_eq!(names(&folder.path("")), ["plan"]);
    }
}

#[test]
fn a_long_name() {
    let folder = Folder::new();
    folder.file("plan", ODD);
    for name in ["n".repeat(255), "ö".repeat(127)] {
        let output = shell(&folder, &format!("exec \"$0\" canonical plan -o {name}"));
        Ran::new(output).gives("");
        let content = fs::read_to_string(folder.path(&name)).unwrap();
        assert_eq!(content, CANONICAL);
    }
}

#[test]
fn open_files_go_on() {
    for (name, descriptor, redirection) in [
        ("/dev/stdout", 1, "> out"),
        ("/dev/fd/1", 1, "> out"),
        ("/proc/self/fd/1", 1, "> out"),
        ("/dev/stderr", 2, "2>> out"),
        ("/dev/fd/3", 3, "3>> out"),
    ] {
        let folder = Folder::new();
        folder.file("plan", "N;");
        let echo = |word| format!("echo {word} >&{descriptor}");
        let (before, behind) = (echo("before"), echo("behind"));
        let show = format!("\"$0\" show plan -o {name}");
        let script = format!("{{ {before}; {show}; {behind}; }} {redirection}");
        Ran::new(shell(&folder, &script)).gives("");
        let out = fs::read_to_string(folder.path("out")).unwrap();
        assert_eq!(out, "before\n/: null\nbehind\n", "{name}");
    }
}

#[test]
fn pipes_and_devices() {
    let folder = Folder::new();
    folder.file("plan", ODD);
    let script = "mkfifo fifo; cat fifo & \"$0\" canonical plan -o fifo && wait $!";
    Ran::new(shell(&folder, script)).gives(CANONICAL);
    Ran::new(shell(&folder, "exec \"$0\" canonical plan -o /dev/null")).gives("");
    Ran::new(shell(&folder, "\"$0\" canonical plan -o >(cat); wait $!")).gives(CANONICAL);
    assert_eq!(names(&folder.path("")), ["fifo", "plan"]);
}

#[test]
fn not_permitted() {
    let folder = Folder::new();
    let plan = folder.file("plan", ODD);
    let plan = plan.to_str().unwrap();
    let outs = folder.folder("outs");
    let old = outs.join("old");
    fs::write(&old, "old").unwrap();
    set_mode(&old, 0o666);
    let denied = |name: &str, reason: &str| {
        let name = outs.join(name);
        let error = format!("cannot write to {}: {reason}", name.display());
        let arguments = ["canonical", plan, "-o", name.to_str().unwrap()];
        run_bound(&folder, arguments).fails(2, &format!("tonschnecke: {error}\n"));
        assert_eq!(names(&outs), ["old"]);
        assert_eq!(fs::read(&old).unwrap(), b"old");
    };
    let permission = "Permission denied (os error 13)";
    // A file beside it cannot be made.
    set_mode(&outs, 0o555);
    denied("old", permission);
    denied("new", permission);
    // It can, but the old one may not be written to.
    set_mode(&outs, 0o777);
    set_mode(&old, 0o444);
    denied("old", permission);
    // The new file would be another user's.
    if is_root() {
        set_mode(&old, 0o666);
        let error = "its owner cannot be kept: Operation not permitted (os error 1)";
        denied("old", error);
    }
}
