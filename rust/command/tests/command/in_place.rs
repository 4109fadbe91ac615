//! Replacing a plan's own file: whole or not at all.

use crate::run::{
    faulty, is_root, names, run, run_bound, set_mode, shell, Folder, Ran, CANONICAL, FULL_DISK,
    ODD, YEAR,
};
use std::fs;
use std::os::unix::fs::{chown, symlink, MetadataExt};
use std::path::Path;
use std::process::Command;

fn canonical(file: &Path) -> Ran {
    run([
        "canonical".as_ref(),
        "--in-place".as_ref(),
        "--quiet".as_ref(),
        file.as_os_str(),
    ])
}

fn holds(file: &Path, content: &str) {
    assert_eq!(fs::read_to_string(file).unwrap(), content);
}

#[test]
fn content_permissions_and_owner() {
    for mode in [0o644, 0o600, 0o664] {
        let folder = Folder::new();
        let plan = folder.file("plan", ODD);
        set_mode(&plan, mode);
        let owner = if is_root() {
            65_534
        } else {
            fs::metadata(&plan).unwrap().uid()
        };
        chown(&plan, Some(owner), None).unwrap();
        let before = fs::metadata(&plan).unwrap();
        canonical(&plan).gives("");
        holds(&plan, CANONICAL);
        let after = fs::metadata(&plan).unwrap();
        assert_eq!(after.mode(), before.mode());
        assert_eq!((after.uid(), after.gid()), (owner, before.gid()));
        assert_ne!(after.ino(), before.ino(), "the old content was overwritten");
        assert_eq!(names(&folder.path("")), ["plan"]);
    }
}

#[test]
fn inserting() {
    let folder = Folder::new();
    let plan = folder.file("plan", ODD);
    let insert = [
        "insert",
        "--quiet",
        "--in-place",
        "--array=/",
        "--at=end",
        "--key=i:1;",
        "--value=b:1;",
    ];
    let mut command = crate::run::command(insert);
    // A name without a folder stands in the present one.
    let output = command.arg("plan").current_dir(folder.path("")).output();
    Ran::new(output.unwrap()).gives("");
    holds(&plan, "a:2:{i:+0;N;i:1;b:1;}");
    assert_eq!(names(&folder.path("")), ["plan"]);
}

#[test]
fn a_refusal_changes_nothing() {
    let folder = Folder::new();
    let plan = folder.file("plan", "N;;");
    let before = fs::metadata(&plan).unwrap();
    assert_eq!(canonical(&plan).status, Some(1));
    holds(&plan, "N;;");
    assert_eq!(fs::metadata(&plan).unwrap().ino(), before.ino());
}

#[test]
fn symbolic_links_stay() {
    let folder = Folder::new();
    let plan = folder.folder("plans").join("plan");
    fs::write(&plan, ODD).unwrap();
    symlink("plans/plan", folder.path("link")).unwrap();
    symlink(folder.path("link"), folder.path("link to link")).unwrap();
    canonical(&folder.path("link to link")).gives("");
    holds(&plan, CANONICAL);
    assert_eq!(
        fs::read_link(folder.path("link")).unwrap(),
        Path::new("plans/plan")
    );
    assert_eq!(names(&folder.path("")), ["link", "link to link", "plans"]);
    assert_eq!(names(&folder.path("plans")), ["plan"]);
}

#[test]
fn no_regular_file() {
    let folder = Folder::new();
    let fifo = folder.path("fifo");
    assert!(Command::new("mkfifo")
        .arg(&fifo)
        .status()
        .unwrap()
        .success());
    let name = fifo.display();
    // It is not even opened: nobody writes to it.
    canonical(&fifo).fails(
        2,
        &format!("tonschnecke: cannot replace {name}: not a regular file\n"),
    );
    assert_eq!(names(&folder.path("")), ["fifo"]);
}

/// The command fails so, and the file and its folder are as they were.
fn denied(folder: &Folder, plan: &Path, reason: &str) {
    let before = (
        names(plan.parent().unwrap()),
        fs::metadata(plan).unwrap().ino(),
    );
    let ran = run_bound(
        folder,
        [
            "canonical".as_ref(),
            plan.as_os_str(),
            "--in-place".as_ref(),
        ],
    );
    let name = plan.display();
    ran.fails(
        2,
        &format!("tonschnecke: cannot replace {name}: {reason}\n"),
    );
    holds(plan, ODD);
    let after = (
        names(plan.parent().unwrap()),
        fs::metadata(plan).unwrap().ino(),
    );
    assert_eq!(after, before);
}

#[test]
fn not_permitted() {
    let folder = Folder::new();
    let plans = folder.folder("plans");
    let plan = plans.join("plan");
    fs::write(&plan, ODD).unwrap();
    let permission = "Permission denied (os error 13)";
    // The folder takes no file beside the plan.
    set_mode(&plan, 0o666);
    set_mode(&plans, 0o555);
    denied(&folder, &plan, permission);
    // The folder would, but the plan may not be written to.
    set_mode(&plans, 0o777);
    set_mode(&plan, 0o444);
    denied(&folder, &plan, permission);
    // All may write to it, but the new file would be another user's: only root can have one of another's.
    if is_root() {
        set_mode(&plan, 0o666);
        let error = "its owner cannot be kept: Operation not permitted (os error 1)";
        denied(&folder, &plan, error);
    }
}

#[test]
fn missing() {
    let folder = Folder::new();
    let plan = folder.path("plan");
    let reason = "No such file or directory (os error 2)";
    let error = format!("cannot replace {}: {reason}", plan.display());
    canonical(&plan).fails(2, &format!("tonschnecke: {error}\n"));
    assert!(names(&folder.path("")).is_empty());
}

#[test]
fn writing_fails_half_way() {
    let folder = Folder::new();
    let plan = folder.file("plan", fs::read(YEAR).unwrap());
    let script = format!("{FULL_DISK} exec \"$0\" canonical --in-place plan");
    let error = "tonschnecke: cannot replace plan: File too large (os error 27)\n";
    Ran::new(shell(&folder, &script)).fails(2, error);
    assert!(fs::read(&plan).unwrap() == fs::read(YEAR).unwrap());
    assert_eq!(names(&folder.path("")), ["plan"]);
}

#[test]
fn a_folder_that_cannot_be_synced() {
    let script = "exec \"$0\" canonical --in-place --quiet plan";
    let error = "plan is replaced, but a crash may still undo it: Input/output error (os error 5)";
    // 22, EINVAL, comes from file systems that sync no folders.
    for (variable, status, error) in [
        ("FSYNC=5", 2, format!("tonschnecke: {error}\n")),
        ("FSYNC=22", 0, String::new()),
    ] {
        let folder = Folder::new();
        let plan = folder.file("plan", ODD);
        let Some(ran) = faulty(&folder, variable, script) else {
            return;
        };
        ran.fails(status, &error);
        holds(&plan, CANONICAL);
        assert_eq!(names(&folder.path("")), ["plan"]);
    }
}
