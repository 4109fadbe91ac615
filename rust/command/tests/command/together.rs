//! Several at one plan: an edit that was said to be done is in it.

use crate::run::{command, names, shell, Folder, Ran, Sender};
use std::fs::{self, File};
use std::os::unix::fs::symlink;
use std::path::Path;
use std::process::{Child, Command, Stdio};
use std::thread::sleep;
use std::time::Duration;

const ROUNDS: usize = 50;
const EMPTY: &str = "a:0:{}";
const EDIT: &str = concat!(env!("CARGO_MANIFEST_DIR"), "/../../examples/edit.php");

/// Puts in a pair with this key; the plan and where the result goes are still to be said.
fn insert(folder: &Folder, key: usize) -> Command {
    let mut insert = command(["insert", "--quiet", "--array=/", "--at=end", "--null"]);
    insert.arg(format!("--key=i:{key};"));
    insert.current_dir(folder.path(""));
    insert.stdout(Stdio::piped()).stderr(Stdio::piped());
    insert
}

/// A way to put in a pair with this key.
type Way = fn(&Folder, usize) -> Child;

fn in_place(folder: &Folder, key: usize) -> Child {
    insert(folder, key)
        .args(["plan", "--in-place"])
        .spawn()
        .unwrap()
}

fn onto_itself(folder: &Folder, key: usize) -> Child {
    insert(folder, key)
        .args(["plan", "-o", "plan"])
        .spawn()
        .unwrap()
}

fn by_link(folder: &Folder, key: usize) -> Child {
    insert(folder, key)
        .args(["plan", "-o", "link"])
        .spawn()
        .unwrap()
}

fn from_standard_input(folder: &Folder, key: usize) -> Child {
    insert(folder, key)
        .args(["-o", "plan"])
        .stdin(File::open(folder.path("plan")).unwrap())
        .spawn()
        .unwrap()
}

fn plan_and_link(content: &str) -> Folder {
    let folder = Folder::new();
    folder.file("plan", content);
    symlink("plan", folder.path("link")).unwrap();
    folder
}

/// So many at once, round after round, each with a key of its own. What those said that were not done.
fn writers(count: usize, ways: &[Way]) -> Vec<String> {
    let folder = plan_and_link(EMPTY);
    let (mut done, mut said) = (Vec::new(), Vec::new());
    for round in 0..ROUNDS {
        let first = round * count;
        let children: Vec<_> = (first..first + count)
            .map(|key| (key, ways[key % ways.len()](&folder, key)))
            .collect();
        for (key, child) in children {
            let ran = Ran::new(child.wait_with_output().unwrap());
            match ran.status {
                Some(0) => done.push(key),
                Some(4) => said.push(ran.error),
                _ => panic!("{ran:?}"),
            }
        }
    }
    let plan = fs::read_to_string(folder.path("plan")).unwrap();
    let inside = plan.split_once('{').unwrap().1.trim_end_matches('}');
    let keys = inside.split_terminator(";N;").map(|pair| &pair[2..]);
    let mut keys: Vec<usize> = keys.map(|key| key.parse().unwrap()).collect();
    keys.sort();
    assert_eq!(
        keys.len(),
        done.len(),
        "edits in the plan, and said to be done"
    );
    assert_eq!(keys, done);
    assert!(done.len() >= ROUNDS);
    assert_eq!(names(&folder.path("")), ["link", "plan"]);
    said
}

/// They may wait in vain on a slow machine, but where all lock the plan, none sees it changed.
fn none_was_changed(said: &[String]) {
    assert!(
        said.iter().all(|error| error.contains(": waited 10 ")),
        "{said:?}"
    );
}

#[test]
fn two_writers() {
    none_was_changed(&writers(2, &[in_place]));
}

#[test]
fn eight_writers() {
    none_was_changed(&writers(8, &[in_place, in_place, onto_itself, by_link]));
}

#[test]
fn writers_from_standard_input() {
    writers(2, &[from_standard_input]);
    writers(4, &[from_standard_input, in_place]);
}

/// PHP's edits, as the guide shows them, raise day 1; the command's put in keys.
#[test]
fn writers_in_php() {
    if Command::new("php").arg("-v").output().is_err() {
        eprintln!("no php: skipped");
        return;
    }
    let folder = Folder::new();
    let plan = folder.file("plan", "a:1:{i:1;d:9.5;}");
    let mut children = Vec::new();
    for key in 2..2 + ROUNDS {
        let php = Command::new("php")
            .args(["-n", EDIT, "plan"])
            .current_dir(folder.path(""))
            .stdout(Stdio::piped())
            .stderr(Stdio::piped())
            .spawn();
        let mut insert = insert(&folder, key);
        insert.args(["plan", "--in-place", "--wait=60"]);
        children.extend([php.unwrap(), insert.spawn().unwrap()]);
    }
    for child in children {
        let ran = Ran::new(child.wait_with_output().unwrap());
        assert_eq!((ran.status, ran.error.as_str()), (Some(0), ""));
        assert!(
            ran.out.is_empty() || ran.out.starts_with(b"day 1 has "),
            "{ran:?}"
        );
    }
    let plan = fs::read_to_string(plan).unwrap();
    let start = format!("a:{}:{{i:1;d:34.5;", ROUNDS + 1);
    assert!(plan.starts_with(&start), "{plan}");
    assert_eq!(names(&folder.path("")), ["plan"]);
}

fn locked(folder: &Folder, name: &str) -> File {
    let file = File::open(folder.path(name)).unwrap();
    file.lock().unwrap();
    file
}

#[test]
fn somebody_else_edits() {
    let folder = plan_and_link("a:01:{i:0;N;}");
    folder.file("old", "old");
    let _lock = (locked(&folder, "plan"), locked(&folder, "old"));
    for (arguments, name) in [
        ("plan --in-place", "plan"),
        ("link --in-place", "link"),
        ("plan -o plan", "plan"),
        ("plan -o link", "link"),
        ("-o plan < plan", "plan"),
        ("plan -o old", "old"),
    ] {
        let script = format!("exec \"$0\" canonical --wait 0 {arguments}");
        let error = format!("{name} is being edited by somebody else; nothing was written");
        Ran::new(shell(&folder, &script)).fails(4, &format!("tonschnecke: {error}\n"));
    }
    let script = "exec \"$0\" canonical plan --in-place --wait=1";
    let error = "plan is being edited by somebody else: waited 1 second; nothing was written";
    Ran::new(shell(&folder, script)).fails(4, &format!("tonschnecke: {error}\n"));
    assert_eq!(
        fs::read_to_string(folder.path("plan")).unwrap(),
        "a:01:{i:0;N;}"
    );
    assert_eq!(fs::read_to_string(folder.path("old")).unwrap(), "old");
    assert_eq!(names(&folder.path("")), ["link", "old", "plan"]);
}

/// It waits now.
fn waits(child: &mut Child) {
    sleep(Duration::from_millis(200));
    assert_eq!(child.try_wait().unwrap(), None);
}

#[test]
fn somebody_else_ends_the_edit() {
    let folder = plan_and_link(EMPTY);
    for (key, way) in [in_place, onto_itself, by_link, from_standard_input]
        .into_iter()
        .enumerate()
    {
        let lock = locked(&folder, "plan");
        let mut child = way(&folder, key);
        waits(&mut child);
        lock.unlock().unwrap();
        Ran::new(child.wait_with_output().unwrap()).gives("");
    }
    let plan = fs::read_to_string(folder.path("plan")).unwrap();
    assert_eq!(plan, "a:4:{i:0;N;i:1;N;i:2;N;i:3;N;}");
}

/// Replaces the plan, as the command does.
fn replace(folder: &Folder, content: &str) {
    let new = folder.file("new", content);
    fs::rename(new, folder.path("plan")).unwrap();
}

/// It waits for the lock, and then the name leads to another plan.
fn replaced_meanwhile(folder: &Folder, way: Way) -> Ran {
    let lock = locked(folder, "plan");
    let mut child = way(folder, 7);
    waits(&mut child);
    replace(folder, "a:1:{i:0;N;}");
    lock.unlock().unwrap();
    Ran::new(child.wait_with_output().unwrap())
}

#[test]
fn somebody_else_has_edited() {
    for way in [in_place, onto_itself, by_link] {
        let folder = plan_and_link(EMPTY);
        replaced_meanwhile(&folder, way).gives("");
        let plan = fs::read_to_string(folder.path("plan")).unwrap();
        assert_eq!(plan, "a:2:{i:0;N;i:7;N;}");
    }
}

#[test]
fn what_was_read_is_no_longer_the_plan() {
    let folder = plan_and_link(EMPTY);
    let ran = replaced_meanwhile(&folder, from_standard_input);
    was_changed(&ran, &folder.path("plan"), "a:1:{i:0;N;}");
    // The shell had opened it before it was replaced.
    let mut child = insert(&folder, 7);
    child.stdin(File::open(folder.path("plan")).unwrap());
    replace(&folder, "a:1:{i:1;N;}");
    let ran = Ran::new(child.args(["-o", "plan"]).output().unwrap());
    was_changed(&ran, &folder.path("plan"), "a:1:{i:1;N;}");
}

fn overwrite(folder: &Folder, content: &str) {
    folder.file("plan", content);
}

/// Stops it with the new plan half written, has the old one changed, and lets it go on.
/// Whether it was stopped in time.
fn changed_half_way(sender: &mut Sender, change: fn(&Folder, &str)) -> bool {
    let folder = plan_and_link(EMPTY);
    let mut child = in_place(&folder, 7);
    while names(&folder.path("")).len() == 2 {
        if child.try_wait().unwrap().is_some() {
            return false;
        }
    }
    sender.send("STOP", &child);
    let stat = format!("/proc/{}/stat", child.id());
    let is = |state: &str| fs::read_to_string(&stat).unwrap().contains(state);
    // Stopped, or ended before.
    while !is(") T ") && !is(") Z ") {}
    change(&folder, "a:1:{i:0;N;}");
    sender.send("CONT", &child);
    let ran = Ran::new(child.wait_with_output().unwrap());
    if ran.status == Some(0) {
        return false;
    }
    was_changed(&ran, &folder.path("plan"), "a:1:{i:0;N;}");
    assert_eq!(names(&folder.path("")), ["link", "plan"]);
    true
}

#[test]
fn somebody_else_asks_for_no_lock() {
    let mut sender = Sender::new();
    for change in [overwrite, replace] {
        let seen = (0..500).any(|_| changed_half_way(&mut sender, change));
        assert!(seen, "never stopped in time");
    }
    sender.end();
}

fn was_changed(ran: &Ran, plan: &Path, content: &str) {
    let error = "plan was changed by somebody else meanwhile; nothing was written";
    ran.fails(4, &format!("tonschnecke: {error}\n"));
    assert_eq!(fs::read_to_string(plan).unwrap(), content);
}
