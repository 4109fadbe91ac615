//! Ended half way: the plan is whole, and nothing is left beside it.

use crate::run::{
    command, long_tree, names, shell, Folder, Ran, Sender, CANONICAL, FULL_DISK, ODD, PROGRAM, YEAR,
};
use std::fs::{self, File};
use std::os::unix::process::ExitStatusExt;
use std::process::{Command, ExitStatus, Output, Stdio};
use std::thread::sleep;
use std::time::{Duration, Instant};

const INTERRUPT: (&str, i32) = ("INT", 2);
const TERMINATE: (&str, i32) = ("TERM", 15);
const HANG_UP: (&str, i32) = ("HUP", 1);
const KILL: (&str, i32) = ("KILL", 9);

const INSERT: [&str; 7] = [
    "insert",
    "plan",
    "--in-place",
    "--array=/months/2",
    "--at=end",
    "--int-key=29",
    "--null",
];

/// Puts a day in; whatever signals those ignore who run the tests, as nohup does, it ignores none.
fn insert(folder: &Folder) -> Command {
    let mut insert = Command::new("env");
    insert.args(["--default-signal=HUP,INT,TERM", PROGRAM]);
    insert.args(INSERT).current_dir(folder.path(""));
    insert
}

/// The year's plan, and what it is with the day put in.
fn year() -> (Folder, [Vec<u8>; 2]) {
    let folder = Folder::new();
    let old = fs::read(YEAR).unwrap();
    let plan = folder.file("plan", &old);
    assert!(insert(&folder).output().unwrap().status.success());
    let new = fs::read(&plan).unwrap();
    assert_ne!(old, new);
    (folder, [old, new])
}

/// How long it takes when it is let be.
fn duration() -> Duration {
    let (folder, [old, _]) = year();
    folder.file("plan", old);
    let start = Instant::now();
    assert!(insert(&folder).output().unwrap().status.success());
    start.elapsed()
}

/// Ends it at 100 moments of its life, and has each outcome looked at.
fn ended_by(signal: (&str, i32), look: impl Fn(&Folder)) {
    let mut sender = Sender::new();
    let (folder, [old, new]) = year();
    let step = duration() / 70;
    let mut ended = 0;
    for moment in 0..100 {
        folder.file("plan", &old);
        let child = insert(&folder).stderr(Stdio::piped()).spawn().unwrap();
        sleep(step * moment);
        sender.send(signal.0, &child);
        let Output { status, stderr, .. } = child.wait_with_output().unwrap();
        ended += i32::from(status.signal() == Some(signal.1));
        assert!(status.success() || status.signal() == Some(signal.1));
        let left = fs::read(folder.path("plan")).unwrap();
        assert!(left == new || left == old && !status.success());
        // What was done was said, and nothing else, but for a kill between the two.
        let said = stderr.starts_with(b"plan: 1 pair put in ");
        assert!(said == (left == new) || signal == KILL);
        look(&folder);
    }
    sender.end();
    assert!(ended > 0, "the signal was always late");
}

fn nothing_is_left(folder: &Folder) {
    assert_eq!(names(&folder.path("")), ["plan"]);
}

#[test]
fn by_control_c() {
    ended_by(INTERRUPT, nothing_is_left);
}

#[test]
fn by_terminating() {
    ended_by(TERMINATE, nothing_is_left);
}

#[test]
fn by_hanging_up() {
    ended_by(HANG_UP, nothing_is_left);
}

/// Ended half way; whether the signal came in time.
fn ended_half_way(sender: &mut Sender, folder: &Folder, (name, number): (&str, i32)) -> bool {
    let script = "ulimit -c 0; exec env --default-signal \"$0\" show plan -o new";
    let mut child = Command::new("bash")
        .args(["-c", script, PROGRAM])
        .current_dir(folder.path(""))
        .spawn()
        .unwrap();
    while names(&folder.path("")).len() == 1 {}
    sender.send(name, &child);
    let status = child.wait().unwrap();
    assert!(status.success() || status.signal() == Some(number));
    let late = fs::remove_file(folder.path("new")).is_ok();
    nothing_is_left(folder);
    !late
}

#[test]
fn by_other_signals() {
    let mut sender = Sender::new();
    let folder = Folder::new();
    folder.file("plan", long_tree());
    for signal in [
        ("QUIT", 3),
        ("USR1", 10),
        ("USR2", 12),
        ("ALRM", 14),
        ("XCPU", 24),
    ] {
        let ended = (0..100).any(|_| ended_half_way(&mut sender, &folder, signal));
        assert!(ended, "the signal was always late");
    }
    sender.end();
}

fn canonical(folder: &Folder) -> ExitStatus {
    command(["canonical", "plan", "--quiet", "--in-place"])
        .current_dir(folder.path(""))
        .status()
        .unwrap()
}

#[test]
fn by_killing() {
    ended_by(KILL, |folder| {
        assert!(canonical(folder).success());
        nothing_is_left(folder);
    });
}

/// Killed by the signal SIGXFSZ with half of the plan written.
fn killed_half_way(folder: &Folder, arguments: &str) {
    let script = format!("ulimit -c 0; ulimit -f 1; exec \"$0\" {arguments}");
    let output = shell(folder, &script);
    assert_eq!(output.status.signal(), Some(25), "SIGXFSZ");
}

#[test]
fn what_was_left_is_removed() {
    for name in ["plan", "new", &"n".repeat(255)] {
        let folder = Folder::new();
        folder.file("plan", fs::read(YEAR).unwrap());
        killed_half_way(&folder, &format!("canonical plan -o {name}"));
        assert!(fs::read(folder.path("plan")).unwrap() == fs::read(YEAR).unwrap());
        let left = names(&folder.path(""));
        let start = format!(".{}.tonschnecke-", &name[..name.len().min(200)]);
        assert!(left.len() == 2 && left[0].starts_with(&start), "{left:?}");
        let output = shell(&folder, &format!("exec \"$0\" canonical plan -o {name}"));
        Ran::new(output).gives("");
        let mut after = vec![name, "plan"];
        after.sort();
        after.dedup();
        assert_eq!(names(&folder.path("")), after);
    }
}

const LEFT: [&str; 2] = [
    ".plan.tonschnecke-0123456789abcdef",
    ".plan.tonschnecke-fedcba9876543210",
];

#[test]
fn what_was_left_stays_until_there_is_something_new() {
    let folder = Folder::new();
    folder.file("plan", fs::read(YEAR).unwrap());
    folder.file(LEFT[0], "left");
    let script = format!("{FULL_DISK} exec \"$0\" canonical plan --in-place");
    assert_eq!(Ran::new(shell(&folder, &script)).status, Some(2));
    assert_eq!(names(&folder.path("")), [LEFT[0], "plan"]);
}

#[test]
fn what_was_left_and_is_read_is_not_removed() {
    let folder = Folder::new();
    folder.file("plan", "N;");
    for arguments in [
        format!("{} -o plan", LEFT[0]),
        format!("-o plan < {}", LEFT[0]),
    ] {
        for name in LEFT {
            folder.file(name, ODD);
        }
        let script = format!("exec \"$0\" canonical {arguments}");
        Ran::new(shell(&folder, &script)).gives("");
        assert_eq!(names(&folder.path("")), [LEFT[0], "plan"]);
        assert_eq!(fs::read_to_string(folder.path("plan")).unwrap(), CANONICAL);
    }
}

#[test]
fn what_somebody_uses_is_not_removed() {
    let folder = Folder::new();
    folder.file("plan", "N;");
    let used = folder.file(".plan.tonschnecke-0123456789abcdef", "");
    let lock = File::open(&used).unwrap();
    lock.lock().unwrap();
    let others = [
        ".next.tonschnecke-0123456789abcdef",
        ".plan.tonschnecke-0123456789abcde",
        ".plan.tonschnecke-0123456789abcdeF",
        ".plan.tonschnecke-0123456789abcdef0",
        "plan.tonschnecke-0123456789abcdef",
    ];
    for name in others {
        folder.file(name, "");
    }
    folder.folder(".plan.tonschnecke-fedcba9876543210");
    let before = names(&folder.path(""));
    assert!(canonical(&folder).success());
    assert_eq!(names(&folder.path("")), before);
    lock.unlock().unwrap();
    assert!(canonical(&folder).success());
    assert!(!used.exists());
    assert_eq!(names(&folder.path("")).len(), before.len() - 1);
}

#[test]
fn while_it_waits() {
    let mut sender = Sender::new();
    let (folder, _) = year();
    let lock = File::open(folder.path("plan")).unwrap();
    lock.lock().unwrap();
    for (name, number) in [INTERRUPT, TERMINATE, HANG_UP] {
        let mut child = insert(&folder).spawn().unwrap();
        sleep(Duration::from_millis(100));
        assert_eq!(child.try_wait().unwrap(), None);
        sender.send(name, &child);
        assert_eq!(child.wait().unwrap().signal(), Some(number));
    }
    sender.end();
}

/// A signal that comes while one file is replaced ends the command behind it.
#[test]
fn among_several_files() {
    const ODD: &[u8] = b"a:01:{i:0;N;}";
    let mut sender = Sender::new();
    let names: Vec<String> = (0..300).map(|number| format!("plan{number}")).collect();
    for _ in 0..10 {
        let folder = Folder::new();
        for name in &names {
            folder.file(name, ODD);
        }
        let canonical = [
            "--default-signal=INT",
            PROGRAM,
            "canonical",
            "--quiet",
            "--in-place",
        ];
        let mut child = Command::new("env")
            .args(canonical)
            .args(&names)
            .current_dir(folder.path(""))
            .spawn()
            .unwrap();
        while fs::read(folder.path("plan0")).unwrap() == ODD {}
        sender.send(INTERRUPT.0, &child);
        assert_eq!(child.wait().unwrap().signal(), Some(INTERRUPT.1));
        assert!(fs::read(folder.path("plan299")).unwrap() == ODD);
    }
    sender.end();
}

#[test]
fn ignored_signals_stay_ignored() {
    let mut sender = Sender::new();
    let (folder, [old, new]) = year();
    let plan = folder.path("plan");
    for (name, _) in [INTERRUPT, TERMINATE, HANG_UP] {
        folder.file("plan", &old);
        let lock = File::open(&plan).unwrap();
        lock.lock().unwrap();
        let script = format!("trap '' {name}; exec \"$@\"");
        let mut ignoring = Command::new("bash");
        ignoring.args(["-c", &script, "bash", PROGRAM]).args(INSERT);
        let mut child = ignoring.current_dir(folder.path("")).spawn().unwrap();
        // From then on it ignores the signal.
        let running = format!("/proc/{}/comm", child.id());
        while fs::read_to_string(&running).unwrap() != "tonschnecke\n" {}
        lock.unlock().unwrap();
        let status = loop {
            sender.send(name, &child);
            match child.try_wait().unwrap() {
                Some(status) => break status,
                None => sleep(Duration::from_micros(50)),
            }
        };
        assert!(status.success(), "{name}: {status}");
        assert!(fs::read(&plan).unwrap() == new);
        nothing_is_left(&folder);
    }
    sender.end();
}

#[test]
fn by_a_reader_that_goes_away() {
    let folder = Folder::new();
    folder.file("plan", long_tree());
    for script in [
        "\"$0\" show plan | head -n 1; echo ${PIPESTATUS[0]}",
        "\"$0\" show plan -o /dev/stdout | head -n 1; echo ${PIPESTATUS[0]}",
        "mkfifo fifo; head -n 1 fifo & \"$0\" show plan -o fifo; echo $?; wait",
    ] {
        let ran = Ran::new(shell(&folder, script));
        assert_eq!((ran.status, ran.error.as_str()), (Some(0), ""), "{script}");
        let out = String::from_utf8(ran.out).unwrap();
        let mut lines: Vec<&str> = out.lines().collect();
        lines.sort();
        assert_eq!(lines, ["/: array of 5400", "141"], "{script}");
    }
}
