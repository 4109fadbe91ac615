//! What an edit says that it did.

use crate::run::{command, names, run, shell, Folder, Ran, YEAR};
use std::fs::{self, File};

fn said(ran: &Ran, error: &str) {
    assert_eq!((ran.status, ran.error.as_str()), (Some(0), error));
}

const DAY: [&str; 3] = ["--array=/months/2", "--int-key=29", "--float=9.5"];

#[test]
fn of_a_pair_and_the_references_behind_it() {
    let at = |place: &str| run(["insert", YEAR, place].into_iter().chain(DAY));
    said(
        &at("--at=2"),
        "1 pair put in at place 2 of /months/2, 105 references raised\n",
    );
    said(
        &at("--at=end"),
        "1 pair put in at place 28 of /months/2, 84 references raised\n",
    );
    let folder = Folder::new();
    let one = folder.file("one", "a:3:{i:1;d:9.5;i:2;d:8;i:5;R:3;}");
    let insert = |place: &str| {
        let file = one.to_str().unwrap();
        run(["insert", file, place].into_iter().chain(PAIR))
    };
    said(
        &insert("--at=1"),
        "1 pair put in at place 1 of /, 1 reference raised\n",
    );
    said(
        &insert("--at=2"),
        "1 pair put in at place 2 of /, no reference raised\n",
    );
}

#[test]
fn names_the_file_that_was_written() {
    let folder = Folder::new();
    let plan = folder.file("plan", fs::read(YEAR).unwrap());
    let (plan, new) = (plan.to_str().unwrap(), folder.path("new"));
    let new = new.to_str().unwrap();
    let done = "1 pair put in at place 28 of /months/2, 84 references raised";
    let ran = run(["insert", plan, "-o", new, "--after=28"]
        .into_iter()
        .chain(DAY));
    said(&ran, &format!("{new}: {done}\n"));
    let ran = run(["insert", plan, "--in-place", "--after=28"]
        .into_iter()
        .chain(DAY));
    said(&ran, &format!("{plan}: {done}\n"));
    assert_eq!(fs::read(plan).unwrap(), fs::read(new).unwrap());
}

#[test]
fn is_not_wanted() {
    let folder = Folder::new();
    let plan = folder.file("plan", fs::read(YEAR).unwrap());
    let plan = plan.to_str().unwrap();
    let quiet = ["insert", plan, "--quiet", "--at=end", "--in-place"];
    said(&run(quiet.into_iter().chain(DAY)), "");
    said(&run(["canonical", plan, "--quiet", "--in-place"]), "");
    // What is only printed in another way is no edit.
    said(&run(["canonical", plan]), "");
    said(&run(["canonical", plan, "--quiet"]), "");
}

const PAIR: [&str; 3] = ["--array=/", "--int-key=7", "--null"];

#[test]
fn of_a_dry_run_which_writes_nothing() {
    let folder = Folder::new();
    let plan = folder.file("plan", "a:01:{i:+0;N;}");
    let (plan, new) = (plan.to_str().unwrap(), folder.path("new"));
    let new = new.to_str().unwrap();
    let destinations = [
        (vec![], String::new()),
        (vec!["--in-place"], format!("{plan}: ")),
        (vec!["-o", new], format!("{new}: ")),
    ];
    for (destination, file) in destinations {
        let dry_run = |job: &[&str], done: &str| {
            let ran = run([job, &["--dry-run"], &destination].concat());
            said(
                &ran,
                &format!("{file}dry run, nothing is written: {done}\n"),
            );
            assert_eq!(ran.out, b"");
        };
        dry_run(
            &[&["insert", plan, "--at=0"], &PAIR[..]].concat(),
            "1 pair put in at place 0 of /, no reference raised",
        );
        dry_run(&["canonical", plan], "the canonical text has 2 bytes fewer");
    }
    assert_eq!(names(&folder.path("")), ["plan"]);
    assert_eq!(fs::read(plan).unwrap(), b"a:01:{i:+0;N;}");
}

#[test]
fn of_a_dry_run_that_is_refused() {
    let folder = Folder::new();
    let plan = folder.file("plan", "a:0:{}");
    let refused = ["insert", plan.to_str().unwrap(), "--dry-run", "--at=9"];
    assert_eq!(run(refused.into_iter().chain(PAIR)).status, Some(1));
}

#[test]
fn of_canonical_text() {
    let folder = Folder::new();
    let cases = [
        ("a:01:{i:+0;N;}", "the canonical text has 2 bytes fewer"),
        ("a:01:{i:0;N;}", "the canonical text has 1 byte fewer"),
        ("a:1:{i:0;N;}", "the plan is canonical already"),
    ];
    for (source, done) in cases {
        let plan = folder.file("plan", source);
        let plan = plan.to_str().unwrap();
        let ran = run(["canonical", plan, "--in-place"]);
        said(&ran, &format!("{plan}: {done}\n"));
        assert_eq!(fs::read(plan).unwrap(), b"a:1:{i:0;N;}");
    }
}

#[test]
fn is_not_said_where_the_plan_cannot_be_written() {
    let insert = ["insert", YEAR, "--at=end"].into_iter().chain(DAY);
    let full = File::options().write(true).open("/dev/full").unwrap();
    let ran = Ran::new(command(insert).stdout(full).output().unwrap());
    ran.fails(
        2,
        "tonschnecke: cannot write to standard output: No space left on device (os error 28)\n",
    );
}

#[test]
fn stands_on_its_own_line() {
    let folder = Folder::new();
    folder.file("plan", "a:0:{}");
    let said = "1 pair put in at place 0 of /, no reference raised\n";
    let script = "exec \"$0\" insert plan --array / --at end --int-key 7 --null";
    let ran = Ran::new(shell(&folder, &format!("{script} 2>&1")));
    ran.gives(format!("a:1:{{i:7;N;}}\n{said}"));
    let ran = Ran::new(shell(&folder, script));
    assert_eq!(
        (ran.out.as_slice(), ran.error.as_str()),
        (&b"a:1:{i:7;N;}"[..], said)
    );
}
