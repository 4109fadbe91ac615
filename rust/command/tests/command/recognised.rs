//! Bytes that are no plan, and what they are said to be.

use crate::run::{pipe, run, Folder, YEAR};
use std::fs;
use std::process::Command;

/// The source is refused so by each subcommand, from a file as from a pipe.
fn refused(source: &[u8], error: &str) {
    let folder = Folder::new();
    let file = folder.file("plan", source);
    let file = file.to_str().unwrap();
    for subcommand in ["nodes", "show", "canonical"] {
        pipe(source, [subcommand]).fails(1, error);
        run([subcommand, file]).fails(1, &format!("{file}: {error}"));
    }
}

/// What a program makes of the example year.
fn made(program: &str, arguments: &[&str]) -> Vec<u8> {
    let output = Command::new(program).args(arguments).arg(YEAR).output();
    let output = output.expect("it starts");
    assert!(output.status.success());
    output.stdout
}

#[test]
fn an_enum() {
    refused(
        b"a:1:{i:0;E:11:\"Suit:Hearts\";}",
        "refused 3 at 9: a value begins with one of N b i d s a O r R; \
         this is a case of an enum; let PHP serialize its value or its name instead
  a:1:{i:0;E:11:\"Suit:Hearts\";}
           ^
",
    );
}

#[test]
fn a_bom() {
    refused(
        b"\xef\xbb\xbfN;",
        "refused 3 at 0: a value begins with one of N b i d s a O r R; \
         a byte order mark (BOM), which some editors write, stands before it; without it: tail -c +4 FILE > NEW
  %EF%BB%BFN;
  ^
",
    );
}

#[test]
fn gzip() {
    let packed = made("gzip", &["-nc"]);
    assert_eq!(packed[..10], *b"\x1f\x8b\x08\0\0\0\0\0\0\x03");
    let said = "this is gzip; unpack it first: gzip -dc FILE > NEW";
    let ran = pipe(&packed, ["show"]);
    let (first, shown) = ran.error.split_once('\n').expect("lines");
    assert_eq!(
        first,
        format!("refused 3 at 0: a value begins with one of N b i d s a O r R; {said}")
    );
    assert!(shown.starts_with("  %1F%8B%08%00%00%00%00%00%00%03"));
    // Too long, and gzip.
    let long = [packed, vec![0; 65_536]].concat();
    refused(
        &long,
        &format!("refused 1 at 0: the plan is longer than 65,536 bytes; {said}\n"),
    );
}

#[test]
fn base64() {
    for arguments in [&[][..], &["-w0"]] {
        refused(
            &made("base64", arguments),
            "refused 3 at 0: a value begins with one of N b i d s a O r R; \
             this is base64; decode it first: base64 -di FILE > NEW
  Tzo3OiJBaXJQbGFuIjoz...
  ^
",
        );
    }
}

#[test]
fn a_session() {
    let said = "this is a PHP session, a plan behind each |; \
                in PHP, serialize($_SESSION) makes one plan of all";
    refused(
        b"year|i:2024;leap|b:1;",
        &format!(
            "refused 3 at 0: a value begins with one of N b i d s a O r R; {said}
  year|i:2024;leap|b:1...
  ^
"
        ),
    );
    refused(
        b"air|d:9.5;leap|b:1;",
        &format!(
            "refused 2 at 0: the text that begins here is not of the form a:COUNT:{{PAIRS}} with so many pairs, or the plan ends too soon; {said}
  air|d:9.5;leap|b:1;
  ^
"
        ),
    );
}

#[test]
fn a_newline_at_the_end() {
    refused(
        b"N;\n",
        "refused 10 at 2: bytes follow the value; this is a newline at the end; without it: head -c 2 FILE > NEW
  N;%0A
    ^
",
    );
    refused(
        b"N;\r\n",
        "refused 10 at 2: bytes follow the value; this is a newline at the end; without it: head -c 2 FILE > NEW
  N;%0D%0A
    ^
",
    );
    refused(
        b"N;;\n",
        "refused 10 at 2: bytes follow the value\n  N;;%0A\n    ^\n",
    );
}

#[test]
fn a_newline_behind_the_longest_plan() {
    let text = "x".repeat(65_536 - "s:65525:\"\";".len());
    let plan = format!("s:{}:\"{text}\";\n", text.len());
    refused(
        plan.as_bytes(),
        "refused 1 at 0: the plan is longer than 65,536 bytes; \
         its first 65,536 bytes are a plan, and a newline follows; \
         without it: head -c 65536 FILE > NEW\n",
    );
}

/// A shell command, and what recognising tells to do about what it leaves in `$FILE`.
const MENDED: [(&str, &str); 11] = [
    ("cat $YEAR > $FILE; echo >> $FILE", "without it: "),
    (
        "printf '\\357\\273\\277' > $FILE; cat $YEAR >> $FILE",
        "without it: ",
    ),
    ("gzip -c $YEAR > $FILE", "unpack it first: "),
    (
        "unzip -v > /dev/null && zip -q - $YEAR > $FILE",
        "unpack it first: ",
    ),
    ("bzip2 -1c $YEAR > $FILE", "unpack it first: "),
    ("xz -c $YEAR > $FILE", "unpack it first: "),
    ("zstd -c $YEAR > $FILE", "unpack it first: "),
    ("base64 $YEAR > $FILE", "decode it first: "),
    ("base64 $YEAR | sed 's/$/\\r/' > $FILE", "decode it first: "),
    (
        "iconv -f UTF-8 -t UTF-16 $YEAR > $FILE",
        "convert it first: ",
    ),
    (
        "iconv -f UTF-8 -t UTF-32 $YEAR > $FILE",
        "convert it first: ",
    ),
];

/// What a shell says of a command that is not installed.
const NOT_FOUND: i32 = 127;

#[test]
fn what_is_told_mends_it() {
    let folder = Folder::new();
    let (file, new) = (folder.path("plan"), folder.path("new"));
    let status = |script: &str| {
        let mut bash = Command::new("bash");
        bash.args(["-c", script])
            .env("FILE", &file)
            .env("NEW", &new)
            .env("YEAR", YEAR);
        bash.status().expect("bash starts").code()
    };
    for (spoil, lead) in MENDED {
        match status(spoil) {
            Some(NOT_FOUND) => continue,
            code => assert_eq!(code, Some(0), "{spoil}"),
        }
        let error = run(["show", file.to_str().unwrap()]).error;
        let first = error.lines().next().expect("a line");
        let (_, told) = first.split_once(lead).expect(spoil);
        let told = told.replace("FILE", "$FILE").replace("NEW", "$NEW");
        assert_eq!(status(&told), Some(0), "{told}");
        assert_eq!(fs::read(&new).unwrap(), fs::read(YEAR).unwrap(), "{told}");
    }
}
