//! Arguments that are not understood, and paths that lead nowhere.

use crate::run::{command, pipe, run, Folder, Ran, YEAR};

/// Arguments, parted by spaces, and what is said of them.
const MISTAKES: [(&str, &str); 44] = [
    ("", "a subcommand is missing"),
    ("--", "a subcommand is missing"),
    ("list", "unknown subcommand list"),
    (
        "insert a b --array=/ --at=0 --int-key=1 --null",
        "one FILE is enough to insert into; what is b?",
    ),
    ("show a b -o c", "-o takes the result of one FILE"),
    ("help list", "there is no help on list"),
    ("show --all", "unknown option --all"),
    ("show -x", "unknown option -x"),
    ("show -h=x", "unknown option -h=x"),
    ("show --dry-run a", "show takes no --dry-run"),
    ("show --quiet a", "show takes no --quiet"),
    (
        "insert a - --array=/ --at=0 --int-key=1 --null",
        "one FILE is enough to insert into; what is standard input?",
    ),
    ("nodes --places", "nodes takes no --places"),
    ("insert --null=x", "--null takes no value"),
    (
        "insert --string --in-place",
        "--string needs a value, and --in-place is an option",
    ),
    (
        "show a -o --quiet",
        "-o needs a value, and --quiet is an option",
    ),
    ("show a -o --", "-o needs a value, and -- is an option"),
    (
        "help show nodes",
        "one subcommand is enough; what is nodes?",
    ),
    ("show -o=file", "unknown option -o=file"),
    ("show --all=x", "unknown option --all=x"),
    ("show -o", "-o needs a value"),
    ("insert --at", "--at needs a value"),
    ("show -o a -o b", "-o is given twice"),
    ("insert --at=1 --at 1", "--at is given twice"),
    (
        "canonical --in-place a --in-place",
        "--in-place is given twice",
    ),
    ("show --help=x", "--help takes no value"),
    ("canonical --in-place=a", "--in-place takes no value"),
    ("show --in-place a", "show takes no --in-place"),
    ("nodes --in-place a", "nodes takes no --in-place"),
    ("canonical --array /", "canonical takes no --array"),
    ("nodes --key i:1;", "nodes takes no --key"),
    ("show a -o b --wait 1", "show takes no --wait"),
    ("nodes --wait=x", "nodes takes no --wait"),
    ("canonical --in-place", "--in-place needs a FILE"),
    ("canonical --in-place -", "--in-place needs a FILE"),
    (
        "canonical a --in-place -o b",
        "--in-place and -o exclude each other",
    ),
    (
        "insert --array=/ --key=i:1; --value=N;",
        "insert needs a place: --at, --before or --after",
    ),
    (
        "insert --array=/ --at=0 --value=N;",
        "insert needs a key: --key, --int-key or --string-key",
    ),
    (
        "insert --array=/ --at=0 --key=i:1;",
        "insert needs a value: --value, --int, --float, --string, --null, --true or --false",
    ),
    (
        "insert --at=0 --key=i:1; --value=N;",
        "insert needs an array: --array or --node",
    ),
    (
        "insert --array=/ --node=0 --at=0",
        "--array and --node exclude each other",
    ),
    (
        "insert --array=/ --at=0 --after=1",
        "--at and --after exclude each other",
    ),
    (
        "insert --array=/ --at=0 --int-key=1 --key=i:1;",
        "--key and --int-key exclude each other",
    ),
    (
        "insert --array=/ --at=0 --int-key=1 --true --null",
        "--null and --true exclude each other",
    ),
];

/// An option of inserting, its unfit value, and what is said of them.
const UNFIT: [(&str, &str, &str); 22] = [
    ("--node", "x", "an index is a whole number, 0 or more"),
    ("--node", "-1", "an index is a whole number, 0 or more"),
    ("--node", "", "an index is a whole number, 0 or more"),
    ("--at", "+1", "neither a whole number, 0 or more, nor the word end"),
    ("--at", "18446744073709551616", "neither a whole number, 0 or more, nor the word end"),
    ("--at", "End", "neither a whole number, 0 or more, nor the word end"),
    ("--wait", "1.5", "no count of whole seconds"),
    ("--wait", "-1", "no count of whole seconds"),
    ("--before", "", "a path has no empty component; the empty string key is \"\""),
    ("--after", "%", "in a path, two hexadecimal digits follow each %"),
    ("--int-key", "29x", "no integer of 64 bits"),
    ("--int-key", "9223372036854775808", "no integer of 64 bits"),
    ("--int", "9.5", "no integer of 64 bits; one with a point is a --float"),
    ("--float", "9,5", "no float; it has digits and a point, as 9.5, or is INF, -INF or NAN"),
    ("--float", "", "no float; it has digits and a point, as 9.5, or is INF, -INF or NAN"),
    ("--float", "9.5;i:3", "no float; it has digits and a point, as 9.5, or is INF, -INF or NAN"),
    ("--after", "i:2;", "here a key is written as in a path: 2"),
    ("--before", "s:3:\"a b\";", "here a key is written as in a path: a%20b"),
    ("--array", "months", "a path begins with /"),
    ("--array", "/a//", "a path has no empty component; the empty string key is \"\""),
    ("--array", "/a%2", "in a path, two hexadecimal digits follow each %"),
    (
        "--array",
        "/\"a",
        "in a path, double quotes stand around a whole component; inside it, a quote is %22 and a slash %2F",
    ),
];

/// Told, with the help that helps: that on the first subcommand which is named.
fn mistaken(arguments: &[&str], message: &str) {
    let subcommands = ["nodes", "show", "canonical", "insert"];
    let named = arguments.iter().find(|word| subcommands.contains(word));
    let help = named.map_or("help".into(), |name| format!("help {name}"));
    let error = format!("tonschnecke: {message}\nTry 'tonschnecke {help}'.\n");
    run(arguments).fails(2, &error);
}

#[test]
fn mistakes_are_told() {
    for (arguments, message) in MISTAKES {
        mistaken(&arguments.split_whitespace().collect::<Vec<_>>(), message);
    }
}

#[test]
fn unfit_values_are_told() {
    for (option, value, message) in UNFIT {
        let fit: &[&str] = match option {
            "--at" | "--before" | "--after" => &["--node=0", "--key=i:1;", "--null"],
            "--wait" => &["--node=0", "--at=0", "--key=i:1;", "--null"],
            "--int-key" => &["--node=0", "--at=0", "--null"],
            "--int" | "--float" => &["--node=0", "--at=0", "--key=i:1;"],
            _ => &["--at=0", "--key=i:1;", "--null"],
        };
        let arguments = [&["insert", option, value], fit].concat();
        mistaken(&arguments, &format!("{option} {value}: {message}"));
    }
}

#[test]
fn paths_that_lead_nowhere() {
    let cases = [
        ("/week", "/ has no key week"),
        ("/months/13", "/months has no key 13"),
        ("/months/13/1", "/months has no key 13"),
        ("/months/\"1\"", "/months has no key \"1\", but the integer key 1"),
        ("/year/a%20b", "/year has no key a%20b: it is 2024"),
        (
            "/months/1/24/x",
            "/months/1/24 has no key x: it is R to /months/1/2, 10.4, and references are not followed",
        ),
    ];
    for (path, message) in cases {
        let rest = ["--at=end", "--key=i:1;", "--value=N;"];
        let ran = run(["insert", YEAR, "--array", path].into_iter().chain(rest));
        ran.fails(3, &format!("tonschnecke: {YEAR}: {message}\n"));
    }
}

#[test]
fn two_dashes_end_the_options() {
    let folder = Folder::new();
    folder.file("-o", "N;");
    let output = command(["show", "--", "-o"])
        .current_dir(folder.path(""))
        .output();
    Ran::new(output.unwrap()).gives("/: null\n");
    pipe(b"N;", ["--", "show"]).gives("/: null\n");
}
