//! Running the command, and folders to run it in.

use std::ffi::OsStr;
use std::fs::{self, Permissions};
use std::io::{ErrorKind, Write};
use std::os::unix::fs::{MetadataExt, PermissionsExt};
use std::path::{Path, PathBuf};
use std::process::{Child, ChildStdin, Command, Output, Stdio};
use std::sync::atomic::{AtomicU32, Ordering};

pub const PROGRAM: &str = env!("CARGO_BIN_EXE_tonschnecke");
pub const YEAR: &str = concat!(env!("CARGO_MANIFEST_DIR"), "/../../examples/year.plan");

/// A plan, and its canonical text.
pub const ODD: &str = "a:01:{i:+0;N;}";
pub const CANONICAL: &str = "a:1:{i:0;N;}";

/// A plan whose tree is longer than any pipe: a value at the greatest depth, and as many
/// references to it as fit.
pub fn long_tree() -> String {
    let (open, close) = ("a:1:{i:0;".repeat(62), "}".repeat(62));
    let references: String = (1..5400).map(|key| format!("i:{key};R:64;")).collect();
    format!("a:5400:{{i:0;{open}N;{close}{references}}}")
}

/// What a run left.
#[derive(Debug, PartialEq, Eq)]
pub struct Ran {
    pub status: Option<i32>,
    pub out: Vec<u8>,
    pub error: String,
}

impl Ran {
    pub fn new(output: Output) -> Ran {
        Ran {
            status: output.status.code(),
            out: output.stdout,
            error: String::from_utf8(output.stderr).expect("messages are UTF-8"),
        }
    }

    /// Accepted, with these bytes.
    pub fn gives(&self, out: impl AsRef<[u8]>) {
        let shown = String::from_utf8_lossy(&self.out);
        assert_eq!((self.status, self.error.as_str()), (Some(0), ""));
        assert_eq!(shown, String::from_utf8_lossy(out.as_ref()));
        assert_eq!(self.out, out.as_ref());
    }

    /// Ended with this status, this text on standard error and nothing on standard output.
    pub fn fails(&self, status: i32, error: &str) {
        assert_eq!((self.status, self.error.as_str()), (Some(status), error));
        assert_eq!(self.out, b"");
    }
}

pub fn command<S: AsRef<OsStr>>(arguments: impl IntoIterator<Item = S>) -> Command {
    let mut command = Command::new(PROGRAM);
    command.args(arguments).stdin(Stdio::null());
    command
}

/// Runs with nothing on standard input.
pub fn run<S: AsRef<OsStr>>(arguments: impl IntoIterator<Item = S>) -> Ran {
    Ran::new(command(arguments).output().expect("it starts"))
}

/// Runs with these bytes on standard input.
pub fn pipe<S: AsRef<OsStr>>(source: &[u8], arguments: impl IntoIterator<Item = S>) -> Ran {
    let mut child = command(arguments)
        .stdin(Stdio::piped())
        .stdout(Stdio::piped())
        .stderr(Stdio::piped())
        .spawn()
        .expect("it starts");
    let mut input = child.stdin.take().expect("a pipe");
    match input.write_all(source) {
        // It need not read all that it refuses.
        Err(error) if error.kind() == ErrorKind::BrokenPipe => {}
        outcome => outcome.expect("it reads"),
    }
    drop(input);
    Ran::new(child.wait_with_output().expect("it ends"))
}

pub fn is_root() -> bool {
    fs::metadata("/proc/self").expect("a process").uid() == 0
}

/// Runs as someone whom file permissions bind, which they do not for root.
pub fn run_bound<S: AsRef<OsStr>>(folder: &Folder, arguments: impl IntoIterator<Item = S>) -> Ran {
    if !is_root() {
        return run(arguments);
    }
    // The build's own folder may be closed to others. A copy by this process itself could still be
    // open in a child that another test starts, and would not run then.
    let program = folder.path("program");
    let copied = Command::new("cp").arg(PROGRAM).arg(&program).status();
    assert!(copied.expect("cp starts").success());
    let output = Command::new("setpriv")
        .args(["--reuid=65534", "--regid=65534", "--clear-groups", "--"])
        .arg(program)
        .args(arguments)
        .stdin(Stdio::null())
        .output();
    Ran::new(output.expect("setpriv starts"))
}

/// Runs a script with the command as `$0`, in the folder.
pub fn shell(folder: &Folder, script: &str) -> Output {
    let mut bash = Command::new("bash");
    bash.args(["-c", script, PROGRAM]).stdin(Stdio::null());
    bash.current_dir(folder.path(""))
        .output()
        .expect("bash starts")
}

/// Functions of the system that fail with the errors that these variables say: `FSYNC`, for folders, and
/// `FSETXATTR`.
const FAULTS: &str = r#"
#define _GNU_SOURCE
#include <errno.h>
#include <stdlib.h>
#include <sys/stat.h>
#include <sys/syscall.h>
#include <unistd.h>
static int fails(const char *name) {
    const char *error = getenv(name);
    errno = error ? atoi(error) : 0;
    return error != 0;
}
int fsync(int file) {
    struct stat found;
    int is_folder = !fstat(file, &found) && S_ISDIR(found.st_mode);
    return is_folder && fails("FSYNC") ? -1 : syscall(SYS_fsync, file);
}
int fsetxattr(int file, const char *name, const void *value, size_t size, int flags) {
    return fails("FSETXATTR") ? -1 : syscall(SYS_fsetxattr, file, name, value, size, flags);
}
"#;

/// Runs a script as `shell` does, with such functions; nothing, and a sentence, if there is no compiler.
pub fn faulty(folder: &Folder, variable: &str, script: &str) -> Option<Ran> {
    let source = folder.file("faults.c", FAULTS);
    let library = folder.path("faults.so");
    let compiled = Command::new("cc")
        .args(["-shared", "-fPIC", "-o"])
        .args([&library, &source])
        .status();
    if !compiled.is_ok_and(|status| status.success()) {
        eprintln!("no compiler for C: skipped");
        return None;
    }
    let script = format!("export {variable} LD_PRELOAD=$PWD/faults.so; {script}");
    let ran = Ran::new(shell(folder, &script));
    for file in [source, library] {
        fs::remove_file(file).expect("it was made here");
    }
    Some(ran)
}

/// As on a full disk: no file grows beyond 1,024 bytes.
pub const FULL_DISK: &str = "trap '' XFSZ; ulimit -f 1;";

/// A shell that sends signals at once.
pub struct Sender(Child, ChildStdin);

impl Sender {
    pub fn new() -> Sender {
        let script = "while read -r signal id; do kill -s $signal $id; done 2>&-";
        let mut shell = Command::new("bash")
            .args(["-c", script])
            .stdin(Stdio::piped())
            .spawn()
            .unwrap();
        let input = shell.stdin.take().unwrap();
        Sender(shell, input)
    }

    pub fn send(&mut self, signal: &str, child: &Child) {
        writeln!(self.1, "{signal} {}", child.id()).unwrap();
    }

    pub fn end(mut self) {
        drop(self.1);
        self.0.wait().unwrap();
    }
}

/// A folder for one test, gone with it.
pub struct Folder(PathBuf);

impl Folder {
    pub fn new() -> Folder {
        static COUNT: AtomicU32 = AtomicU32::new(0);
        let count = COUNT.fetch_add(1, Ordering::Relaxed);
        let name = format!("tonschnecke-test-{}-{count}", std::process::id());
        let folder = std::env::temp_dir().join(name);
        fs::create_dir(&folder).expect("a folder of its own");
        fs::set_permissions(&folder, Permissions::from_mode(0o755)).expect("its owner");
        Folder(folder)
    }

    pub fn path(&self, name: &str) -> PathBuf {
        self.0.join(name)
    }

    /// A file with this content.
    pub fn file(&self, name: &str, content: impl AsRef<[u8]>) -> PathBuf {
        let file = self.path(name);
        fs::write(&file, content).expect("a file");
        file
    }

    /// A folder in it.
    pub fn folder(&self, name: &str) -> PathBuf {
        let folder = self.path(name);
        fs::create_dir(&folder).expect("a folder");
        folder
    }
}

impl Drop for Folder {
    fn drop(&mut self) {
        let removed = fs::remove_dir_all(&self.0);
        assert!(std::thread::panicking() || removed.is_ok());
    }
}

pub fn set_mode(file: &Path, mode: u32) {
    fs::set_permissions(file, Permissions::from_mode(mode)).expect("its owner");
}

/// The names in a folder, hidden ones too.
pub fn names(folder: &Path) -> Vec<String> {
    let entries = fs::read_dir(folder).expect("a folder");
    let mut names: Vec<String> = entries
        .map(|entry| entry.expect("an entry").file_name())
        .map(|name| name.into_string().expect("UTF-8"))
        .collect();
    names.sort();
    names
}
