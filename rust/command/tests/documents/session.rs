//! A user at a shell, in a folder like the project's once it is built.

use crate::blocks::{project, Block};
use std::env;
use std::fs;
use std::os::unix::fs::symlink;
use std::ops::Deref;
use std::path::{Path, PathBuf};
use std::process::{Command, Stdio};

/// What a command printed, standard output and standard error as they came, and its exit status.
pub struct Printed {
    pub text: String,
    pub status: String,
}

/// Stands between what two commands print.
const MARK: &str = "--- the next command, after status";

/// A folder for one document, gone with it. It stands outside of the project, where `rt ci` refuses the links that are in it.
pub struct Folder(PathBuf);

impl Deref for Folder {
    type Target = Path;

    fn deref(&self) -> &Path {
        &self.0
    }
}

impl Drop for Folder {
    fn drop(&mut self) {
        let removed = fs::remove_dir_all(&self.0);
        assert!(std::thread::panicking() || removed.is_ok());
    }
}

pub fn folder(document: &str) -> Folder {
    let name = document.replace('/', "-");
    let name = format!("tonschnecke-document-{}-{name}", std::process::id());
    let folder = Folder(env::temp_dir().join(name));
    fs::create_dir_all(folder.join("build")).expect("a folder");
    let copied = ["examples", "include", "Makefile", "tonschnecke.pc.in"];
    for name in copied {
        let mut copy = Command::new("cp");
        copy.arg("-r")
            .arg(project().join(name))
            .arg(folder.join(name));
        assert!(copy.status().expect("cp starts").success(), "{name}");
    }
    // As the wrapper's build.rs finds it.
    let given = env::var_os("TONSCHNECKE_LIB_DIR").unwrap_or("../../build".into());
    let archive = project().join("rust/tonschnecke").join(given);
    let linked = [
        (project().join("rust"), "rust"),
        (archive.join("libtonschnecke.a"), "build/libtonschnecke.a"),
        (
            env!("CARGO_BIN_EXE_tonschnecke").into(),
            "build/tonschnecke",
        ),
    ];
    for (file, name) in linked {
        let file = fs::canonicalize(file).expect("there, or built before");
        symlink(file, folder.join(name)).expect("a link");
    }
    folder
}

fn bash(script: &str) -> Command {
    let mut bash = Command::new("bash");
    bash.args(["-c", script]).stdin(Stdio::null());
    bash
}

/// The first program that the block needs and that is not installed.
pub fn missing<'a>(block: &Block<'a>) -> Option<&'a str> {
    block.needs().find(|program| {
        let found = bash(&format!("command -v {program}")).output();
        !found.expect("bash starts").status.success()
    })
}

/// Runs the commands one after the other in one shell.
pub fn run(folder: &Path, commands: &[&str]) -> Vec<Printed> {
    let mut script = "exec 2>&1\n".to_owned();
    for command in commands {
        script += &format!("{command}\nprintf '\\n%s %d\\n' '{MARK}' $?\n");
    }
    let path = env::var("PATH").expect("a path");
    let mut shell = bash(&script);
    shell
        .current_dir(folder)
        .env("PATH", format!("{}/build:{path}", folder.display()));
    shell.env("LC_ALL", "C");
    // As from a terminal, though make may run this.
    for name in ["MAKEFLAGS", "MFLAGS", "MAKELEVEL", "DESTDIR", "PREFIX"] {
        shell.env_remove(name);
    }
    let output = shell.output().expect("bash starts");
    printed(&String::from_utf8_lossy(&output.stdout), commands.len())
}

fn printed(output: &str, commands: usize) -> Vec<Printed> {
    let mut rest = output;
    let mut all = Vec::new();
    for _ in 0..commands {
        let (text, behind) = rest
            .split_once(&format!("\n{MARK} "))
            .expect("the shell went on");
        let (status, behind) = behind.split_once('\n').expect("a whole line");
        all.push(Printed {
            text: text.to_owned(),
            status: status.to_owned(),
        });
        rest = behind;
    }
    assert_eq!(rest, "", "printed behind the last command");
    all
}
