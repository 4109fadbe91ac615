//! What a file keeps when it is replaced: its owner, permissions and attributes.

use crate::run::{
    command, faulty, long_tree, names, set_mode, shell, Folder, Ran, Sender, CANONICAL, ODD,
};
use std::fs;
use std::os::unix::fs::{symlink, MetadataExt};
use std::path::Path;
use std::process::{Child, Command, Stdio};

/// Has python3 do something with extended attributes, and gives what it prints; nothing, and a sentence,
/// if that is not possible here.
fn python(folder: &Folder, script: &str) -> Option<String> {
    let python = Command::new("python3")
        .args(["-c", &format!("{PYTHON}{script}")])
        .current_dir(folder.path(""))
        .output();
    match python {
        Ok(output) if output.status.success() => Some(String::from_utf8(output.stdout).unwrap()),
        _ => {
            eprintln!("no python3, or no extended attributes here: skipped");
            None
        }
    }
}

/// An access list: the owner writes, user 65534 reads, nobody else does anything.
const PYTHON: &str = "
import os, struct
def entry(tag, mode, name=0xffffffff): return struct.pack('<HHI', tag, mode, name)
ACL = struct.pack('<I', 2) + entry(1, 6) + entry(2, 4, 65534) + entry(4, 0) + entry(16, 4) + entry(32, 0)
def attributes(name):
    print(oct(os.stat(name).st_mode))
    for key in sorted(os.listxattr(name)): print(key, os.getxattr(name, key).hex())
";

#[test]
fn attributes() {
    for destination in ["plan --in-place --quiet", "plan -o plan", "other -o plan"] {
        let folder = Folder::new();
        folder.file("plan", ODD);
        folder.file("other", ODD);
        let set = "
os.setxattr('plan', 'user.colour', b'red')
os.setxattr('plan', 'user.empty', b'')
os.setxattr('plan', 'system.posix_acl_access', ACL)
attributes('plan')";
        let Some(before) = python(&folder, set) else {
            return;
        };
        assert_eq!(before.lines().count(), 4, "{before}");
        let script = format!("exec \"$0\" canonical {destination}");
        Ran::new(shell(&folder, &script)).gives("");
        let after = python(&folder, "attributes('plan')");
        assert_eq!(after.as_ref(), Some(&before), "{destination}");
        let plan = fs::read_to_string(folder.path("plan")).unwrap();
        assert_eq!(plan, CANONICAL);
    }
}

#[test]
fn no_access_list_of_the_folder() {
    let folder = Folder::new();
    let plan = folder.file("plan", ODD);
    set_mode(&plan, 0o640);
    let set = "os.setxattr('.', 'system.posix_acl_default', ACL)";
    if python(&folder, set).is_none() {
        return;
    }
    let script = "exec \"$0\" canonical plan --in-place --quiet";
    Ran::new(shell(&folder, script)).gives("");
    let after = python(&folder, "attributes('plan')");
    assert_eq!(after.as_deref(), Some("0o100640\n"));
    // A new file takes the folder's.
    Ran::new(shell(&folder, "exec \"$0\" canonical plan -o new")).gives("");
    let new = python(&folder, "attributes('new')").unwrap();
    assert!(new.contains("system.posix_acl_access"), "{new}");
}

#[test]
fn attributes_that_cannot_be_kept() {
    let folder = Folder::new();
    folder.file("plan", ODD);
    let set = "os.setxattr('plan', 'user.colour', b'red')";
    if python(&folder, set).is_none() {
        return;
    }
    let script = "exec \"$0\" canonical plan --in-place";
    let Some(ran) = faulty(&folder, "FSETXATTR=28", script) else {
        return;
    };
    let reason = "its attribute user.colour cannot be kept: No space left on device (os error 28)";
    ran.fails(2, &format!("tonschnecke: cannot replace plan: {reason}\n"));
    assert_eq!(fs::read_to_string(folder.path("plan")).unwrap(), ODD);
}

/// Begins to write something long to the file, and stops with a part of it written.
fn stopped(sender: &mut Sender, folder: &Folder, file: &str) -> Child {
    loop {
        let before = names(&folder.path("")).len();
        let mut child = command(["show", "long", "-o", file])
            .current_dir(folder.path(""))
            .stdout(Stdio::piped())
            .stderr(Stdio::piped())
            .spawn()
            .unwrap();
        while names(&folder.path("")).len() == before && child.try_wait().unwrap().is_none() {}
        sender.send("STOP", &child);
        let stat = format!("/proc/{}/stat", child.id());
        let is = |state: &str| fs::read_to_string(&stat).unwrap().contains(state);
        while !is(") T ") && !is(") Z ") {}
        if names(&folder.path("")).len() > before {
            return child;
        }
        sender.send("CONT", &child);
        child.wait().unwrap();
    }
}

#[test]
fn permissions_changed_meanwhile() {
    let mut sender = Sender::new();
    let folder = Folder::new();
    folder.file("long", long_tree());
    let old = folder.file("old", "old");
    for mode in [0o600, 0o664, 0o640] {
        let child = stopped(&mut sender, &folder, "old");
        set_mode(&old, mode);
        sender.send("CONT", &child);
        let ran = Ran::new(child.wait_with_output().unwrap());
        // Changed so late that they were taken already.
        if ran.status != Some(0) {
            let error = "old was changed by somebody else meanwhile; nothing was written";
            ran.fails(4, &format!("tonschnecke: {error}\n"));
        }
        let left = fs::metadata(&old).unwrap().mode();
        assert_eq!(left & 0o777, mode, "{ran:?}");
    }
    sender.end();
}

#[test]
fn a_link_that_leads_to_another_file_meanwhile() {
    let mut sender = Sender::new();
    let folder = Folder::new();
    folder.file("long", long_tree());
    for name in ["first", "second"] {
        folder.file(name, name);
    }
    symlink("first", folder.path("link")).unwrap();
    let child = stopped(&mut sender, &folder, "link");
    symlink("second", folder.path("new")).unwrap();
    fs::rename(folder.path("new"), folder.path("link")).unwrap();
    sender.send("CONT", &child);
    sender.end();
    let ran = Ran::new(child.wait_with_output().unwrap());
    let error = "link was changed by somebody else meanwhile; nothing was written";
    ran.fails(4, &format!("tonschnecke: {error}\n"));
    for name in ["first", "second"] {
        assert_eq!(fs::read_to_string(folder.path(name)).unwrap(), name);
    }
    assert_eq!(
        fs::read_link(folder.path("link")).unwrap(),
        Path::new("second")
    );
    assert_eq!(names(&folder.path("")), ["first", "link", "long", "second"]);
}
