//! A file beside the one that it is to replace. Its writer holds its lock, so that one that nobody
//! holds is known to be left by a process that was killed.

use crate::files::lock;
use crate::files::signals;
use crate::files::target::folder;
use std::ffi::{OsStr, OsString};
use std::fs::{self, File, TryLockError};
use std::hash::{BuildHasher, RandomState};
use std::io;
use std::os::unix::ffi::OsStrExt;
use std::os::unix::fs::{MetadataExt, OpenOptionsExt};
use std::path::{Path, PathBuf};

/// Of the replaced file's name: a name has at most 255 bytes.
const NAME_BYTES: usize = 200;
const DIGITS: usize = 16;

pub struct Temporary {
    name: PathBuf,
    pub file: File,
}

impl Temporary {
    pub fn create(target: &Path, mode: u32) -> io::Result<Temporary> {
        loop {
            // The hasher's keys are random: nobody can have taken the name on purpose.
            let random = RandomState::new().hash_one(0);
            let mut name = prefix(target);
            name.push(format!("{random:0DIGITS$x}"));
            let name = folder(target).join(name);
            signals::remove_if_ended(&name);
            let file = File::options()
                .write(true)
                .create_new(true)
                .mode(mode)
                .open(&name)
                .inspect_err(|_| signals::remove_nothing())?;
            let temporary = Temporary { name, file };
            match temporary.file.try_lock() {
                Ok(()) if temporary.file.metadata()?.nlink() != 0 => return Ok(temporary),
                Err(TryLockError::Error(error)) => return Err(error),
                // Before it was locked, somebody took it for one left behind.
                Ok(()) | Err(TryLockError::WouldBlock) => {}
            }
        }
    }

    pub fn rename(&self, target: &Path) -> io::Result<()> {
        fs::rename(&self.name, target)
    }
}

impl Drop for Temporary {
    fn drop(&mut self) {
        // Once it is renamed there is nothing of this name; else the first error is the one to tell.
        let _ = fs::remove_file(&self.name);
        signals::remove_nothing();
    }
}

/// What the names of all temporary files for this target begin with.
fn prefix(target: &Path) -> OsString {
    let name = target.file_name().unwrap_or_default().as_bytes();
    let start = &name[..name.len().min(NAME_BYTES)];
    let mut prefix = OsString::from(".");
    prefix.push(OsStr::from_bytes(start));
    prefix.push(".tonschnecke-");
    prefix
}

/// Removes what killed processes left for this target, but not what somebody recovers a plan from. What
/// cannot be removed harms nobody.
pub fn remove_left(target: &Path, input: Option<(u64, u64)>) {
    let prefix = prefix(target);
    let entries = fs::read_dir(folder(target)).into_iter().flatten().flatten();
    for entry in entries {
        let digits = entry.file_name();
        let digits = digits.as_bytes().strip_prefix(prefix.as_bytes());
        let regular = entry.file_type().is_ok_and(|kind| kind.is_file());
        if regular && digits.is_some_and(is_random) {
            let _ = remove_if_left(&entry.path(), input);
        }
    }
}

fn is_random(digits: &[u8]) -> bool {
    let digit = |byte: &u8| matches!(byte, b'0'..=b'9' | b'a'..=b'f');
    digits.len() == DIGITS && digits.iter().all(digit)
}

fn remove_if_left(name: &Path, input: Option<(u64, u64)>) -> io::Result<()> {
    let file = lock::open(name)?;
    if Some(lock::identity(&file.metadata()?)) == input {
        return Ok(());
    }
    file.try_lock()?;
    fs::remove_file(name)
}
