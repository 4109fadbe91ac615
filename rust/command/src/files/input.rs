//! The plan's bytes, from a file or standard input.

use crate::failure::Failure;
use crate::files::descriptors::{self, STANDARD_INPUT};
use crate::files::lock::{identity, leads_to};
use crate::files::target::folder;
use crate::words::escape::shown;
use std::ffi::{OsStr, OsString};
use std::fs::{self, File, Metadata};
use std::io::{self, IsTerminal, Read, Write};
use std::os::fd::AsRawFd;
use std::os::unix::ffi::OsStrExt;
use std::path::{Path, PathBuf};
use tonschnecke::SOURCE_LIMIT;

/// Opened once, so that what is known of it is of what is read.
pub struct Input<'a> {
    /// Standard input if there is none.
    file: Option<&'a Path>,
    /// What cannot be opened is told when it is read: the output may be to blame, too.
    open: io::Result<File>,
}

impl<'a> Input<'a> {
    pub fn open(file: Option<&'a Path>) -> Self {
        let open = match file {
            Some(file) => File::open(file),
            None => descriptors::duplicate(STANDARD_INPUT),
        };
        Input { file, open }
    }

    /// What has its name now.
    pub fn open_again(self) -> Self {
        match self.file {
            Some(_) => Input::open(self.file),
            None => self,
        }
    }

    /// Whether it is the regular file that has this name, no symbolic link, or had it when it was
    /// opened: a plan edited meanwhile is another file under the same name.
    pub fn is_from(&self, name: &Path) -> bool {
        let (Ok(open), Ok(named)) = (&self.open, fs::metadata(name)) else {
            return false;
        };
        let Ok(input) = open.metadata() else {
            return false;
        };
        let was = || real_name(open).and_then(|real| place(&real));
        let same_place = || was().is_some_and(|was| Some(was) == place(name));
        input.is_file() && (identity(&input) == identity(&named) || same_place())
    }

    /// Nothing if it cannot be opened.
    pub fn identity(&self) -> Option<(u64, u64)> {
        let metadata = self.open.as_ref().ok()?.metadata();
        metadata.ok().as_ref().map(identity)
    }

    /// At most one byte more than the library takes: enough for it to refuse, and an endless pipe ends.
    pub fn read(self) -> Result<Vec<u8>, Failure> {
        let mut source = Vec::new();
        let outcome = self.open.and_then(|open| {
            if self.file.is_none() && open.is_terminal() {
                tell_what_is_awaited();
            }
            open.take(SOURCE_LIMIT as u64 + 1).read_to_end(&mut source)
        });
        match outcome {
            Ok(_) => Ok(source),
            Err(error) => {
                let message = format!("cannot read {}: {error}", name(self.file));
                Err(Failure::Trouble(message))
            }
        }
    }
}

/// What to call the plan's file.
pub fn name(file: Option<&Path>) -> String {
    file.map_or("standard input".into(), |file| shown(file.as_os_str()))
}

/// Of the plan's file, which is not opened.
pub fn metadata(file: Option<&Path>) -> io::Result<Metadata> {
    match file {
        Some(file) => fs::metadata(file),
        None => descriptors::duplicate(STANDARD_INPUT)?.metadata(),
    }
}

fn tell_what_is_awaited() {
    let hint = "tonschnecke: no FILE is given, so the plan is read from the terminal; \
                Ctrl-D ends it, Ctrl-C leaves\n";
    let _ = io::stderr().write_all(hint.as_bytes());
}

/// The name under which a file was opened.
fn real_name(open: &File) -> Option<PathBuf> {
    let name = fs::read_link(format!("/proc/self/fd/{}", open.as_raw_fd())).ok()?;
    // What Linux adds once the file no longer has this name; but a file may be named so.
    let deleted = name.as_os_str().as_bytes().strip_suffix(b" (deleted)");
    match deleted {
        Some(before) if !leads_to(&name, open).ok()? => Some(OsStr::from_bytes(before).into()),
        _ => Some(name),
    }
}

/// A name by its folder itself, which may have several.
fn place(name: &Path) -> Option<((u64, u64), OsString)> {
    let folder = fs::metadata(folder(name)).ok()?;
    Some((identity(&folder), name.file_name()?.to_owned()))
}
