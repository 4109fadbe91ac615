//! Where a name for the output leads.

use std::ffi::OsStr;
use std::fs;
use std::io::{self, ErrorKind};
use std::os::fd::RawFd;
use std::os::unix::ffi::OsStrExt;
use std::os::unix::fs::MetadataExt;
use std::path::{Path, PathBuf};

/// As many symbolic links as Linux follows.
const MOST_LINKS: usize = 40;
const TOO_MANY_LINKS: i32 = 40;

#[derive(Debug)]
pub enum Target {
    /// A regular file, or none yet: the last name, behind all symbolic links.
    Name(PathBuf),
    /// One of the command's own descriptors.
    Open(RawFd),
    /// A pipe, a device or a file that another process has open, under the name given.
    Stream,
}

impl Target {
    pub fn find(given: &Path) -> io::Result<Target> {
        let mut name = given.to_owned();
        for _ in 0..=MOST_LINKS {
            let found = match fs::symlink_metadata(&name) {
                // No file is made in /proc, and later the descriptor named might be one of ours.
                Err(error) if error.kind() == ErrorKind::NotFound && !stands_in_proc(&name) => None,
                outcome => Some(outcome?),
            };
            match found {
                Some(link) if link.is_symlink() => {
                    if is_in_proc(link.dev()) {
                        return Ok(open_file(&name));
                    }
                    name = folder(&name).join(fs::read_link(&name)?);
                }
                Some(other) if !other.is_file() => return Ok(Target::Stream),
                // Opening it directly will say what is wrong.
                _ if !names_a_file(&name) => return Ok(Target::Stream),
                _ => return Ok(Target::Name(name)),
            }
        }
        Err(io::Error::from_raw_os_error(TOO_MANY_LINKS))
    }
}

/// Where the name stands.
pub fn folder(name: &Path) -> &Path {
    match name.parent() {
        Some(folder) if !folder.as_os_str().is_empty() => folder,
        _ => Path::new("."),
    }
}

fn names_a_file(name: &Path) -> bool {
    name.file_name().is_some() && !name.as_os_str().as_bytes().ends_with(b"/")
}

/// Whether this is the file system whose symbolic links stand for open files.
fn is_in_proc(device: u64) -> bool {
    fs::metadata("/proc").is_ok_and(|proc| proc.dev() == device)
}

fn stands_in_proc(name: &Path) -> bool {
    fs::metadata(folder(name)).is_ok_and(|folder| is_in_proc(folder.dev()))
}

fn open_file(link: &Path) -> Target {
    let real = |folder: &Path| fs::canonicalize(folder).ok();
    let own = real(folder(link)) == real(Path::new("/proc/self/fd"));
    let number = link.file_name().and_then(OsStr::to_str);
    match number.and_then(|number| number.parse().ok()) {
        // Opened anew, it would begin at its start, and what others write to it would overwrite that.
        Some(number) if own => Target::Open(number),
        _ => Target::Stream,
    }
}
