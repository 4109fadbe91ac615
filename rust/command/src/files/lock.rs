//! The lock on a plan's file while it is edited. It is advisory, as flock(2) is, and ends with the process.

use crate::files::replace::Unreplaced;
use std::fs::{self, File, Metadata, TryLockError};
use std::io::{self, ErrorKind};
use std::os::unix::fs::MetadataExt;
use std::path::Path;
use std::thread::sleep;
use std::time::{Duration, Instant};

const BETWEEN_TRIES: Duration = Duration::from_millis(5);

/// Opens the file that has this name and locks it, waiting for whoever holds the lock.
pub fn lock(name: &Path, wait: Duration) -> Result<File, Unreplaced> {
    let start = Instant::now();
    loop {
        let file = open(name)?;
        let locked = match file.try_lock() {
            // It may have been replaced since it was opened.
            Ok(()) => leads_to(name, &file)?,
            Err(TryLockError::WouldBlock) => false,
            Err(TryLockError::Error(error)) => return Err(error.into()),
        };
        if locked {
            return Ok(file);
        }
        if start.elapsed() >= wait {
            return Err(Unreplaced::Locked(wait));
        }
        sleep(BETWEEN_TRIES);
    }
}

/// Opened for writing too: the lock needs it on some file systems, and who may not write to a file
/// should not replace it.
pub fn open(name: &Path) -> io::Result<File> {
    File::options().read(true).write(true).open(name)
}

/// Whether the name is still this file's.
pub fn leads_to(name: &Path, file: &File) -> io::Result<bool> {
    match fs::symlink_metadata(name) {
        Ok(named) => Ok(identity(&named) == identity(&file.metadata()?)),
        Err(error) if error.kind() == ErrorKind::NotFound => Ok(false),
        Err(error) => Err(error),
    }
}

/// What two names or descriptors of one file share.
pub fn identity(metadata: &Metadata) -> (u64, u64) {
    (metadata.dev(), metadata.ino())
}
