//! Replacing a file: a crash at any moment leaves the old content or the new, never a part.

use crate::files::attributes;
use crate::files::lock::{leads_to, lock};
use crate::files::output::buffered;
use crate::files::signals;
use crate::files::target::{folder, Target};
use crate::files::temporary::{self, Temporary};
use std::fs::{File, Permissions};
use std::io::{self, ErrorKind, Read, Write};
use std::os::unix::fs::{fchown, MetadataExt, PermissionsExt};
use std::path::PathBuf;
use std::time::Duration;

/// Why a file was not replaced, or not for sure.
#[derive(Debug)]
pub enum Unreplaced {
    /// Somebody else held its lock for as long as was to be waited.
    Locked(Duration),
    /// Somebody else changed it since it was read.
    Changed,
    Trouble(io::Error),
    /// It was replaced, but its folder may not be on the disk yet.
    Unsynced(io::Error),
}

impl From<io::Error> for Unreplaced {
    fn from(error: io::Error) -> Self {
        Unreplaced::Trouble(error)
    }
}

/// A file to be replaced, or made.
#[derive(Debug)]
pub struct Replacement {
    /// As it was given.
    pub given: PathBuf,
    /// Where that leads: no symbolic link.
    pub name: PathBuf,
    /// The plan that is read is this file: it was locked before that.
    pub plan: Option<File>,
    /// The file that is read, by its identity.
    pub input: Option<(u64, u64)>,
    /// How long to wait for the lock of another file.
    pub wait: Duration,
}

impl Replacement {
    /// The plan that is to be read is this file.
    pub fn lock_plan(&mut self) -> Result<(), Unreplaced> {
        self.plan = Some(lock(&self.name, self.wait)?);
        Ok(())
    }

    /// Puts what `fill` writes in its place. `source` is the plan that was read.
    pub fn write(
        &self,
        source: &[u8],
        fill: impl FnOnce(&mut dyn Write) -> io::Result<()>,
    ) -> Result<(), Unreplaced> {
        let other = match &self.plan {
            None if self.name.exists() => Some(lock(&self.name, self.wait)?),
            _ => None,
        };
        let old = self.plan.as_ref().or(other.as_ref());
        // Opened before anything is written, so that only syncing itself can fail behind the renaming.
        let folder = File::open(folder(&self.name))?;
        let (new, taken) = self.write_beside(old, fill)?;
        if self.is_changed(source)? || self.leads_elsewhere()? || rights(old)? != taken {
            return Err(Unreplaced::Changed);
        }
        signals::hold();
        new.rename(&self.name)?;
        temporary::remove_left(&self.name, self.input);
        sync(&folder).map_err(Unreplaced::Unsynced)
    }

    /// Writes what is to be read by the same people as the old file, and waits until the disk has it.
    /// Tells what rights it took over.
    fn write_beside(
        &self,
        old: Option<&File>,
        fill: impl FnOnce(&mut dyn Write) -> io::Result<()>,
    ) -> io::Result<(Temporary, Option<Rights>)> {
        let mode = if old.is_some() { 0o600 } else { 0o666 };
        let temporary = Temporary::create(&self.name, mode)?;
        buffered(&temporary.file, fill)?;
        let taken = rights(old)?;
        if let (Some(old), Some(taken)) = (old, &taken) {
            taken.give_owner(&temporary.file)?;
            // The mode is last: it may open the file to those whom an access list of the folder names.
            attributes::copy(old, &temporary.file)?;
            temporary
                .file
                .set_permissions(Permissions::from_mode(taken.mode))?;
        }
        temporary.file.sync_all()?;
        Ok((temporary, taken))
    }

    /// Whether a symbolic link was changed.
    fn leads_elsewhere(&self) -> io::Result<bool> {
        Ok(!matches!(Target::find(&self.given)?, Target::Name(name) if name == self.name))
    }

    /// Whether the plan is no longer the one that was read: not everybody asks for the lock.
    fn is_changed(&self, source: &[u8]) -> io::Result<bool> {
        let Some(plan) = &self.plan else {
            return Ok(false);
        };
        let mut content = Vec::new();
        plan.take(source.len() as u64 + 1)
            .read_to_end(&mut content)?;
        Ok(content != source || !leads_to(&self.name, plan)?)
    }
}

/// Who may do what with a file.
#[derive(Debug, PartialEq, Eq)]
struct Rights {
    user: u32,
    group: u32,
    mode: u32,
}

fn rights(file: Option<&File>) -> io::Result<Option<Rights>> {
    let found = file.map(File::metadata).transpose()?;
    Ok(found.map(|found| Rights {
        user: found.uid(),
        group: found.gid(),
        mode: found.mode(),
    }))
}

impl Rights {
    fn give_owner(&self, file: &File) -> io::Result<()> {
        let own = file.metadata()?;
        if (own.uid(), own.gid()) == (self.user, self.group) {
            return Ok(());
        }
        fchown(file, Some(self.user), Some(self.group)).map_err(|error| {
            let same_user = own.uid() == self.user;
            let whose = if same_user { "group" } else { "owner" };
            io::Error::other(format!("its {whose} cannot be kept: {error}"))
        })
    }
}

fn sync(folder: &File) -> io::Result<()> {
    match folder.sync_all() {
        // A file system that syncs no folders.
        Err(error) if error.kind() == ErrorKind::InvalidInput => Ok(()),
        outcome => outcome,
    }
}
