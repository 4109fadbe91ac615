//! Where the result goes.

use crate::arguments::Job;
use crate::failure::Failure;
use crate::files::descriptors::{self, STANDARD_OUTPUT};
use crate::files::input::Input;
use crate::files::replace::{Replacement, Unreplaced};
use crate::files::target::Target;
use crate::words::escape::shown;
use std::fs::File;
use std::io::{self, BufWriter, ErrorKind, Write};
use std::os::fd::RawFd;
use std::path::{Path, PathBuf};
use std::time::Duration;

/// As it was asked for.
#[derive(Debug)]
pub enum Destination {
    StandardOutput,
    File(PathBuf),
    /// The plan's own file.
    InPlace(PathBuf),
}

impl Destination {
    fn is_in_place(&self) -> bool {
        matches!(self, Destination::InPlace(_))
    }
}

/// A destination found.
pub struct Output<'a> {
    way: Way,
    /// What cannot be done if something is wrong: an act, and the file as it was given.
    act: &'static str,
    file: &'a Path,
}

enum Way {
    StandardOutput,
    /// A descriptor that was named.
    Open(RawFd),
    /// Opened when it is written.
    Stream,
    Replacement(Replacement),
    Nothing,
}

impl<'a> Output<'a> {
    pub fn standard() -> Self {
        Output {
            way: Way::StandardOutput,
            act: "write to",
            file: Path::new("standard output"),
        }
    }

    /// To be called before anything is opened, which could have the descriptor that is named.
    pub fn find(job: &'a Job) -> Result<Self, Failure> {
        let mut output = Output::standard();
        if job.dry_run {
            output.way = Way::Nothing;
            return Ok(output);
        }
        (output.act, output.file) = match &job.destination {
            Destination::StandardOutput => return Ok(output),
            Destination::File(file) => ("write to", file),
            Destination::InPlace(file) => ("replace", file),
        };
        output.way = find_way(job, output.file).map_err(|why| output.failure(why))?;
        Ok(output)
    }

    /// Locks it if it is the plan's own file, and says whether it is. To be called before the plan is read.
    pub fn lock(&mut self, job: &Job, input: &Input<'_>) -> Result<bool, Failure> {
        let name = match &mut self.way {
            Way::StandardOutput | Way::Nothing => return Ok(false),
            Way::Replacement(replacement) => {
                replacement.input = input.identity();
                &replacement.name
            }
            Way::Open(_) | Way::Stream => self.file,
        };
        if !job.destination.is_in_place() && !input.is_from(name) {
            return Ok(false);
        }
        let locked = match &mut self.way {
            _ if !job.service.writes_plan() => {
                wrong("it is the plan itself, and the result is no plan")
            }
            Way::Replacement(replacement) => replacement.lock_plan(),
            _ => wrong("it is the plan itself, and no name that a file can be renamed to"),
        };
        locked.map_err(|why| self.failure(why))?;
        Ok(true)
    }

    /// Has `fill` write to it. Every error on the way is told. `source` is the plan that was read.
    pub fn write(
        &self,
        source: &[u8],
        fill: impl FnOnce(&mut dyn Write) -> io::Result<()>,
    ) -> Result<(), Failure> {
        let written = match &self.way {
            Way::StandardOutput => descriptors::duplicate(STANDARD_OUTPUT)
                .and_then(|output| buffered(output, fill).map(drop))
                .map_err(Unreplaced::Trouble),
            Way::Open(number) => descriptors::duplicate(*number)
                .and_then(|file| write_directly(&file, fill))
                .map_err(Unreplaced::Trouble),
            // What others wrote to a file that is open stays.
            Way::Stream => File::options()
                .append(true)
                .open(self.file)
                .and_then(|file| write_directly(&file, fill))
                .map_err(Unreplaced::Trouble),
            Way::Replacement(replacement) => replacement.write(source, fill),
            Way::Nothing => Ok(()),
        };
        written.map_err(|why| self.failure(why))
    }

    fn failure(&self, why: Unreplaced) -> Failure {
        let (act, file) = (self.act, shown(self.file.as_os_str()));
        match why {
            Unreplaced::Locked(wait) => {
                let waited = waited(wait);
                Failure::Busy(format!(
                    "{file} is being edited by somebody else{waited}; nothing was written"
                ))
            }
            Unreplaced::Changed => Failure::Busy(format!(
                "{file} was changed by somebody else meanwhile; nothing was written"
            )),
            Unreplaced::Unsynced(error) => Failure::Trouble(format!(
                "{file} is replaced, but a crash may still undo it: {error}"
            )),
            Unreplaced::Trouble(error) if error.kind() == ErrorKind::BrokenPipe => Failure::Unread,
            Unreplaced::Trouble(error) => Failure::Trouble(format!("cannot {act} {file}: {error}")),
        }
    }
}

fn waited(wait: Duration) -> String {
    match wait.as_secs() {
        0 => String::new(),
        1 => ": waited 1 second".into(),
        seconds => format!(": waited {seconds} seconds"),
    }
}

fn find_way(job: &Job, file: &Path) -> Result<Way, Unreplaced> {
    match Target::find(file)? {
        Target::Name(name) => Ok(Way::Replacement(Replacement {
            given: file.to_owned(),
            name,
            plan: None,
            input: None,
            wait: job.wait,
        })),
        Target::Open(_) if job.destination.is_in_place() => {
            wrong("it has no name that a file can be renamed to")
        }
        _ if job.destination.is_in_place() => wrong("not a regular file"),
        Target::Open(number) => Ok(Way::Open(number)),
        Target::Stream => Ok(Way::Stream),
    }
}

fn wrong<T>(message: &str) -> Result<T, Unreplaced> {
    Err(io::Error::other(message).into())
}

/// Has `fill` write through a buffer, and gives back what is behind it once all is through.
pub fn buffered<W: Write>(
    destination: W,
    fill: impl FnOnce(&mut dyn Write) -> io::Result<()>,
) -> io::Result<W> {
    let mut buffer = BufWriter::new(destination);
    fill(&mut buffer)?;
    let mut destination = buffer.into_inner()?;
    destination.flush()?;
    Ok(destination)
}

fn write_directly(
    file: &File,
    fill: impl FnOnce(&mut dyn Write) -> io::Result<()>,
) -> io::Result<()> {
    buffered(file, fill)?;
    // A full disk may show only here; a pipe or a device has nothing to sync.
    if file.metadata()?.is_file() {
        file.sync_all()?;
    }
    Ok(())
}
