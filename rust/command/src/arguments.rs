//! The arguments, and what they ask for.

mod help;
mod options;
pub mod pair;

use crate::failure::Failure;
use crate::files::input;
use crate::files::output::Destination;
use crate::words::escape::shown;
use options::{number, Given};
use pair::Pair;
use std::ffi::{OsStr, OsString};
use std::os::unix::ffi::OsStrExt;
use std::path::PathBuf;
use std::time::Duration;

/// The seconds without `--wait`.
const WAIT: usize = 10;

#[derive(Debug)]
pub enum Request {
    Help(&'static str),
    Version,
    /// Each for itself: one that fails keeps none of the others.
    Run(Vec<Job>),
}

/// A plan, what to make of it, and where the result goes.
#[derive(Debug)]
pub struct Job {
    pub service: Service,
    /// Standard input if there is none.
    pub file: Option<PathBuf>,
    pub destination: Destination,
    /// Whether the file's name stands above what is printed of it.
    pub heading: bool,
    /// Whether an edit says what it did.
    pub report: bool,
    /// Whether it only says what it would do.
    pub dry_run: bool,
    /// How long to wait for somebody else who edits the file that is to be replaced.
    pub wait: Duration,
}

#[derive(Debug, Clone)]
pub enum Service {
    Nodes,
    Show { places: bool },
    Canonical,
    Insert(Pair),
}

impl Service {
    /// Whether the result is a plan.
    pub fn writes_plan(&self) -> bool {
        matches!(self, Service::Canonical | Service::Insert(_))
    }
}

pub fn parse(arguments: impl Iterator<Item = OsString>) -> Result<Request, Failure> {
    let arguments: Vec<OsString> = arguments.collect();
    let topic = arguments.iter().find(|word| help::on(word).is_some());
    let help = topic.map_or("help".into(), |topic| format!("help {}", shown(topic)));
    Given::scan(arguments.into_iter())
        .and_then(|mut given| understood(&mut given))
        .map_err(|message| Failure::Usage { message, help })
}

fn understood(given: &mut Given) -> Result<Request, String> {
    if given.has("--version") || given.has("-V") {
        return Ok(Request::Version);
    }
    let mut words = std::mem::take(&mut given.words).into_iter();
    let subcommand = words.next();
    if given.has("--help") || given.has("-h") {
        let topic = subcommand.and_then(|word| help::on(&word));
        return Ok(Request::Help(topic.unwrap_or(help::OVERVIEW)));
    }
    let subcommand = subcommand.ok_or("a subcommand is missing")?;
    if subcommand == "help" {
        let topic = words.next();
        return match words.next() {
            None => asked_for_help(topic.as_deref()).map(Request::Help),
            Some(word) => Err(format!(
                "one subcommand is enough; what is {}?",
                shown(&word)
            )),
        };
    }
    let files = words.map(|file| (file != "-").then(|| PathBuf::from(file)));
    jobs(&subcommand, files.collect(), given).map(Request::Run)
}

fn asked_for_help(topic: Option<&OsStr>) -> Result<&'static str, String> {
    match topic {
        None => Ok(help::OVERVIEW),
        Some(topic) if topic == "help" => Ok(help::OVERVIEW),
        Some(topic) => {
            help::on(topic).ok_or_else(|| format!("there is no help on {}", shown(topic)))
        }
    }
}

fn jobs(
    subcommand: &OsStr,
    mut files: Vec<Option<PathBuf>>,
    given: &mut Given,
) -> Result<Vec<Job>, String> {
    if files.is_empty() {
        files.push(None);
    }
    let service = service(subcommand, given)?;
    let several = files.len() > 1;
    if let (Service::Insert(_), [_, second, ..]) = (&service, &files[..]) {
        let second = input::name(second.as_deref());
        return Err(format!(
            "one FILE is enough to insert into; what is {second}?"
        ));
    }
    let destinations = Destinations::parse(&service, several, given)?;
    let quiet = service.writes_plan() && given.flag("--quiet");
    let wait = wait(&service, given)?;
    if let Some(name) = given.left() {
        return Err(format!("{} takes no {name}", shown(subcommand)));
    }
    files
        .into_iter()
        .map(|file| {
            let destination = destinations.of(file.as_ref())?;
            Ok(Job {
                service: service.clone(),
                heading: several && matches!(destination, Destination::StandardOutput),
                destination,
                file,
                report: destinations.edits && !quiet,
                dry_run: destinations.dry_run,
                wait,
            })
        })
        .collect()
}

fn service(subcommand: &OsStr, given: &mut Given) -> Result<Service, String> {
    match subcommand.as_bytes() {
        b"nodes" => Ok(Service::Nodes),
        b"show" => Ok(Service::Show {
            places: given.flag("--places"),
        }),
        b"canonical" => Ok(Service::Canonical),
        b"insert" => Pair::parse(given).map(Service::Insert),
        _ => Err(format!("unknown subcommand {}", shown(subcommand))),
    }
}

fn wait(service: &Service, given: &mut Given) -> Result<Duration, String> {
    let takes = service.writes_plan();
    let seconds = match takes.then(|| given.take("--wait")).flatten() {
        Some(text) => number(&text)
            .ok_or_else(|| format!("--wait {}: no count of whole seconds", shown(&text)))?,
        None => WAIT,
    };
    Ok(Duration::from_secs(seconds as u64))
}

/// Where the results go, of all files.
struct Destinations {
    file: Option<PathBuf>,
    in_place: bool,
    dry_run: bool,
    /// Whether a plan is changed, and not only printed in another way.
    edits: bool,
}

impl Destinations {
    fn parse(service: &Service, several: bool, given: &mut Given) -> Result<Destinations, String> {
        let in_place = service.writes_plan() && given.flag("--in-place");
        let dry_run = service.writes_plan() && given.flag("--dry-run");
        let file = given.take("-o").filter(|file| file != "-");
        let file = file.map(PathBuf::from);
        if in_place && file.is_some() {
            return Err("--in-place and -o exclude each other".into());
        }
        if several && file.is_some() {
            return Err("-o takes the result of one FILE".into());
        }
        Ok(Destinations {
            file,
            in_place,
            dry_run,
            edits: in_place || dry_run || matches!(service, Service::Insert(_)),
        })
    }

    /// Where the result of this plan goes.
    fn of(&self, plan: Option<&PathBuf>) -> Result<Destination, String> {
        match (&self.file, plan) {
            (_, None) if self.in_place => Err("--in-place needs a FILE".into()),
            (_, Some(plan)) if self.in_place => Ok(Destination::InPlace(plan.clone())),
            (Some(file), _) => Ok(Destination::File(file.clone())),
            (None, _) => Ok(Destination::StandardOutput),
        }
    }
}
