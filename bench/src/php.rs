//! PHP as a second peer: a process that runs `php.php` beside this one, for the whole run, and times a round whenever
//! it is asked to.

use crate::plans::Plan;
use std::io::{self, BufRead, BufReader, Read, Write};
use std::process::{Child, ChildStdout, Command, Stdio};
use std::time::Duration;
use tonschnecke_tests::call::{Place, Service};
use tonschnecke_tests::model::{self, Identity};

const SCRIPT: &str = concat!(env!("CARGO_MANIFEST_DIR"), "/src/php.php");

pub struct Php {
    pub version: String,
    process: Child,
    replies: BufReader<ChildStdout>,
}

impl Php {
    /// Fails where php is not installed, or is none that understands the script.
    pub fn start() -> io::Result<Php> {
        let mut process = Command::new("php")
            // No php.ini; a warning must not stand among the replies.
            .args(["-n", "-d", "display_errors=stderr", SCRIPT])
            .stdin(Stdio::piped())
            .stdout(Stdio::piped())
            .spawn()?;
        let replies = process.stdout.take().ok_or(io::ErrorKind::BrokenPipe)?;
        let mut php = Php {
            version: String::new(),
            process,
            replies: BufReader::new(replies),
        };
        php.version = String::from_utf8_lossy(&php.reply()?).into_owned();
        Ok(php)
    }

    /// Has PHP keep a call for the rounds to come. What it makes of it: the plan written, or for reading the plan that
    /// PHP makes of what it read.
    pub fn prepare(&mut self, plan: &Plan, service: Service) -> io::Result<Vec<u8>> {
        let (service, place) = (service.to_string(), plan.place);
        let fields: [(&str, &[u8]); 5] = [
            ("service", service.as_bytes()),
            ("source", &plan.texts.source),
            ("key", &plan.texts.key),
            ("value", &plan.texts.value),
            ("path", &path(&plan.texts.source, place)),
        ];
        let mut request = b"a:6:{".to_vec();
        for (name, text) in fields {
            request.extend(string(name.as_bytes()));
            request.extend(string(text));
        }
        request.extend(format!("s:5:\"place\";i:{};}}", place.pair_index).bytes());
        self.ask(&request)
    }

    /// Nanoseconds a call, in the fastest of the batches of at least so long that a round of so long has time for.
    pub fn round(&mut self, batch: Duration, round: Duration) -> io::Result<f64> {
        let request = format!(
            "a:2:{{i:0;i:{};i:1;i:{};}}",
            batch.as_nanos(),
            round.as_nanos()
        );
        let reply = self.ask(request.as_bytes())?;
        let time = String::from_utf8_lossy(&reply).parse();
        time.map_err(io::Error::other)
    }

    fn ask(&mut self, request: &[u8]) -> io::Result<Vec<u8>> {
        let requests = self.process.stdin.as_mut();
        let requests = requests.ok_or(io::ErrorKind::BrokenPipe)?;
        writeln!(requests, "{}", request.len())?;
        requests.write_all(request)?;
        self.reply()
    }

    fn reply(&mut self) -> io::Result<Vec<u8>> {
        let mut length = String::new();
        self.replies.read_line(&mut length)?;
        let length = length.trim_end().parse().map_err(io::Error::other)?;
        let mut reply = vec![0; length];
        self.replies.read_exact(&mut reply)?;
        Ok(reply)
    }
}

/// The keys that lead to the array of an insertion, as a serialized list.
fn path(source: &[u8], place: Place) -> Vec<u8> {
    let table = model::read(source, source.len()).expect("what is timed is a plan");
    let mut steps = Vec::new();
    let (mut count, mut container) = (0, 0);
    while container != place.array_node {
        let mut keys = table.keys_of(container);
        let key = keys.find(|key| table.rows[key + 1][5] as usize > place.array_node);
        let key = key.expect("a container in a container");
        steps.extend(format!("i:{count};").bytes());
        steps.extend(match table.key(key, source) {
            Identity::Integer(value) => format!("i:{value};").into_bytes(),
            Identity::Text(text) => string(text),
        });
        count += 1;
        container = key + 1;
    }
    [format!("a:{count}:{{").as_bytes(), &steps, b"}"].concat()
}

fn string(text: &[u8]) -> Vec<u8> {
    let head = format!("s:{}:\"", text.len());
    [head.as_bytes(), text, b"\";"].concat()
}
