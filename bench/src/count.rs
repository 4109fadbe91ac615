//! Instructions of one call, as valgrind's callgrind counts them: unlike a time they are the same in every run, so that
//! they show what a change costs.
//!
//! Valgrind runs the benchmark's program anew, which then makes one call and nothing else. Only what runs inside of the
//! service's own function is counted.

use crate::plans::Plan;
use std::env;
use std::io::{self, Read, Write};
use std::process::{Command, Output, Stdio};
use tonschnecke_tests::call::{Place, Service, Texts};
use tonschnecke_tests::memory::Memory;
use tonschnecke_tests::sides;

/// The first argument of a program that is to make one call.
pub const ONE_CALL: &str = "--one-call";

pub struct Counter(());

impl Counter {
    /// Fails where valgrind is not installed.
    pub fn start() -> io::Result<Counter> {
        let output = valgrind().arg("--version").output()?;
        succeeded(&output)?;
        Ok(Counter(()))
    }

    /// Of the library's call of a service.
    pub fn instructions(&self, plan: &Plan, service: Service) -> io::Result<u64> {
        let mut process = valgrind()
            .args(["--tool=callgrind", "--callgrind-out-file=/dev/null"])
            .arg(format!("--toggle-collect={service}"))
            .arg(env::current_exe()?)
            .args(arguments(plan, service))
            .stdin(Stdio::piped())
            .stderr(Stdio::piped())
            .spawn()?;
        let source = process.stdin.take().ok_or(io::ErrorKind::BrokenPipe);
        source?.write_all(&plan.texts.source)?;
        let output = process.wait_with_output()?;
        succeeded(&output)?;
        let report = String::from_utf8_lossy(&output.stderr);
        let count = report.split("Collected : ").nth(1);
        let count = count.and_then(|rest| rest.lines().next()?.trim().parse().ok());
        count.ok_or_else(|| io::Error::other("valgrind tells no count"))
    }
}

/// So that memory is cleared and copied by plain instructions: `rep stos` would count once a byte, and costs less.
const TUNABLES: &str =
    "glibc.cpu.x86_rep_stosb_threshold=1000000:glibc.cpu.x86_rep_movsb_threshold=1000000";

/// Without the environment, which moves the stack and so, by a few instructions, what clears or copies memory there.
fn valgrind() -> Command {
    let mut valgrind = Command::new("valgrind");
    valgrind.env_clear();
    valgrind.envs(env::var_os("PATH").map(|path| ("PATH", path)));
    valgrind.env("GLIBC_TUNABLES", TUNABLES);
    valgrind
}

fn succeeded(output: &Output) -> io::Result<()> {
    if output.status.success() {
        return Ok(());
    }
    let told = String::from_utf8_lossy(&output.stderr);
    Err(io::Error::other(format!(
        "valgrind: {}, {told}",
        output.status
    )))
}

/// A call for `make_one_call`; the plan itself is its input.
fn arguments(plan: &Plan, service: Service) -> [String; 6] {
    let text = |text: &[u8]| String::from_utf8_lossy(text).into_owned();
    [
        ONE_CALL.into(),
        service.to_string(),
        plan.place.array_node.to_string(),
        plan.place.pair_index.to_string(),
        text(&plan.texts.key),
        text(&plan.texts.value),
    ]
}

/// The call that the arguments behind `ONE_CALL` ask for; none is made if they are not understood.
pub fn make_one_call(mut arguments: impl Iterator<Item = String>) -> Option<()> {
    let name = arguments.next()?;
    let service = Service::ALL
        .into_iter()
        .find(|service| service.to_string() == name)?;
    let place = Place {
        array_node: arguments.next()?.parse().ok()?,
        pair_index: arguments.next()?.parse().ok()?,
    };
    let mut source = Vec::new();
    io::stdin().read_to_end(&mut source).ok()?;
    let plan = Plan {
        name: "from the input",
        texts: Texts {
            source,
            key: arguments.next()?.into_bytes(),
            value: arguments.next()?.into_bytes(),
        },
        place,
    };
    let call = plan.call(service);
    let mut memory = Memory::for_call(call);
    let reply = sides::library(plan.texts.lent(), call, &mut memory);
    (reply.code() == 0).then_some(())
}
