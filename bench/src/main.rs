//! Measures the library beside a peer in Rust and, where it is installed, PHP, service by service and plan by plan, in
//! one run: rounds by turns, the lowest time of each. Where valgrind is installed, the library's instructions are
//! counted too.
//!
//! Before a plan is timed, library and peer are called with memory that holds the same, and must give the same answer
//! and leave the same memory; PHP must write the same plan. What is timed is not cleared between the calls.
//!
//! `--rounds N` sets how many rounds there are: 1 is a trial of the benchmark itself.

use std::hint::black_box;
use std::process::ExitCode;
use std::time::{Duration, Instant};
use tonschnecke_bench::count::{self, Counter};
use tonschnecke_bench::goals::Goals;
use tonschnecke_bench::peer;
use tonschnecke_bench::php::Php;
use tonschnecke_bench::plans::{self, Plan};
use tonschnecke_bench::table::{self, lower, Measured};
use tonschnecke_tests::call::{Call, Lent, Service};
use tonschnecke_tests::memory::Memory;
use tonschnecke_tests::sides::{self, Side};

const USAGE: &str = "usage: bench [--rounds N], at least 1";
const DEFAULT_ROUNDS: usize = 15;
/// A round goes on for at least so long.
const ROUND: Duration = Duration::from_millis(10);
/// Calls between two looks at the clock take so long, else the looks would be part of a short call's time.
const BATCH: Duration = Duration::from_micros(50);

fn main() -> ExitCode {
    let mut arguments = std::env::args().skip(1).peekable();
    if arguments.next_if_eq(count::ONE_CALL).is_some() {
        return match count::make_one_call(arguments) {
            Some(()) => ExitCode::SUCCESS,
            None => ExitCode::FAILURE,
        };
    }
    let Some(rounds) = rounds(arguments) else {
        eprintln!("{USAGE}");
        return ExitCode::from(2);
    };
    let (mut php, counter) = (php(), counter());
    let mut goals = Goals::default();
    for service in Service::ALL {
        println!("{}", table::head(service));
        for plan in &plans::of(service) {
            check(plan, service);
            if let Some(php) = &mut php {
                check_php(php, plan, service);
            }
            let mut measured = measure(plan, service, php.as_mut(), rounds);
            let count = |counter: &Counter| counter.instructions(plan, service);
            measured.instructions = counter
                .as_ref()
                .map(|counter| count(counter).expect("valgrind counts"));
            println!("{}", table::row(plan, &measured));
            goals.note(service, plan, &measured);
        }
    }
    println!("{}", goals.told());
    ExitCode::SUCCESS
}

/// The rounds asked for; none if the arguments are not understood.
fn rounds(mut arguments: impl Iterator<Item = String>) -> Option<usize> {
    let Some(name) = arguments.next() else {
        return Some(DEFAULT_ROUNDS);
    };
    let rounds = arguments.next()?.parse().ok()?;
    (name == "--rounds" && rounds > 0 && arguments.next().is_none()).then_some(rounds)
}

fn php() -> Option<Php> {
    match Php::start() {
        Ok(php) => {
            let version = &php.version;
            println!("PHP {version}, its own settings (php -n): no opcache");
            Some(php)
        }
        Err(error) => {
            println!("PHP is left out, it does not start ({error}): apt-get install php-cli");
            None
        }
    }
}

fn counter() -> Option<Counter> {
    match Counter::start() {
        Ok(counter) => Some(counter),
        Err(error) => {
            println!("instructions are not counted, valgrind does not start ({error}): apt-get install valgrind");
            None
        }
    }
}

fn check(plan: &Plan, service: Service) {
    let call = plan.call(service);
    let mut left = Memory::for_call(call);
    let mut right = left.clone();
    let texts = plan.texts.lent();
    let reply = sides::library(texts, call, &mut left);
    let name = plan.name;
    assert_eq!(reply.code(), 0, "{service}: {name} is refused");
    assert_eq!(
        reply,
        peer::side(texts, call, &mut right),
        "{service}, {name}: the answers differ"
    );
    let wrong_word = right.table.first_wrong(&left.table);
    let wrong_byte = right.output.first_wrong(&left.output);
    assert!(wrong_word.is_none(), "{service}, {name}: the tables differ");
    assert!(
        wrong_byte.is_none(),
        "{service}, {name}: the outputs differ"
    );
}

/// Byte for byte: these plans are canonical, their floats as PHP writes them, and no reference names the whole plan.
/// What PHP read is told by the plan that it writes of it.
fn check_php(php: &mut Php, plan: &Plan, service: Service) {
    let writes = match service {
        Service::Read => Service::Canonicalize,
        _ => service,
    };
    let call = plan.call(writes);
    let mut memory = Memory::for_call(call);
    let reply = sides::library(plan.texts.lent(), call, &mut memory);
    let expected = &memory.output.lent()[..reply.length() as usize];
    let found = php.prepare(plan, service).expect("PHP answers");
    let name = plan.name;
    assert!(found == expected, "{service}, {name}: PHP writes another");
}

fn measure(plan: &Plan, service: Service, mut php: Option<&mut Php>, rounds: usize) -> Measured {
    let call = plan.call(service);
    let mut memory = Memory::for_call(call);
    let mut measured = Measured::default();
    for _ in 0..rounds {
        let texts = plan.texts.lent();
        let library = round(sides::library, texts, call, &mut memory);
        let peer = round(peer::side, texts, call, &mut memory);
        lower(&mut measured.library, library);
        lower(&mut measured.peer, peer);
        if let Some(php) = &mut php {
            let php = php.round(BATCH, ROUND).expect("PHP answers");
            lower(&mut measured.php, php);
        }
    }
    measured
}

/// Nanoseconds a call in the fastest of the batches that a round has time for: what else the machine does meanwhile
/// slows some of them.
fn round(side: Side, texts: Lent, call: Call, memory: &mut Memory) -> f64 {
    let mut batch = |calls: u32| {
        let start = Instant::now();
        for _ in 0..calls {
            black_box(side(black_box(texts), call, black_box(memory)));
        }
        start.elapsed()
    };
    let (start, mut calls) = (Instant::now(), 1);
    while batch(calls) < BATCH {
        calls *= 2;
    }
    let mut fastest = batch(calls);
    while start.elapsed() < ROUND {
        fastest = fastest.min(batch(calls));
    }
    fastest.as_nanos() as f64 / f64::from(calls)
}
