//! The worked calls of `crates/cases`, from the files that its program reads and has to write. Its
//! `src/main.rt` says how they are written; what is written otherwise is an error.

use super::{at, Case, Expected};
use crate::call::{Call, Lent, Service, Texts};
use crate::model::Row;

const CALLS: &str = include_str!("../../../crates/cases/stdin");
const ANSWERS: &str = include_str!("../../../crates/cases/stdout");

/// The program lends no more, and has no room for longer lines.
const MOST_WORDS: usize = 800;
const MOST_BYTES: usize = 700;
const LONGEST_LINE: usize = 70_000;

/// What stands before every line under a call.
const INDENT: &str = "    ";

/// Every worked call. Panics where a line cannot be read.
pub fn cases() -> Vec<Case> {
    let read = |(line, told): (&str, Vec<&str>)| {
        let case = case(line, &told);
        case.unwrap_or_else(|error| panic!("{error}: {line} {told:#?}"))
    };
    calls().into_iter().map(read).collect()
}

/// Every line with a call, and the lines under it in the answers. Those have all lines of the calls.
pub fn calls() -> Vec<(&'static str, Vec<&'static str>)> {
    let [calls, answers] = [CALLS, ANSWERS].map(|text| {
        assert!(text.ends_with('\n'), "the last line has no end");
        text.split_terminator('\n')
    });
    let mut answers = answers.peekable();
    let mut told = Vec::new();
    for line in calls {
        assert_eq!(answers.next(), Some(line), "a line of the calls");
        let mut under = Vec::new();
        while let Some(text) = answers.next_if(|text| text.starts_with(INDENT)) {
            under.push(&text[INDENT.len()..]);
        }
        if !line.is_empty() && !line.starts_with('#') {
            told.push((line, under));
        } else {
            assert!(under.is_empty(), "an answer to no call: {under:?}");
        }
    }
    assert_eq!(answers.next(), None, "an answer to no call");
    told
}

/// A call from its line, and what is expected of it from the lines under it.
pub fn case(line: &str, told: &[&str]) -> Result<Case, String> {
    let (texts, call) = call(&expanded(line)?)?;
    let (answer, rows) = told.split_first().ok_or("no answer")?;
    Ok(Case {
        texts,
        call,
        expected: expected(call, answer, rows)?,
    })
}

/// The line with `[64 a:1:{i:0;]` replaced by what it stands for.
fn expanded(line: &str) -> Result<String, String> {
    let mut pieces = line.split('[');
    let mut text = pieces.next().unwrap_or_default().to_string();
    for piece in pieces {
        let (bracket, behind) = piece.split_once(']').ok_or("an open bracket")?;
        if !bracket.is_empty() {
            let (times, part) = bracket.split_once(' ').ok_or("a bracket with no text")?;
            text += &part.repeat(number(times, LONGEST_LINE)?);
        }
        text += behind;
    }
    match text.len() {
        ..=LONGEST_LINE => Ok(text),
        _ => Err("too long a line".into()),
    }
}

fn call(line: &str) -> Result<(Texts<Vec<u8>>, Call), String> {
    let words = |text| number(text, MOST_WORDS);
    let bytes = |text| number(text, MOST_BYTES);
    let any = |text| number(text, usize::MAX);
    match line.split_once(' ') {
        Some(("r", line)) => {
            let [table, plan] = parts(line)?;
            let call = Call::read(words(table)?);
            Ok((Lent::plan(plan.as_bytes()).kept(), call))
        }
        Some(("c", line)) => {
            let [table, out, plan] = parts(line)?;
            let call = Call::canonicalize(words(table)?, bytes(out)?);
            Ok((Lent::plan(plan.as_bytes()).kept(), call))
        }
        Some(("i", line)) => {
            let [table, out, node, place, key, value, source] = parts(line)?;
            let place = at([any(node)?, any(place)?]);
            let texts = Texts { source, key, value }.map(|text| text.as_bytes().to_vec());
            Ok((texts, Call::insert(place, words(table)?, bytes(out)?)))
        }
        _ => Err("no service".into()),
    }
}

/// The parts of a line; the last goes on to its end.
fn parts<const N: usize>(line: &str) -> Result<[&str; N], String> {
    let parts: Vec<&str> = line.splitn(N, ' ').collect();
    let count = parts.len();
    parts
        .try_into()
        .map_err(|_| format!("{count} parts of {N}"))
}

fn expected(call: Call, answer: &str, rows: &[&str]) -> Result<Expected, String> {
    let expected = refused(call, answer).or_else(|| accepted(call, answer, rows));
    match expected.ok_or("no answer of this service")? {
        Expected::Refused { .. } if !rows.is_empty() => Err("rows under a refusal".into()),
        expected => Ok(expected),
    }
}

/// A refusal: nothing is written, and every word lent is zero.
fn refused(call: Call, answer: &str) -> Option<Expected> {
    let zeros = match call.table_len {
        0 => String::new(),
        words => format!(", zeros {words}"),
    };
    let [code, at] = numbers(answer.strip_suffix(&zeros)?, ["refused ", " at "])?;
    Some(Expected::Refused { code, at })
}

fn accepted(call: Call, answer: &str, rows: &[&str]) -> Option<Expected> {
    let rows = (0..).zip(rows).map(|(node, text)| row(node, text));
    let rows: Vec<Row> = rows.collect::<Option<_>>()?;
    if call.service == Service::Read {
        let [nodes, ordinals] = numbers(answer, ["nodes ", ", ordinals "])?;
        return (nodes == rows.len() as u64).then_some(Expected::Read { ordinals, rows });
    }
    let (counts, text) = answer.split_once(": ")?;
    let counts = numbers(counts, ["length ", ", wrote "])?;
    let written = Expected::Written {
        text: text.into(),
        rows: Some(rows),
    };
    (counts == [text.len() as u64; 2]).then_some(written)
}

/// The words of a node behind its index.
fn row(node: u64, text: &str) -> Option<Row> {
    let [index, row @ ..] = numbers(text, ["", ": ", " ", " ", " ", " ", " "])?;
    (index == node).then_some(row)
}

/// The numbers of a text, each behind the one of these words that stands before it.
fn numbers<const N: usize>(text: &str, words: [&str; N]) -> Option<[u64; N]> {
    let mut rest = text;
    let mut numbers = [0; N];
    for (word, found) in words.iter().zip(&mut numbers) {
        rest = rest.strip_prefix(word)?;
        let end = rest.find(|c: char| !c.is_ascii_digit());
        let (digits, behind) = rest.split_at(end.unwrap_or(rest.len()));
        *found = digits.parse().ok()?;
        if found.to_string() != digits {
            return None;
        }
        rest = behind;
    }
    rest.is_empty().then_some(numbers)
}

/// A number of a line, in shortest form.
fn number(text: &str, most: usize) -> Result<usize, String> {
    let found = numbers(text, [""]).map(|[number]| number as usize);
    found
        .filter(|&number| number <= most)
        .ok_or_else(|| format!("no number up to {most}: {text}"))
}
