//! What a refusal means, for the one who asked.

use crate::failure::Failure;
use crate::words::escape::columns;
use crate::words::meant::{meant, Role};
use crate::words::recognise::recognise;
use tonschnecke::escape::shortened;
use tonschnecke::lent::Insertion;
use tonschnecke::{Kind, Plan, Reason, Refusal};

/// So many bytes are shown on either side of a position.
const AROUND: usize = 20;
/// So many bytes are shown of a text that was given.
const TEXT: usize = 60;

/// The form of each kind's text.
const FORMS: [(u8, &str); 9] = [
    (b'N', "N;"),
    (b'b', "b:0; or b:1;"),
    (b'i', "i:INTEGER;"),
    (b'd', "d:FLOAT;"),
    (b's', "s:LENGTH:\"BYTES\"; with so many bytes"),
    (b'a', "a:COUNT:{PAIRS} with so many pairs"),
    (
        b'O',
        "O:LENGTH:\"CLASS\":COUNT:{PAIRS} with so many bytes and pairs",
    ),
    (b'r', "r:NUMBER;"),
    (b'R', "R:NUMBER;"),
];

/// A plan that reading refused.
pub fn of_plan(refusal: Refusal, source: &[u8]) -> Failure {
    let shown = match refusal.reason {
        // Its position is 0 by definition, and nothing is wrong there.
        Reason::SourceTooLong => String::new(),
        _ => excerpt(source, refusal.at),
    };
    let what = wrong_with_plan(refusal, source);
    let known = recognise(source, refusal).map_or(String::new(), |known| format!("; {known}"));
    refused(refusal, &format!("{what}{known}{shown}"))
}

fn refused(Refusal { reason, at }: Refusal, what: &str) -> Failure {
    Failure::Refused(format!("refused {} at {at}: {what}", reason.code()))
}

fn wrong_with_plan(refusal: Refusal, source: &[u8]) -> String {
    match refusal.reason {
        Reason::Malformed => {}
        // The newline that the wrapper's sentence tells of is recognised here.
        Reason::TrailingBytes => return "bytes follow the value".into(),
        reason => return reason.to_string(),
    }
    let Some(tag) = source.get(refusal.at) else {
        return "the plan ends where a value or a key is due".into();
    };
    match FORMS.iter().find(|(letter, _)| letter == tag) {
        Some((_, form)) => {
            format!(
                "the text that begins here is not of the form {form}, or the plan ends too soon"
            )
        }
        None => refusal.reason.to_string(),
    }
}

/// The bytes around a position, and a caret under it.
fn excerpt(source: &[u8], at: usize) -> String {
    let from = at.saturating_sub(AROUND);
    let mark = if from == 0 { "" } else { "..." };
    let before = format!("{mark}{}", columns(&source[from..at]));
    let after = shortened(&source[at..], AROUND, columns);
    format!("\n  {before}{after}\n  {:>1$}", '^', before.len() + 1)
}

/// An insertion refused though its plan was read.
pub fn of_insertion(refusal: Refusal, insertion: Insertion<'_>, plan: &Plan) -> Failure {
    refused(
        refusal,
        &wrong_with_insertion(refusal.reason, insertion, plan),
    )
}

fn wrong_with_insertion(reason: Reason, insertion: Insertion<'_>, plan: &Plan) -> String {
    let Some(array) = plan.value(insertion.array_node) else {
        return no_value(insertion.array_node, plan);
    };
    let path = array.path();
    match reason {
        Reason::NoArray => match array.kind() {
            Kind::Reference { .. } => format!(
                "{path} is a reference, and no array\n  \
                 It is {}, and references are not followed",
                array.brief()
            ),
            _ => format!("{path} is {}, and no array", array.brief()),
        },
        Reason::PlaceAboveCount => format!(
            "the place {} is above the count of {path}, which is {}",
            insertion.pair_index,
            array.count()
        ),
        Reason::UnfitText => unfit(insertion),
        Reason::EqualKey => {
            let key = shortened(insertion.key, TEXT, columns);
            format!("{path} has this key already\n  {key}")
        }
        Reason::TooDeep => format!("a value would stand deeper than 64 in the array {path}"),
        Reason::OutputFull => "the new plan would be longer than 65,536 bytes".into(),
        _ => reason.to_string(),
    }
}

/// A node to insert into that is a key's, or none at all.
fn no_value(node: usize, plan: &Plan) -> String {
    let last = plan.rows().len() - 1;
    match plan.key(node) {
        Some(key) => format!("node {node} is the key {key}, and no array"),
        None => format!("there is no node {node}; the last is node {last}"),
    }
}

/// Which text is unfit, and what was probably meant by it.
fn unfit(insertion: Insertion<'_>) -> String {
    let (sentence, text, role) = if Role::Key.fits(insertion.key) {
        (
            "the value is not exactly one N, b, i, d or s",
            insertion.value,
            Role::Value,
        )
    } else {
        (
            "the key is not exactly one i or s",
            insertion.key,
            Role::Key,
        )
    };
    let shown = shortened(text, TEXT, columns);
    let meant = meant(text, role).map_or(String::new(), |meant| format!("\n  {meant}"));
    format!("{sentence}\n  {shown}{meant}")
}
