//! Single mutations of a plan's bytes.

use super::ALPHABET;
use crate::random::Random;
use std::ops::Range;

/// Mutates the plan at one place.
pub fn once(random: &mut Random, plan: &mut Vec<u8>) {
    if plan.is_empty() {
        plan.push(random.pick(ALPHABET));
        return;
    }
    let place = random.below(plan.len());
    match random.below(16) {
        0..=1 => plan[place] = random.pick(ALPHABET),
        2 => plan[place] = random.byte(),
        3 => drop(plan.remove(place)),
        4 => plan.insert(place, plan[place]),
        5 => plan.insert(place, random.pick(ALPHABET)),
        6 => swap(random, plan, place),
        7..=8 => plan.truncate(place),
        9 => append(random, plan),
        10 => repeat_stretch(random, plan),
        11 => wrap(random, plan),
        _ => change_digits(random, plan),
    }
}

fn swap(random: &mut Random, plan: &mut [u8], place: usize) {
    let neighbour = (place + 1) % plan.len();
    let other = random.below(plan.len());
    plan.swap(place, random.pick(&[neighbour, other]));
}

fn append(random: &mut Random, plan: &mut Vec<u8>) {
    for _ in 0..random.between(1, 3) {
        let any = random.byte();
        let known = random.pick(ALPHABET);
        plan.push(random.pick(&[any, known, b';', b'}']));
    }
}

/// Copies a stretch of the plan to right behind itself: a key, a pair, half a value.
fn repeat_stretch(random: &mut Random, plan: &mut Vec<u8>) {
    let start = random.below(plan.len());
    let end = plan.len().min(start + random.between(1, 24));
    let stretch = plan[start..end].to_vec();
    plan.splice(end..end, stretch);
}

/// Puts the plan into further arrays: its depth grows, and what its references name changes.
fn wrap(random: &mut Random, plan: &mut Vec<u8>) {
    let levels = random.pick(&[1, 2, 63, 64, 65]);
    let opening = b"a:1:{i:0;".repeat(levels);
    plan.splice(0..0, opening);
    plan.resize(plan.len() + levels, b'}');
}

/// Changes the value or the spelling of one run of digits.
fn change_digits(random: &mut Random, plan: &mut Vec<u8>) {
    let runs = digit_runs(plan);
    if runs.is_empty() {
        return;
    }
    let run = runs[random.below(runs.len())].clone();
    let digits = String::from_utf8_lossy(&plan[run.clone()]).into_owned();
    let changed = match digits.parse::<u64>() {
        Ok(value) => respelled(random, &digits, value.into()),
        Err(_) => "0".into(),
    };
    plan.splice(run, changed.into_bytes());
}

fn respelled(random: &mut Random, digits: &str, value: u128) -> String {
    match random.below(12) {
        0..=1 => (value + 1).to_string(),
        2..=3 => value.saturating_sub(1).to_string(),
        4 => "0".repeat(random.between(1, 30)) + digits,
        5 => format!("{digits}{}", random.below(1_000)),
        6 => random.pick(&["0", "65535", "65536", "65537"]).into(),
        7 => random
            .pick(&[
                "9223372036854775807",
                "9223372036854775808",
                "9223372036854775809",
            ])
            .into(),
        // Equal to the old value after wrapping at some width.
        8 => (value + (1 << random.pick(&[8, 16, 17, 31, 32, 63, 64, 96]))).to_string(),
        9 => format!("+{digits}"),
        10 => random.pick(&["+", "++", "+-", "-"]).to_string() + random.pick(&["", digits]),
        _ => digits.repeat(random.between(2, 6)),
    }
}

fn digit_runs(plan: &[u8]) -> Vec<Range<usize>> {
    let mut runs: Vec<Range<usize>> = Vec::new();
    for (place, byte) in plan.iter().enumerate() {
        match runs.last_mut() {
            _ if !byte.is_ascii_digit() => {}
            Some(run) if run.end == place => run.end += 1,
            _ => runs.push(place..place + 1),
        }
    }
    runs
}
