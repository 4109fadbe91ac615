//! Inserting, on the tree: the pair is put in, and every reference follows the value that it named
//! to the ordinal which that value has now.

use super::parse::{lone_key, lone_plain_value};
use super::refusal::Code;
use super::value::{Kind, Pair, Value};
use super::DEEPEST;
use crate::call::{Lent, Place};
use std::collections::HashMap;

/// The pair that goes in, if nothing forbids it: "11, 12, 13, 9 (new key present), 8 (array at
/// depth 64)".
pub fn new_pair<'a>(root: &Value, texts: Lent<'a>, place: Place) -> Result<Pair<'a>, Code> {
    let (array, depth) = find_array(root, place.array_node, 1).ok_or(Code::NoArray)?;
    let pairs = array.pairs();
    if place.pair_index > pairs.len() {
        return Err(Code::NoPlace);
    }
    let pair = pair_of(texts).ok_or(Code::UnfitText)?;
    let new = pair.key.identity(texts.key);
    let mut present = pairs.iter().map(|pair| pair.key.identity(texts.source));
    if present.any(|key| key == new) {
        return Err(Code::EqualKey);
    }
    if depth == DEEPEST {
        return Err(Code::TooDeep);
    }
    Ok(pair)
}

/// "Both go in as they stand."
fn pair_of(texts: Lent<'_>) -> Option<Pair<'_>> {
    Some(Pair {
        key: lone_key(texts.key)?,
        key_text: texts.key,
        value: Value {
            node: None,
            ..lone_plain_value(texts.value)?
        },
    })
}

/// Puts the pair in at its place. From then on the tree stands for its texts alone: the spans of
/// the pair are not those of the plan.
pub fn put_in<'a>(root: &mut Value<'a>, place: Place, pair: Pair<'a>) {
    let mut before = Vec::new();
    collect_carriers(root, &mut before);
    enlarge(root, place, &mut Some(pair));
    let mut after = Vec::new();
    collect_carriers(root, &mut after);
    let ordinals: HashMap<Option<usize>, usize> = after.into_iter().zip(1..).collect();
    rename(root, &|ordinal| ordinals[&before[ordinal - 1]]);
}

/// The plan's bytes, every value and key with its own text.
pub fn text(root: &Value) -> Vec<u8> {
    let mut out = Vec::new();
    write(root, &mut out);
    out
}

/// The array whose node has this index, and its depth. `depth` is that of `value`.
fn find_array<'t, 'a>(
    value: &'t Value<'a>,
    node: usize,
    depth: usize,
) -> Option<(&'t Value<'a>, usize)> {
    if value.node == Some(node) {
        return matches!(value.kind, Kind::Array(_)).then_some((value, depth));
    }
    let mut inside = value.pairs().iter();
    inside.find_map(|pair| find_array(&pair.value, node, depth + 1))
}

/// Collects who carries the ordinals 1, 2, 3 and so on: the nodes of those values in the plan given,
/// none for the new value.
fn collect_carriers(value: &Value, carriers: &mut Vec<Option<usize>>) {
    if value.takes_ordinal() {
        carriers.push(value.node);
    }
    for pair in value.pairs() {
        collect_carriers(&pair.value, carriers);
    }
}

/// Looks for the array and gives it the pair. "The array's count is written in shortest form."
fn enlarge<'a>(value: &mut Value<'a>, place: Place, pair: &mut Option<Pair<'a>>) {
    if value.node == Some(place.array_node) {
        if let (Kind::Array(pairs), Some(pair)) = (&mut value.kind, pair.take()) {
            pairs.insert(place.pair_index, pair);
            value.text = format!("a:{}:{{", pairs.len()).into_bytes().into();
        }
    }
    for inside in value.pairs_mut() {
        enlarge(&mut inside.value, place, pair);
    }
}

/// Gives each reference the ordinal that the value named has `now`; "other references keep their
/// bytes".
fn rename(value: &mut Value, now: &impl Fn(usize) -> usize) {
    if let Kind::Copy(named) | Kind::Alias(named) = &mut value.kind {
        let ordinal = now(*named);
        if ordinal != *named {
            *named = ordinal;
            let tag = value.text[0] as char;
            value.text = format!("{tag}:{ordinal};").into_bytes().into();
        }
    }
    for pair in value.pairs_mut() {
        rename(&mut pair.value, now);
    }
}

fn write(value: &Value, out: &mut Vec<u8>) {
    out.extend_from_slice(&value.text);
    for pair in value.pairs() {
        out.extend_from_slice(pair.key_text);
        write(&pair.value, out);
    }
    if value.is_container() {
        out.push(b'}');
    }
}
