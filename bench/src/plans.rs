//! The plans that are timed: a year as the works keeps it, long ones that are hard on a reader's keys or on the
//! references that inserting renumbers, and short ones.

use crate::{collide, peer};
use tonschnecke_tests::call::{Call, Lent, Place, Service, Texts};
use tonschnecke_tests::model;

/// Bytes of the longest plan that is read or written.
const SOURCE_LIMIT: usize = 65_536;
/// Bytes of a pair that has fewest.
const SHORTEST_PAIR: usize = 6;
/// Bytes of the longest plans that a pair is put into, so that what is written is a plan still.
const BEFORE_INSERTING: usize = 59_000;
/// The arrays of all months, and of the first, in the year.
const MONTHS: usize = 6;
const JANUARY: usize = 8;

/// Those that a goal is about.
pub const YEAR: &str = "year, two days in five by R";
pub const LARGEST_LIST: &str = "list, integer keys from 0";
pub const FLOATS: &str = "list of floats";
pub const RISING_STRINGS: &str = "string keys, rising";
pub const MIXED_STRINGS: &str = "string keys, mixed";
pub const LONG_STRINGS: &str = "string keys of 64 bytes, mixed";
pub const FALLING_INTEGERS: &str = "integer keys, falling";
pub const EIGHT_STRINGS: &str = "8 string keys, mixed";
pub const DAYS: [&str; 2] = ["year, a day into January", "year, a day behind the last"];

/// A plan and, for inserting, a pair and its place.
pub struct Plan {
    pub name: &'static str,
    pub texts: Texts<Vec<u8>>,
    pub place: Place,
}

impl Plan {
    /// With room for every node that such a source can have, and for a pair's: none has fewer than two bytes.
    pub fn call(&self, service: Service) -> Call {
        let table_len = (self.texts.source.len() / 2 + 2) * peer::WIDTH;
        match service {
            Service::Read => Call::read(table_len),
            Service::Canonicalize => Call::canonicalize(table_len, SOURCE_LIMIT),
            Service::Insert => Call::insert(self.place, table_len, SOURCE_LIMIT),
        }
    }
}

/// Made of its place and the count of all.
type Pair = fn(usize, usize) -> String;

pub fn of(service: Service) -> Vec<Plan> {
    match service {
        Service::Insert => insertions(),
        _ => vec![
            plan(YEAR, year()),
            filled(LARGEST_LIST, LIST),
            filled(FLOATS, |i, _| format!("i:{i};d:12.5;")),
            filled(RISING_STRINGS, STRINGS),
            filled(MIXED_STRINGS, |i, pairs| {
                STRINGS(scattered(i, pairs), pairs)
            }),
            filled(LONG_STRINGS, |i, pairs| {
                format!("s:64:\"{:064}\";N;", scattered(i, pairs))
            }),
            filled(FALLING_INTEGERS, |i, pairs| format!("i:{};N;", pairs - i)),
            filled("multiples of 8,192, mixed", MULTIPLES),
            colliding(),
            plan("list of 8", array(8, LIST)),
            plan(
                EIGHT_STRINGS,
                array(8, |i, pairs| {
                    format!("s:3:\"d{:02}\";N;", scattered(i, pairs))
                }),
            ),
            plan(
                "34 string keys, mixed",
                array(34, |i, pairs| {
                    format!("s:5:\"day{:02}\";N;", scattered(i, pairs))
                }),
            ),
        ],
    }
}

fn insertions() -> Vec<Plan> {
    vec![
        day(DAYS[0], JANUARY, 15),
        day(DAYS[1], december(), 31),
        into("list, the middle", LIST, |pairs| pairs / 2),
        into("list, in front", LIST, |_| 0),
        into("string keys, the middle", STRINGS, |pairs| pairs / 2),
        into("multiples of 8,192, the middle", MULTIPLES, |pairs| {
            pairs / 2
        }),
        into("references, all from 2 to 3", ONE_NAMED, |_| 0),
        into("references, all from 9 to 10", NINE_NAMED, |_| 0),
    ]
}

const LIST: Pair = |i, _| format!("i:{i};i:0;");
const STRINGS: Pair = |i, _| format!("s:8:\"day{i:05}\";N;");
const MULTIPLES: Pair = |i, pairs| format!("i:{};N;", scattered(i, pairs) * 8192);
const ONE_NAMED: Pair = |i, _| match i {
    0 => "i:0;N;".into(),
    _ => format!("i:{i};R:2;"),
};
const NINE_NAMED: Pair = |i, _| match i {
    0..8 => format!("i:{i};N;"),
    _ => format!("i:{i};R:9;"),
};

fn plan(name: &'static str, source: Vec<u8>) -> Plan {
    Plan {
        name,
        texts: Lent::plan(&source).kept(),
        place: Place::default(),
    }
}

fn year() -> Vec<u8> {
    include_bytes!("../../examples/year.plan").to_vec()
}

/// The array of the last month.
fn december() -> usize {
    let table = model::read(&year(), SOURCE_LIMIT).expect("the year is a plan");
    let last_key = table.keys_of(MONTHS).last();
    last_key.expect("the year has months") + 1
}

/// One day more in a month of the year.
fn day(name: &'static str, array_node: usize, pair_index: usize) -> Plan {
    Plan {
        name,
        texts: Texts {
            source: year(),
            key: b"i:32;".into(),
            value: b"d:9.75;".into(),
        },
        place: Place {
            array_node,
            pair_index,
        },
    }
}

/// One pair more in a long array; its place is made of their count.
fn into(name: &'static str, pair: Pair, place: impl Fn(usize) -> usize) -> Plan {
    let pairs = most_pairs(BEFORE_INSERTING, pair);
    Plan {
        name,
        texts: Texts {
            source: array(pairs, pair),
            key: b"i:-59;".into(),
            value: b"d:9.75;".into(),
        },
        place: Place {
            array_node: 0,
            pair_index: place(pairs),
        },
    }
}

/// An array with as many pairs as the longest plan holds.
fn filled(name: &'static str, pair: impl Fn(usize, usize) -> String) -> Plan {
    plan(name, array(most_pairs(SOURCE_LIMIT, &pair), pair))
}

fn most_pairs(limit: usize, pair: impl Fn(usize, usize) -> String) -> usize {
    let (mut fits, mut above) = (0, limit / SHORTEST_PAIR + 1);
    while fits + 1 < above {
        let pairs = (fits + above) / 2;
        if array(pairs, &pair).len() <= limit {
            fits = pairs;
        } else {
            above = pairs;
        }
    }
    fits
}

fn array(pairs: usize, pair: impl Fn(usize, usize) -> String) -> Vec<u8> {
    let texts: String = (0..pairs).map(|i| pair(i, pairs)).collect();
    format!("a:{pairs}:{{{texts}}}").into_bytes()
}

fn colliding() -> Plan {
    let keys = collide::keys(SOURCE_LIMIT / SHORTEST_PAIR);
    filled("integer keys made to collide", |i, pairs| {
        // Falling, since keys that rise are never looked for.
        format!("i:{};N;", keys[pairs - 1 - i])
    })
}

/// The numbers below `count`, each once and neither rising nor falling: 65,539 is a prime above every count.
fn scattered(i: usize, count: usize) -> usize {
    i * 65_539 % count
}
