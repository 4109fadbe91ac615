//! The peer: a reader, retyper and inserter of the same contract, as one would write it by hand and
//! tune it until nothing obvious is left. It reads in one pass, eight bytes at a time, finds the
//! node of an ordinal in a list and equal keys, once they do not rise, in a hash set; both are on
//! the stack. It writes by copying whole stretches of the plan. It proves nothing.

mod canonicalize;
mod careful;
mod float;
mod insert;
mod integer;
mod keys;
mod quick;
mod reader;
mod room;
mod set;
mod splice;
mod target;
mod token;
mod trace;
mod words;

use canonicalize::canonicalize;
use insert::insert;
use reader::Reader;
use tonschnecke_tests::call::{Call, Lent, Reply};
use tonschnecke_tests::library::{Reading, Writing};
use tonschnecke_tests::memory::Memory;
use tonschnecke_tests::sides;

const SOURCE_LIMIT: usize = 65_536;
const DEPTH_LIMIT: usize = 64;
/// Words of a node.
pub const WIDTH: usize = 6;

/// A node.
type Words = [u64; WIDTH];

/// A refusal's number above its position, in one word: so the answer of a step that is not inlined
/// is returned in registers.
#[derive(Clone, Copy)]
pub struct Refusal(u64);

impl Refusal {
    fn code(self) -> u64 {
        self.0 >> 32
    }

    fn at(self) -> u64 {
        self.0 & 0xFFFF_FFFF
    }
}

type Step<T> = Result<T, Refusal>;

/// The peer as one of those that answer a call.
pub fn side(texts: Lent, call: Call, memory: &mut Memory) -> Reply {
    sides::over_slices((read, canonicalize, insert), texts, call, memory)
}

fn read(source: &[u8], table: &mut [u64]) -> Reading {
    let rows = table.as_chunks_mut().0;
    let read = room::lend(source.len(), |room| {
        Reader::new(source, rows, room.carriers, room.slots, ()).plan()
    });
    match read {
        Ok(end) => Reading {
            code: 0,
            at: 0,
            nodes: end.nodes as u64,
            ordinals: end.ordinals as u64,
        },
        Err(refusal) => {
            table.fill(0);
            Reading {
                code: refusal.code(),
                at: refusal.at(),
                nodes: 0,
                ordinals: 0,
            }
        }
    }
}

fn refused<T>(code: u64, at: usize) -> Step<T> {
    Err(Refusal(code << 32 | at as u64))
}

/// The answer of a service that writes a plan, whose refusal clears the table.
fn answer(attempt: Step<usize>, table: &mut [u64]) -> Writing {
    match attempt {
        Ok(length) => Writing {
            code: 0,
            at: 0,
            length: length as u64,
        },
        Err(refusal) => {
            table.fill(0);
            Writing {
                code: refusal.code(),
                at: refusal.at(),
                length: 0,
            }
        }
    }
}
