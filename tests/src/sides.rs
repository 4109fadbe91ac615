//! Those that answer a call, in one form: each returns its reply and leaves its traces in memory.

use crate::call::{Call, Lent, Place, Reply, Service};
use crate::library::{self, Reading, Writing};
use crate::memory::Memory;
use crate::model::{self, Answer, Refusal, Table, Written, WORDS};

/// One that answers.
pub type Side = fn(Lent, Call, &mut Memory) -> Reply;

/// The archive under test.
pub fn library(texts: Lent, call: Call, memory: &mut Memory) -> Reply {
    let functions = (library::read, library::canonicalize, library::insert);
    over_slices(functions, texts, call, memory)
}

/// Has the one of three functions that the call is for write to memory itself.
pub fn over_slices(
    (read, canonicalize, insert): (
        impl Fn(&[u8], &mut [u64]) -> Reading,
        impl Fn(&[u8], &mut [u64], &mut [u8]) -> Writing,
        impl Fn(Lent, Place, &mut [u64], &mut [u8]) -> Writing,
    ),
    texts: Lent,
    call: Call,
    memory: &mut Memory,
) -> Reply {
    let (table, output) = (memory.table.lent(), memory.output.lent());
    match call.service {
        Service::Read => Reply::Reading(read(texts.source, table)),
        Service::Canonicalize => Reply::Writing(canonicalize(texts.source, table, output)),
        Service::Insert => Reply::Writing(insert(texts, call.place, table, output)),
    }
}

/// The model, whose answer is put into memory as the paper says.
pub fn model(texts: Lent, call: Call, memory: &mut Memory) -> Reply {
    let capacity = call.table_len / WORDS;
    let reply = match call.service {
        Service::Read => reading(model::read(texts.source, capacity), memory),
        Service::Canonicalize => {
            let written = model::canonicalize(texts.source, capacity, call.out_len);
            writing(written, memory)
        }
        Service::Insert => {
            let written = model::insert(texts, call.place, capacity, call.out_len);
            writing(written, memory)
        }
    };
    // A refusal "makes every word of the table zero and writes nothing to the output."
    if reply.code() != 0 {
        memory.table.lent().fill(0);
    }
    reply
}

fn reading(answer: Answer, memory: &mut Memory) -> Reply {
    Reply::Reading(match answer {
        Ok(table) => {
            put_table(&table, memory);
            Reading {
                code: 0,
                at: 0,
                nodes: table.rows.len() as u64,
                ordinals: table.ordinals as u64,
            }
        }
        Err(Refusal { code, at }) => Reading {
            code: code as u64,
            at: at as u64,
            nodes: 0,
            ordinals: 0,
        },
    })
}

/// "A service that writes a plan leaves the table that reading the plan given [...] and then the
/// plan written leaves"; "Any lent output past the written part keeps what it held."
fn writing(written: Result<Written, Refusal>, memory: &mut Memory) -> Reply {
    Reply::Writing(match written {
        Ok(Written {
            before,
            text,
            after,
        }) => {
            put_table(&before, memory);
            put_table(&after, memory);
            memory.output.lent()[..text.len()].copy_from_slice(&text);
            Writing {
                code: 0,
                at: 0,
                length: text.len() as u64,
            }
        }
        Err(Refusal { code, at }) => Writing {
            code: code as u64,
            at: at as u64,
            length: 0,
        },
    })
}

/// "Words after the last node keep what they held."
fn put_table(table: &Table, memory: &mut Memory) {
    let words = table.rows.as_flattened();
    memory.table.lent()[..words.len()].copy_from_slice(words);
}
