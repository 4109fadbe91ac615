//! The table of a plan, in one pass. Where reading stands is a small value and no part of the reader,
//! so that it stays in registers while the table is written.

use super::careful::Scan;
use super::keys::{Keys, Seen};
use super::room::Lazy;
use super::set::Set;
use super::token::{Head, Reference, Token};
use super::trace::Trace;
use super::words::load;
use super::{integer, quick, refused, Step, Words, DEPTH_LIMIT, SOURCE_LIMIT};

/// What was read: bytes, nodes and ordinals.
#[derive(Clone, Copy, Default)]
pub struct Cursor {
    pub at: usize,
    pub nodes: usize,
    pub ordinals: usize,
}

/// A cursor in one word, which what is not inlined returns in registers: else the loop's own cursor
/// would be in memory.
struct Packed(u64);

impl Cursor {
    fn packed(self) -> Packed {
        let [at, nodes, ordinals] = [self.at, self.nodes, self.ordinals].map(|count| count as u64);
        Packed(at << 32 | nodes << 16 | ordinals)
    }
}

impl Packed {
    fn cursor(self) -> Cursor {
        Cursor {
            at: (self.0 >> 32) as usize,
            nodes: (self.0 >> 16 & 0xFFFF) as usize,
            ordinals: (self.0 & 0xFFFF) as usize,
        }
    }
}

pub struct Reader<'a, T> {
    source: &'a [u8],
    rows: &'a mut [Words],
    /// The node that carries each ordinal; ordinals count from 1.
    carriers: &'a mut [u16],
    set: Set<'a>,
    pub trace: T,
}

impl<'a, T: Trace> Reader<'a, T> {
    pub fn new(
        source: &'a [u8],
        rows: &'a mut [Words],
        carriers: &'a mut [u16],
        slots: Lazy<'a>,
        trace: T,
    ) -> Self {
        Reader {
            source,
            rows,
            carriers,
            set: Set::new(slots),
            trace,
        }
    }

    pub fn plan(&mut self) -> Step<Cursor> {
        if self.source.len() > SOURCE_LIMIT {
            return refused(1, 0);
        }
        let end = self.value(Cursor::default(), 1)?;
        if end.at < self.source.len() {
            return refused(10, end.at);
        }
        Ok(end)
    }

    /// Inlined, so that a container reads what is plain in its own loop and only containers are calls.
    #[inline(always)]
    fn value(&mut self, here: Cursor, depth: usize) -> Step<Cursor> {
        if depth > DEPTH_LIMIT {
            return self.careful_value(here.packed(), depth).map(Packed::cursor);
        }
        let word = load(self.source, here.at);
        // Apart from the others: most values are integers.
        if word as u16 == quick::INTEGER {
            if let Some(token) = integer::counted(self.source, here.at, word) {
                return self.put_value(here, &token);
            }
        }
        let token = match word as u16 {
            quick::FLOAT => quick::float(self.source, here.at, word),
            quick::STRING => quick::string(self.source, here.at, word),
            quick::NULL => quick::null(here.at),
            quick::BOOLEAN => quick::boolean(here.at, word),
            quick::REFERENCE | quick::OBJECT_REFERENCE => match quick::reference(here.at, word) {
                Some(reference) => return self.put_reference(here, reference),
                None => None,
            },
            quick::ARRAY => match quick::array(here.at, word) {
                Some(head) => {
                    return self
                        .container(here.packed(), &head, depth)
                        .map(Packed::cursor)
                }
                None => None,
            },
            _ => None,
        };
        match token {
            Some(token) => self.put_value(here, &token),
            None => self.careful_value(here.packed(), depth).map(Packed::cursor),
        }
    }

    #[inline(always)]
    fn put_value(&mut self, here: Cursor, token: &Token) -> Step<Cursor> {
        self.put(here, token.row(here.ordinals + 1, here.nodes + 1))?;
        Ok(self.numbered(here, token.end))
    }

    /// The next node.
    #[inline(always)]
    fn put(&mut self, here: Cursor, row: Words) -> Step<()> {
        let Some(place) = self.rows.get_mut(here.nodes) else {
            return refused(7, here.at);
        };
        *place = row;
        Ok(())
    }

    /// Behind a node that takes an ordinal.
    #[inline(always)]
    fn numbered(&mut self, here: Cursor, end: usize) -> Cursor {
        self.carriers[here.ordinals] = here.nodes as u16;
        Cursor {
            at: end,
            nodes: here.nodes + 1,
            ordinals: here.ordinals + 1,
        }
    }

    #[inline(always)]
    fn put_reference(&mut self, here: Cursor, reference: Reference) -> Step<Cursor> {
        let Reference { tag, named, end } = reference;
        if here.nodes == self.rows.len() {
            return refused(7, here.at);
        }
        if named == 0 || named > here.ordinals {
            return refused(6, here.at);
        }
        let target = self.carriers[named - 1];
        let takes_ordinal = tag == b'r';
        let ordinal = if takes_ordinal { here.ordinals + 1 } else { 0 };
        let row = [
            tag.into(),
            ordinal as u64,
            named as u64,
            0,
            target.into(),
            here.nodes as u64 + 1,
        ];
        self.put(here, row)?;
        self.trace.reference(here.nodes, here.at);
        if takes_ordinal {
            return Ok(self.numbered(here, end));
        }
        Ok(Cursor {
            at: end,
            nodes: here.nodes + 1,
            ..here
        })
    }

    #[inline(never)]
    fn container(&mut self, here: Packed, head: &Head, depth: usize) -> Step<Packed> {
        let here = here.cursor();
        let node = here.nodes;
        self.put(here, head.row(here.ordinals + 1))?;
        self.trace.open(node, depth, head.count.clone());
        let mut now = self.numbered(here, head.end);
        let mut keys = Keys::new(node + 1);
        for index in 0..head.pairs {
            now = self.key(now, head.tag, index, &mut keys)?;
            now = self.value(now, depth + 1)?;
        }
        if self.source.get(now.at) != Some(&b'}') {
            return refused(2, here.at);
        }
        self.trace.close(node, now);
        now.at += 1;
        self.rows[node][5] = now.nodes as u64;
        Ok(now.packed())
    }

    #[inline(always)]
    fn key(&mut self, here: Cursor, container: u8, index: usize, keys: &mut Keys) -> Step<Cursor> {
        let word = load(self.source, here.at);
        let token = match word as u16 {
            quick::INTEGER if container == b'a' => {
                integer::guessed(self.source, here.at, word, &mut keys.guess)
            }
            quick::STRING => quick::string(self.source, here.at, word),
            _ => None,
        };
        match token {
            Some(token) => self.put_key(here, &token, index, keys),
            None => {
                let careful = self.careful_key(here.packed(), container, index, keys);
                careful.map(Packed::cursor)
            }
        }
    }

    #[inline(always)]
    fn put_key(
        &mut self,
        here: Cursor,
        token: &Token,
        index: usize,
        keys: &mut Keys,
    ) -> Step<Cursor> {
        self.put(here, token.row(0, here.nodes + 1))?;
        self.trace.key(keys.container(), index, here, token);
        if !keys.rise(self.source, token) {
            let hash = token.hash(self.source);
            if self.repeats(hash, here.nodes, keys) {
                return refused(9, here.at);
            }
        }
        Ok(Cursor {
            at: token.end,
            nodes: here.nodes + 1,
            ..here
        })
    }

    /// Whether the key at a node, which does not rise, is an earlier one.
    #[inline(never)]
    fn repeats(&mut self, hash: u64, node: usize, keys: &mut Keys) -> bool {
        let seen = Seen {
            source: self.source,
            rows: self.rows,
        };
        keys.repeat(hash, node, seen, &mut self.set)
    }

    /// Any value, tested in the order of the refusals.
    #[inline(never)]
    fn careful_value(&mut self, here: Packed, depth: usize) -> Step<Packed> {
        let here = here.cursor();
        let tag = self.tag(here)?;
        if !matches!(
            tag,
            b'N' | b'b' | b'i' | b'd' | b's' | b'a' | b'O' | b'r' | b'R'
        ) {
            return refused(3, here.at);
        }
        if depth > DEPTH_LIMIT {
            return refused(8, here.at);
        }
        let mut scan = self.scan(here)?;
        match tag {
            b'a' | b'O' => {
                let head = scan.head(tag)?;
                self.container(here.packed(), &head, depth)
            }
            b'r' | b'R' => {
                let reference = scan.reference(tag)?;
                self.put_reference(here, reference).map(Cursor::packed)
            }
            _ => {
                let token = scan.scalar(tag)?;
                self.put_value(here, &token).map(Cursor::packed)
            }
        }
    }

    /// Any key, tested in the order of the refusals.
    #[inline(never)]
    fn careful_key(
        &mut self,
        here: Packed,
        container: u8,
        index: usize,
        keys: &mut Keys,
    ) -> Step<Packed> {
        let here = here.cursor();
        let tag = self.tag(here)?;
        if tag != b's' && (tag != b'i' || container == b'O') {
            return refused(4, here.at);
        }
        let token = self.scan(here)?.scalar(tag)?;
        let behind = self.put_key(here, &token, index, keys)?;
        Ok(behind.packed())
    }

    /// The tag that is due here.
    fn tag(&self, here: Cursor) -> Step<u8> {
        match self.source.get(here.at) {
            Some(&tag) => Ok(tag),
            None => refused(2, here.at),
        }
    }

    /// For a token whose node has room.
    fn scan(&mut self, here: Cursor) -> Step<Scan<'_, T>> {
        if here.nodes == self.rows.len() {
            return refused(7, here.at);
        }
        Ok(Scan::new(self.source, here.at, &mut self.trace))
    }
}
