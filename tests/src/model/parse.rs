//! Recursive descent from plan bytes to the tree, with every refusal in its order.

use super::numeral::{Numeral, Role};
use super::refusal::{Code, Refusal};
use super::scan::Scanner;
use super::value::{Key, Kind, Pair, Span, Value};
use super::{DEEPEST, LONGEST_PLAN};
use std::collections::HashSet;

/// The tree or the refusal, how many nodes found room, and the integers and numbers met.
pub struct Parsed<'a> {
    pub outcome: Result<Value<'a>, Refusal>,
    pub nodes_met: usize,
    pub numerals: Vec<Numeral>,
}

/// Parses a whole plan, with room for `capacity` nodes.
pub fn parse(source: &[u8], capacity: usize) -> Parsed<'_> {
    let mut parser = Parser::new(source, capacity);
    let outcome = parser.plan();
    Parsed {
        outcome,
        nodes_met: parser.nodes,
        numerals: parser.scanner.into_numerals(),
    }
}

/// The key that a text is: "exactly one i or s, [...] nothing after it".
pub fn lone_key(text: &[u8]) -> Option<Key> {
    let mut parser = Parser::new(text, 1);
    let key = parser.key(ARRAY_KEYS).ok()?;
    parser.is_at_end().then_some(key)
}

/// The value that a text is: "exactly one plain value (N, b, i, d or s), nothing after it".
pub fn lone_plain_value(text: &[u8]) -> Option<Value<'_>> {
    let mut parser = Parser::new(text, 1);
    let value = parser.value(1).ok()?;
    let plain = !value.is_container() && !value.is_reference();
    (plain && parser.is_at_end()).then_some(value)
}

/// "A key of `a` is an i or an s; a key of `O` is an s"
const ARRAY_KEYS: &[u8] = b"is";
const OBJECT_KEYS: &[u8] = b"s";

struct Parser<'a> {
    scanner: Scanner<'a>,
    capacity: usize,
    /// Tags met that found room, keys included.
    nodes: usize,
    /// Ordinals taken so far. Counted here only for refusal 6; the table numbers the tree anew.
    ordinals: usize,
}

impl<'a> Parser<'a> {
    fn new(source: &'a [u8], capacity: usize) -> Self {
        Parser {
            scanner: Scanner::new(source),
            capacity,
            nodes: 0,
            ordinals: 0,
        }
    }

    fn plan(&mut self) -> Result<Value<'a>, Refusal> {
        if self.scanner.rest().len() > LONGEST_PLAN {
            return Err(Code::TooLong.at(0));
        }
        let root = self.value(1)?;
        if !self.is_at_end() {
            return Err(Code::Trailing.at(self.scanner.position()));
        }
        Ok(root)
    }

    fn is_at_end(&self) -> bool {
        self.scanner.rest().is_empty()
    }

    /// "At a letter: 3 or 4, then 8, then 7, then the text from left to right."
    fn value(&mut self, depth: usize) -> Result<Value<'a>, Refusal> {
        let at = self.scanner.position();
        let tag = self.tag(b"NbidsaOrR", Code::UnknownTag)?;
        if depth > DEEPEST {
            return Err(Code::TooDeep.at(at));
        }
        let node = Some(self.take_node(at)?);
        // "at most the count taken so far, an r's own number not included"
        let named_at_most = self.ordinals;
        if tag != b'R' {
            self.ordinals += 1;
        }
        let (text, kind) = match tag {
            b'a' | b'O' => self.container(tag, at, depth)?,
            _ => {
                let kind = match tag {
                    b'r' | b'R' => self.reference(tag, named_at_most),
                    _ => self.scalar(tag),
                };
                let kind = kind.map_err(|code| code.at(at))?;
                (self.scanner.since(at), kind)
            }
        };
        Ok(Value {
            node,
            text: text.into(),
            kind,
        })
    }

    /// The tag due here, left unread. A plan that ends here is 2 at its length.
    fn tag(&self, allowed: &[u8], otherwise: Code) -> Result<u8, Refusal> {
        let at = self.scanner.position();
        match self.scanner.rest().first() {
            None => Err(Code::Malformed.at(at)),
            Some(tag) if allowed.contains(tag) => Ok(*tag),
            Some(_) => Err(otherwise.at(at)),
        }
    }

    /// The index of the node that begins here.
    fn take_node(&mut self, at: usize) -> Result<usize, Refusal> {
        if self.nodes >= self.capacity {
            return Err(Code::NoCapacity.at(at));
        }
        self.nodes += 1;
        Ok(self.nodes - 1)
    }

    fn scalar(&mut self, tag: u8) -> Result<Kind<'a>, Code> {
        let scanner = &mut self.scanner;
        scanner.literal(&[tag])?;
        let kind = match tag {
            b'N' => Kind::Null,
            b'b' if scanner.literal(b":0").is_ok() => Kind::Bool(false),
            b'b' => scanner.literal(b":1").map(|()| Kind::Bool(true))?,
            _ => {
                scanner.literal(b":")?;
                match tag {
                    b'i' => Kind::Integer(scanner.integer(Role::Integer)?),
                    b'd' => Kind::Float(scanner.float()?),
                    _ => Kind::Text(scanner.quoted(Role::TextLength)?),
                }
            }
        };
        scanner.literal(b";")?;
        Ok(kind)
    }

    /// "6 and 9 come after the closing `;`."
    fn reference(&mut self, tag: u8, named_at_most: usize) -> Result<Kind<'a>, Code> {
        self.scanner.literal(&[tag, b':'])?;
        let role = match tag {
            b'r' => Role::Copy,
            _ => Role::Alias,
        };
        let ordinal = self.scanner.number(role)?;
        self.scanner.literal(b";")?;
        match tag {
            _ if !(1..=named_at_most).contains(&ordinal) => Err(Code::UnknownOrdinal),
            b'r' => Ok(Kind::Copy(ordinal)),
            _ => Ok(Kind::Alias(ordinal)),
        }
    }

    /// A container's text up to its `{`, and what it holds.
    fn container(
        &mut self,
        tag: u8,
        at: usize,
        depth: usize,
    ) -> Result<(&'a [u8], Kind<'a>), Refusal> {
        let (class, count) = self.head(tag).map_err(|code| code.at(at))?;
        let text = self.scanner.since(at);
        let key_tags = class.map_or(ARRAY_KEYS, |_| OBJECT_KEYS);
        let pairs = self.pairs(count, key_tags, depth + 1)?;
        // A missing `}` belongs to the container whose `}` it is.
        self.scanner.literal(b"}").map_err(|code| code.at(at))?;
        let kind = match class {
            Some(class) => Kind::Object { class, pairs },
            None => Kind::Array(pairs),
        };
        Ok((text, kind))
    }

    /// Everything up to the `{`: the class name of an O and the count of pairs.
    fn head(&mut self, tag: u8) -> Result<(Option<Span>, usize), Code> {
        self.scanner.literal(&[tag, b':'])?;
        let mut class = None;
        let mut role = Role::ArrayCount;
        if tag == b'O' {
            class = Some(self.scanner.quoted(Role::ClassLength)?);
            self.scanner.literal(b":")?;
            role = Role::ObjectCount;
        }
        let count = self.scanner.number(role)?;
        self.scanner.literal(b":{")?;
        Ok((class, count))
    }

    fn pairs(&mut self, count: usize, tags: &[u8], depth: usize) -> Result<Vec<Pair<'a>>, Refusal> {
        let mut seen = HashSet::new();
        let mut pairs = Vec::new();
        for _ in 0..count {
            let at = self.scanner.position();
            let key = self.key(tags)?;
            let key_text = self.scanner.since(at);
            if !seen.insert(key.identity(self.scanner.source())) {
                return Err(Code::EqualKey.at(at));
            }
            let value = self.value(depth)?;
            pairs.push(Pair {
                key,
                key_text,
                value,
            });
        }
        Ok(pairs)
    }

    /// "Keys have no depth": at a key's tag only 4, then 7.
    fn key(&mut self, tags: &[u8]) -> Result<Key, Refusal> {
        let at = self.scanner.position();
        let tag = self.tag(tags, Code::UnfitKeyTag)?;
        self.take_node(at)?;
        self.key_text(tag).map_err(|code| code.at(at))
    }

    fn key_text(&mut self, tag: u8) -> Result<Key, Code> {
        self.scanner.literal(&[tag, b':'])?;
        let key = match tag {
            b'i' => Key::Integer(self.scanner.integer(Role::IntegerKey)?),
            _ => Key::Text(self.scanner.quoted(Role::TextKeyLength)?),
        };
        self.scanner.literal(b";")?;
        Ok(key)
    }
}
