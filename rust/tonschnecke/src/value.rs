//! Values of a plan, borrowed from it: what they are, what they hold, where they stand.

use crate::escape::{quoted, shortened};
use crate::key::Key;
use crate::lent::Insertion;
use crate::path::{Nowhere, Path};
use crate::plan::Plan;
use crate::refusal::Refusal;
use std::fmt;
use std::hash::{Hash, Hasher};
use std::iter::FusedIterator;

/// How much of a long text is shown where it does not stand itself.
const BRIEF_TEXT: usize = 40;
/// A reference tells the node's index instead of a path with more bytes of string keys: thousands
/// of references may name one value.
const LONG_PATH: usize = 1000;

/// A value of a plan. It is shown in one line: a reference with the path and the value that it
/// names, a container by its count.
#[derive(Clone, Copy)]
pub struct Value<'a> {
    plan: &'a Plan,
    node: usize,
}

/// The nine kinds.
#[derive(Clone, Copy, PartialEq, Eq, Hash)]
pub enum Kind<'a> {
    /// `N`
    Null,
    /// `b`
    Bool(bool),
    /// `i`
    Integer(i64),
    /// `d`: a float means its text.
    Float(&'a [u8]),
    /// `s`
    String(&'a [u8]),
    /// `a`
    Array {
        /// The pairs that it holds.
        count: usize,
    },
    /// `O`
    Object {
        /// The name of its class.
        class_name: &'a [u8],
        /// The pairs that it holds.
        count: usize,
    },
    /// `r` or `R`
    Reference {
        /// Which of the two.
        tag: ReferenceTag,
        /// The ordinal named.
        ordinal: usize,
        /// Index of the node named.
        node: usize,
    },
}

/// The tags of the two references.
#[derive(Clone, Copy, Debug, PartialEq, Eq, Hash)]
pub enum ReferenceTag {
    /// `r`, which takes an ordinal of its own.
    Small,
    /// `R`, which takes none.
    Capital,
}

/// With texts as texts.
impl fmt::Debug for Kind<'_> {
    fn fmt(&self, out: &mut fmt::Formatter<'_>) -> fmt::Result {
        match self {
            Kind::Null => out.write_str("Null"),
            Kind::Bool(truth) => write!(out, "Bool({truth})"),
            Kind::Integer(integer) => write!(out, "Integer({integer})"),
            Kind::Float(text) => write!(out, "Float({})", text.escape_ascii()),
            Kind::String(bytes) => write!(out, "String(\"{}\")", bytes.escape_ascii()),
            Kind::Array { count } => write!(out, "Array {{ count: {count} }}"),
            Kind::Object { class_name, count } => {
                let name = class_name.escape_ascii();
                write!(out, "Object {{ class_name: \"{name}\", count: {count} }}")
            }
            Kind::Reference { tag, ordinal, node } => {
                write!(
                    out,
                    "Reference {{ {tag:?}, ordinal: {ordinal}, node: {node} }}"
                )
            }
        }
    }
}

impl ReferenceTag {
    /// The letter.
    ///
    /// ```
    /// assert_eq!(tonschnecke::ReferenceTag::Capital.letter(), 'R');
    /// ```
    pub const fn letter(self) -> char {
        match self {
            ReferenceTag::Small => 'r',
            ReferenceTag::Capital => 'R',
        }
    }
}

impl<'a> Value<'a> {
    /// The value at a node, which must be one of the plan's.
    pub(crate) const fn new(plan: &'a Plan, node: usize) -> Value<'a> {
        Value { plan, node }
    }

    /// The plan that it belongs to.
    pub const fn plan(self) -> &'a Plan {
        self.plan
    }

    /// The index of its node.
    pub const fn node(self) -> usize {
        self.node
    }

    /// What it is.
    pub fn kind(self) -> Kind<'a> {
        let [tag, _, word, length, link, _] = *self.plan.row(self.node);
        let (word_index, link) = (word as usize, link as usize);
        let text = || &self.plan.bytes()[word_index..][..length as usize];
        let reference = |tag| Kind::Reference {
            tag,
            ordinal: word_index,
            node: link,
        };
        match tag as u8 {
            b'N' => Kind::Null,
            b'b' => Kind::Bool(word != 0),
            b'i' => Kind::Integer(word.cast_signed()),
            b'd' => Kind::Float(text()),
            b's' => Kind::String(text()),
            b'a' => Kind::Array { count: link },
            b'O' => Kind::Object {
                class_name: text(),
                count: link,
            },
            b'r' => reference(ReferenceTag::Small),
            b'R' => reference(ReferenceTag::Capital),
            _ => unreachable!("the library promises no such tag: {tag}"),
        }
    }

    /// The number that it took; an `R` takes none.
    pub fn ordinal(self) -> Option<usize> {
        let ordinal = self.plan.row(self.node)[1];
        (ordinal != 0).then_some(ordinal as usize)
    }

    /// The pairs that it holds; 0 for what holds none. A reference holds none: it is not followed.
    pub fn count(self) -> usize {
        match self.kind() {
            Kind::Array { count } | Kind::Object { count, .. } => count,
            _ => 0,
        }
    }

    /// The pairs that it holds, in order; none for what holds none, a reference among them.
    ///
    /// ```
    /// use tonschnecke::{Key, Plan};
    /// let plan = Plan::read("a:2:{i:1;d:9.5;s:3:\"may\";N;}")?;
    /// let keys: Vec<Key> = plan.root().children().map(|(key, _)| key).collect();
    /// assert_eq!(keys, [Key::from(1), Key::from("may")]);
    /// # Ok::<(), tonschnecke::Refusal>(())
    /// ```
    pub fn children(self) -> Children<'a> {
        Children {
            plan: self.plan,
            key: self.node + 1,
            left: self.count(),
        }
    }

    /// The value with this key. A reference has none: ask what it stands for, [`resolved`](Value::resolved).
    ///
    /// ```
    /// use tonschnecke::{Kind, Plan};
    /// let plan = Plan::read("a:1:{s:4:\"year\";i:2024;}")?;
    /// assert_eq!(plan.root().get("year").unwrap().kind(), Kind::Integer(2024));
    /// assert!(plan.root().get(2024).is_none());
    /// # Ok::<(), tonschnecke::Refusal>(())
    /// ```
    pub fn get<'k>(self, key: impl Into<Key<'k>>) -> Option<Value<'a>> {
        let asked = key.into();
        let mut children = self.children();
        children.find_map(|(key, value)| (key == asked).then_some(value))
    }

    /// As [`get`](Value::get), with an error that says what is missing.
    ///
    /// # Errors
    ///
    /// It holds no pair with this key.
    pub fn child<'k>(self, key: impl Into<Key<'k>>) -> Result<Value<'a>, Nowhere> {
        let key = key.into();
        self.get(&key).ok_or_else(|| Nowhere {
            path: self.path().into_owned(),
            near: key.counterpart().filter(|near| self.get(near).is_some()),
            key: key.into_owned(),
            is: match self.kind() {
                Kind::Array { .. } | Kind::Object { .. } => None,
                Kind::Reference { .. } => {
                    Some(format!("{}, and references are not followed", self.brief()))
                }
                _ => Some(self.brief()),
            },
        })
    }

    /// The container that holds it; none for the root.
    pub fn container(self) -> Option<Value<'a>> {
        let holder = self.plan.holder(self.node)?;
        Some(Value::new(self.plan, holder))
    }

    /// Its key in that container; none for the root.
    pub fn key(self) -> Option<Key<'a>> {
        self.container().map(|_| self.plan.key_at(self.node - 1))
    }

    /// Its place in that container, 0 first; none for the root.
    pub fn place(self) -> Option<usize> {
        let mut children = self.container()?.children();
        children.position(|(_, value)| value.node == self.node)
    }

    /// How deep it stands: the root at depth 1, and nothing deeper than 64.
    pub fn depth(self) -> usize {
        self.upwards().count()
    }

    /// Itself, and what holds it, to the root.
    fn upwards(self) -> impl Iterator<Item = Value<'a>> {
        std::iter::successors(Some(self), |value| value.container())
    }

    /// The path that leads to it.
    ///
    /// ```
    /// let plan = tonschnecke::Plan::read("a:1:{s:3:\"may\";a:1:{s:1:\"1\";N;}}")?;
    /// let last = plan.values().next_back().unwrap();
    /// assert_eq!(last.path().to_string(), "/may/\"1\"");
    /// # Ok::<(), tonschnecke::Refusal>(())
    /// ```
    pub fn path(self) -> Path<'a> {
        let mut keys: Vec<_> = self.upwards().filter_map(Value::key).collect();
        keys.reverse();
        Path::new(keys)
    }

    /// What a reference names, which may be an `r` again; none for what is no reference.
    pub fn target(self) -> Option<Value<'a>> {
        match self.kind() {
            Kind::Reference { node, .. } => Some(Value::new(self.plan, node)),
            _ => None,
        }
    }

    /// The value that it stands for: what a reference names, to the end, or itself.
    ///
    /// ```
    /// let plan = tonschnecke::Plan::read("a:3:{i:0;O:1:\"P\":0:{}i:1;r:2;i:2;R:3;}")?;
    /// assert_eq!(plan.path("/2")?.target().unwrap().path().to_string(), "/1");
    /// assert_eq!(plan.path("/2")?.resolved().path().to_string(), "/0");
    /// # Ok::<(), Box<dyn std::error::Error>>(())
    /// ```
    pub fn resolved(self) -> Value<'a> {
        // A reference names an earlier value, so this ends.
        std::iter::successors(Some(self), |value| value.target())
            .last()
            .unwrap_or(self)
    }

    /// The plan with a pair put into this array: before the pair at the place, 0 first, or behind
    /// the last if the place is the count. [`serialized`](crate::serialized) writes the texts.
    ///
    /// # Errors
    ///
    /// Reasons 11, 12, 13, 9, 8 and 14, at 0, tried in this order.
    ///
    /// ```
    /// let plan = tonschnecke::Plan::read("a:2:{i:1;d:9.5;i:3;R:2;}")?;
    /// let new = plan.root().insert(0, b"i:0;", b"d:8;")?;
    /// assert_eq!(new.bytes(), b"a:3:{i:0;d:8;i:1;d:9.5;i:3;R:3;}");
    /// # Ok::<(), tonschnecke::Refusal>(())
    /// ```
    pub fn insert(
        self,
        place: usize,
        key: impl AsRef<[u8]>,
        value: impl AsRef<[u8]>,
    ) -> Result<Plan, Refusal> {
        self.plan.insert(Insertion {
            array_node: self.node,
            pair_index: place,
            key: key.as_ref(),
            value: value.as_ref(),
        })
    }

    /// What it is, as it is shown, but for a long text, which is cut.
    pub fn brief(self) -> String {
        self.described(BRIEF_TEXT)
    }

    fn described(self, text_limit: usize) -> String {
        match self.kind() {
            Kind::Null => "null".into(),
            Kind::Bool(truth) => truth.to_string(),
            Kind::Integer(integer) => integer.to_string(),
            Kind::Float(text) => shortened(text, text_limit, float),
            Kind::String(bytes) => shortened(bytes, text_limit, quoted),
            Kind::Array { count } => format!("array of {count}"),
            Kind::Object { class_name, count } => {
                let name = shortened(class_name, text_limit, quoted);
                format!("object {name} of {count}")
            }
            Kind::Reference { tag, node, .. } => {
                let target = Value::new(self.plan, node);
                let named = match target.kind() {
                    // The library goes one step; where that leads to an r, this one's path is told.
                    Kind::Reference { tag, node, .. } => self.reference(tag, node),
                    _ => target.brief(),
                };
                format!("{}, {named}", self.reference(tag, node))
            }
        }
    }

    fn reference(self, tag: ReferenceTag, node: usize) -> String {
        let named = Value::new(self.plan, node).named();
        format!("{} to {named}", tag.letter())
    }

    /// Its path, unless it is long.
    fn named(self) -> String {
        let path = self.path();
        let length: usize = path.keys().iter().map(Key::string_len).sum();
        if length <= LONG_PATH {
            path.to_string()
        } else {
            format!("node {}", self.node)
        }
    }
}

/// A float's text, told from an integer's.
fn float(text: &[u8]) -> String {
    let text = String::from_utf8_lossy(text);
    let digits = text.trim_start_matches(['+', '-']);
    if digits.bytes().all(|byte| byte.is_ascii_digit()) {
        format!("float {text}")
    } else {
        text.into_owned()
    }
}

impl fmt::Display for Value<'_> {
    fn fmt(&self, out: &mut fmt::Formatter<'_>) -> fmt::Result {
        out.write_str(&self.described(usize::MAX))
    }
}

impl fmt::Debug for Value<'_> {
    fn fmt(&self, out: &mut fmt::Formatter<'_>) -> fmt::Result {
        write!(out, "Value({}: {})", self.named(), self.brief())
    }
}

/// Of the same plan, in the same place.
impl PartialEq for Value<'_> {
    fn eq(&self, other: &Self) -> bool {
        std::ptr::eq(self.plan, other.plan) && self.node == other.node
    }
}

impl Eq for Value<'_> {}

impl Hash for Value<'_> {
    fn hash<H: Hasher>(&self, state: &mut H) {
        (std::ptr::from_ref(self.plan), self.node).hash(state);
    }
}

/// Its pairs, as [`children`](Value::children) gives them.
impl<'a> IntoIterator for Value<'a> {
    type Item = (Key<'a>, Value<'a>);
    type IntoIter = Children<'a>;

    fn into_iter(self) -> Children<'a> {
        self.children()
    }
}

/// The pairs of a container, in order.
#[derive(Clone, Debug)]
pub struct Children<'a> {
    plan: &'a Plan,
    /// The node of the next key.
    key: usize,
    left: usize,
}

impl<'a> Iterator for Children<'a> {
    type Item = (Key<'a>, Value<'a>);

    fn next(&mut self) -> Option<Self::Item> {
        self.left = self.left.checked_sub(1)?;
        let key = self.key;
        let value = Value::new(self.plan, key + 1);
        // The next key stands behind the value and all that it holds.
        self.key = self.plan.row(value.node)[5] as usize;
        Some((self.plan.key_at(key), value))
    }

    fn size_hint(&self) -> (usize, Option<usize>) {
        (self.left, Some(self.left))
    }
}

impl ExactSizeIterator for Children<'_> {}

impl FusedIterator for Children<'_> {}
