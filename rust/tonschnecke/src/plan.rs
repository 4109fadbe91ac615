//! A plan that was read: its bytes and its table, which belong together.

use crate::key::Key;
use crate::lent::{self, table_words, Insertion, Words};
use crate::path::{Nowhere, Path, PathError};
use crate::refusal::Refusal;
use crate::tree::Tree;
use crate::value::{Kind, Value};
use crate::SOURCE_LIMIT;
use std::fmt;

/// A plan, read once. It is shown as a tree.
///
/// Bytes and table cannot be parted, and those of two plans not be brought together:
///
/// ```compile_fail
/// # use tonschnecke::Plan;
/// let old = Plan::read("a:0:{}").unwrap();
/// let new = old.root().insert(0, b"i:0;", b"N;").unwrap();
/// let mixed = Plan { source: old.into_bytes(), ..new };
/// ```
///
/// Nor does a value outlive its plan:
///
/// ```compile_fail
/// # use tonschnecke::Plan;
/// let plan = Plan::read("a:0:{}").unwrap();
/// let root = plan.root();
/// drop(plan);
/// root.kind();
/// ```
#[derive(Clone, PartialEq, Eq)]
pub struct Plan {
    source: Vec<u8>,
    rows: Vec<Words>,
    /// For each node that is a value in a container: that container. `NO_HOLDER` for the others.
    holders: Vec<u32>,
    ordinals: usize,
}

const NO_HOLDER: u32 = u32::MAX;

impl Plan {
    /// Reads the bytes, which are copied. Like every service it takes up to 71,000 bytes of stack.
    ///
    /// # Errors
    ///
    /// Reasons 1 to 6 and 8 to 10, at a position in the bytes: the table always suffices.
    ///
    /// ```
    /// use tonschnecke::{Plan, Reason};
    /// assert_eq!(Plan::read("a:1:{i:0;N;}")?.root().count(), 1);
    /// assert_eq!(Plan::read("N;;").unwrap_err().reason, Reason::TrailingBytes);
    /// # Ok::<(), tonschnecke::Refusal>(())
    /// ```
    pub fn read(source: impl AsRef<[u8]>) -> Result<Plan, Refusal> {
        let source = source.as_ref();
        let mut table = vec![0; table_words(source.len())];
        let reading = lent::read(source, &mut table)?;
        let (rows, _) = table.as_chunks();
        Ok(Plan::of(source.to_vec(), &rows[..reading.nodes]))
    }

    /// The plan of these bytes, whose nodes the library left in these rows.
    fn of(source: Vec<u8>, rows: &[Words]) -> Plan {
        let mut plan = Plan {
            source,
            rows: rows.to_vec(),
            holders: vec![NO_HOLDER; rows.len()],
            ordinals: rows.iter().filter(|row| row[1] != 0).count(),
        };
        for container in 0..plan.rows.len() {
            let children = Value::new(&plan, container).children();
            for value in children.map(|(_, value)| value.node()).collect::<Vec<_>>() {
                plan.holders[value] = container as u32;
            }
        }
        plan
    }

    /// The plan that a service wrote to `out`, its nodes in the table.
    fn written(mut out: Vec<u8>, length: usize, table: &[u64]) -> Plan {
        out.truncate(length);
        let (rows, _) = table.as_chunks::<{ lent::NODE_WORDS }>();
        // The first node holds all others, so its end is their count.
        Plan::of(out, &rows[..rows[0][5] as usize])
    }

    /// The bytes.
    pub fn bytes(&self) -> &[u8] {
        &self.source
    }

    /// The bytes, without the table.
    pub fn into_bytes(self) -> Vec<u8> {
        self.source
    }

    /// The words of each node, keys included.
    ///
    /// ```
    /// let plan = tonschnecke::Plan::read("a:1:{i:0;N;}")?;
    /// assert_eq!(plan.rows()[1], [105, 0, 0, 0, 0, 2]);
    /// # Ok::<(), tonschnecke::Refusal>(())
    /// ```
    pub fn rows(&self) -> &[Words] {
        &self.rows
    }

    /// The ordinals that values took.
    pub const fn ordinals(&self) -> usize {
        self.ordinals
    }

    /// The value that holds all others.
    pub const fn root(&self) -> Value<'_> {
        Value::new(self, 0)
    }

    /// The value with this node; none if the node is a key's, or there is no such node.
    ///
    /// ```
    /// let plan = tonschnecke::Plan::read("a:1:{i:0;N;}")?;
    /// assert!(plan.value(1).is_none());
    /// assert_eq!(plan.value(2).unwrap().path().to_string(), "/0");
    /// # Ok::<(), tonschnecke::Refusal>(())
    /// ```
    pub fn value(&self, node: usize) -> Option<Value<'_>> {
        let held = *self.holders.get(node)? != NO_HOLDER;
        (node == 0 || held).then(|| Value::new(self, node))
    }

    /// The key with this node; none if the node is a value's, or there is no such node.
    pub fn key(&self, node: usize) -> Option<Key<'_>> {
        let is_key = node < self.rows.len() && self.value(node).is_none();
        is_key.then(|| self.key_at(node))
    }

    /// Every value, in the order of the bytes: the root first, what a container holds behind it.
    ///
    /// ```
    /// use tonschnecke::{Kind, Plan};
    /// let plan = Plan::read("a:2:{i:1;d:9.5;i:2;R:2;}")?;
    /// let shared = plan.values().filter(|value| value.target().is_some()).count();
    /// assert_eq!((plan.values().count(), shared), (3, 1));
    /// # Ok::<(), tonschnecke::Refusal>(())
    /// ```
    pub fn values(&self) -> impl DoubleEndedIterator<Item = Value<'_>> {
        (0..self.rows.len()).filter_map(|node| self.value(node))
    }

    /// The value that a path leads to. References are not followed.
    ///
    /// # Errors
    ///
    /// The text is no path, or leads nowhere: the error says from where on.
    ///
    /// ```
    /// let plan = tonschnecke::Plan::read("a:1:{s:3:\"may\";a:1:{i:1;d:9.5;}}")?;
    /// assert_eq!(plan.path("/may/1")?.to_string(), "9.5");
    /// assert_eq!(plan.path("/may/2").unwrap_err().to_string(), "/may has no key 2");
    /// # Ok::<(), Box<dyn std::error::Error>>(())
    /// ```
    pub fn path(&self, path: impl AsRef<[u8]>) -> Result<Value<'_>, PathError> {
        Ok(self.find(&Path::parse(path.as_ref())?)?)
    }

    /// The value that these keys lead to. References are not followed.
    ///
    /// # Errors
    ///
    /// They lead nowhere: the error says from where on.
    pub fn find(&self, path: &Path<'_>) -> Result<Value<'_>, Nowhere> {
        path.keys()
            .iter()
            .try_fold(self.root(), |container, key| container.child(key))
    }

    /// The plan in its canonical text: the one spelling that all plans of this meaning share.
    ///
    /// ```
    /// let plan = tonschnecke::Plan::read("a:+01:{i:+0;N;}")?;
    /// assert_eq!(plan.canonical().bytes(), b"a:1:{i:0;N;}");
    /// # Ok::<(), tonschnecke::Refusal>(())
    /// ```
    pub fn canonical(&self) -> Plan {
        let mut table = vec![0; table_words(self.source.len())];
        let mut out = vec![0; self.source.len()];
        let length = lent::canonicalize(&self.source, &mut table, &mut out)
            .expect("the plan was read, and its canonical text is no longer");
        Plan::written(out, length, &table)
    }

    /// The plan with a pair put in; [`Value::insert`] is the same where the array is at hand.
    ///
    /// # Errors
    ///
    /// Reasons 11, 12, 13, 9, 8 and 14, at 0, tried in this order.
    pub fn insert(&self, insertion: Insertion<'_>) -> Result<Plan, Refusal> {
        let mut table = vec![0; table_words(self.source.len())];
        let mut out = vec![0; SOURCE_LIMIT];
        let length = lent::insert(&self.source, insertion, &mut table, &mut out)?;
        Ok(Plan::written(out, length, &table))
    }

    /// The plan as a tree, a line for each value.
    pub const fn tree(&self) -> Tree<'_> {
        Tree::new(self)
    }

    pub(crate) fn row(&self, node: usize) -> &Words {
        &self.rows[node]
    }

    /// The container that holds the value; none for the root.
    pub(crate) fn holder(&self, value: usize) -> Option<usize> {
        let holder = self.holders[value];
        (holder != NO_HOLDER).then_some(holder as usize)
    }

    /// The key that this node, which is a key's, has.
    pub(crate) fn key_at(&self, node: usize) -> Key<'_> {
        match Value::new(self, node).kind() {
            Kind::Integer(integer) => Key::Integer(integer),
            Kind::String(bytes) => Key::String(bytes.into()),
            kind => unreachable!("the library promises no such key: {kind:?}"),
        }
    }
}

impl AsRef<[u8]> for Plan {
    fn as_ref(&self) -> &[u8] {
        self.bytes()
    }
}

impl fmt::Display for Plan {
    fn fmt(&self, out: &mut fmt::Formatter<'_>) -> fmt::Result {
        self.tree().fmt(out)
    }
}

impl fmt::Debug for Plan {
    fn fmt(&self, out: &mut fmt::Formatter<'_>) -> fmt::Result {
        write!(out, "Plan({})", self.source.escape_ascii())
    }
}
