//! The circumstances of accepted insertions.

use super::request::{Array, Reference};
use super::{Circumstance, Met};
use crate::model::{Role, DEEPEST, LONGEST_PLAN, WORDS};

/// Where the pair went.
pub const PLACES: &[Circumstance] = &[
    ("in front of other pairs", |met| {
        met.array(|array, place| place == 0 && array.count > 0)
    }),
    ("between other pairs", |met| {
        met.array(|array, place| 0 < place && place < array.count)
    }),
    ("behind other pairs", |met| {
        met.array(|array, place| place > 0 && place == array.count)
    }),
    ("into an empty array", |met| {
        met.array(|array, _| array.count == 0)
    }),
    ("into the plan's own array", |met| {
        met.array(|array, _| array.node == 0)
    }),
    ("into an array in an array", |met| {
        met.array(|array, _| array.is_in_array)
    }),
    ("into an array in an object", |met| {
        met.array(|array, _| array.is_in_object)
    }),
    ("into an array with arrays inside", |met| {
        met.array(|array, _| array.holds_array)
    }),
    ("into an array at depth 63", |met| {
        met.array(|array, _| array.depth == DEEPEST - 1)
    }),
    ("count spelled oddly", |met| {
        met.array(|array, _| array.is_count_odd)
    }),
    ("count 9 to 10", |met| {
        met.array(|array, _| array.count == 9)
    }),
    ("count 99 to 100", |met| {
        met.array(|array, _| array.count == 99)
    }),
    ("count with +", |met| met.array(|array, _| array.has_plus)),
    ("count +9 to 10", |met| {
        met.array(|array, _| array.has_plus && array.count == 9)
    }),
];

/// What became of the references.
pub const REFERENCES: &[Circumstance] = &[
    ("raised 9 to 10", |met| met.raised(|it| it.named == 9)),
    ("raised 99 to 100", |met| met.raised(|it| it.named == 99)),
    ("raised 999 to 1000", |met| met.raised(|it| it.named == 999)),
    ("raised r", |met| met.raised(|it| it.tag == b'r')),
    ("raised R", |met| met.raised(|it| it.tag == b'R')),
    ("raised several", |met| met.request.raised().count() > 1),
    ("raised the number k", |met| {
        met.raised(|it| it.named == it.new)
    }),
    ("raised one spelled oddly", |met| met.raised(|it| it.is_odd)),
    ("raised one that names an open container", |met| {
        met.raised(|it| it.names_open)
    }),
    ("raised one that names an r", |met| {
        met.raised(|it| it.names_r)
    }),
    ("raised one inside the array", |met| {
        met.raised(|it| it.is_inside && it.names_inside)
    }),
    ("raised one from behind into the array", |met| {
        met.raised(|it| !it.is_inside && it.names_inside)
    }),
    ("raised one behind and past the array", |met| {
        met.raised(|it| !it.is_inside && !it.names_inside)
    }),
    ("kept one before the place", |met| {
        met.kept(|it| !it.is_behind)
    }),
    ("kept k - 1 behind the place", |met| {
        met.kept(|it| it.is_behind && it.named + 1 == it.new)
    }),
    ("kept one spelled oddly before the place", |met| {
        met.kept(|it| !it.is_behind && it.is_odd)
    }),
    ("kept one spelled oddly behind the place", |met| {
        met.kept(|it| it.is_behind && it.is_odd)
    }),
    ("kept one behind that names an open container", |met| {
        met.kept(|it| it.is_behind && it.names_open)
    }),
    ("kept one behind that names the array", |met| {
        met.kept(|it| it.is_behind && it.names_array)
    }),
    ("kept one from behind into the array", |met| {
        met.kept(|it| it.is_behind && !it.is_inside && it.names_inside)
    }),
    ("kept one behind and out of the array", |met| {
        met.kept(|it| it.is_behind && it.is_inside && !it.names_inside)
    }),
    ("kept some and raised others", |met| {
        met.kept(|it| it.is_behind) && met.raised(|_| true)
    }),
    ("raised r with +", |met| {
        met.raised(|it| it.has_plus && it.tag == b'r')
    }),
    ("raised R with +", |met| {
        met.raised(|it| it.has_plus && it.tag == b'R')
    }),
    ("raised +9 to 10", |met| {
        met.raised(|it| it.has_plus && it.named == 9)
    }),
    ("kept r with +", |met| {
        met.kept(|it| it.has_plus && it.tag == b'r')
    }),
    ("kept R with +", |met| {
        met.kept(|it| it.has_plus && it.tag == b'R')
    }),
    ("kept one with + before the place", |met| {
        met.kept(|it| it.has_plus && !it.is_behind)
    }),
    ("kept one with + behind the place", |met| {
        met.kept(|it| it.has_plus && it.is_behind)
    }),
];

/// Other numbers with a `+`, which keep it.
pub const OTHER_PLUSES: &[Circumstance] = &[
    ("+ in another array's count", |met| {
        met.has_other_plus(Role::ArrayCount)
    }),
    ("+ in an object's count", |met| {
        met.has_other_plus(Role::ObjectCount)
    }),
    ("+ in a length", |met| met.has_other_plus(Role::TextLength)),
    ("+ in a key's length", |met| {
        met.has_other_plus(Role::TextKeyLength)
    }),
    ("+ in a class's length", |met| {
        met.has_other_plus(Role::ClassLength)
    }),
];

/// What was put in.
pub const TEXTS: &[Circumstance] = &[
    ("key of kind i", |met| met.request.key.is_fit_of(b"i")),
    ("key of kind s", |met| met.request.key.is_fit_of(b"s")),
    ("key i spelled oddly", |met| {
        met.request.key.is_fit_of(b"i") && met.request.key.is_odd()
    }),
    ("key s spelled oddly", |met| {
        met.request.key.is_fit_of(b"s") && met.request.key.is_odd()
    }),
    ("key equal to another but for its kind", |met| {
        met.request.has_look_alike
    }),
    ("value of kind N", |met| met.request.value.is_fit_of(b"N")),
    ("value of kind b", |met| met.request.value.is_fit_of(b"b")),
    ("value of kind i", |met| met.request.value.is_fit_of(b"i")),
    ("value of kind d", |met| met.request.value.is_fit_of(b"d")),
    ("value of kind s", |met| met.request.value.is_fit_of(b"s")),
    ("value i spelled oddly", |met| {
        met.request.value.is_fit_of(b"i") && met.request.value.is_odd()
    }),
    ("value s spelled oddly", |met| {
        met.request.value.is_fit_of(b"s") && met.request.value.is_odd()
    }),
    ("key s with +", |met| met.request.key.is_string_with_plus()),
    ("value s with +", |met| {
        met.request.value.is_string_with_plus()
    }),
];

/// The lengths lent, and the greatest length.
pub const LENGTHS: &[Circumstance] = &[
    ("table just long enough", |met| {
        met.call.table_len == (met.request.nodes() + 2) * WORDS
    }),
    ("table with words to spare", |met| {
        met.room() == met.request.nodes() + 2 && met.call.table_len % WORDS > 0
    }),
    ("table with nodes to spare", |met| {
        met.room() > met.request.nodes() + 2
    }),
    ("output just long enough", |met| {
        met.call.out_len as u64 == met.reply.length()
    }),
    ("output with bytes to spare", |met| {
        met.call.out_len as u64 > met.reply.length()
    }),
    ("output longer than every plan", |met| {
        met.call.out_len > LONGEST_PLAN
    }),
    ("65,536 bytes written", |met| {
        met.reply.length() == LONGEST_PLAN as u64
    }),
    ("65,536 bytes written, nearly all of them old", |met| {
        let is_long = met.request.texts.source.len() > LONGEST_PLAN - 100;
        is_long && met.reply.length() == LONGEST_PLAN as u64
    }),
];

impl Met<'_> {
    /// Whether this holds of the array asked for and the place in it.
    fn array(&self, holds: impl Fn(&Array, usize) -> bool) -> bool {
        let array = self.request.array.as_ref();
        array.is_some_and(|array| holds(array, self.request.place.pair_index))
    }

    /// Whether this holds of a reference that was raised.
    fn raised(&self, holds: impl Fn(&Reference) -> bool) -> bool {
        self.request.raised().any(holds)
    }

    /// Whether this holds of a reference that was not.
    fn kept(&self, holds: impl Fn(&Reference) -> bool) -> bool {
        self.request.kept().any(holds)
    }

    fn has_other_plus(&self, role: Role) -> bool {
        self.request.other_pluses.contains(&role)
    }
}
