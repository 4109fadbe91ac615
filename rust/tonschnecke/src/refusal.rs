//! Why a service refused, and where.

use std::error::Error;
use std::fmt;

/// The one list of refusals, a row each: what it means, its name, the library's number, and the
/// sentence for users.
macro_rules! reasons {
    ($($(#[$about:meta])* $name:ident = $code:literal, $sentence:literal;)*) => {
        /// Why a service refused. The order is that of the library's numbers.
        #[derive(Clone, Copy, Debug, PartialEq, Eq, PartialOrd, Ord, Hash)]
        pub enum Reason {
            $($(#[$about])* $name = $code,)*
        }

        impl Reason {
            /// Every reason, in the order of the numbers.
            pub const ALL: [Reason; [$($code),*].len()] = [$(Reason::$name),*];
        }

        impl fmt::Display for Reason {
            fn fmt(&self, out: &mut fmt::Formatter<'_>) -> fmt::Result {
                out.write_str(match self {
                    $(Reason::$name => $sentence,)*
                })
            }
        }
    };
}

reasons! {
    /// The source is longer than [`SOURCE_LIMIT`](crate::SOURCE_LIMIT) bytes.
    SourceTooLong = 1, "the plan is longer than 65,536 bytes";
    /// A text is not of its kind's form, or the source ends too soon.
    Malformed = 2, "the text that begins here is not of its kind's form, or the plan ends too soon";
    /// A value's tag is none of the nine.
    ValueTag = 3, "a value begins with one of N b i d s a O r R";
    /// A key's tag is not allowed in its container.
    KeyTag = 4, "a key begins with i or s in an array, and with s in an object";
    /// An integer has more than 64 bits, or another number is above 65,536.
    NumberRange = 5, "the integer has more than 64 bits, or the number is above 65,536";
    /// A reference names an ordinal that no earlier value carries.
    UnknownOrdinal = 6, "the reference names a number that no earlier value carries";
    /// The table has no room; see [`table_words`](crate::lent::table_words).
    TableFull = 7, "the table has no room for the node";
    /// A value stands deeper than 64, or would if it were inserted; the plan itself has depth 1.
    TooDeep = 8, "the value stands deeper than 64";
    /// A key equals an earlier key of its container, or an inserted one equals a key of its array.
    EqualKey = 9, "the container has this key already";
    /// Bytes follow the value.
    TrailingBytes = 10, "bytes follow the value (a newline at the end is one, too)";
    /// The node to insert into is no array.
    NoArray = 11, "the node is no array";
    /// The place to insert at is above the array's count.
    PlaceAboveCount = 12, "the place is above the array's count";
    /// The key to insert is not exactly one i or s, or the value not exactly one N, b, i, d or s.
    UnfitText = 13, "the key is not exactly one i or s, or the value not exactly one N, b, i, d or s";
    /// The bytes to write exceed the output, or 65,536.
    OutputFull = 14, "the bytes to write exceed the output, or 65,536";
}

impl Reason {
    /// The library's number.
    ///
    /// ```
    /// use tonschnecke::Reason;
    /// assert_eq!(Reason::UnknownOrdinal.code(), 6);
    /// ```
    pub const fn code(self) -> u64 {
        self as u64
    }

    /// The reason with this number.
    ///
    /// ```
    /// use tonschnecke::Reason;
    /// assert_eq!(Reason::from_code(14), Some(Reason::OutputFull));
    /// assert_eq!(Reason::from_code(0), None);
    /// ```
    pub fn from_code(code: u64) -> Option<Reason> {
        Reason::ALL.into_iter().find(|reason| reason.code() == code)
    }
}

/// A service's refusal. It left every word of the table 0, and the output as it was.
#[derive(Clone, Copy, Debug, PartialEq, Eq, Hash)]
pub struct Refusal {
    /// Why.
    pub reason: Reason,
    /// The position in the source; 0 where the request and not the source was refused.
    pub at: usize,
}

impl fmt::Display for Refusal {
    fn fmt(&self, out: &mut fmt::Formatter<'_>) -> fmt::Result {
        write!(
            out,
            "refused {} at {}: {}",
            self.reason.code(),
            self.at,
            self.reason
        )
    }
}

impl Error for Refusal {}
