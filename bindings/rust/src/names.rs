//! What makes a kind of codes of the names that `constants` has.

use crate::DwAt;
use core::fmt;

/// A text that is no name of a code of its kind.
#[derive(Clone, Copy, Debug, PartialEq, Eq, Hash)]
pub struct UnknownName;

impl fmt::Display for UnknownName {
    fn fmt(&self, f: &mut fmt::Formatter<'_>) -> fmt::Result {
        f.write_str("No code of the kind has this name.")
    }
}

impl core::error::Error for UnknownName {}

// By which an attribute is asked for by its name or by the number of it. No other kind of codes is
// taken for that.
impl From<DwAt> for u16 {
    #[inline]
    fn from(name: DwAt) -> Self {
        name.0
    }
}

// A kind of codes. The `names` are those that their codes have; `other names` have a code that has
// one already.
macro_rules! codes {
    (
        $(#[$text:meta])*
        $kind:ident($number:ty)
        names { $($name:ident = $code:literal,)* }
        other names { $($other:ident = $same:literal,)* }
    ) => {
        $(#[$text])*
        #[derive(Clone, Copy, Debug, PartialEq, Eq, PartialOrd, Ord, Hash)]
        pub struct $kind(pub $number);

        $(pub const $name: $kind = $kind($code);)*
        $(pub const $other: $kind = $kind($same);)*

        impl $kind {
            /// The name of the code, if it has one; where it has two, the first of the table.
            pub fn static_string(&self) -> Option<&'static str> {
                match self.0 {
                    $($code => Some(stringify!($name)),)*
                    _ => None,
                }
            }

            /// The code of a name.
            pub fn from_name(name: &str) -> Option<Self> {
                match name {
                    $(stringify!($name) => Some($name),)*
                    $(stringify!($other) => Some($other),)*
                    _ => None,
                }
            }
        }

        impl core::fmt::Display for $kind {
            fn fmt(&self, f: &mut core::fmt::Formatter<'_>) -> core::fmt::Result {
                match self.static_string() {
                    Some(name) => f.pad(name),
                    None => write!(f, concat!("Unknown ", stringify!($kind), ": {:#x}"), self.0),
                }
            }
        }

        impl core::str::FromStr for $kind {
            type Err = crate::UnknownName;

            fn from_str(name: &str) -> Result<Self, Self::Err> {
                Self::from_name(name).ok_or(crate::UnknownName)
            }
        }
    };
}
pub(crate) use codes;
