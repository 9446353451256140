//! The flags of a pattern.

use crate::numbers;
use std::fmt;
use std::ops::{BitAnd, BitOr, BitOrAssign, Sub};

/// The flags that a pattern is parsed under: a set, with the functions that the crate `bitflags` would give it.
///
/// [`UNICODE`](Flags::UNICODE) is the usual one.
///
/// ```
/// use fancy_syntax::Flags;
/// let flags = Flags::UNICODE | Flags::CASEI;
/// assert!(flags.contains(Flags::CASEI) && !flags.contains(Flags::MULTI));
/// assert_eq!(flags - Flags::CASEI, Flags::UNICODE);
/// assert_eq!(flags & Flags::CASEI, Flags::CASEI);
/// assert_eq!(format!("{flags:?}"), "Flags(CASEI | UNICODE)");
/// ```
#[derive(Clone, Copy, PartialEq, Eq, Hash, PartialOrd, Ord)]
pub struct Flags(u32);

impl Flags {
    // ---- constants: made by tools/bindings from include/fancy.toml
    /// Case-insensitive.
    pub const CASEI: Flags = Flags(numbers::FLAG_CASEI);
    /// `^` and `$` match at line breaks too.
    pub const MULTI: Flags = Flags(numbers::FLAG_MULTI);
    /// `.` matches a line feed too.
    pub const DOTNL: Flags = Flags(numbers::FLAG_DOTNL);
    /// Quantifiers are lazy, and greedy with a `?` after them.
    pub const SWAP_GREED: Flags = Flags(numbers::FLAG_SWAP_GREED);
    /// Whitespace and comments from `#` to the end of a line are ignored.
    pub const IGNORE_SPACE: Flags = Flags(numbers::FLAG_IGNORE_SPACE);
    /// `\p{alnum}` and the like, `\x80` to `\xFF` and `\R` are those of Unicode.
    pub const UNICODE: Flags = Flags(numbers::FLAG_UNICODE);
    /// CR is a line terminator too, and CR LF a single one.
    pub const CRLF: Flags = Flags(numbers::FLAG_CRLF);
    /// The pattern is in Oniguruma's syntax.
    pub const ONIGURUMA_MODE: Flags = Flags(numbers::FLAG_ONIGURUMA_MODE);
    /// If some group has a name, groups without a name have no number.
    pub const IGNORE_NUMBERED_GROUPS_WHEN_NAMED_GROUPS_EXIST: Flags =
        Flags(numbers::FLAG_IGNORE_NUMBERED_GROUPS_WHEN_NAMED_GROUPS_EXIST);

    const NAMES: [&'static str; 9] = [
        "CASEI",
        "MULTI",
        "DOTNL",
        "SWAP_GREED",
        "IGNORE_SPACE",
        "UNICODE",
        "CRLF",
        "ONIGURUMA_MODE",
        "IGNORE_NUMBERED_GROUPS_WHEN_NAMED_GROUPS_EXIST",
    ];
    // ---- end of constants

    /// No flag.
    ///
    /// ```
    /// # use fancy_syntax::Flags;
    /// assert_eq!(Flags::empty().bits(), 0);
    /// ```
    pub const fn empty() -> Flags {
        Flags(0)
    }

    /// Every flag.
    ///
    /// ```
    /// # use fancy_syntax::Flags;
    /// assert!(Flags::all().contains(Flags::CRLF | Flags::DOTNL));
    /// ```
    pub const fn all() -> Flags {
        Flags((1 << Flags::NAMES.len()) - 1)
    }

    /// The flags as the bits of a number, which are those of `fancy.h` and of fancy-regex.
    ///
    /// ```
    /// # use fancy_syntax::Flags;
    /// assert_eq!((Flags::CASEI | Flags::UNICODE).bits(), 33);
    /// ```
    pub const fn bits(self) -> u32 {
        self.0
    }

    /// The flags with these bits; `None` if a bit is no flag.
    ///
    /// ```
    /// # use fancy_syntax::Flags;
    /// assert_eq!(Flags::from_bits(32), Some(Flags::UNICODE));
    /// assert_eq!(Flags::from_bits(1 << 31), None);
    /// ```
    pub const fn from_bits(bits: u32) -> Option<Flags> {
        if bits & !Flags::all().0 == 0 {
            Some(Flags(bits))
        } else {
            None
        }
    }

    /// The flags with these bits. Bits that are no flag are dropped.
    ///
    /// ```
    /// # use fancy_syntax::Flags;
    /// assert_eq!(Flags::from_bits_truncate(1 << 31 | 32), Flags::UNICODE);
    /// ```
    pub const fn from_bits_truncate(bits: u32) -> Flags {
        Flags(bits & Flags::all().0)
    }

    /// Whether there is no flag.
    ///
    /// ```
    /// # use fancy_syntax::Flags;
    /// assert!(Flags::empty().is_empty() && !Flags::MULTI.is_empty());
    /// ```
    pub const fn is_empty(self) -> bool {
        self.0 == 0
    }

    /// Whether each of the other flags is among these.
    ///
    /// ```
    /// # use fancy_syntax::Flags;
    /// assert!(Flags::all().contains(Flags::MULTI));
    /// ```
    pub const fn contains(self, other: Flags) -> bool {
        self.0 & other.0 == other.0
    }

    /// Adds flags.
    ///
    /// ```
    /// # use fancy_syntax::Flags;
    /// let mut flags = Flags::UNICODE;
    /// flags.insert(Flags::DOTNL);
    /// assert_eq!(flags, Flags::UNICODE | Flags::DOTNL);
    /// ```
    pub fn insert(&mut self, other: Flags) {
        self.0 |= other.0;
    }

    /// Removes flags.
    ///
    /// ```
    /// # use fancy_syntax::Flags;
    /// let mut flags = Flags::UNICODE | Flags::DOTNL;
    /// flags.remove(Flags::DOTNL);
    /// assert_eq!(flags, Flags::UNICODE);
    /// ```
    pub fn remove(&mut self, other: Flags) {
        self.0 &= !other.0;
    }
}

impl BitOr for Flags {
    type Output = Flags;

    fn bitor(self, other: Flags) -> Flags {
        Flags(self.0 | other.0)
    }
}

impl BitOrAssign for Flags {
    fn bitor_assign(&mut self, other: Flags) {
        self.insert(other);
    }
}

impl BitAnd for Flags {
    type Output = Flags;

    fn bitand(self, other: Flags) -> Flags {
        Flags(self.0 & other.0)
    }
}

impl Sub for Flags {
    type Output = Flags;

    fn sub(self, other: Flags) -> Flags {
        Flags(self.0 & !other.0)
    }
}

impl fmt::Debug for Flags {
    fn fmt(&self, f: &mut fmt::Formatter<'_>) -> fmt::Result {
        let named = Flags::NAMES.iter().enumerate();
        let set = named.filter(|(bit, _)| self.0 >> bit & 1 == 1).map(|(_, name)| *name);
        write!(f, "Flags({})", set.collect::<Vec<_>>().join(" | "))
    }
}
