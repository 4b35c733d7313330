//! value_flags.rs: the flags of a symbol, as far as relaxing asks them.

use crate::numbered::predicates;
use crate::refusal::Refusal;
use crate::refusal::check;
use crate::sys;
use core::fmt;
use core::ops::BitOr;
use core::ops::BitOrAssign;

/// Flags of a symbol, with wild's bits. Wild's other bits are kept, and change no answer.
#[derive(Debug, Clone, Copy, PartialEq, Eq, Hash, Default)]
pub struct ValueFlags(u32);

impl ValueFlags {
    /// An absolute value that won't change with the load address.
    pub const ABSOLUTE: Self = Self(1 << 0);
    /// The value is from a shared object: its address isn't known until runtime.
    pub const DYNAMIC: Self = Self(1 << 1);
    /// The value refers to an ifunc.
    pub const IFUNC: Self = Self(1 << 2);
    /// The definition of the symbol is final and can't be overridden at runtime.
    pub const NON_INTERPOSABLE: Self = Self(1 << 3);

    /// Flags with these bits, unknown ones among them.
    #[must_use]
    pub const fn from_bits_retain(bits: u32) -> Self {
        Self(bits)
    }

    /// Wild's bits.
    #[must_use]
    pub const fn bits(self) -> u32 {
        self.0
    }

    /// Whether all bits of `other` are set.
    #[must_use]
    pub const fn contains(self, other: Self) -> bool {
        self.0 & other.0 == other.0
    }

    /// The flag number: 1 non-interposable, 2 absolute, 4 dynamic, 8 ifunc. Wild has the same four bits
    /// with non-interposable last.
    #[must_use]
    pub const fn number(self) -> u8 {
        ((self.0 & 7) << 1 | self.0 >> 3 & 1) as u8
    }

    /// The flags of a flag number.
    ///
    /// # Errors
    /// [`Refusal::FlagNumber`].
    pub fn from_number(number: u8) -> Result<Self, Refusal> {
        check(sys::jitamoro_value_flags(number).refusal)?;
        Ok(Self(u32::from(number >> 1 | (number & 1) << 3)))
    }

    fn answer(self) -> sys::ValueFlagsAnswer {
        sys::jitamoro_value_flags(self.number())
    }

    predicates! {
        /// Whether the value is from a shared object.
        is_dynamic;
        /// Whether the value refers to an ifunc.
        is_ifunc;
        /// Whether the value has an address that is known at link time: it is none of ifunc, dynamic and
        /// absolute.
        has_link_time_address;
        /// Whether the value is absolute.
        is_absolute;
        /// Whether the definition can be overridden at runtime.
        is_interposable;
    }
}

/// The four flags in the order of their numbers, with the header's names.
const NAMED: [(ValueFlags, &str); 4] = [
    (ValueFlags::NON_INTERPOSABLE, "non-interposable"),
    (ValueFlags::ABSOLUTE, "absolute"),
    (ValueFlags::DYNAMIC, "dynamic"),
    (ValueFlags::IFUNC, "ifunc"),
];

/// As "non-interposable + absolute", or "none"; wild's other bits last, as a number.
impl fmt::Display for ValueFlags {
    fn fmt(&self, f: &mut fmt::Formatter<'_>) -> fmt::Result {
        if self.0 == 0 {
            return f.write_str("none");
        }
        let mut between = "";
        for (flag, name) in NAMED {
            if self.contains(flag) {
                write!(f, "{between}{name}")?;
                between = " + ";
            }
        }
        match self.0 & !0xf {
            0 => Ok(()),
            others => write!(f, "{between}{others:#x}"),
        }
    }
}

impl BitOr for ValueFlags {
    type Output = Self;

    fn bitor(self, other: Self) -> Self {
        Self(self.0 | other.0)
    }
}

impl BitOrAssign for ValueFlags {
    fn bitor_assign(&mut self, other: Self) {
        *self = *self | other;
    }
}
