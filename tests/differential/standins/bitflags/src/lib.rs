//! Stands in for `bitflags`: the operations that wild's `ValueFlags` uses.

#[macro_export]
macro_rules! bitflags {
    (
        $(#[$attribute:meta])*
        $visibility:vis struct $name:ident: u32 {
            $($(#[$flag_attribute:meta])* const $flag:ident = $value:expr;)*
        }
    ) => {
        $(#[$attribute])*
        $visibility struct $name(u32);

        impl $name {
            $($(#[$flag_attribute])* $visibility const $flag: Self = Self($value);)*

            $visibility const fn empty() -> Self {
                Self(0)
            }

            $visibility const fn from_bits_retain(bits: u32) -> Self {
                Self(bits)
            }

            $visibility const fn bits(&self) -> u32 {
                self.0
            }

            $visibility const fn is_empty(&self) -> bool {
                self.0 == 0
            }

            $visibility const fn contains(&self, other: Self) -> bool {
                self.0 & other.0 == other.0
            }

            $visibility const fn intersection(self, other: Self) -> Self {
                Self(self.0 & other.0)
            }
        }

        impl ::std::ops::BitOr for $name {
            type Output = Self;

            fn bitor(self, other: Self) -> Self {
                Self(self.0 | other.0)
            }
        }

        impl ::std::ops::BitOrAssign for $name {
            fn bitor_assign(&mut self, other: Self) {
                self.0 |= other.0;
            }
        }

        impl $crate::Flags for $name {
            fn bits(&self) -> u32 {
                self.0
            }
        }
    };
}

pub trait Flags {
    fn bits(&self) -> u32;
}

pub mod parser {
    use std::fmt;

    /// Writes the bits as a number; the real one writes the flags' names.
    pub fn to_writer(flags: &impl crate::Flags, mut writer: impl fmt::Write) -> fmt::Result {
        write!(writer, "{:#x}", flags.bits())
    }
}
