//! Numbers at the library's boundary, and what it answers for them.

/// An enum with the translation of its numbers both ways.
macro_rules! numbered {
    (
        $(#[$meta:meta])*
        pub enum $name:ident {
            $($(#[$doc:meta])* $variant:ident = $number:literal,)*
        }
    ) => {
        $(#[$meta])*
        #[derive(Debug, Clone, Copy, PartialEq, Eq, Hash)]
        #[repr(u8)]
        pub enum $name {
            $($(#[$doc])* $variant = $number,)*
        }

        impl $name {
            /// The number at the library's boundary.
            #[must_use]
            pub const fn number(self) -> u8 {
                self as u8
            }

            /// The variant with this number, if there is one.
            #[must_use]
            pub const fn from_number(number: u8) -> Option<Self> {
                match number {
                    $($number => Some(Self::$variant),)*
                    _ => None,
                }
            }
        }
    };
}
pub(crate) use numbered;

/// Predicates that stand in the answer under the same names.
macro_rules! predicates {
    ($($(#[$doc:meta])* $name:ident;)*) => {
        $(
            $(#[$doc])*
            #[must_use]
            pub fn $name(self) -> bool {
                self.answer().$name
            }
        )*
    };
}
pub(crate) use predicates;

/// What stands for a number that the library answered. Its contract rules out that there is nothing.
#[track_caller]
pub(crate) fn answered<T>(found: Option<T>, what: &str, number: u8) -> T {
    found.unwrap_or_else(|| panic!("libjitamoro.a answered {what} {number}, against its contract"))
}
