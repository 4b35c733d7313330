//! output_kind.rs, and the relocation model of args.rs.

use crate::numbered::predicates;
use crate::refusal::Refusal;
use crate::refusal::check;
use crate::sys;
use core::fmt;

/// Whether an executable's load address is fixed.
#[derive(Debug, Clone, Copy, PartialEq, Eq, Hash)]
pub enum RelocationModel {
    /// The load address is fixed.
    Fixed,
    /// The load address isn't known until runtime.
    PositionIndependent,
}

/// What is being linked.
#[derive(Debug, Clone, Copy, PartialEq, Eq, Hash)]
pub enum OutputKind {
    /// A static executable.
    StaticExecutable(RelocationModel),
    /// A dynamically linked executable.
    DynamicExecutable(RelocationModel),
    /// A shared object.
    SharedObject,
    /// A relocatable object.
    PartialLink,
}

/// The output kinds in the order of their numbers, with the header's names.
const NUMBERED: [(OutputKind, &str); 6] = {
    use OutputKind::*;
    use RelocationModel::*;
    [
        (StaticExecutable(Fixed), "static fixed"),
        (
            StaticExecutable(PositionIndependent),
            "static position-independent",
        ),
        (DynamicExecutable(Fixed), "dynamic fixed"),
        (
            DynamicExecutable(PositionIndependent),
            "dynamic position-independent",
        ),
        (SharedObject, "shared object"),
        (PartialLink, "partial link"),
    ]
};

impl OutputKind {
    /// The output kind's number, 0 to 5.
    #[must_use]
    pub const fn number(self) -> u8 {
        match self {
            Self::StaticExecutable(model) => model as u8,
            Self::DynamicExecutable(model) => 2 + model as u8,
            Self::SharedObject => 4,
            Self::PartialLink => 5,
        }
    }

    /// The output kind with this number.
    ///
    /// # Errors
    /// [`Refusal::OutputKindNumber`].
    pub fn from_number(number: u8) -> Result<Self, Refusal> {
        check(sys::jitamoro_output_kind(number).refusal)?;
        Ok(NUMBERED[usize::from(number)].0)
    }

    /// The output kind for messages, as "static position-independent".
    #[must_use]
    pub const fn name(self) -> &'static str {
        NUMBERED[self.number() as usize].1
    }

    fn answer(self) -> sys::OutputKindAnswer {
        sys::jitamoro_output_kind(self.number())
    }

    predicates! {
        /// Whether the output is an executable.
        is_executable;
        /// Whether the output is a static executable.
        is_static_executable;
        /// Whether the output can be loaded at any address: a shared object or a position-independent
        /// executable.
        is_position_independent;
        /// Whether the output is an executable with a fixed load address.
        has_fixed_load_address;
    }
}

impl fmt::Display for OutputKind {
    fn fmt(&self, f: &mut fmt::Formatter<'_>) -> fmt::Result {
        f.pad(self.name())
    }
}
