//! The x86-64 relaxation part of the wild linker, proved, behind wild's own names and types.
//!
//! Every answer comes from `libjitamoro.a`; here numbers are translated and nothing is decided. Modules and
//! names are wild's, so that a call of wild's function becomes a call of this one; what wild answers by a
//! panic or by `None` for want of a row is a [`Refusal`] here, which is a sentence for a linker's user. Nothing
//! is put on the heap, and only `core` is used.
//!
//! | wild | here |
//! |---|---|
//! | `ElfX86_64::new_relaxation` | [`new_relaxation`] |
//! | `RelaxationKind::apply`, `Relaxation::apply` | [`RelaxationKind::apply`], [`Relaxation::apply`] |
//! | both, one after the other | [`relax`] |
//! | `RelocationKindInfo::write_to_buffer` and the sum before it, for four types | [`fill`] |
//! | `relocation_from_raw` | [`relocation_from_raw`] |
//! | `DynamicRelocationKind::x86_64_r_type` | [`DynamicRelocationKind::x86_64_r_type`] |
//! | `write_plt_entry`, `fill_section_padding` | [`write_plt_entry`], [`fill_section_padding`] |
//! | `object::elf::R_X86_64_PC32` and the others | [`elf::R_X86_64_PC32`] .. |
//! | `x86_64_rel_type_to_string` | [`elf::x86_64_rel_type_to_string`] |
//! | none | [`Pass`]: the records of a section, one after the other |
//! | none | [`Tally`]: what a pass did, counted |
//!
//! `mov x@GOTPCREL(%rip), %r13` with a known address becomes `mov $x, %r13`:
//!
//! ```
//! use jitamoro::{OutputKind, RelaxationKind, RelocationModel, ValueFlags, elf, new_relaxation};
//!
//! let mut section = [0x4c, 0x8b, 0x2d, 0, 0, 0, 0];
//! let (mut offset, mut addend) = (3, -4);
//! let relaxation = new_relaxation(
//!     elf::R_X86_64_REX_GOTPCRELX,
//!     &section,
//!     offset,
//!     ValueFlags::NON_INTERPOSABLE,
//!     OutputKind::StaticExecutable(RelocationModel::Fixed),
//!     true,
//!     0x401000,
//!     addend,
//! )?
//! .expect("a relaxation");
//! assert_eq!(relaxation.kind(), RelaxationKind::RexMovIndirectToAbsolute(3));
//! assert_eq!(relaxation.new_type(), elf::R_X86_64_32S);
//!
//! relaxation.apply(&mut section, &mut offset, &mut addend)?;
//! assert_eq!(section[..3], [0x49, 0xc7, 0xc5]);
//! assert_eq!((offset, addend), (3, 0));
//! # Ok::<(), jitamoro::Refusal>(())
//! ```

#![no_std]
#![deny(missing_docs, unsafe_code)]

#[cfg(not(all(
    target_arch = "x86_64",
    target_pointer_width = "64",
    not(any(windows, target_os = "uefi", target_vendor = "apple")),
)))]
compile_error!(
    "jitamoro: libjitamoro.a is x86-64 ELF code with the System V calling convention and 64-bit pointers, and this \
     target is another. Have the dependency only where it fits, as by \
     [target.'cfg(all(target_arch = \"x86_64\", target_os = \"linux\"))'.dependencies]"
);

pub mod elf;
mod elf_x86_64;
mod fill;
mod numbered;
mod output_kind;
mod pass;
mod refusal;
mod relocation;
#[allow(missing_docs, unsafe_code)]
pub mod sys;
mod tally;
mod value_flags;
mod x86_64;

pub use elf_x86_64::Record;
pub use elf_x86_64::Relaxation;
pub use elf_x86_64::Relaxed;
pub use elf_x86_64::fill_section_padding;
pub use elf_x86_64::new_relaxation;
pub use elf_x86_64::relax;
pub use elf_x86_64::write_plt_entry;
pub use fill::Field;
pub use fill::Fill;
pub use fill::fill;
pub use output_kind::OutputKind;
pub use output_kind::RelocationModel;
pub use pass::Pass;
pub use pass::Step;
pub use refusal::Refusal;
pub use relocation::AllowedRange;
pub use relocation::Bias;
pub use relocation::DynamicRelocationKind;
pub use relocation::PageMask;
pub use relocation::RelocationKind;
pub use relocation::RelocationKindInfo;
pub use relocation::RelocationSize;
pub use tally::Tally;
pub use value_flags::ValueFlags;
pub use x86_64::RelaxationKind;
pub use x86_64::RelocationModifier;
pub use x86_64::relocation_from_raw;

/// The code in README.md is tested.
#[cfg(doctest)]
#[doc = include_str!("../README.md")]
pub struct Readme;

/// The version of this crate, of `include/jitamoro.h` (`JITAMORO_VERSION`) and of the archive.
pub const VERSION: &str = env!("CARGO_PKG_VERSION");
