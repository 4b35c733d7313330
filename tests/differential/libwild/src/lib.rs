//! Wild's libwild, cut down to the files that the port follows. They are compiled unchanged, over
//! stubs of the modules that they name. Only `oracle` is public.

// rustfmt follows these paths and would rewrite wild's files: each is skipped. Not by the plain
// attribute, under which rustc refuses `use crate::malfunction_point_ret`.
#![allow(clippy::deprecated_cfg_attr)]

#[allow(dead_code, clippy::single_match)]
#[path = "../../../../../shared/docs/src/libwild/src/elf_x86_64.rs"]
#[cfg_attr(rustfmt, rustfmt::skip)]
mod elf_x86_64;
#[allow(dead_code)]
#[path = "../../../../../shared/docs/src/libwild/src/error.rs"]
#[cfg_attr(rustfmt, rustfmt::skip)]
mod error;
#[path = "../../../../../shared/docs/src/libwild/src/malfunction.rs"]
#[cfg_attr(rustfmt, rustfmt::skip)]
mod malfunction;
#[allow(dead_code)]
#[path = "../../../../../shared/docs/src/libwild/src/output_kind.rs"]
#[cfg_attr(rustfmt, rustfmt::skip)]
mod output_kind;
#[allow(dead_code)]
#[path = "../../../../../shared/docs/src/libwild/src/value_flags.rs"]
#[cfg_attr(rustfmt, rustfmt::skip)]
mod value_flags;

pub mod oracle;
#[allow(dead_code)]
mod stubs;

use output_kind::OutputKind;
use std::env;
use stubs::*;
