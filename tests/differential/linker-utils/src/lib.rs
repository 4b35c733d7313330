//! Wild's linker-utils, cut down to the files that the port follows. They are compiled unchanged.

// rustfmt follows these paths and would rewrite wild's files: each is skipped.
#[path = "../../../../../shared/docs/src/linker-utils/src/bit_misc.rs"]
#[rustfmt::skip]
pub mod bit_misc;
#[allow(dead_code)]
#[path = "../../../../../shared/docs/src/linker-utils/src/elf.rs"]
#[rustfmt::skip]
pub mod elf;
#[path = "../../../../../shared/docs/src/linker-utils/src/relaxation.rs"]
#[rustfmt::skip]
pub mod relaxation;
#[path = "../../../../../shared/docs/src/linker-utils/src/x86_64.rs"]
#[rustfmt::skip]
pub mod x86_64;

/// Stubs for the files of other architectures: elf.rs names these methods, nothing here calls them.
macro_rules! instruction_stubs {
    ($($name:ident),*) => {
        $(impl elf::$name {
            pub(crate) fn write_to_value(self, _value: u64, _negative: bool, _dest: &mut [u8]) {
                unimplemented!()
            }

            pub(crate) fn read_value(self, _bytes: &[u8]) -> (u64, bool) {
                unimplemented!()
            }
        })*
    };
}

instruction_stubs!(
    AArch64Instruction,
    RiscVInstruction,
    LoongArch64Instruction,
    Ppc64Instruction
);
