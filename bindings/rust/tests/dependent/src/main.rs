//! Relaxes one record and is refused another, with `core` alone; the C library starts it and writes its lines.

#![no_std]
#![no_main]

use core::fmt::Write as _;
use core::panic::PanicInfo;
use jitamoro::OutputKind;
use jitamoro::Record;
use jitamoro::RelocationModel;
use jitamoro::ValueFlags;
use jitamoro::elf::R_X86_64_TLSDESC_CALL;
use jitamoro::relax;

#[link(name = "c")]
unsafe extern "C" {
    safe fn abort() -> !;
    fn write(file: i32, bytes: *const u8, len: usize) -> isize;
}

#[panic_handler]
fn panic(_: &PanicInfo<'_>) -> ! {
    abort()
}

/// Core, as it is shipped, is built to unwind and names this; nothing here does.
#[unsafe(no_mangle)]
extern "C" fn rust_eh_personality() {}

/// Standard output.
struct Out;

impl core::fmt::Write for Out {
    fn write_str(&mut self, text: &str) -> core::fmt::Result {
        // SAFETY: a text lent by its pointer and length.
        let written = unsafe { write(1, text.as_ptr(), text.len()) };
        usize::try_from(written).map_or(Err(core::fmt::Error), |_| Ok(()))
    }
}

#[unsafe(no_mangle)]
extern "C" fn main() -> i32 {
    let mut section = [0xff, 0x10];
    for offset_in_section in [0, 1] {
        let record = Record {
            relocation_kind: R_X86_64_TLSDESC_CALL,
            offset_in_section,
            flags: ValueFlags::default(),
            output_kind: OutputKind::StaticExecutable(RelocationModel::Fixed),
            executable: true,
            sym_addr: 0,
            rel_addend: 0,
        };
        let written = match relax(&record, &mut section) {
            Ok(Some(relaxed)) => writeln!(Out, "{record}: {}", relaxed.relaxation.kind()),
            Ok(None) => writeln!(Out, "{record}: none"),
            Err(refusal) => writeln!(Out, "{record}: {refusal}"),
        };
        if written.is_err() {
            return 1;
        }
    }
    0
}
