//! What the programs share: numbers at random, and wild's answers in the port's numbers.

use jitamoro::sys::RelocationAnswer;
use libwild::oracle;
use libwild::oracle::AllowedRange;
use libwild::oracle::DynamicRelocationKind;
use libwild::oracle::RelocationKind;
use libwild::oracle::RelocationSize;
use std::panic;
use std::panic::AssertUnwindSafe;

pub mod at_random;
pub mod case_file;
pub mod fill;
pub mod pass;
pub mod relaxation;
pub mod sequences;

pub use jitamoro::sys;

/// Calls one of the port's functions on a record, a section, and what else it is lent.
#[macro_export]
macro_rules! ask_port {
    ($function:ident, $record:expr, $section:expr $(, $lent:expr)*) => {
        $crate::sys::$function(
            $($lent,)*
            $record.r_type,
            $section,
            $record.offset,
            $record.flags,
            $record.output_kind,
            $record.executable,
            $record.address,
            $record.addend,
        )
    };
}

/// The types that document 01 says the lookup knows.
pub const KNOWN_TYPES: [u32; 39] = [
    0, 1, 2, 3, 4, 9, 10, 11, 12, 13, 14, 15, 17, 19, 20, 21, 22, 23, 24, 25, 26, 27, 29, 31, 32,
    33, 34, 35, 41, 42, 43, 44, 45, 46, 47, 48, 49, 50, 51,
];

/// The kinds that x86-64 uses, in the order of wild's enum. The port numbers them from 0.
const KINDS: [RelocationKind; 16] = [
    RelocationKind::Absolute,
    RelocationKind::SymbolSize,
    RelocationKind::Relative,
    RelocationKind::SymRelGotBase,
    RelocationKind::GotRelGotBase,
    RelocationKind::PltRelGotBase,
    RelocationKind::PltRelative,
    RelocationKind::GotRelative,
    RelocationKind::TlsGd,
    RelocationKind::TlsLd,
    RelocationKind::DtpOff,
    RelocationKind::GotTpOff,
    RelocationKind::TpOff,
    RelocationKind::TlsDesc,
    RelocationKind::TlsDescCall,
    RelocationKind::None,
];

pub fn kind_number(kind: RelocationKind) -> u8 {
    let place = KINDS.iter().position(|&known| known == kind);
    place.expect("a kind that x86-64 uses") as u8
}

pub fn byte_size(size: RelocationSize) -> u8 {
    match size {
        RelocationSize::ByteSize(bytes) => bytes,
        RelocationSize::BitMasking(_) => panic!("x86-64 has whole bytes only"),
    }
}

/// Wild's row of a type, as the port gives it: an unchecked range is `checked` false with both ends 0.
pub fn lookup(r_type: u32) -> RelocationAnswer {
    let Some(info) = oracle::relocation_from_raw(r_type) else {
        return RelocationAnswer {
            refusal: 7,
            ..Default::default()
        };
    };
    let checked = info.range != AllowedRange::no_check();
    let end = |end| if checked { end } else { 0 };
    RelocationAnswer {
        refusal: 0,
        kind: kind_number(info.kind),
        size: byte_size(info.size),
        checked,
        mask: info.mask.is_some(),
        alignment: info.alignment,
        bias: info.bias.is_some(),
        thunkable: info.thunkable,
        implicit_addend: info.implicit_addend,
        min: end(info.range.min),
        max: end(info.range.max),
    }
}

/// The dynamic relocation kinds in the order of wild's enum. The port numbers them from 0.
pub const DYNAMIC_KINDS: [DynamicRelocationKind; 10] = [
    DynamicRelocationKind::Copy,
    DynamicRelocationKind::Irelative,
    DynamicRelocationKind::DtpMod,
    DynamicRelocationKind::DtpOff,
    DynamicRelocationKind::TlsDesc,
    DynamicRelocationKind::TpOff,
    DynamicRelocationKind::Relative,
    DynamicRelocationKind::Absolute,
    DynamicRelocationKind::GotEntry,
    DynamicRelocationKind::JumpSlot,
];

/// Wild's `write_plt_entry`, answering as the port does: 0, 8 for a panic, 9 for an error.
pub fn write_plt_entry(plt_entry: &mut [u8], got_address: u64, plt_address: u64) -> u8 {
    let call = || oracle::write_plt_entry(plt_entry, got_address, plt_address);
    match panic::catch_unwind(AssertUnwindSafe(call)) {
        Ok(Ok(())) => 0,
        Ok(Err(_)) => 9,
        Err(_) => 8,
    }
}

/// Panics in wild's files are answers: only the others are printed.
pub fn silence_wild_panics() {
    let print = panic::take_hook();
    panic::set_hook(Box::new(move |panic| {
        let in_wild = |file: &str| file.contains("shared/docs/src/");
        if !panic.location().is_some_and(|place| in_wild(place.file())) {
            print(panic);
        }
    }));
}

/// Splitmix64.
pub struct Random(u64);

impl Random {
    pub fn new(seed: u64) -> Self {
        Self(seed)
    }

    pub fn word(&mut self) -> u64 {
        self.0 = self.0.wrapping_add(0x9e37_79b9_7f4a_7c15);
        let mixed = (self.0 ^ (self.0 >> 30)).wrapping_mul(0xbf58_476d_1ce4_e5b9);
        let mixed = (mixed ^ (mixed >> 27)).wrapping_mul(0x94d0_49bb_1331_11eb);
        mixed ^ (mixed >> 31)
    }

    /// A number of at most `bits` bits and a sign, of any magnitude.
    pub fn signed(&mut self, bits: u32) -> i64 {
        let magnitude = self.word() % u64::from(bits) + 1;
        let number = (self.word() >> (64 - magnitude)) as i64;
        if self.word().is_multiple_of(2) {
            number
        } else {
            number.wrapping_neg()
        }
    }

    pub fn fill(&mut self, bytes: &mut [u8]) {
        for part in bytes.chunks_mut(8) {
            part.copy_from_slice(&self.word().to_le_bytes()[..part.len()]);
        }
    }
}

/// The numbers from `centre - reach` to `centre + reach`, wrapping.
pub fn around(centre: i64, reach: i64) -> impl Iterator<Item = i64> {
    (-reach..=reach).map(move |step| centre.wrapping_add(step))
}

/// The distances from PLT to GOT where reach ends, both ends: the jump's own end is 10 bytes on.
pub fn plt_reach_edges() -> impl Iterator<Item = u64> {
    [10 + (1 << 31), 10 - (1 << 31)]
        .into_iter()
        .flat_map(|edge| around(edge, 3))
        .map(|distance| distance as u64)
}
