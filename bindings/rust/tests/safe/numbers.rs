//! Numbers both ways, and the predicates as wild's sources have them.

use jitamoro::DynamicRelocationKind;
use jitamoro::OutputKind;
use jitamoro::RelaxationKind;
use jitamoro::RelocationKind;
use jitamoro::RelocationModel::Fixed;
use jitamoro::RelocationModel::PositionIndependent;
use jitamoro::ValueFlags;
use jitamoro::relocation_from_raw;

#[test]
fn relaxation_kinds() {
    for number in 0..19 {
        for inst_offset in [0, 3, 4, 6, 255] {
            let kind = RelaxationKind::from_number(number, inst_offset).unwrap();
            assert_eq!(kind.number(), number);
            let held = if [2, 3, 4, 5, 6, 16].contains(&number) {
                inst_offset
            } else {
                0
            };
            assert_eq!(kind.inst_offset(), held, "{kind:?}");
            assert_eq!(RelaxationKind::from_number(number, held), Some(kind));
        }
    }
    assert!((19..=255).all(|number| RelaxationKind::from_number(number, 3).is_none()));
    assert_eq!(RelaxationKind::RexCmpIndirectToAbsolute(4).number(), 6);
    assert_eq!(RelaxationKind::NoOp.number(), 9);
    assert_eq!(RelaxationKind::SkipTlsDescCall.number(), 18);
}

/// Kinds with their numbers, and: executable, static, position-independent, fixed.
const OUTPUT_KINDS: [(OutputKind, [bool; 4]); 6] = [
    (
        OutputKind::StaticExecutable(Fixed),
        [true, true, false, true],
    ),
    (
        OutputKind::StaticExecutable(PositionIndependent),
        [true, true, true, false],
    ),
    (
        OutputKind::DynamicExecutable(Fixed),
        [true, false, false, true],
    ),
    (
        OutputKind::DynamicExecutable(PositionIndependent),
        [true, false, true, false],
    ),
    (OutputKind::SharedObject, [false, false, true, false]),
    (OutputKind::PartialLink, [false, false, false, false]),
];

#[test]
fn output_kinds() {
    for (number, (kind, predicates)) in (0..).zip(OUTPUT_KINDS) {
        assert_eq!(kind.number(), number);
        assert_eq!(OutputKind::from_number(number), Ok(kind));
        let answers = [
            kind.is_executable(),
            kind.is_static_executable(),
            kind.is_position_independent(),
            kind.has_fixed_load_address(),
        ];
        assert_eq!(answers, predicates, "{kind:?}");
    }
}

#[test]
fn value_flags() {
    let singles = [
        (ValueFlags::NON_INTERPOSABLE, 1, 1 << 3),
        (ValueFlags::ABSOLUTE, 2, 1 << 0),
        (ValueFlags::DYNAMIC, 4, 1 << 1),
        (ValueFlags::IFUNC, 8, 1 << 2),
    ];
    for (flags, number, bits) in singles {
        assert_eq!((flags.number(), flags.bits()), (number, bits));
    }
    for number in 0..16 {
        let named = singles.iter().filter(|single| number & single.1 != 0);
        let sum = named.fold(ValueFlags::default(), |sum, single| sum | single.0);
        assert_eq!(ValueFlags::from_number(number), Ok(sum));
        assert_eq!(sum.number(), number);
        for (flag, one, _) in singles {
            assert_eq!(sum.contains(flag), number & one != 0);
        }
    }
}

#[test]
fn predicates_of_value_flags() {
    for bits in 0..16 {
        // Wild's other bits are kept, and change no answer.
        for others in [0, !0 << 4] {
            let flags = ValueFlags::from_bits_retain(bits | others);
            assert_eq!(flags.bits(), bits | others);
            let [absolute, dynamic, ifunc, fixed] = [1, 2, 4, 8].map(|bit| bits & bit != 0);
            assert_eq!(flags.is_absolute(), absolute);
            assert_eq!(flags.is_dynamic(), dynamic);
            assert_eq!(flags.is_ifunc(), ifunc);
            assert_eq!(flags.is_interposable(), !fixed);
            assert_eq!(
                flags.has_link_time_address(),
                !(absolute || dynamic || ifunc)
            );
        }
    }
    let mut flags = ValueFlags::ABSOLUTE;
    flags |= ValueFlags::IFUNC;
    assert!(flags.contains(ValueFlags::ABSOLUTE | ValueFlags::IFUNC));
    assert!(!flags.contains(ValueFlags::ABSOLUTE | ValueFlags::DYNAMIC));
}

/// The types of a kind, for all sixteen, as x86_64.rs has them.
const TYPES: [(RelocationKind, &[u32]); 16] = [
    (RelocationKind::Absolute, &[1, 10, 11, 12, 14]),
    (RelocationKind::SymbolSize, &[32, 33]),
    (RelocationKind::Relative, &[2, 13, 15, 24, 26, 29]),
    (RelocationKind::SymRelGotBase, &[25]),
    (RelocationKind::GotRelGotBase, &[3, 27]),
    (RelocationKind::PltRelGotBase, &[31]),
    (RelocationKind::PltRelative, &[4]),
    (RelocationKind::GotRelative, &[9, 41, 42, 43, 46, 49]),
    (RelocationKind::TlsGd, &[19]),
    (RelocationKind::TlsLd, &[20]),
    (RelocationKind::DtpOff, &[17, 21]),
    (RelocationKind::GotTpOff, &[22, 44, 47, 50]),
    (RelocationKind::TpOff, &[23]),
    (RelocationKind::TlsDesc, &[34, 45, 48, 51]),
    (RelocationKind::TlsDescCall, &[35]),
    (RelocationKind::None, &[0]),
];

#[test]
fn relocation_kinds() {
    for (number, (kind, types)) in (0..).zip(TYPES) {
        assert_eq!(kind.number(), number);
        assert_eq!(RelocationKind::from_number(number), Some(kind));
        for &r_type in types {
            let info = relocation_from_raw(r_type).unwrap();
            assert_eq!(info.kind, kind, "type {r_type}");
            assert_eq!(info.alignment, 1);
            assert!(!info.thunkable && !info.implicit_addend);
            assert_eq!((info.mask, info.bias), (None, None));
        }
    }
    assert_eq!(
        TYPES.iter().map(|(_, types)| types.len()).sum::<usize>(),
        39
    );
    assert_eq!(RelocationKind::from_number(16), None);
}

#[test]
fn dynamic_relocation_kinds() {
    let types = [
        (DynamicRelocationKind::Copy, 5),
        (DynamicRelocationKind::Irelative, 37),
        (DynamicRelocationKind::DtpMod, 16),
        (DynamicRelocationKind::DtpOff, 17),
        (DynamicRelocationKind::TlsDesc, 36),
        (DynamicRelocationKind::TpOff, 18),
        (DynamicRelocationKind::Relative, 8),
        (DynamicRelocationKind::Absolute, 1),
        (DynamicRelocationKind::GotEntry, 6),
        (DynamicRelocationKind::JumpSlot, 7),
    ];
    for (number, (kind, r_type)) in (0..).zip(types) {
        assert_eq!(kind.number(), number);
        assert_eq!(DynamicRelocationKind::from_number(number), Some(kind));
        assert_eq!(kind.x86_64_r_type(), r_type, "{kind:?}");
    }
    assert_eq!(DynamicRelocationKind::from_number(10), None);
}
