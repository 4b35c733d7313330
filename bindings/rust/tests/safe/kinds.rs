//! Each kind that can be chosen, chosen once: what the bindings say of it is what the library says.

use crate::bytes;
use crate::choose;
use crate::record;
use jitamoro::RelaxationKind;
use jitamoro::RelaxationKind::*;
use jitamoro::RelocationKind;
use jitamoro::RelocationModifier;
use jitamoro::relocation_from_raw;

const GD: &str = "66 48 8D 3D 00 00 00 00 66 66 48 E8 00 00 00 00";
const GD_LARGE: &str = "48 8D 3D 00 00 00 00 48 B8 00 00 00 00 00 00 00 00 48 01 D8 FF D0";
const LD: &str = "48 8D 3D 00 00 00 00 E8 00 00 00 00";
const LD_NO_PLT: &str = "48 8D 3D 00 00 00 00 FF 15 00 00 00 00";

/// Kind; type, section, offset, flags (output kind 0); new type, and whether the next one is skipped.
pub type Row = (RelaxationKind, (u32, &'static str, u64, u8), (u32, bool));
pub const ROWS: [Row; 20] = [
    (MovIndirectToLea, (9, "48 8B 2D", 3, 1), (2, false)),
    (MovIndirectToAbsolute, (41, "8B 2D", 2, 1), (10, false)),
    (
        RexMovIndirectToAbsolute(3),
        (42, "48 8B 2D", 3, 1),
        (11, false),
    ),
    (
        RexMovIndirectToAbsolute(4),
        (44, "D5 48 8B 2D", 4, 1),
        (23, false),
    ),
    (
        RexAddIndirectToAbsolute(3),
        (22, "48 03 2D", 3, 1),
        (23, false),
    ),
    (
        RexAddIndirectToAbsolute(6),
        (50, "62 74 FC 10 03 25", 6, 1),
        (23, false),
    ),
    (
        RexSubIndirectToAbsolute(3),
        (42, "48 2B 2D", 3, 1),
        (11, false),
    ),
    (
        RexCmpIndirectToAbsolute(3),
        (42, "48 3B 2D", 3, 1),
        (11, false),
    ),
    (CallIndirectToRelative, (41, "FF 15", 2, 1), (2, false)),
    (JmpIndirectToRelative, (41, "FF 25", 2, 1), (2, false)),
    (NoOp, (31, "", 0, 1), (25, false)),
    (TlsGdToLocalExec, (19, GD, 4, 1), (23, true)),
    (TlsGdToLocalExecLarge, (19, GD_LARGE, 3, 1), (23, true)),
    (TlsLdToLocalExec, (20, LD, 3, 0), (0, true)),
    (TlsLdToLocalExecNoPlt, (20, LD_NO_PLT, 3, 0), (0, true)),
    (TlsLdToLocalExec64, (20, GD_LARGE, 3, 0), (0, true)),
    (TlsGdToInitialExec, (19, GD, 4, 0), (22, true)),
    (TlsDescToLocalExec(3), (34, "48 8D 05", 3, 1), (23, false)),
    (TlsDescToInitialExec, (34, "48 8D 05", 3, 0), (22, false)),
    (SkipTlsDescCall, (35, "FF 10", 0, 0), (0, false)),
];

#[test]
fn every_kind_that_can_be_chosen() {
    for (kind, (r_type, section, offset, flags), (new_type, skip)) in ROWS {
        let chosen = choose(&record(r_type, offset, flags, 0), &bytes(section));
        let relaxation = chosen.unwrap().expect("a relaxation");
        assert_eq!(relaxation.kind(), kind);
        assert_eq!(relaxation.new_type(), new_type, "{kind:?}");
        let modifier = match skip {
            true => RelocationModifier::SkipNextRelocation,
            false => RelocationModifier::Normal,
        };
        assert_eq!(relaxation.next_modifier(), modifier, "{kind:?}");
        assert_eq!(kind.next_modifier(), modifier, "{kind:?}");
        let info = relaxation.rel_info();
        assert_eq!(Ok(info), relocation_from_raw(new_type));
        let absolute = info.kind == RelocationKind::Absolute;
        assert_eq!(relaxation.needs_got_fallback(), absolute, "{kind:?}");
        assert_eq!(
            format!("{:?}", relaxation.debug_kind()),
            format!("{kind:?}")
        );
    }
    let numbers = (0..19).filter(|&n| ROWS.iter().any(|row| row.0.number() == n));
    let never_chosen = RexAddIndirectToLea(3);
    assert!(numbers.eq((0..19).filter(|&n| n != never_chosen.number())));
    assert_eq!(never_chosen.next_modifier(), RelocationModifier::Normal);
}
