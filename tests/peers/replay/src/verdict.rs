//! How the port's section stands to the peer's.

use crate::case::Case;
use crate::fill::Left;
use crate::fill::blank;
use crate::fill::by_type;
use crate::fill::filled;
use crate::port::Relaxed;
use crate::port::relax;

/// In the order of the columns that are printed.
pub const VERDICTS: [&str; 9] = [
    "same",
    "both-keep",
    "same-code",
    "peer-keeps",
    "port-keeps",
    "other",
    "peer-refuses",
    "port-refuses",
    "port-overflows",
];

/// The verdict; and how many fields of each of `FILLED_TYPES` the port filled with the peer's own bytes.
pub fn verdict(case: &Case) -> (&'static str, [usize; 4]) {
    let Some(after) = &case.after else {
        return ("peer-refuses", [0; 4]);
    };
    let Ok(port) = relax(case) else {
        return ("port-refuses", [0; 4]);
    };
    let overflows = |left: &Left| left.overflows(&port.section, case);
    if port.left.iter().any(overflows) {
        return ("port-overflows", [0; 4]);
    }
    if filled(&port.section, &port.left, case).as_deref() != Some(after) {
        return (differs(case, &port, after), [0; 4]);
    }
    let name = match port.chosen || port.rewritten {
        true => "same",
        false => "both-keep",
    };
    (name, by_type(&port.left))
}

/// The port's section isn't the peer's.
fn differs(case: &Case, port: &Relaxed, after: &[u8]) -> &'static str {
    let original: Vec<Left> = case.records.iter().map(Left::unchanged).collect();
    let untouched = blank(after, &original) == blank(&case.before, &original);
    if port.rewritten {
        rewritten(port, after, untouched)
    } else if !untouched {
        "port-keeps"
    } else if port.chosen && filled(&case.before, &original, case).as_deref() == Some(after) {
        // With NoOp the field alone tells.
        "peer-keeps"
    } else {
        "same-code"
    }
}

/// The port wrote code, which isn't the peer's with the same fields.
fn rewritten(port: &Relaxed, after: &[u8], untouched: bool) -> &'static str {
    if blank(&port.section, &port.left) == blank(after, &port.left) {
        "same-code"
    } else if untouched {
        "peer-keeps"
    } else {
        "other"
    }
}
