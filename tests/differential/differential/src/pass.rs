//! The pass of documents 01 and 02 over wild's choosing, rewriting and modifier, answering as the port does, and its
//! tally; and the port's steps.

use crate::ask_port;
use crate::relaxation;
use crate::relaxation::REX_ADD;
use crate::relaxation::Record;
use jitamoro::sys::ChoiceAnswer;
use jitamoro::sys::Pass;
use jitamoro::sys::RelaxedAnswer;
use jitamoro::sys::StepAnswer;
use jitamoro::sys::Tally;

/// Where each kind's window begins and ends, from the offset, in the order of the kinds.
const WINDOWS: [(i64, i64); 19] = [
    (-2, -1), // MovIndirectToLea
    (-2, 0),  // MovIndirectToAbsolute
    (-3, 0),  // RexMovIndirectToAbsolute
    (-3, 0),  // RexAddIndirectToAbsolute
    (-3, 0),  // RexAddIndirectToLea
    (-3, 0),  // RexSubIndirectToAbsolute
    (-3, 0),  // RexCmpIndirectToAbsolute
    (-2, 0),  // CallIndirectToRelative
    (-2, 4),  // JmpIndirectToRelative
    (0, 0),   // NoOp
    (-4, 8),  // TlsGdToLocalExec
    (-3, 19), // TlsGdToLocalExecLarge
    (-3, 9),  // TlsLdToLocalExec
    (-3, 10), // TlsLdToLocalExecNoPlt
    (-3, 19), // TlsLdToLocalExec64
    (-4, 8),  // TlsGdToInitialExec
    (-3, 0),  // TlsDescToLocalExec
    (-2, -1), // TlsDescToInitialExec
    (0, 2),   // SkipTlsDescCall
];
const REX_ADD_WITH_6: (i64, i64) = (-5, 0);

/// The own type of an empty record, which a pending skip passes over.
pub const EMPTY_TYPE: u32 = 0;

/// Where a tally's figures stand that are no kind's.
pub const NONE: usize = 19;
pub const SKIPPED: usize = 20;
pub const BYTES: usize = 21;

/// A step with a tally, of either side.
pub type Step = fn(&mut Pass, &mut Tally, &Record, &mut [u8]) -> StepAnswer;

/// The port's step; the tally is left alone.
pub fn port_step(
    pass: &mut Pass,
    _: &mut Tally,
    record: &Record,
    section: &mut [u8],
) -> StepAnswer {
    ask_port!(pass_step, record, section, pass)
}

pub fn port_tally_step(
    pass: &mut Pass,
    tally: &mut Tally,
    record: &Record,
    section: &mut [u8],
) -> StepAnswer {
    ask_port!(tally_step, record, section, pass, tally)
}

/// One record, and what it adds to the tally.
pub fn tally_step(
    pass: &mut Pass,
    tally: &mut Tally,
    record: &Record,
    section: &mut [u8],
) -> StepAnswer {
    let answer = step(pass, record, section);
    count(tally, &answer);
    answer
}

/// One record. The section isn't copied but where the windows overlap.
pub fn step(pass: &mut Pass, record: &Record, section: &mut [u8]) -> StepAnswer {
    let refusal = refusal_before_skip(pass, record, section.len());
    if refusal != 0 {
        return refused(refusal);
    }
    if pass.pending != 0 {
        let skipped = record.r_type != EMPTY_TYPE;
        pass.last = record.offset;
        pass.pending = u64::from(!skipped);
        return StepAnswer {
            skipped,
            ..Default::default()
        };
    }
    let window = window(record.offset, &relaxation::choose(record, section));
    if window.is_some_and(|(begin, _)| begin < i128::from(pass.window)) {
        // The bytes are thrown away: wild only says whether it panics.
        let relaxed = relaxation::relax(record, &mut section.to_vec());
        let inside = relaxed.choice.refusal == 0;
        return refused(if inside { 23 } else { 6 });
    }
    let relaxed = relaxation::relax(record, section);
    if relaxed.choice.refusal != 0 {
        return refused(relaxed.choice.refusal);
    }
    pass.last = record.offset;
    if let Some((_, end)) = window {
        pass.window = u64::try_from(end).unwrap();
    }
    pass.pending = u64::from(relaxed.choice.skip_next);
    StepAnswer {
        skipped: false,
        relaxed,
    }
}

fn count(tally: &mut Tally, answer: &StepAnswer) {
    let choice = &answer.relaxed.choice;
    if choice.refusal != 0 {
        return;
    }
    let (figure, bytes) = match from_offset(choice) {
        Some((begin, end)) => (usize::from(choice.kind), end - begin),
        None if answer.skipped => (SKIPPED, 0),
        None => (NONE, 0),
    };
    for (figure, more) in [(figure, 1), (BYTES, bytes)] {
        let figure = &mut tally.figures[figure];
        *figure = figure.wrapping_add_signed(more);
    }
}

/// 0, or refusal 21 or 24.
pub fn end(pass: &mut Pass) -> u8 {
    if pass.ended != 0 {
        return 21;
    }
    if pass.pending != 0 {
        return 24;
    }
    pass.ended = 1;
    0
}

/// Refusals 21, 1 to 4 and 22, or 0.
fn refusal_before_skip(pass: &Pass, record: &Record, length: usize) -> u8 {
    if pass.ended != 0 {
        return 21;
    }
    match record.refusal(length) {
        0 if record.offset < pass.last => 22,
        refusal => refusal,
    }
}

fn refused(refusal: u8) -> StepAnswer {
    let choice = ChoiceAnswer {
        refusal,
        ..Default::default()
    };
    StepAnswer {
        skipped: false,
        relaxed: RelaxedAnswer {
            choice,
            ..Default::default()
        },
    }
}

/// The window, from the offset; none where nothing is chosen.
fn from_offset(choice: &ChoiceAnswer) -> Option<(i64, i64)> {
    match choice {
        ChoiceAnswer { chosen: false, .. } => None,
        ChoiceAnswer {
            kind: REX_ADD,
            inst_offset: 6,
            ..
        } => Some(REX_ADD_WITH_6),
        choice => Some(WINDOWS[usize::from(choice.kind)]),
    }
}

/// The window in the section; none where nothing is chosen or the window is empty.
fn window(offset: u64, choice: &ChoiceAnswer) -> Option<(i128, i128)> {
    let (begin, end) = from_offset(choice)?;
    let in_section = |place| i128::from(offset) + i128::from(place);
    (begin < end).then(|| (in_section(begin), in_section(end)))
}

#[cfg(test)]
mod tests {
    use super::*;

    #[test]
    fn windows_are_those_of_rewriting() {
        for kind in 0..19 {
            for &inst_offset in relaxation::inst_offsets(kind) {
                let choice = ChoiceAnswer {
                    chosen: true,
                    kind,
                    inst_offset,
                    ..Default::default()
                };
                let (before, after) = relaxation::window(kind, inst_offset);
                let both = (8 - i128::from(before), 8 + i128::from(after));
                assert_eq!(window(8, &choice), (both.0 < both.1).then_some(both));
            }
        }
    }

    /// A step's answer, as one that was relaxed by a kind.
    fn relaxed(kind: u8, inst_offset: u8) -> StepAnswer {
        let mut answer = StepAnswer::default();
        answer.relaxed.choice = ChoiceAnswer {
            chosen: true,
            kind,
            inst_offset,
            ..Default::default()
        };
        answer
    }

    #[test]
    fn what_is_counted() {
        let skipped = StepAnswer {
            skipped: true,
            ..Default::default()
        };
        let rows: [(StepAnswer, &[(usize, u64)]); 8] = [
            (StepAnswer::default(), &[(NONE, 1)]),
            (skipped, &[(SKIPPED, 1)]),
            (refused(23), &[]),
            (relaxed(18, 0), &[(18, 1), (BYTES, 2)]),
            (relaxed(9, 0), &[(9, 1)]),
            (relaxed(REX_ADD, 3), &[(3, 1), (BYTES, 3)]),
            (relaxed(REX_ADD, 6), &[(3, 1), (BYTES, 5)]),
            (relaxed(11, 0), &[(11, 1), (BYTES, 22)]),
        ];
        for start in [0, u64::MAX] {
            for (answer, added) in &rows {
                let mut tally = Tally {
                    figures: [start; 22],
                };
                let mut wanted = tally;
                for &(figure, more) in *added {
                    wanted.figures[figure] = start.wrapping_add(more);
                }
                count(&mut tally, answer);
                assert_eq!(tally, wanted, "{answer:?}");
            }
        }
    }

    const LENGTH: usize = 64;

    /// A call that would be relaxed.
    const CALL: Record = Record {
        r_type: 4,
        offset: 8,
        flags: 1,
        output_kind: 0,
        executable: true,
        address: 0,
        addend: -4,
    };
    const EMPTY: Record = Record {
        r_type: EMPTY_TYPE,
        ..CALL
    };

    fn pending(word: u64) -> Pass {
        Pass {
            last: 3,
            window: 12,
            pending: word,
            ended: 0,
        }
    }

    /// What a step from a pass answers, if it leaves the section alone, with the pass and the tally then.
    fn stepped(mut pass: Pass, record: &Record) -> (StepAnswer, Pass, Tally) {
        let (mut tally, mut section) = (Tally::default(), [0x48; LENGTH]);
        let answer = tally_step(&mut pass, &mut tally, record, &mut section);
        assert_eq!(section, [0x48; LENGTH]);
        (answer, pass, tally)
    }

    /// A tally with one figure raised.
    fn one(figure: usize) -> Tally {
        let mut tally = Tally::default();
        tally.figures[figure] = 1;
        tally
    }

    #[test]
    fn an_empty_record_leaves_the_skip() {
        for word in [1, 7, 1 << 32, u64::MAX] {
            for offset in [3, 8, LENGTH as u64] {
                let record = Record { offset, ..EMPTY };
                let mut after = Pass {
                    last: offset,
                    ..pending(1)
                };
                let none = (StepAnswer::default(), after, one(NONE));
                assert_eq!(stepped(pending(word), &record), none);
                assert_eq!(stepped(after, &record), none, "and the next one too");
                assert_eq!((end(&mut after), after.ended), (24, 0));
            }
        }
    }

    #[test]
    fn any_other_record_is_skipped() {
        let skipped = StepAnswer {
            skipped: true,
            ..Default::default()
        };
        // Relaxed, none by choice as its symbol is interposable, and of the types that become 0.
        for (r_type, flags) in [(4, 1), (4, 0), (20, 1), (35, 1), (256, 1), (1 << 31, 1)] {
            let record = Record {
                r_type,
                flags,
                ..CALL
            };
            let mut after = Pass {
                last: 8,
                ..pending(0)
            };
            assert_eq!(
                stepped(pending(1), &record),
                (skipped, after, one(SKIPPED)),
                "{record:?}"
            );
            assert_eq!((end(&mut after), after.ended), (0, 1));
        }
    }

    #[test]
    fn a_refused_empty_record_changes_nothing() {
        let ended = Pass {
            ended: 1,
            ..pending(7)
        };
        let with = |change: fn(&mut Record)| {
            let mut record = EMPTY;
            change(&mut record);
            record
        };
        let rows = [
            (21, ended, EMPTY),
            (2, pending(7), with(|it| it.offset = LENGTH as u64 + 1)),
            (3, pending(7), with(|it| it.flags = 16)),
            (4, pending(7), with(|it| it.output_kind = 6)),
            (22, pending(7), with(|it| it.offset = 2)),
        ];
        for (refusal, pass, record) in rows {
            let wanted = (refused(refusal), pass, Tally::default());
            assert_eq!(stepped(pass, &record), wanted);
        }
        let mut pass = pending(7);
        let mut long = vec![0; relaxation::SECTION_LIMIT + 1];
        assert_eq!(step(&mut pass, &EMPTY, &mut long), refused(1));
        assert_eq!(pass, pending(7));
    }

    #[test]
    fn an_empty_record_with_no_skip_pending() {
        let after = Pass {
            last: 8,
            ..pending(0)
        };
        let none = (StepAnswer::default(), after, one(NONE));
        assert_eq!(stepped(pending(0), &EMPTY), none);
    }

    /// The call's record lies below the last offset after an empty one past its place.
    #[test]
    fn an_empty_record_past_the_call() {
        let past = Record { offset: 9, ..EMPTY };
        let (_, pass, _) = stepped(pending(1), &past);
        assert_eq!(stepped(pass, &CALL).0, refused(22));
    }
}
