//! A walk over a section with a thread-local sequence, a GOT load and two calls of a descriptor.

use crate::bytes;
use crate::choose;
use crate::record;
use jitamoro::Pass;
use jitamoro::Refusal;
use jitamoro::RelaxationKind;
use jitamoro::Step;
use jitamoro::sys;

/// lea x@tlsgd(%rip), %rdi; call __tls_get_addr; mov y@GOTPCREL(%rip), %rbp; call *(%rax), twice
const SECTION: &str = "66 48 8D 3D 00 00 00 00 66 66 48 E8 00 00 00 00 \
                       48 8B 2D 00 00 00 00 FF 10 FF 10";
/// As a static executable has it: mov %fs:0, %rax; lea x@tpoff(%rax), %rax; mov $y, %rbp; two nops
const RELAXED: &str = "64 48 8B 04 25 00 00 00 00 48 8D 80 00 00 00 00 \
                       48 C7 C5 00 00 00 00 66 90 66 90";

/// The section's records are of symbols that can't be interposed, in a static executable with a fixed address.
struct Walk {
    pass: Pass,
    section: Vec<u8>,
}

impl Walk {
    fn fresh() -> Self {
        Self {
            pass: Pass::fresh(),
            section: bytes(SECTION),
        }
    }

    /// A step, of which a refusal must leave pass and section as they are.
    fn step(&mut self, r_type: u32, offset: u64) -> Result<Step, Refusal> {
        let before = (self.pass.clone(), self.section.clone());
        let record = record(r_type, offset, 1, 0);
        let step = self.pass.step(&record, &mut self.section);
        if step.is_err() {
            assert_eq!((&self.pass, &self.section), (&before.0, &before.1));
        }
        step
    }

    #[track_caller]
    fn relaxes(&mut self, r_type: u32, offset: u64, kind: RelaxationKind, new_offset: u64) {
        match self.step(r_type, offset) {
            Ok(Step::Relaxed(relaxed)) => {
                assert_eq!(relaxed.relaxation.kind(), kind);
                assert_eq!(relaxed.offset_in_section, new_offset);
            }
            other => panic!("{other:?}"),
        }
    }

    /// An ending, of which a refusal must leave the pass as it is.
    fn end(&mut self) -> Result<(), Refusal> {
        let before = self.pass.clone();
        let end = self.pass.end();
        assert_eq!(before == self.pass, end.is_err());
        end
    }
}

#[test]
fn a_whole_walk() {
    let mut walk = Walk::fresh();
    assert_eq!(walk.step(1, 0), Ok(Step::Nothing));
    walk.relaxes(19, 4, RelaxationKind::TlsGdToLocalExec, 12);
    assert_eq!(walk.end(), Err(Refusal::SkipPending));
    assert_eq!(walk.step(4, 12), Ok(Step::Skipped));
    assert_eq!(walk.step(4, 11), Err(Refusal::OffsetBelowLast));
    walk.relaxes(42, 19, RelaxationKind::RexMovIndirectToAbsolute(3), 19);
    walk.relaxes(35, 23, RelaxationKind::SkipTlsDescCall, 23);
    assert_eq!(walk.step(35, 24), Err(Refusal::WindowOverlap));
    assert_eq!(walk.step(35, 26), Err(Refusal::WindowNotInside));
    assert_eq!(walk.step(35, 28), Err(Refusal::OffsetAboveLength));
    walk.relaxes(35, 25, RelaxationKind::SkipTlsDescCall, 25);
    assert_eq!(walk.section, bytes(RELAXED));
    assert_eq!(walk.end(), Ok(()));
    assert_eq!(walk.end(), Err(Refusal::PassEnded));
    assert_eq!(walk.step(1, 27), Err(Refusal::PassEnded));
}

#[test]
fn a_skipped_record_changes_no_byte() {
    let mut walk = Walk::fresh();
    walk.relaxes(19, 4, RelaxationKind::TlsGdToLocalExec, 12);
    let section = walk.section.clone();
    // Alone it would be relaxed.
    assert_eq!(walk.step(42, 19), Ok(Step::Skipped));
    assert_eq!(walk.section, section);
    walk.relaxes(42, 19, RelaxationKind::RexMovIndirectToAbsolute(3), 19);
}

/// Each is none, and the skip waits for the call.
#[test]
fn empty_records_inside_a_pair() {
    let mut walk = Walk::fresh();
    walk.relaxes(19, 4, RelaxationKind::TlsGdToLocalExec, 12);
    let section = walk.section.clone();
    for offset in [4, 12] {
        assert_eq!(walk.step(0, offset), Ok(Step::Nothing));
        assert_eq!(walk.end(), Err(Refusal::SkipPending));
    }
    assert_eq!(walk.step(0, 11), Err(Refusal::OffsetBelowLast));
    assert_eq!(walk.step(0, 28), Err(Refusal::OffsetAboveLength));
    assert_eq!(walk.end(), Err(Refusal::SkipPending));
    assert_eq!(walk.step(4, 12), Ok(Step::Skipped));
    assert_eq!(walk.section, section);
    assert_eq!(walk.step(0, 12), Ok(Step::Nothing));
    assert_eq!(walk.end(), Ok(()));
    assert_eq!(walk.step(0, 12), Err(Refusal::PassEnded));
}

/// Its own type alone makes a record empty: not that nothing is chosen for it (1, 256), nor that it becomes one of type
/// 0 (35).
#[test]
fn other_records_after_an_empty_one() {
    for (r_type, chosen) in [(1, false), (256, false), (1 << 31, false), (35, true)] {
        let mut walk = Walk::fresh();
        let choice = choose(&record(r_type, 23, 1, 0), &walk.section).unwrap();
        assert_eq!(choice.map(|it| it.new_type()), chosen.then_some(0));
        walk.relaxes(19, 4, RelaxationKind::TlsGdToLocalExec, 12);
        assert_eq!(walk.step(0, 12), Ok(Step::Nothing));
        assert_eq!(walk.step(r_type, 23), Ok(Step::Skipped));
        assert_eq!(walk.end(), Ok(()));
    }
}

#[test]
fn an_empty_window_is_no_overlap() {
    let mut walk = Walk::fresh();
    walk.relaxes(35, 23, RelaxationKind::SkipTlsDescCall, 23);
    walk.relaxes(4, 24, RelaxationKind::NoOp, 24);
    assert_eq!(walk.step(35, 24), Err(Refusal::WindowOverlap));
}

/// A step over a symbol that can't be interposed, in a static executable with a fixed address, as C sees it.
fn raw_step(pass: &mut sys::Pass, r_type: u32, section: &mut [u8], offset: u64) -> sys::StepAnswer {
    sys::pass_step(pass, r_type, section, offset, 1, 0, true, 0, -4)
}

fn pass(last: u64, window: u64, pending: u64, ended: u64) -> sys::Pass {
    sys::Pass {
        last,
        window,
        pending,
        ended,
    }
}

/// No two words that aren't 0 are equal, so that none can stand in another's place.
#[test]
fn every_field_of_a_pass() {
    let mut section = bytes(SECTION);
    let mut walked = sys::jitamoro_pass_fresh();
    assert_eq!(walked, pass(0, 0, 0, 0));
    let sequence = raw_step(&mut walked, 19, &mut section, 4);
    assert_eq!(walked, pass(4, 12, 1, 0));
    assert!(sequence.relaxed.choice.chosen && !sequence.skipped);
    assert_eq!(sys::jitamoro_pass_end(&mut walked), 24);
    assert_eq!(walked, pass(4, 12, 1, 0));
    let empty = raw_step(&mut walked, 0, &mut section, 9);
    assert_eq!(empty, sys::StepAnswer::default());
    assert_eq!(walked, pass(9, 12, 1, 0));
    assert!(raw_step(&mut walked, 4, &mut section, 14).skipped);
    assert_eq!(walked, pass(14, 12, 0, 0));
    assert_eq!(sys::jitamoro_pass_end(&mut walked), 0);
    assert_eq!(walked, pass(14, 12, 0, 1));
}

/// While a skip is pending, with a tally and without; it stays pending. 21 stands below.
#[test]
fn refusals_of_an_empty_record() {
    let (mut section, mut long) = (bytes(SECTION), vec![0; 268_435_457]);
    for (refusal, offset, flags, output_kind) in [
        (1, 12, 16, 6),
        (2, 28, 16, 6),
        (3, 3, 16, 6),
        (4, 3, 1, 6),
        (22, 3, 1, 0),
    ] {
        let lent = if refusal == 1 {
            &mut long
        } else {
            &mut section
        };
        let (mut plain, mut tallied) = (pass(4, 12, 1, 0), pass(4, 12, 1, 0));
        let mut tally = sys::Tally::default();
        let answers = [
            sys::pass_step(&mut plain, 0, lent, offset, flags, output_kind, true, 0, -4),
            sys::tally_step(
                &mut tallied,
                &mut tally,
                0,
                lent,
                offset,
                flags,
                output_kind,
                true,
                0,
                -4,
            ),
        ];
        assert_eq!(answers.map(|it| it.relaxed.choice.refusal), [refusal; 2]);
        assert_eq!([plain, tallied], [pass(4, 12, 1, 0); 2]);
        assert_eq!(tally, sys::Tally::default());
    }
}

/// Passes that no walk leaves: each word is read as what it is called, and any but 0 is a yes.
#[test]
fn any_words_are_a_pass() {
    let mut section = bytes(SECTION);
    for yes in [1, 7, 255, 256, 1 << 32, 1 << 63, u64::MAX] {
        let mut far = pass(3, 1 << 40, yes, 0);
        assert_eq!(sys::jitamoro_pass_end(&mut far), 24);
        assert_eq!(far, pass(3, 1 << 40, yes, 0));
        let mut empty = far;
        assert!(!raw_step(&mut empty, 0, &mut section, 4).skipped);
        assert_eq!(empty, pass(4, 1 << 40, 1, 0));
        assert!(raw_step(&mut far, 1, &mut section, 5).skipped);
        assert_eq!(far, pass(5, 1 << 40, 0, 0));
        for (given, refusal) in [
            (pass(1 << 40, 3, yes, 0), 22),
            (pass(7, 9, 0, yes), 21),
            (pass(1 << 40, 9, yes, yes), 21),
        ] {
            for r_type in [0, 1] {
                let mut refused = given;
                let answer = raw_step(&mut refused, r_type, &mut section, 5);
                assert_eq!(answer.relaxed.choice.refusal, refusal);
                assert_eq!(refused, given);
            }
        }
        let mut ended = pass(7, 9, yes, yes);
        assert_eq!(sys::jitamoro_pass_end(&mut ended), 21);
        assert_eq!(ended, pass(7, 9, yes, yes));
    }
}
