//! A tally after steps of every outcome.

use crate::bytes;
use crate::kinds;
use crate::record;
use jitamoro::Pass;
use jitamoro::Refusal;
use jitamoro::RelaxationKind;
use jitamoro::Tally;
use jitamoro::sys;

/// lea x@tlsgd(%rip), %rdi; call __tls_get_addr; mov y@GOTPCREL(%rip), %rbp; call *(%rax); the nop of such a call
const SECTION: &str = "66 48 8D 3D 00 00 00 00 66 66 48 E8 00 00 00 00 \
                       48 8B 2D 00 00 00 00 FF 10 66 90";

/// Types and offsets of records in order; the figure that each adds 1 to, and the bytes of its window.
type Row = (u32, u64, Result<(&'static str, u64), Refusal>);
const WALK: [Row; 11] = [
    (1, 0, Ok(("none", 0))),
    (19, 4, Ok(("TlsGdToLocalExec", 12))),
    (19, 3, Err(Refusal::OffsetBelowLast)),
    (4, 12, Ok(("skipped", 0))),
    (4, 12, Ok(("NoOp", 0))),
    (42, 19, Ok(("RexMovIndirectToAbsolute", 3))),
    (35, 23, Ok(("SkipTlsDescCall", 2))),
    (35, 24, Err(Refusal::WindowOverlap)),
    (35, 26, Err(Refusal::WindowNotInside)),
    (35, 28, Err(Refusal::OffsetAboveLength)),
    // These bytes stay as they are.
    (35, 25, Ok(("SkipTlsDescCall", 2))),
];

fn figures(tally: &Tally) -> Vec<(&'static str, u64)> {
    tally.figures().collect()
}

#[test]
fn a_whole_walk() {
    let (mut pass, mut section, mut tally) = (Pass::fresh(), bytes(SECTION), Tally::fresh());
    let (mut plain, mut plain_section) = (pass.clone(), section.clone());
    let mut wanted: Vec<_> = tally.figures().map(|(name, _)| (name, 0)).collect();
    assert_eq!(figures(&tally), wanted);
    for (r_type, offset, outcome) in WALK {
        let record = record(r_type, offset, 1, 0);
        let step = pass.step_tallied(&mut tally, &record, &mut section);
        assert_eq!(step, plain.step(&record, &mut plain_section));
        assert_eq!((&pass, &section), (&plain, &plain_section));
        match outcome {
            Ok((name, bytes)) => {
                assert!(step.is_ok());
                wanted.iter_mut().find(|it| it.0 == name).unwrap().1 += 1;
                wanted[21].1 += bytes;
            }
            Err(refusal) => assert_eq!(step, Err(refusal)),
        }
        assert_eq!(figures(&tally), wanted, "{record}");
    }
    assert_eq!(pass.end(), Ok(()));
    let step = pass.step_tallied(&mut tally, &record(1, 27, 1, 0), &mut section);
    assert_eq!(step, Err(Refusal::PassEnded));
    assert_eq!(figures(&tally), wanted);
    assert_eq!((tally.none(), tally.skipped(), tally.bytes()), (1, 1, 19));
    assert_eq!(
        tally.to_string(),
        "RexMovIndirectToAbsolute 1, NoOp 1, TlsGdToLocalExec 1, SkipTlsDescCall 2, \
         none 1, skipped 1, bytes in rewritten windows 19"
    );
}

/// Types and offsets; the refusal; then none, skipped, and whether a skip is pending.
type PairRow = (u32, u64, Option<Refusal>, (u64, u64, bool));
const PAIR: [PairRow; 7] = [
    (19, 4, None, (0, 0, true)),
    (0, 4, None, (1, 0, true)),
    (0, 12, None, (2, 0, true)),
    (0, 11, Some(Refusal::OffsetBelowLast), (2, 0, true)),
    (0, 28, Some(Refusal::OffsetAboveLength), (2, 0, true)),
    (4, 12, None, (2, 1, false)),
    (0, 12, None, (3, 1, false)),
];

#[test]
fn empty_records_inside_a_pair() {
    let (mut pass, mut section, mut tally) = (Pass::fresh(), bytes(SECTION), Tally::fresh());
    for (r_type, offset, refusal, (none, skipped, pending)) in PAIR {
        let before = (pass.clone(), tally.clone());
        let record = record(r_type, offset, 1, 0);
        let step = pass.step_tallied(&mut tally, &record, &mut section);
        assert_eq!(step.err(), refusal, "{record}");
        assert_eq!((&pass, &tally) == (&before.0, &before.1), refusal.is_some());
        assert_eq!((tally.none(), tally.skipped()), (none, skipped), "{record}");
        let end = pass.clone().end();
        assert_eq!(end.err(), pending.then_some(Refusal::SkipPending));
    }
    assert_eq!(
        tally.to_string(),
        "TlsGdToLocalExec 1, none 3, skipped 1, bytes in rewritten windows 12"
    );
}

/// The lengths of the windows, in the order of the rows.
const LENGTHS: [u64; 20] = [
    1, 2, 3, 3, 3, 5, 3, 3, 2, 6, 0, 12, 22, 12, 13, 22, 12, 3, 1, 2,
];

#[test]
fn every_kind_that_can_be_chosen() {
    for ((kind, (r_type, section, offset, flags), _), length) in
        kinds::ROWS.into_iter().zip(LENGTHS)
    {
        let (mut section, mut tally) = (bytes(section), Tally::fresh());
        section.resize(section.len() + 4, 0);
        let record = record(r_type, offset, flags, 0);
        let step = Pass::fresh().step_tallied(&mut tally, &record, &mut section);
        assert!(step.is_ok());
        for (number, inst_offset) in (0..19).flat_map(|n| [0, 3, 6].map(|it| (n, it))) {
            let other = RelaxationKind::from_number(number, inst_offset).unwrap();
            let counted = u64::from(number == kind.number());
            assert_eq!(tally.relaxed(other), counted, "{kind}, {other}");
        }
        let others = (tally.none(), tally.skipped(), tally.bytes());
        assert_eq!(others, (0, 0, length), "{kind}");
    }
}

#[test]
fn fresh_ones() {
    let fresh = Tally::fresh();
    assert_eq!(fresh.to_string(), "no records");
    assert_eq!(fresh, Tally::default());
    assert_eq!(sys::jitamoro_tally_fresh().figures, [0; 22]);
    let (mut tally, mut section) = (fresh.clone(), []);
    let step = Pass::fresh().step_tallied(&mut tally, &record(1, 0, 1, 0), &mut section);
    assert!(step.is_ok());
    assert_ne!(tally, fresh);
    assert_eq!(tally.to_string(), "none 1");
}

/// Figures that no walk leaves: each wraps by itself.
#[test]
fn any_figures_are_a_tally() {
    let mut section = bytes(SECTION);
    let (mut pass, mut tally) = (sys::Pass::default(), sys::Tally::default());
    tally.figures = std::array::from_fn(|figure| u64::MAX - figure as u64 / 10);
    let mut wanted = tally.figures;
    for (r_type, offset, figure, bytes) in [(1, 0, 19, 0), (19, 4, 10, 12), (4, 12, 20, 0)] {
        let answer = sys::tally_step(
            &mut pass,
            &mut tally,
            r_type,
            &mut section,
            offset,
            1,
            0,
            true,
            0,
            -4,
        );
        assert_eq!(answer.relaxed.choice.refusal, 0);
        wanted[figure] = wanted[figure].wrapping_add(1);
        wanted[21] = wanted[21].wrapping_add(bytes);
        assert_eq!(tally.figures, wanted);
    }
    assert_eq!(
        (wanted[10], wanted[19], wanted[21]),
        (u64::MAX, u64::MAX, 9)
    );
}
