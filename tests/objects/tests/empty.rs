//! Pairs with empty records between their halves (data/empty.o): the port's walk and the reference's, and what both
//! must come to.

use differential::pass;
use differential::pass::BYTES;
use differential::pass::EMPTY_TYPE;
use differential::pass::NONE;
use differential::pass::SKIPPED;
use differential::pass::Step;
use jitamoro::sys::Pass;
use jitamoro::sys::StepAnswer;
use jitamoro::sys::Tally;
use objects::Linked;
use std::path::Path;

/// A static output at a fixed address.
const OUTPUT_KIND: u8 = 0;
const TLSGD: u32 = 19;
const TLSLD: u32 = 20;
const PLT32: u32 = 4;

/// What a walk comes to: what its steps and its end answer, with the pass then, the figures that aren't 0, and the bytes.
#[derive(Debug, PartialEq)]
struct Walked {
    steps: Vec<(StepAnswer, Pass)>,
    end: (u8, Pass),
    figures: Vec<(usize, u64)>,
    bytes: Vec<u8>,
}

fn walk(linked: &Linked, step: Step, end: fn(&mut Pass) -> u8) -> Walked {
    let (mut pass, mut tally) = (Pass::default(), Tally::default());
    let mut bytes = linked.section.bytes.clone();
    let records = linked.records.iter();
    let steps = records.map(|record| (step(&mut pass, &mut tally, record, &mut bytes), pass));
    let steps = steps.collect();
    let figures = tally.figures.into_iter().enumerate();
    Walked {
        steps,
        end: (end(&mut pass), pass),
        figures: figures.filter(|&(_, figure)| figure != 0).collect(),
        bytes,
    }
}

/// Both walks over a section, which must have these records and come to these figures and bytes.
fn check(name: &str, records: &[(u32, u64)], figures: &[(usize, u64)], bytes: &[u8]) {
    let data = Path::new(env!("CARGO_MANIFEST_DIR")).join("data/empty.o");
    let objects = objects::read_file(&data).expect("a file of the fixed set");
    let linked = objects::link(&objects, OUTPUT_KIND);
    let linked = linked.iter().find(|it| it.section.name == name).unwrap();
    let found = linked.records.iter().map(|it| (it.r_type, it.offset));
    assert_eq!(found.collect::<Vec<_>>(), records);
    let port = walk(linked, pass::port_tally_step, |pass| {
        jitamoro::sys::jitamoro_pass_end(pass)
    });
    assert_eq!(port, walk(linked, pass::tally_step, pass::end));
    assert_eq!((port.end.0, port.figures.as_slice()), (0, figures));
    assert_eq!(port.bytes, bytes);
}

#[test]
fn general_dynamic() {
    check(
        ".text.general",
        &[(TLSGD, 4), (EMPTY_TYPE, 8), (EMPTY_TYPE, 10), (PLT32, 12)],
        &[(10, 1), (NONE, 2), (SKIPPED, 1), (BYTES, 12)],
        b"\x64\x48\x8b\x04\x25\0\0\0\0\x48\x8d\x80\0\0\0\0",
    );
}

#[test]
fn local_dynamic() {
    check(
        ".text.local",
        &[(TLSLD, 3), (EMPTY_TYPE, 7), (EMPTY_TYPE, 7), (PLT32, 8)],
        &[(12, 1), (NONE, 2), (SKIPPED, 1), (BYTES, 12)],
        b"\x66\x66\x66\x64\x48\x8b\x04\x25\0\0\0\0",
    );
}
