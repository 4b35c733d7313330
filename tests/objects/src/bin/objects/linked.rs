//! The records as they would be linked: each alone, and in a pass over its section, with their fields filled.

use crate::comparison::Comparison;
use crate::comparison::Hex;
use crate::comparison::describe;
use crate::comparison::near;
use crate::comparison::place;
use differential::ask_port;
use differential::fill;
use differential::fill::Field;
use differential::pass;
use differential::relaxation;
use differential::relaxation::Record;
use jitamoro::sys::Pass;
use jitamoro::sys::RelaxedAnswer;
use jitamoro::sys::Tally;
use objects::Linked;
use objects::Object;

/// A walk over a section.
#[derive(Clone)]
struct Walk {
    pass: Pass,
    bytes: Vec<u8>,
}

impl Walk {
    fn new(linked: &Linked, pass: Pass) -> Self {
        let bytes = linked.section.bytes.clone();
        Self { pass, bytes }
    }
}

/// The field that is left to fill after relaxing gave an answer; none after a refusal.
fn field(linked: &Linked, record: &Record, answer: &RelaxedAnswer) -> Option<Field> {
    let choice = &answer.choice;
    if choice.refusal != 0 {
        return None;
    }
    let (r_type, offset, addend) = match choice.chosen {
        true => (choice.new_type, answer.offset, answer.addend),
        false => (record.r_type, record.offset, record.addend),
    };
    let base = if r_type == 23 {
        linked.thread_pointer
    } else {
        0
    };
    Some(Field {
        r_type,
        offset,
        place: linked.address.wrapping_add(offset),
        value: record.address.wrapping_sub(base),
        addend,
    })
}

impl Comparison {
    pub fn as_linked(&mut self, objects: &[Object], output_kind: u8) {
        for linked in objects::link(objects, output_kind) {
            self.alone(&linked);
            self.pass(&linked);
        }
    }

    /// Each record in the section as it was. The bytes near it are compared after each, the whole
    /// section after the last.
    fn alone(&mut self, linked: &Linked) {
        let before = &linked.section.bytes;
        let (mut port, mut rust) = (before.clone(), before.clone());
        for record in &linked.records {
            let port_answer = ask_port!(relax, record, &mut port);
            let rust_answer = relaxation::relax(record, &mut rust);
            let near = near(record.offset, before.len());
            self.compare(
                (port_answer, Hex(&port[near.clone()])),
                (rust_answer, Hex(&rust[near.clone()])),
                || describe("relaxing", linked.object, linked.section, record),
            );
            if let Some(field) = field(linked, record, &rust_answer) {
                let port_filled = field.port_fill(&mut port);
                let rust_filled = fill::fill(&field, &mut rust).answer;
                self.compare(
                    (port_filled, Hex(&port[near.clone()])),
                    (rust_filled, Hex(&rust[near.clone()])),
                    || describe("filling", linked.object, linked.section, record),
                );
                self.tally
                    .alone
                    .count(record.output_kind, &field, &rust_filled);
            }
            let (port, rust) = (&mut port[near.clone()], &mut rust[near.clone()]);
            port.copy_from_slice(&before[near.clone()]);
            rust.copy_from_slice(&before[near]);
        }
        self.compare_bytes("relaxing and filling", linked, [&port], before);
        assert!(rust == *before, "wild writes near the record alone");
    }

    /// Three passes: the port's with a tally and without one, and the Rust's with one. Then the fields that they leave are
    /// filled, each by its own.
    fn pass(&mut self, linked: &Linked) {
        let mut port = Walk::new(linked, jitamoro::sys::jitamoro_pass_fresh());
        let mut plain = port.clone();
        let mut rust = Walk::new(linked, Pass::default());
        let mut port_tally = jitamoro::sys::jitamoro_tally_fresh();
        let mut rust_tally = Tally::default();
        let mut fields = Vec::new();
        for record in &linked.records {
            let Walk { pass, bytes } = &mut port;
            let port_answer = ask_port!(tally_step, record, bytes, pass, &mut port_tally);
            let plain_answer = ask_port!(pass_step, record, &mut plain.bytes, &mut plain.pass);
            let rust_answer =
                pass::tally_step(&mut rust.pass, &mut rust_tally, record, &mut rust.bytes);
            self.compare(
                [
                    (port_answer, port.pass, port_tally),
                    (plain_answer, plain.pass, port_tally),
                ],
                [(rust_answer, rust.pass, rust_tally); 2],
                || describe("pass", linked.object, linked.section, record),
            );
            self.tally.count_step(record, &rust_answer);
            if !rust_answer.skipped {
                fields.extend(field(linked, record, &rust_answer.relaxed));
            }
        }
        self.compare_bytes("pass", linked, [&port.bytes, &plain.bytes], &rust.bytes);
        let port_end = jitamoro::sys::jitamoro_pass_end(&mut port.pass);
        let rust_end = pass::end(&mut rust.pass);
        let (port_after, rust_after) = ((port.pass, port_tally), (rust.pass, rust_tally));
        self.compare((port_end, port_after), (rust_end, rust_after), || {
            let (object, section) = (linked.object, &linked.section.name);
            format!("end of the pass, {object}, {section}")
        });
        let output_kind = linked.records[0].output_kind;
        self.tally.count_end(output_kind, rust_end);
        self.fill_fields(linked, &fields, &mut port.bytes, &mut rust.bytes);
    }

    /// Fills the fields that a pass left.
    fn fill_fields(&mut self, linked: &Linked, fields: &[Field], port: &mut [u8], rust: &mut [u8]) {
        for field in fields {
            let port_filled = field.port_fill(port);
            let rust_filled = fill::fill(field, rust).answer;
            self.compare(port_filled, rust_filled, || {
                let place = place(linked.object, linked.section, field.offset);
                format!("filling after a pass, {place}, {field:?}")
            });
            let output_kind = linked.records[0].output_kind;
            self.tally
                .after_pass
                .count(output_kind, field, &rust_filled);
        }
        self.compare_bytes("filling", linked, [port], rust);
    }

    /// Whole sections, one or two of the port; the first byte that differs is shown.
    fn compare_bytes<const N: usize>(
        &mut self,
        what: &str,
        linked: &Linked,
        port: [&[u8]; N],
        rust: &[u8],
    ) {
        let port = port.into_iter().find(|&port| port != rust).unwrap_or(rust);
        let mut places = if port == rust { 0..0 } else { 0..port.len() };
        let at = places.find(|&at| port[at] != rust[at]);
        self.compare(at.map(|at| port[at]), at.map(|at| rust[at]), || {
            let place = place(linked.object, linked.section, at.unwrap_or(0) as u64);
            format!("bytes after {what}, {place}")
        });
    }
}
