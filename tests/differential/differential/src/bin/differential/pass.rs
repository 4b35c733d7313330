//! The pass: lists of records walked over one section, and single steps from any state. After each
//! step the answer, the state, the tally and the whole section are compared.

use crate::Comparison;
use crate::GUARD;
use crate::long_sections::FLAGS_AND_KINDS;
use crate::relaxing::OFFSET;
use crate::relaxing::SHORT;
use crate::relaxing::Section;
use crate::relaxing::WHOLE;
use crate::tally::Run;
use differential::at_random;
use differential::at_random::Dice;
use differential::pass;
use differential::pass::EMPTY_TYPE;
use differential::pass::Step;
use differential::pass::port_step;
use differential::pass::port_tally_step;
use differential::relaxation;
use differential::relaxation::Record;
use differential::sequences::SEQUENCES;
use differential::sequences::Sequence;
use jitamoro::sys::Pass;
use jitamoro::sys::StepAnswer;
use jitamoro::sys::Tally;

const LISTS: u64 = 500_000;
const SINGLE_STEPS: u64 = 4_000_000;
/// The most records of a list, and the most bytes of its section: room for each sequence and a gap.
const MOST_RECORDS: u64 = 40;
const LONGEST: usize = MOST_RECORDS as usize * 32;

/// An empty record, on bytes that would be relaxed for others.
pub const EMPTY: Sequence = Sequence {
    r_type: EMPTY_TYPE,
    before: &[0x48, 0x8b, 0x2d],
    after: &[0; 4],
};

/// A walk over a list: its state, its tally, and the section between guard bytes.
#[derive(Clone)]
struct Walk {
    pass: Pass,
    tally: Tally,
    bytes: Vec<u8>,
    length: usize,
}

impl Walk {
    fn lent(&self) -> &[u8] {
        &self.bytes[GUARD..GUARD + self.length]
    }

    /// A step of either side.
    fn step(&mut self, step: Step, record: &Record) -> StepAnswer {
        let lent = &mut self.bytes[GUARD..GUARD + self.length];
        step(&mut self.pass, &mut self.tally, record, lent)
    }
}

/// The same walk three times: by the port with a tally and without one, and by the Rust.
struct Walks {
    port: Walk,
    plain: Walk,
    rust: Walk,
    run: Run,
}

impl Walks {
    fn new(start: Walk) -> Self {
        Self {
            port: start.clone(),
            plain: start.clone(),
            rust: start,
            run: Run::default(),
        }
    }
}

// One step or ending.
impl Comparison {
    /// Steps on all sides, each from its own state.
    fn step_all(&mut self, walks: &mut Walks, record: &Record) {
        let Walks {
            port,
            plain,
            rust,
            run,
        } = walks;
        let before = rust.clone();
        let expected = rust.step(pass::tally_step, record);
        self.count_step(run, &before, record, &expected);
        self.tally.pass.count_figures(&before.tally, &rust.tally);
        if !expected.relaxed.choice.chosen {
            assert_eq!(rust.bytes, before.bytes, "the Rust writes nothing");
        }
        let describe = |what| {
            let Walk { pass, tally, .. } = &before;
            let section = before.lent();
            format!("{what}, {pass:x?}, {tally:x?}, {record:x?}, {section:x?}")
        };
        let answer = port.step(port_tally_step, record);
        self.compare(
            (answer, port.pass, port.tally, &port.bytes),
            (expected, rust.pass, rust.tally, &rust.bytes),
            || describe("step with a tally"),
        );
        let answer = plain.step(port_step, record);
        self.compare(
            (answer, plain.pass, &plain.bytes),
            (expected, rust.pass, &rust.bytes),
            || describe("step"),
        );
    }

    fn count_step(&mut self, run: &mut Run, before: &Walk, record: &Record, answer: &StepAnswer) {
        self.tally.pass.count_step(answer);
        if before.pass.pending != 0 {
            let choice = relaxation::choose(record, before.lent());
            let pending = &mut self.tally.pending;
            pending.count_step(run, &before.pass, record, &choice, answer);
        }
    }

    /// Ends a walk, which changes no figure.
    fn end_all(&mut self, walks: &mut Walks) {
        let refusal = self.end_both(&mut walks.port.pass, &mut walks.rust.pass);
        self.tally.pending.count_end(&walks.run, refusal);
        walks.plain.pass = walks.port.pass;
        self.compare(walks.port.tally, walks.rust.tally, || {
            format!("the tally after an ending, {:x?}", walks.rust.pass)
        });
    }

    /// What the Rust answers.
    fn end_both(&mut self, port: &mut Pass, rust: &mut Pass) -> u8 {
        let before = *rust;
        let expected = pass::end(rust);
        self.tally.pass.count_end(expected);
        let answer = jitamoro::sys::jitamoro_pass_end(port);
        self.compare((answer, *port), (expected, *rust), || {
            format!("ending, {before:x?}")
        });
        expected
    }
}

// Lists.
impl Comparison {
    pub fn pass(&mut self) {
        for _ in 0..LISTS {
            let (records, start) = self.random_list();
            self.walk(&records, start);
        }
        for sequence in SEQUENCES.iter().chain([&EMPTY]) {
            self.every_state(sequence);
        }
        for _ in 0..SINGLE_STEPS {
            self.random_step();
        }
    }

    /// Asks for the end after some records and after the last, and steps on.
    fn walk(&mut self, records: &[Record], start: Walk) {
        let differences = self.differences;
        let mut walks = Walks::new(start);
        walks.port.pass = jitamoro::sys::jitamoro_pass_fresh();
        walks.port.tally = jitamoro::sys::jitamoro_tally_fresh();
        walks.plain.pass = walks.port.pass;
        let Walks { port, rust, .. } = &walks;
        self.compare((port.pass, port.tally), (rust.pass, rust.tally), || {
            "a fresh pass and tally".to_string()
        });
        for record in records {
            self.step_all(&mut walks, record);
            let mut dice = Dice::new(&mut self.random);
            if dice.one_in(24) {
                self.end_all(&mut walks);
            }
            // A walk that differs once goes on differing; one that is ended is soon left.
            if self.differences != differences || walks.rust.pass.ended != 0 && dice.one_in(3) {
                return;
            }
        }
        self.end_all(&mut walks);
        self.step_all(&mut walks, records.last().unwrap());
        self.end_all(&mut walks);
    }

    /// Sequences one after the other, some overlapping; some records stand elsewhere, and most pairs have both halves.
    fn random_list(&mut self) -> (Vec<Record>, Walk) {
        let mut records: Vec<Record> = Vec::new();
        let mut bytes = vec![0; GUARD + LONGEST + GUARD];
        self.random.fill(&mut bytes);
        let (mut end, mut pair) = (0, None);
        for _ in 0..=self.random.word() % MOST_RECORDS {
            let mut dice = Dice::new(&mut self.random);
            let mut record = match records.last() {
                _ if pair.is_some() => in_pair(&mut pair, &mut dice),
                Some(last) if dice.one_in(5) => elsewhere(last, &mut dice),
                _ => self.next_record(&mut bytes[GUARD..GUARD + LONGEST], &mut end, &mut pair),
            };
            at_random::numbers(&mut self.random, &mut record);
            records.push(record);
        }
        let mut dice = Dice::new(&mut self.random);
        let length = if dice.one_in(2) {
            end.saturating_sub(dice.roll(16) as usize)
        } else {
            end + dice.roll(8) as usize
        };
        let (pass, tally) = (Pass::default(), Tally::default());
        let start = Walk {
            pass,
            tally,
            bytes,
            length,
        };
        (records, start)
    }

    /// Writes a sequence where the last one ended, or before; `end` is then this one's end. Most first halves of a pair
    /// open it.
    fn next_record(
        &mut self,
        section: &mut [u8],
        end: &mut usize,
        pair: &mut Option<Pair>,
    ) -> Record {
        let mut dice = Dice::new(&mut self.random);
        let sequence = &SEQUENCES[dice.roll(SEQUENCES.len() as u64) as usize];
        let begin = match dice.roll(8) {
            0..3 => end.saturating_sub(dice.roll(16) as usize),
            3..5 => *end + dice.roll(5) as usize,
            _ => *end,
        };
        // At the section's start it may be cut.
        let cut = if begin == 0 { dice.roll(8) as usize } else { 0 };
        let offset = (begin + sequence.before.len()).saturating_sub(cut);
        sequence.write(section, offset);
        if dice.one_in(16) {
            at_random::change(section, offset, &mut dice);
        }
        *end = (offset + sequence.after.len()).max(*end);
        let last = offset as u64;
        let opened = sequence.call().map(|call| Pair {
            last,
            call: last + call,
        });
        *pair = opened.filter(|_| !dice.one_in(4));
        sequence.record(offset)
    }
}

/// A thread-local pair whose call is still to come.
struct Pair {
    /// Where the last record of the pair stands.
    last: u64,
    call: u64,
}

/// An empty record, every second time, or the call, which closes the pair. The empty one stands where the last did,
/// on the way to the call, at it or past it.
fn in_pair(pair: &mut Option<Pair>, dice: &mut Dice) -> Record {
    let open = pair.as_mut().unwrap();
    if dice.one_in(2) {
        let mut record = EMPTY.record(open.call as usize);
        record.r_type = [2, 4, 4, 4, 9, 31, 35, 41][dice.roll(8) as usize];
        *pair = None;
        return record;
    }
    let way = open.call.saturating_sub(open.last);
    open.last = match dice.roll(8) {
        0..3 => open.last,
        3..6 => open.last + dice.roll(way + 1),
        6 => open.call,
        _ => open.call + 1 + dice.roll(8),
    };
    EMPTY.record(open.last as usize)
}

/// At the last record's offset, near it or below it: of a type that is relaxed again where another
/// was rewritten, or that looks at no byte, empty, or of any.
fn elsewhere(last: &Record, dice: &mut Dice) -> Record {
    let sequence = &SEQUENCES[dice.roll(SEQUENCES.len() as u64) as usize];
    let mut record = sequence.record(0);
    record.r_type = match dice.roll(4) {
        0 => 35,
        1 => [9, 22, 34, 42][dice.roll(4) as usize],
        2 => EMPTY_TYPE,
        _ => record.r_type,
    };
    record.offset = match dice.roll(8) {
        0..4 => last.offset,
        4..6 => last.offset.wrapping_add(dice.roll(16)),
        6 => last.offset.saturating_sub(dice.roll(8)),
        _ => last.offset.saturating_sub(dice.roll(256)),
    };
    record
}

// Single steps.
impl Comparison {
    /// A step and an ending from a state that a walk need not reach.
    fn single_step(&mut self, pass: Pass, record: &Record, section: &Section) {
        let start = Walk {
            pass,
            tally: self.random_tally(),
            bytes: section.bytes.to_vec(),
            length: section.length,
        };
        self.step_all(&mut Walks::new(start), record);
        let (mut port, mut rust) = (pass, pass);
        self.end_both(&mut port, &mut rust);
    }

    /// Every state about the offset, with the section cut at every place after it.
    fn every_state(&mut self, sequence: &Sequence) {
        for length in OFFSET - 1..=WHOLE {
            let (mut record, section) = self.record_of(sequence, OFFSET, length);
            for (flags, output_kind) in FLAGS_AND_KINDS {
                record.flags = flags;
                record.output_kind = output_kind;
                for pass in states() {
                    self.single_step(pass, &record, &section);
                }
            }
        }
    }

    fn random_step(&mut self) {
        let (mut record, mut section) = self.random_record();
        let pass = self.random_pass(record.offset);
        let mut dice = Dice::new(&mut self.random);
        if dice.one_in(16) {
            record.r_type = EMPTY_TYPE;
        }
        if dice.one_in(16) {
            let end = record.offset.wrapping_add(dice.roll(20));
            section.length = end.min(SHORT as u64) as usize;
        }
        self.single_step(pass, &record, &section);
    }

    /// Figures little below 2^64, all 2^64 - 1 or anything.
    fn random_tally(&mut self) -> Tally {
        let word = self.random.word();
        let mut figure = |_| match word % 4 {
            0 => self.random.word(),
            1 => u64::MAX,
            _ => u64::MAX - self.random.word() % 24,
        };
        Tally {
            figures: std::array::from_fn(&mut figure),
        }
    }

    /// Mostly a state whose numbers lie about the offset.
    fn random_pass(&mut self, offset: u64) -> Pass {
        let mut dice = Dice::new(&mut self.random);
        let last = match dice.roll(8) {
            0 => self.random.word(),
            1 => self.random.signed(64) as u64,
            2..4 => offset.wrapping_add(dice.roll(3)).wrapping_sub(1),
            _ => dice.roll(8),
        };
        let window = match dice.roll(8) {
            0 => self.random.word(),
            1 => self.random.signed(64) as u64,
            2 => u64::MAX,
            3..6 => offset.wrapping_add(dice.roll(12)).wrapping_sub(8),
            _ => dice.roll(8),
        };
        let other = self.random.word();
        let mut one_in = |sides: u64| match dice.roll(2 * sides) {
            0 => 1,
            1 => other,
            _ => 0,
        };
        Pass {
            last,
            window,
            pending: one_in(4),
            ended: one_in(8),
        }
    }
}

/// The states whose numbers lie about the offset.
fn states() -> impl Iterator<Item = Pass> {
    let offset = OFFSET as u64;
    let places =
        (offset - 1..=offset + 1).flat_map(move |last| (0..offset + 3).map(move |it| (last, it)));
    places.flat_map(|(last, window)| {
        [(0, 0), (0, 1), (1, 0), (1, 1), (0, 1 << 32), (1 << 63, 0)].map(|(pending, ended)| Pass {
            last,
            window,
            pending,
            ended,
        })
    })
}
