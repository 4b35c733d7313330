//! How often each answer of choosing, rewriting, relaxing and the pass was seen, those while a skip is pending once more,
//! and each figure of a pass's tally raised; and which ModRM bytes rewriting met. Filling's answers are counted in
//! `fill_tally.rs`.

use crate::fill_tally::FillTally;
use differential::pass::BYTES;
use differential::pass::EMPTY_TYPE;
use differential::pass::NONE;
use differential::pass::SKIPPED;
use differential::relaxation;
use differential::relaxation::KIND_NAMES;
use differential::relaxation::MOD_RM_KINDS;
use differential::relaxation::NO_OP;
use differential::relaxation::REX_ADD_TO_LEA;
use differential::relaxation::Record;
use jitamoro::sys;
use jitamoro::sys::ChoiceAnswer;
use jitamoro::sys::Pass;
use jitamoro::sys::StepAnswer;

/// The answers of one function.
#[derive(Default)]
pub struct Answers {
    none: u64,
    /// By refusal.
    refused: [u64; 7],
    /// By kind and instruction offset.
    kinds: [[u64; 7]; 19],
}

/// The answers of a pass: of its steps, and of its endings.
#[derive(Default)]
pub struct PassAnswers {
    none: u64,
    relaxed: u64,
    relaxed_empty: u64,
    skipped: u64,
    ended: u64,
    /// By refusal.
    refused: [u64; 25],
    /// How often each figure of a tally was raised; how often one of records, and that of bytes, wrapped.
    raised: [u64; 22],
    wrapped_count: u64,
    wrapped_bytes: u64,
}

/// The answers of a pass while a skip is pending: to empty records, and to what comes after them.
#[derive(Default)]
pub struct PendingAnswers {
    empty: u64,
    /// Not the first of its run.
    empty_again: u64,
    /// By refusal.
    empty_refused: [u64; 25],
    end_after: u64,
    skipped_after: u64,
    /// Refused with 22, and not before the empty records.
    order_after: u64,
    skipped_none: u64,
    /// Skipped, though relaxing would make it type 0: of type 20, of type 35.
    skipped_to_0: [u64; 2],
}

/// The empty records that were accepted since a skip is pending.
#[derive(Default)]
pub struct Run {
    length: u64,
    /// The last offset before the first of them.
    last: u64,
}

/// The ModRM bytes that were rewritten, a bit each, by kind.
#[derive(Default)]
pub struct ModRmBytes([[u64; 4]; 19]);

#[derive(Default)]
pub struct Tally {
    pub mod_rm: ModRmBytes,
    pub choosing: Answers,
    pub rewriting: Answers,
    pub relaxing: Answers,
    pub filling: FillTally,
    pub pass: PassAnswers,
    pub pending: PendingAnswers,
}

impl Answers {
    pub fn count_choice(&mut self, choice: &ChoiceAnswer) {
        if choice.refusal != 0 {
            self.refused[usize::from(choice.refusal)] += 1;
        } else if choice.chosen {
            self.kinds[usize::from(choice.kind)][usize::from(choice.inst_offset)] += 1;
        } else {
            self.none += 1;
        }
    }

    pub fn count_rewriting(&mut self, refusal: u8, kind: u8, inst_offset: u8) {
        if refusal != 0 {
            self.refused[usize::from(refusal)] += 1;
        } else {
            let has = relaxation::has_inst_offset(kind);
            let place = if has { usize::from(inst_offset) } else { 0 };
            self.kinds[usize::from(kind)][place] += 1;
        }
    }
}

impl ModRmBytes {
    pub fn count(&mut self, kind: u8, byte: u8) {
        self.0[usize::from(kind)][usize::from(byte / 64)] |= 1 << (byte % 64);
    }

    /// Prints how many were met of each kind that has one, and says how many kinds didn't meet all.
    fn print(&self) -> usize {
        println!("{:<28}{:>12}", "", "ModRM bytes");
        let mut unseen = 0;
        for kind in MOD_RM_KINDS.map(usize::from) {
            let met: u32 = self.0[kind].iter().map(|bits| bits.count_ones()).sum();
            println!("{:<28}{met:>12}", KIND_NAMES[kind]);
            if met != 256 {
                println!(
                    "differential: {}: not all ModRM bytes were met",
                    KIND_NAMES[kind]
                );
                unseen += 1;
            }
        }
        unseen
    }
}

impl PassAnswers {
    pub fn count_step(&mut self, answer: &StepAnswer) {
        let choice = &answer.relaxed.choice;
        let count = match (choice.refusal, answer.skipped, choice.chosen) {
            (0, true, _) => &mut self.skipped,
            (0, false, false) => &mut self.none,
            (0, false, true) if choice.kind == NO_OP => &mut self.relaxed_empty,
            (0, false, true) => &mut self.relaxed,
            (refusal, _, _) => &mut self.refused[usize::from(refusal)],
        };
        *count += 1;
    }

    pub fn count_end(&mut self, refusal: u8) {
        match refusal {
            0 => self.ended += 1,
            _ => self.refused[usize::from(refusal)] += 1,
        }
    }

    /// What a step added to a tally.
    pub fn count_figures(&mut self, before: &sys::Tally, after: &sys::Tally) {
        for (figure, raised) in self.raised.iter_mut().enumerate() {
            let (before, after) = (before.figures[figure], after.figures[figure]);
            *raised += u64::from(before != after);
            let wrapped = match figure {
                BYTES => &mut self.wrapped_bytes,
                _ => &mut self.wrapped_count,
            };
            *wrapped += u64::from(after < before);
        }
    }

    /// Prints how often each answer was seen, and says how many never were.
    fn print(&self) -> usize {
        let named = [
            ("none", self.none),
            ("relaxed", self.relaxed),
            ("relaxed, window empty", self.relaxed_empty),
            ("skipped", self.skipped),
            ("ended", self.ended),
        ];
        let named = named.map(|(name, count)| (name.to_string(), count));
        let refused = [1, 2, 3, 4, 6, 21, 22, 23, 24];
        let refused = refused.map(|it| (format!("refusal {it}"), self.refused[it]));
        print_rows("pass", named.into_iter().chain(refused)) + self.print_figures()
    }

    /// All figures but that of a kind that is never chosen.
    fn print_figures(&self) -> usize {
        let kinds = (0..).zip(KIND_NAMES);
        let kinds = kinds.filter(|it| it.0 != usize::from(REX_ADD_TO_LEA));
        let others = [(NONE, "none"), (SKIPPED, "skipped"), (BYTES, "bytes")];
        let raised = kinds.chain(others);
        let raised = raised.map(|(figure, name)| (name.to_string(), self.raised[figure]));
        let wrapped = [
            ("a count wrapped".to_string(), self.wrapped_count),
            ("bytes wrapped".to_string(), self.wrapped_bytes),
        ];
        print_rows("tally", raised.chain(wrapped))
    }
}

impl PendingAnswers {
    /// A step from a pass with a skip pending; `choice` is what choosing gives for its record.
    pub fn count_step(
        &mut self,
        run: &mut Run,
        pass: &Pass,
        record: &Record,
        choice: &ChoiceAnswer,
        answer: &StepAnswer,
    ) {
        match (record.r_type, answer.relaxed.choice.refusal) {
            (EMPTY_TYPE, 0) => {
                self.empty += 1;
                self.empty_again += u64::from(run.length > 0);
                if run.length == 0 {
                    run.last = pass.last;
                }
                run.length += 1;
            }
            (EMPTY_TYPE, refusal) => self.empty_refused[usize::from(refusal)] += 1,
            (r_type, 0) => {
                self.skipped_after += u64::from(run.length > 0);
                self.count_skipped(r_type, choice);
                *run = Run::default();
            }
            (_, 22) => {
                self.order_after += u64::from(run.length > 0 && record.offset >= run.last);
            }
            _ => {}
        }
    }

    fn count_skipped(&mut self, r_type: u32, choice: &ChoiceAnswer) {
        match (r_type, choice.chosen, choice.new_type) {
            (_, false, _) => self.skipped_none += 1,
            (20, true, EMPTY_TYPE) => self.skipped_to_0[0] += 1,
            (35, true, EMPTY_TYPE) => self.skipped_to_0[1] += 1,
            _ => {}
        }
    }

    pub fn count_end(&mut self, run: &Run, refusal: u8) {
        self.end_after += u64::from(run.length > 0 && refusal == 24);
    }

    /// Prints how often each answer was seen, and says how many never were.
    fn print(&self) -> usize {
        let named = [
            ("empty", self.empty),
            ("empty, after another", self.empty_again),
            ("after empty: skipped", self.skipped_after),
            ("after empty: refusal 22", self.order_after),
            ("after empty: refusal 24", self.end_after),
            ("skipped, none by choice", self.skipped_none),
            ("skipped, 20 to be 0", self.skipped_to_0[0]),
            ("skipped, 35 to be 0", self.skipped_to_0[1]),
        ];
        let named = named.map(|(name, count)| (name.to_string(), count));
        let refused = [1, 2, 3, 4, 21, 22];
        let refused = refused.map(|it| (format!("empty, refusal {it}"), self.empty_refused[it]));
        print_rows("skip pending", named.into_iter().chain(refused))
    }
}

/// Prints a column, and says how many of its rows are 0.
fn print_rows(head: &str, rows: impl Iterator<Item = (String, u64)>) -> usize {
    println!("{:<28}{head:>12}", "");
    let mut unseen = 0;
    for (name, count) in rows {
        println!("{name:<28}{count:>12}");
        if count == 0 {
            println!("differential: {head}: {name} was never seen");
            unseen += 1;
        }
    }
    unseen
}

impl Tally {
    /// Prints how often each answer was seen, and says how many never were.
    pub fn print(&self) -> usize {
        let head = ["choosing", "rewriting", "relaxing"];
        println!("{:<28}{:>12}{:>12}{:>12}", "", head[0], head[1], head[2]);
        let mut unseen = 0;
        for (kind, name) in KIND_NAMES.iter().enumerate() {
            let chosen = kind as u8 != REX_ADD_TO_LEA;
            for &inst_offset in relaxation::inst_offsets(kind as u8) {
                let name = match inst_offset {
                    0 => name.to_string(),
                    _ => format!("{name}({inst_offset})"),
                };
                let count = |it: &Answers| it.kinds[kind][usize::from(inst_offset)];
                unseen += self.print_row(&name, count, [chosen, true, chosen]);
            }
        }
        unseen += self.print_row("none", |it| it.none, [true, false, true]);
        for refusal in 1..7 {
            let given = [refusal < 5, matches!(refusal, 1 | 2 | 5 | 6), refusal != 5];
            let name = format!("refusal {refusal}");
            unseen += self.print_row(&name, |it| it.refused[refusal], given);
        }
        unseen
            + self.mod_rm.print()
            + self.filling.print()
            + self.pass.print()
            + self.pending.print()
    }

    /// `given` says which of the three functions give this answer.
    fn print_row(&self, name: &str, count: impl Fn(&Answers) -> u64, given: [bool; 3]) -> usize {
        let counts = [&self.choosing, &self.rewriting, &self.relaxing].map(count);
        let [choosing, rewriting, relaxing] = counts;
        println!("{name:<28}{choosing:>12}{rewriting:>12}{relaxing:>12}");
        let unseen = counts.iter().zip(given);
        let unseen = unseen
            .filter(|&(&count, given)| given && count == 0)
            .count();
        if unseen != 0 {
            println!("differential: {name} was never seen");
        }
        unseen
    }
}
