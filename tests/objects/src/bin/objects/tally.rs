//! How often each type met each outcome in a pass, and each type of a field when it was filled, after its record was relaxed
//! alone and after a pass, for each output kind.

use differential::fill::Field;
use differential::relaxation::KIND_NAMES;
use differential::relaxation::Record;
use jitamoro::sys::FilledAnswer;
use jitamoro::sys::StepAnswer;
use std::collections::BTreeMap;

/// The psABI's names, without R_X86_64_. 39 and 40 are withdrawn.
const TYPE_NAMES: [&str; 52] = [
    "NONE",
    "64",
    "PC32",
    "GOT32",
    "PLT32",
    "COPY",
    "GLOB_DAT",
    "JUMP_SLOT",
    "RELATIVE",
    "GOTPCREL",
    "32",
    "32S",
    "16",
    "PC16",
    "8",
    "PC8",
    "DTPMOD64",
    "DTPOFF64",
    "TPOFF64",
    "TLSGD",
    "TLSLD",
    "DTPOFF32",
    "GOTTPOFF",
    "TPOFF32",
    "PC64",
    "GOTOFF64",
    "GOTPC32",
    "GOT64",
    "GOTPCREL64",
    "GOTPC64",
    "GOTPLT64",
    "PLTOFF64",
    "SIZE32",
    "SIZE64",
    "GOTPC32_TLSDESC",
    "TLSDESC_CALL",
    "TLSDESC",
    "IRELATIVE",
    "RELATIVE64",
    "39",
    "40",
    "GOTPCRELX",
    "REX_GOTPCRELX",
    "CODE_4_GOTPCRELX",
    "CODE_4_GOTTPOFF",
    "CODE_4_GOTPC32_TLSDESC",
    "CODE_5_GOTPCRELX",
    "CODE_5_GOTTPOFF",
    "CODE_5_GOTPC32_TLSDESC",
    "CODE_6_GOTPCRELX",
    "CODE_6_GOTTPOFF",
    "CODE_6_GOTPC32_TLSDESC",
];

/// The types that the port fills, but for 10, of which libc.a has no field.
const LIBC_FIELDS: [u32; 3] = [2, 11, 23];

#[derive(Clone, Copy, PartialEq, Eq, PartialOrd, Ord)]
enum Outcome {
    Relaxed(u8),
    Filled,
    None,
    Skipped,
    Refused(u8),
}

/// For output kinds 0 to 5.
type Counts = [u64; 6];

/// Of a field's type.
#[derive(Default)]
pub struct Fields(BTreeMap<(u32, Outcome), Counts>);

#[derive(Default)]
pub struct Tally {
    steps: BTreeMap<(u32, Outcome), Counts>,
    /// Filled after their records were relaxed alone.
    pub alone: Fields,
    /// Filled after a pass, none of a skipped record.
    pub after_pass: Fields,
    /// By refusal, 0 where the end was granted.
    ends: BTreeMap<u8, Counts>,
}

impl Fields {
    /// A field whose record wasn't refused, which therefore begins in a section that isn't too long.
    pub fn count(&mut self, output_kind: u8, field: &Field, answer: &FilledAnswer) {
        assert!(![1, 2].contains(&answer.refusal), "{field:?}: {answer:?}");
        let outcome = match (answer.refusal, answer.filled) {
            (0, true) => Outcome::Filled,
            (0, false) => Outcome::None,
            (refusal, _) => Outcome::Refused(refusal),
        };
        let counts = self.0.entry((field.r_type, outcome)).or_default();
        counts[usize::from(output_kind)] += 1;
    }

    fn add(&mut self, other: Self) {
        for (field, counts) in other.0 {
            add_counts(self.0.entry(field).or_default(), &counts);
        }
    }

    /// Which types of libc.a's fields were never filled in a static fixed output, and whether no field was none.
    fn unseen(&self) -> Vec<String> {
        let filled = LIBC_FIELDS.map(|r_type| (r_type, Outcome::Filled));
        let counts = |it| self.0.get(it).copied().unwrap_or_default();
        let filled = filled.iter().filter(|it| counts(it)[0] == 0);
        let mut unseen: Vec<_> = filled
            .map(|(r_type, _)| format!("type {r_type} filled"))
            .collect();
        if !self.0.keys().any(|(_, outcome)| *outcome == Outcome::None) {
            unseen.push("none".to_string());
        }
        unseen
    }
}

impl Tally {
    /// What filling must have met over the records of libc.a, and what it didn't.
    pub fn unseen(&self) -> Vec<String> {
        let parts = [("alone", &self.alone), ("after a pass", &self.after_pass)];
        let unseen = parts.into_iter().flat_map(|(part, fields)| {
            let named = move |it| format!("{it}, {part}");
            fields.unseen().into_iter().map(named)
        });
        unseen.collect()
    }

    pub fn count_step(&mut self, record: &Record, answer: &StepAnswer) {
        let choice = &answer.relaxed.choice;
        let outcome = match (choice.refusal, answer.skipped, choice.chosen) {
            (0, true, _) => Outcome::Skipped,
            (0, _, true) => Outcome::Relaxed(choice.kind),
            (0, _, false) => Outcome::None,
            (refusal, ..) => Outcome::Refused(refusal),
        };
        let counts = self.steps.entry((record.r_type, outcome)).or_default();
        counts[usize::from(record.output_kind)] += 1;
    }

    pub fn count_end(&mut self, output_kind: u8, refusal: u8) {
        self.ends.entry(refusal).or_default()[usize::from(output_kind)] += 1;
    }

    pub fn add(&mut self, other: Self) {
        for (step, counts) in other.steps {
            add_counts(self.steps.entry(step).or_default(), &counts);
        }
        self.alone.add(other.alone);
        self.after_pass.add(other.after_pass);
        for (refusal, counts) in other.ends {
            add_counts(self.ends.entry(refusal).or_default(), &counts);
        }
    }

    pub fn print(&self) {
        let mut types: BTreeMap<u32, Counts> = BTreeMap::new();
        let mut outcomes: BTreeMap<Outcome, Counts> = BTreeMap::new();
        let mut all = Counts::default();
        for (&(r_type, outcome), counts) in &self.steps {
            add_counts(types.entry(r_type).or_default(), counts);
            add_counts(outcomes.entry(outcome).or_default(), counts);
            add_counts(&mut all, counts);
        }
        println!("| Type | R_X86_64_ | Records |\n|---|---|---|");
        for (r_type, counts) in types {
            println!("| {r_type} | {} | {} |", type_name(r_type), counts[0]);
        }
        print_by_type("Type | R_X86_64_ | Outcome", &self.steps);
        print_head("All types");
        for (outcome, counts) in outcomes {
            print_row(&outcome_name(outcome), &counts);
        }
        print_row("records", &all);
        print_by_type("Field's type | R_X86_64_ | Filling", &self.alone.0);
        print_by_type(
            "After a pass: field's type | R_X86_64_ | Filling",
            &self.after_pass.0,
        );
        print_head("End of a section's pass");
        for (&refusal, counts) in &self.ends {
            let name = if refusal == 0 {
                "granted".to_string()
            } else {
                outcome_name(Outcome::Refused(refusal))
            };
            print_row(&name, counts);
        }
        println!();
    }
}

fn print_by_type(head: &str, rows: &BTreeMap<(u32, Outcome), Counts>) {
    print_head(head);
    for (&(r_type, outcome), counts) in rows {
        let name = type_name(r_type);
        print_row(
            &format!("{r_type} | {name} | {}", outcome_name(outcome)),
            counts,
        );
    }
}

fn add_counts(sum: &mut Counts, counts: &Counts) {
    for (sum, count) in sum.iter_mut().zip(counts) {
        *sum += count;
    }
}

fn type_name(r_type: u32) -> &'static str {
    TYPE_NAMES
        .get(r_type as usize)
        .copied()
        .unwrap_or("unknown")
}

fn outcome_name(outcome: Outcome) -> String {
    match outcome {
        Outcome::Relaxed(kind) => KIND_NAMES[usize::from(kind)].to_string(),
        Outcome::Filled => "filled".to_string(),
        Outcome::None => "none".to_string(),
        Outcome::Skipped => "skipped".to_string(),
        Outcome::Refused(refusal) => format!("refused {refusal}"),
    }
}

fn print_head(names: &str) {
    let columns = names.split('|').count() + 6;
    println!(
        "\n| {names} | 0 | 1 | 2 | 3 | 4 | 5 |\n|{}",
        "---|".repeat(columns)
    );
}

fn print_row(names: &str, counts: &Counts) {
    let counts: Vec<String> = counts.iter().map(u64::to_string).collect();
    println!("| {names} | {} |", counts.join(" | "));
}
