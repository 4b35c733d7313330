//! How often each sort of line was seen.

use differential::case_file::Line;
use differential::relaxation::KIND_NAMES;
use differential::relaxation::REX_ADD_TO_LEA;

#[derive(Default)]
pub struct Tally {
    pub lines: u64,
    none: u64,
    /// By kind.
    kinds: [u64; 19],
    /// By refusal.
    refused: [u64; 14],
}

impl Tally {
    pub fn count(&mut self, line: &Line) {
        self.lines += 1;
        let choice = &line.relaxed.choice;
        let count = match choice.refusal {
            0 if choice.chosen => &mut self.kinds[usize::from(choice.kind)],
            0 => &mut self.none,
            refusal => &mut self.refused[usize::from(refusal)],
        };
        *count += 1;
    }

    /// Prints how often each sort was seen, and says how many never were.
    pub fn print(&self) -> usize {
        let kinds = KIND_NAMES.iter().zip(self.kinds).enumerate();
        let kinds = kinds.filter(|&(kind, _)| kind != usize::from(REX_ADD_TO_LEA));
        let kinds = kinds.map(|(kind, (name, count))| (format!("{kind} {name}"), count));
        let none = [("none".to_string(), self.none)];
        let refused = [2, 3, 4, 6, 10, 11, 12, 13];
        let refused = refused.map(|it| (format!("refused {it}"), self.refused[it]));
        let mut unseen = 0;
        for (name, count) in kinds.chain(none).chain(refused) {
            println!("{name:<28}{count:>12}");
            if count == 0 {
                println!("case program: {name} was never seen");
                unseen += 1;
            }
        }
        unseen
    }
}
