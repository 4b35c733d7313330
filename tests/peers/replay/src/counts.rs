//! How often each verdict was given.

use crate::case::Case;
use crate::verdict::VERDICTS;
use std::collections::BTreeMap;

#[derive(PartialEq, Eq, PartialOrd, Ord)]
struct Row {
    odd: bool,
    r_type: u32,
    peer: String,
    kind: u8,
}

#[derive(Default)]
pub struct Counts(BTreeMap<Row, [usize; VERDICTS.len()]>);

impl Counts {
    pub fn add(&mut self, case: &Case, verdict: &str) {
        let column = VERDICTS.iter().position(|v| *v == verdict).unwrap();
        for peer in &case.peers {
            let (odd, r_type, kind) = (!case.by_the_book, case.records[0].r_type, case.kind);
            let row = Row {
                odd,
                r_type,
                peer: peer.clone(),
                kind,
            };
            self.0.entry(row).or_default()[column] += 1;
        }
    }

    /// Prints the counts for each group, type and peer.
    pub fn print(&self) {
        let mut rows: BTreeMap<(bool, u32, &str), [usize; VERDICTS.len()]> = BTreeMap::new();
        for (row, counts) in &self.0 {
            let sums = rows.entry((row.odd, row.r_type, &row.peer)).or_default();
            sums.iter_mut()
                .zip(counts)
                .for_each(|(sum, count)| *sum += count);
        }
        print!("group type peer ");
        VERDICTS.iter().for_each(|verdict| print!(" {verdict:>14}"));
        println!();
        for ((odd, r_type, peer), counts) in rows {
            print!("{:5} {r_type:4} {peer:5}", if odd { "odd" } else { "book" });
            counts.iter().for_each(|cases| print!(" {cases:>14}"));
            println!();
        }
    }

    /// Prints Markdown tables of the cases by the book: by type and output kind, of how many each peer
    /// agrees with the port, that is gives the same bytes. One table would be too wide.
    pub fn table(&self) {
        let mut rows: BTreeMap<u32, [Cell; 5]> = BTreeMap::new();
        for (row, counts) in self.0.iter().filter(|(row, _)| !row.odd) {
            let share = (counts[0] + counts[1], counts.iter().sum());
            let cell = &mut rows.entry(row.r_type).or_default()[usize::from(row.kind)];
            cell.entry(share).or_default().push(&row.peer);
        }
        for kinds in [0..2, 2..5] {
            let heads: Vec<_> = kinds.clone().map(|kind| format!("Kind {kind}")).collect();
            println!("\n| Type | {} |", heads.join(" | "));
            println!("|---{}|", "|---".repeat(kinds.len()));
            for (r_type, cells) in &rows {
                let cells: Vec<_> = cells[kinds.clone()].iter().map(text).collect();
                println!("| {r_type} | {} |", cells.join(" | "));
            }
        }
    }
}

/// The peers that agree in so many cases of so many.
type Cell<'a> = BTreeMap<(usize, usize), Vec<&'a str>>;

fn text(cell: &Cell) -> String {
    let part = |((agree, all), peers): (&(usize, usize), &Vec<&str>)| {
        let peers = peers.join(", ").replace("lld14, lld19, lld22", "lld");
        format!("{agree}/{all} {peers}")
    };
    cell.iter().rev().map(part).collect::<Vec<_>>().join("; ")
}
