//! How many fields the port filled with the peer's own bytes: those of sections that are the peer's, every byte.

use crate::case::Case;
use crate::fill::FILLED_TYPES;
use std::collections::BTreeMap;

/// The peers that the list was made with, and the types of which each must have fields. Absolute ones as the port's, of types
/// 10 and 11, are seldom: ld alone makes an immediate of a 32-bit mov, and gold and mold make none of any.
const PEERS: [(&str, &[u32]); 6] = [
    ("ld", &FILLED_TYPES),
    ("gold", &[2, 23]),
    ("lld14", &[2, 11, 23]),
    ("lld19", &[2, 11, 23]),
    ("lld22", &[2, 11, 23]),
    ("mold", &[2, 23]),
];

/// By type, in the order of `FILLED_TYPES`.
type ByType = [usize; FILLED_TYPES.len()];

/// By peer.
#[derive(Default)]
pub struct Filled(BTreeMap<String, ByType>);

impl Filled {
    /// The fields of a case, none where its section isn't the peers'.
    pub fn add(&mut self, case: &Case, fields: ByType) {
        for peer in &case.peers {
            let sums = self.0.entry(peer.clone()).or_default();
            sums.iter_mut()
                .zip(fields)
                .for_each(|(sum, count)| *sum += count);
        }
    }

    /// Prints the counts for each peer, and says how many are 0 that mustn't be.
    pub fn print(&self) -> usize {
        let mut unseen = 0;
        print!("filled as by peer");
        FILLED_TYPES
            .iter()
            .for_each(|it| print!(" {:>8}", format!("type {it}")));
        println!();
        for (peer, demanded) in PEERS {
            let counts = self.0.get(peer).copied().unwrap_or_default();
            print!("{peer:17}");
            counts.iter().for_each(|count| print!(" {count:>8}"));
            println!();
            for (r_type, count) in FILLED_TYPES.iter().zip(counts) {
                if count == 0 && demanded.contains(r_type) {
                    println!("peers: no field of type {r_type} is filled as by {peer}");
                    unseen += 1;
                }
            }
        }
        unseen
    }

    /// The sums over all peers, in words.
    pub fn sums(&self) -> String {
        let sum = |place: usize| self.0.values().map(|counts| counts[place]).sum::<usize>();
        let sums = FILLED_TYPES.iter().enumerate();
        let sums = sums.map(|(place, it)| format!("{} of type {it}", sum(place)));
        sums.collect::<Vec<_>>().join(", ")
    }
}
