//! How often each answer of filling was seen: at the edges in short sections, in fields at random, in long sections.

use differential::byte_size;
use differential::fill::FILLED_TYPES;
use differential::fill::Field;
use differential::fill::Filled;
use differential::fill::Unwritten;
use libwild::oracle;
use libwild::oracle::RelocationKindInfo;

/// What made a field. Each has a tally of its own, so that none stands in for another.
#[derive(Clone, Copy)]
pub enum Part {
    Edges,
    Random,
    Long,
}

/// Which parts must meet an answer, in their order.
type Demand = [bool; 3];
const ALL: Demand = [true; 3];
const SHORT: Demand = [true, true, false];
const LONG: Demand = [false, false, true];

/// By type, in the order of `FILLED_TYPES`.
type ByType = [u64; 4];

#[derive(Default)]
struct Answers {
    filled: ByType,
    /// Filled though value and addend, added as they stand, leave 0 to 2^64.
    wrapped: ByType,
    /// Filled past 2^64: the place is above the sum, and yet the field leads forward.
    past_64: u64,
    /// Filled past 2^63: the place leaves 0 to 2^64, and leaves the signed numbers where both are read as such.
    past_63: u64,
    none: u64,
    /// None though there is no room, neither for four bytes nor for the row's.
    none_cut: u64,
    /// None though the value is in the range of no type that is filled, nor of the row.
    none_no_range: u64,
    /// Refused with 15, on either side of the range.
    below: ByType,
    above: ByType,
    /// Refused with 16; and where wild, which tests the range first, says that the value is outside it.
    cut: ByType,
    range_first: ByType,
    /// By refusal, but for 15 and 16.
    refused: [u64; 8],
}

impl Answers {
    fn count(&mut self, field: &Field, length: usize, filled: &Filled) {
        let answer = &filled.answer;
        let place = FILLED_TYPES.iter().position(|it| *it == field.r_type);
        match (answer.refusal, place, row_and_value(field)) {
            (0, Some(place), _) => self.count_filled(place, field),
            (15, Some(place), Some((info, value))) => {
                self.below[place] += u64::from(value < info.range.min);
                self.above[place] += u64::from(value >= info.range.max);
            }
            (16, Some(place), _) => {
                self.cut[place] += 1;
                self.range_first[place] += u64::from(filled.unwritten == Some(Unwritten::Range));
            }
            (0, None, Some((info, value))) => {
                let room = length as u64 - field.offset;
                self.count_none(&info, value, room);
            }
            (refusal, ..) => self.refused[usize::from(refusal)] += 1,
        }
    }

    fn count_filled(&mut self, place: usize, field: &Field) {
        self.filled[place] += 1;
        let exact = i128::from(field.value) + i128::from(field.addend);
        self.wrapped[place] += u64::from(u64::try_from(exact).is_err());
        if field.r_type == 2 {
            let sum = field.value.wrapping_add(field.addend as u64);
            let above = sum < field.place;
            let forward = sum.wrapping_sub(field.place) as i64 >= 0;
            let signed = (sum as i64).checked_sub(field.place as i64);
            self.past_64 += u64::from(above && forward);
            self.past_63 += u64::from(above && signed.is_none());
        }
    }

    fn count_none(&mut self, info: &RelocationKindInfo, value: i64, room: u64) {
        self.none += 1;
        self.none_cut += u64::from(room < u64::from(byte_size(info.size).min(4)));
        let mut ranges = FILLED_TYPES
            .into_iter()
            .filter_map(oracle::relocation_from_raw)
            .chain([*info])
            .map(|it| it.range);
        self.none_no_range += u64::from(!ranges.any(|range| range.contains(value)));
    }

    /// Each answer's name, how often it was seen, and which parts must meet it.
    fn rows(&self) -> Vec<(String, u64, Demand)> {
        let by_type = [
            ("filled", self.filled, ALL),
            ("filled, the sum wraps", self.wrapped, SHORT),
            ("15, below the range", self.below, SHORT),
            ("15, above the range", self.above, SHORT),
            ("16", self.cut, ALL),
            ("16 where wild's is 15", self.range_first, SHORT),
        ];
        let by_type = by_type.into_iter().flat_map(|(name, counts, demand)| {
            let counts = FILLED_TYPES.into_iter().zip(counts);
            counts.map(move |(it, count)| (format!("{name}: type {it}"), count, demand))
        });
        let others = [
            ("filled, past 2^64: type 2", self.past_64, SHORT),
            ("filled, past 2^63: type 2", self.past_63, SHORT),
            ("none", self.none, ALL),
            ("none, the field is cut", self.none_cut, ALL),
            ("none, in no range", self.none_no_range, SHORT),
            ("refusal 1", self.refused[1], LONG),
            ("refusal 2", self.refused[2], ALL),
            ("refusal 7", self.refused[7], ALL),
        ];
        let others = others.map(|(name, count, demand)| (name.to_string(), count, demand));
        by_type.chain(others).collect()
    }
}

/// The row that wild looks up for a field, and the value that its `write_to_buffer` is handed.
fn row_and_value(field: &Field) -> Option<(RelocationKindInfo, i64)> {
    let info = oracle::relocation_from_raw(field.r_type)?;
    Some((info, field.written(info) as i64))
}

/// By part.
#[derive(Default)]
pub struct FillTally([Answers; 3]);

impl FillTally {
    /// A field in a section of that length.
    pub fn count(&mut self, part: Part, field: &Field, length: usize, filled: &Filled) {
        self.0[part as usize].count(field, length, filled);
    }

    /// Prints how often each answer was seen, and says how many never were that must be.
    pub fn print(&self) -> usize {
        const PARTS: [&str; 3] = ["edges", "random", "long"];
        let [edges, random, long] = PARTS;
        println!("{:<32}{edges:>12}{random:>12}{long:>12}", "filling");
        let mut unseen = 0;
        let [edges, random, long] = self.0.each_ref().map(Answers::rows);
        for ((edges, random), (name, long, demand)) in edges.iter().zip(&random).zip(&long) {
            let counts = [edges.1, random.1, *long];
            println!("{name:<32}{:>12}{:>12}{long:>12}", counts[0], counts[1]);
            for (part, (count, demanded)) in PARTS.iter().zip(counts.iter().zip(demand)) {
                if *demanded && *count == 0 {
                    println!("differential: filling, {part}: {name} was never seen");
                    unseen += 1;
                }
            }
        }
        unseen
    }
}
