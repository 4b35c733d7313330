//! Each distinct record with all flags, output kinds, executable or not, and edges of addresses.

use crate::comparison::AFTER;
use crate::comparison::BEFORE;
use crate::comparison::Comparison;
use crate::comparison::Hex;
use crate::comparison::describe;
use crate::comparison::near;
use differential::ask_port;
use differential::relaxation;
use differential::relaxation::Record;
use objects::Linked;
use objects::Object;
use std::collections::HashSet;

/// Bytes before and after the lent part, which no call may change.
const GUARD: usize = 16;
const REACH: usize = BEFORE + AFTER;
const EDGES: [u64; 8] = [
    0,
    (1 << 31) - 1,
    1 << 31,
    (1 << 32) - 1,
    1 << 32,
    u64::MAX - (1 << 31),
    u64::MAX - (1 << 31) + 1,
    u64::MAX,
];

/// What choosing and rewriting can see of a record beside the numbers that are combined: they
/// reach no further than these bytes.
#[derive(Clone, Copy, PartialEq, Eq, Hash)]
struct Near {
    r_type: u32,
    addend: i64,
    /// In the bytes.
    offset: u64,
    length: usize,
    bytes: [u8; GUARD + REACH + GUARD],
}

impl Near {
    fn new(record: &Record, section: &[u8]) -> Self {
        let range = near(record.offset, section.len());
        let mut bytes = [0xa5; GUARD + REACH + GUARD];
        bytes[GUARD..GUARD + range.len()].copy_from_slice(&section[range.clone()]);
        Self {
            r_type: record.r_type,
            addend: record.addend,
            offset: record.offset - range.start as u64,
            length: range.len(),
            bytes,
        }
    }

    fn lent<'a>(&self, bytes: &'a mut [u8]) -> &'a mut [u8] {
        &mut bytes[GUARD..GUARD + self.length]
    }
}

/// The first of the records that look alike.
pub struct Distinct<'a> {
    near: Near,
    /// In a fixed static output.
    address: u64,
    object: &'a Object,
    section: &'a objects::Section,
    offset: u64,
}

pub fn distinct(objects: &[Object]) -> Vec<Distinct<'_>> {
    let mut known = HashSet::new();
    let mut distinct = Vec::new();
    for linked in objects::link(objects, 0) {
        let Linked {
            object, section, ..
        } = linked;
        for record in &linked.records {
            let near = Near::new(record, &section.bytes);
            if known.insert(near) {
                distinct.push(Distinct {
                    near,
                    address: record.address,
                    object,
                    section,
                    offset: record.offset,
                });
            }
        }
    }
    distinct
}

impl Comparison {
    pub fn every_combination(&mut self, distinct: &Distinct) {
        for address in EDGES.into_iter().chain([distinct.address]) {
            for number in 0..16 * 6 * 2 {
                let record = Record {
                    r_type: distinct.near.r_type,
                    offset: distinct.near.offset,
                    flags: number % 16,
                    output_kind: number / 16 % 6,
                    executable: number / 16 / 6 == 1,
                    address,
                    addend: distinct.near.addend,
                };
                self.choose_and_relax(distinct, &record);
            }
        }
    }

    fn choose_and_relax(&mut self, distinct: &Distinct, record: &Record) {
        let near = &distinct.near;
        let describe = |what| {
            let offset = distinct.offset;
            describe(
                what,
                distinct.object,
                distinct.section,
                &Record { offset, ..*record },
            )
        };
        let (mut port, mut rust) = (near.bytes, near.bytes);
        let port_choice = ask_port!(new_relaxation, record, near.lent(&mut port));
        let rust_choice = relaxation::choose(record, near.lent(&mut rust));
        let before = (rust_choice, Hex(&near.bytes));
        self.compare((port_choice, Hex(&port)), before, || describe("choosing"));
        let port_relaxed = ask_port!(relax, record, near.lent(&mut port));
        let rust_relaxed = relaxation::relax(record, near.lent(&mut rust));
        let after = (rust_relaxed, Hex(&rust));
        self.compare((port_relaxed, Hex(&port)), after, || describe("relaxing"));
    }
}
