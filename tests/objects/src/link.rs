//! A model of what a linker knows of each relocation when it relaxes. Wild's own lookup of symbols
//! and setting of flags aren't among the files that were ported, so this is no copy of them.
//!
//! Addresses: the sections that are loaded lie one after the other at their alignments, from
//! 0x400000 in a fixed output and from 0 in another, and the common symbols after them; other
//! sections are at 0. A symbol's address is its section's plus its value. For offsets from the thread pointer, that is taken
//! to be the end of all that is loaded.
//!
//! Which definition: a local symbol stands for itself, any other for the definition of its name in
//! all objects: the first strong one, else the first common one, else the first weak one. Symbols
//! that a linker itself defines, as _GLOBAL_OFFSET_TABLE_, count as undefined.
//!
//! Flags of a symbol that has a definition:
//! - ifunc: its type is STT_GNU_IFUNC;
//! - absolute: it is in SHN_ABS;
//! - non-interposable: it is local, or the reference or the definition hasn't default visibility,
//!   or the output is an executable.
//!
//! Flags of one that has none:
//! - in a dynamic executable or a shared object: dynamic, if it has default visibility;
//! - in a partial link: none;
//! - else, and for a relocation without a symbol: absolute and non-interposable, at 0. (A linker
//!   reports a strong one; here it counts as a weak one.)

use crate::Object;
use crate::Place;
use crate::Relocation;
use crate::Section;
use crate::Symbol;
use differential::relaxation::Record;
use std::collections::HashMap;
use std::collections::hash_map::Entry;

const SHF_ALLOC: u64 = 2;
const SHF_EXECINSTR: u64 = 4;
const STB_LOCAL: u8 = 0;
const STB_WEAK: u8 = 2;
const STT_GNU_IFUNC: u8 = 10;
const STV_DEFAULT: u8 = 0;

const NON_INTERPOSABLE: u8 = 1;
const ABSOLUTE: u8 = 2;
const DYNAMIC: u8 = 4;
const IFUNC: u8 = 8;

const STATIC_POSITION_INDEPENDENT: u8 = 1;
const DYNAMIC_POSITION_INDEPENDENT: u8 = 3;
const PARTIAL: u8 = 5;

/// A section that has relocations, with its records in the order of their offsets.
pub struct Linked<'a> {
    pub object: &'a Object,
    pub section: &'a Section,
    /// Where the section is loaded.
    pub address: u64,
    pub thread_pointer: u64,
    pub records: Vec<Record>,
}

/// The bytes and records of every section that has relocations, linked for an output kind.
pub fn records(objects: &[Object], output_kind: u8) -> Vec<(&[u8], Vec<Record>)> {
    let linked = link(objects, output_kind).into_iter();
    linked
        .map(|it| (it.section.bytes.as_slice(), it.records))
        .collect()
}

/// The same with the section and the object.
pub fn link(objects: &[Object], output_kind: u8) -> Vec<Linked<'_>> {
    let link = Link::new(objects, output_kind);
    let mut linked = Vec::new();
    for (number, object) in objects.iter().enumerate() {
        let relocated = |section: &&Section| !section.relocations.is_empty();
        let sections = object.sections.iter().zip(&link.sections[number]);
        for (section, &address) in sections.filter(|it| relocated(&it.0)) {
            let relocations = section.relocations.iter();
            let record = |relocation| link.record(number, section, relocation);
            let mut records: Vec<Record> = relocations.map(record).collect();
            records.sort_by_key(|record| record.offset);
            linked.push(Linked {
                object,
                section,
                address,
                thread_pointer: link.end,
                records,
            });
        }
    }
    linked
}

/// A symbol: its object's number, and its own.
type SymbolNumber = (usize, usize);

struct Link<'a> {
    objects: &'a [Object],
    output_kind: u8,
    definitions: HashMap<&'a str, SymbolNumber>,
    /// The address of each object's sections.
    sections: Vec<Vec<u64>>,
    commons: HashMap<SymbolNumber, u64>,
    /// Where all that is loaded ends.
    end: u64,
}

impl<'a> Link<'a> {
    fn new(objects: &'a [Object], output_kind: u8) -> Self {
        let mut link = Self {
            objects,
            output_kind,
            definitions: definitions(objects),
            sections: Vec::new(),
            commons: HashMap::new(),
            end: 0,
        };
        link.lay_out();
        link
    }

    fn is_executable(&self) -> bool {
        self.output_kind <= DYNAMIC_POSITION_INDEPENDENT
    }

    fn lay_out(&mut self) {
        let fixed = matches!(self.output_kind, 0 | 2);
        let mut next = Addresses(if fixed { 0x400000 } else { 0 });
        for object in self.objects {
            let address = |section: &Section| match section.flags & SHF_ALLOC {
                0 => 0,
                _ => next.take(section.size, section.alignment),
            };
            self.sections
                .push(object.sections.iter().map(address).collect());
        }
        let mut common: Vec<SymbolNumber> = self.definitions.values().copied().collect();
        common.retain(|&number| self.symbol(number).place == Place::Common);
        common.sort();
        for number in common {
            let symbol = self.symbol(number);
            // A common symbol's value is its alignment.
            let address = next.take(symbol.size, symbol.value.max(1));
            self.commons.insert(number, address);
        }
        self.end = next.0;
    }

    fn symbol(&self, (object, symbol): SymbolNumber) -> &'a Symbol {
        &self.objects[object].symbols[symbol]
    }

    fn record(&self, object: usize, section: &Section, relocation: &Relocation) -> Record {
        let (flags, address) = match relocation.symbol {
            0 => (ABSOLUTE | NON_INTERPOSABLE, 0),
            symbol => self.resolve((object, symbol as usize)),
        };
        Record {
            r_type: relocation.r_type,
            offset: relocation.offset,
            flags,
            output_kind: self.output_kind,
            executable: section.flags & SHF_EXECINSTR != 0,
            address,
            addend: relocation.addend,
        }
    }

    /// A symbol's flags and address.
    fn resolve(&self, reference: SymbolNumber) -> (u8, u64) {
        let symbol = self.symbol(reference);
        let definition = match symbol.binding {
            STB_LOCAL => Some(reference).filter(|_| symbol.place != Place::Undefined),
            _ => self.definitions.get(symbol.name.as_str()).copied(),
        };
        match definition {
            Some(definition) => self.defined(symbol, definition),
            None => (self.undefined_flags(symbol), 0),
        }
    }

    fn defined(&self, reference: &Symbol, number: SymbolNumber) -> (u8, u64) {
        let symbol = self.symbol(number);
        let visible = (reference.visibility, symbol.visibility) == (STV_DEFAULT, STV_DEFAULT);
        let bound = reference.binding == STB_LOCAL || !visible || self.is_executable();
        let flag = |set, flag| if set { flag } else { 0 };
        let flags = flag(bound, NON_INTERPOSABLE)
            | flag(symbol.place == Place::Absolute, ABSOLUTE)
            | flag(symbol.kind == STT_GNU_IFUNC, IFUNC);
        let start = match symbol.place {
            Place::Section(section) => self.sections[number.0][section as usize],
            Place::Common => return (flags, self.commons.get(&number).copied().unwrap_or(0)),
            Place::Absolute | Place::Undefined => 0,
        };
        (flags, start.wrapping_add(symbol.value))
    }

    fn undefined_flags(&self, symbol: &Symbol) -> u8 {
        match self.output_kind {
            PARTIAL => 0,
            kind if kind > STATIC_POSITION_INDEPENDENT && symbol.visibility == STV_DEFAULT => {
                DYNAMIC
            }
            _ => ABSOLUTE | NON_INTERPOSABLE,
        }
    }
}

/// The definition that each name stands for.
fn definitions(objects: &[Object]) -> HashMap<&str, SymbolNumber> {
    let mut best: HashMap<&str, (u8, SymbolNumber)> = HashMap::new();
    for (object, it) in objects.iter().enumerate() {
        for (number, symbol) in it.symbols.iter().enumerate() {
            let strength = strength(symbol);
            if strength == 0 {
                continue;
            }
            let candidate = (strength, (object, number));
            match best.entry(&symbol.name) {
                Entry::Occupied(mut known) if known.get().0 < strength => {
                    known.insert(candidate);
                }
                Entry::Occupied(_) => {}
                Entry::Vacant(place) => {
                    place.insert(candidate);
                }
            }
        }
    }
    best.into_iter()
        .map(|(name, (_, number))| (name, number))
        .collect()
}

/// 0 where the symbol defines nothing for others.
fn strength(symbol: &Symbol) -> u8 {
    match symbol {
        Symbol {
            place: Place::Undefined,
            ..
        }
        | Symbol {
            binding: STB_LOCAL, ..
        } => 0,
        Symbol {
            binding: STB_WEAK, ..
        } => 1,
        Symbol {
            place: Place::Common,
            ..
        } => 2,
        _ => 3,
    }
}

/// The next free address.
struct Addresses(u64);

impl Addresses {
    fn take(&mut self, size: u64, alignment: u64) -> u64 {
        let address = self.0.wrapping_add(alignment.wrapping_sub(1)) & alignment.wrapping_neg();
        self.0 = address.wrapping_add(size);
        address
    }
}
