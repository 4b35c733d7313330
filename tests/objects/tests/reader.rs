//! The reader on damaged files and on forms that no file of the fixed set has.

use objects::Input;
use objects::Place;

const OBJECT: &[u8] = include_bytes!("../data/ifunc-gcc-pic.o");
const ONE: &[u8] = include_bytes!("../data/one.a");
const SOME: &[u8] = include_bytes!("../data/some.a");

const SHT_SYMTAB: u32 = 2;
const SHT_RELA: u32 = 4;
const SHT_REL: u32 = 9;
const SHT_SYMTAB_SHNDX: u32 = 18;

fn read(bytes: &[u8]) -> Input {
    objects::parse("test", bytes).expect("a file that can be read")
}

/// What is wrong with a file.
fn error(bytes: &[u8]) -> String {
    let error = objects::parse("test", bytes).expect_err("a file that can't be read");
    error.to_string()
}

fn records(input: &Input) -> usize {
    let sections = input.objects.iter().flat_map(|object| &object.sections);
    sections.map(|section| section.relocations.len()).sum()
}

/// Links what was read of a damaged file; none may panic.
fn try_damaged(bytes: &[u8]) -> Option<usize> {
    let input = objects::parse("test", bytes).ok()?;
    for output_kind in 0..6 {
        objects::records(&input.objects, output_kind);
    }
    Some(records(&input))
}

#[test]
fn cut_anywhere() {
    for whole in [OBJECT, ONE, SOME] {
        let all = records(&read(whole));
        assert!(all > 0);
        for length in 0..whole.len() {
            let found = try_damaged(&whole[..length]);
            assert!(found.is_none_or(|found| found < all), "cut at {length}");
        }
    }
}

#[test]
fn any_byte_changed() {
    for whole in [OBJECT, SOME] {
        for place in 0..whole.len() {
            let mut bytes = whole.to_vec();
            for change in [0x01, 0x02, 0x04, 0x08, 0x10, 0x20, 0x40, 0x80, 0xff] {
                bytes[place] = whole[place] ^ change;
                try_damaged(&bytes);
            }
        }
    }
}

#[test]
fn names_what_is_wrong() {
    assert_eq!(error(b"text"), "test: no archive, and no object for x86-64");
    let thin = "test: a thin archive: its members aren't in it";
    assert_eq!(error(b"!<thin>\n"), thin);
    assert_eq!(
        error(&ONE[..ONE.len() - 1]),
        "test(threads-gcc-pic.o): the member is cut"
    );
    let mut bytes = ONE.to_vec();
    let object = bytes
        .windows(4)
        .position(|part| part == b"\x7fELF")
        .unwrap();
    bytes[object + 58] = 63;
    let wrong = "test(threads-gcc-pic.o): the section headers have the wrong size";
    assert_eq!(error(&bytes), wrong);
}

/// A member of an archive.
fn member(name: &str, body: &[u8]) -> Vec<u8> {
    let header = format!("{name:<16}{:<32}{:<10}`\n", "0", body.len());
    let mut bytes = [header.as_bytes(), body].concat();
    if body.len() % 2 == 1 {
        bytes.push(b'\n');
    }
    bytes
}

#[test]
fn archive_names() {
    let archive = |members: &[Vec<u8>]| [b"!<arch>\n", members.concat().as_slice()].concat();
    let names = member("//", b"a_name_that_is_long.o/\nanother_long_name.o/\n");
    let input = read(&archive(&[
        member("/", b"symbols"),
        member("/SYM64/", b"symbols"),
        names.clone(),
        member("/23", OBJECT),
        member("short.o/", OBJECT),
        member("lib.rmeta/", b"metadata."),
        member("/0", OBJECT),
    ]));
    let members = input.objects.iter().map(|object| object.member.as_deref());
    let expected = ["another_long_name.o", "short.o", "a_name_that_is_long.o"];
    assert_eq!(members.collect::<Vec<_>>(), expected.map(Some));
    assert_eq!(input.other_members, 1);
    let outside = error(&archive(&[names, member("/99", OBJECT)]));
    assert_eq!(outside, "test(/99): the name isn't in the table");
    let bsd = error(&archive(&[member("#1/4", b"name")]));
    assert_eq!(bsd, "test(#1/4): the name is in BSD's form");
}

/// An object whose numbers can be changed.
struct Patched(Vec<u8>);

impl Patched {
    fn number<const SIZE: usize>(&self, at: usize) -> usize {
        let bytes = self.0[at..at + SIZE].iter().rev();
        bytes.fold(0, |number, &byte| number << 8 | usize::from(byte))
    }

    fn set<const SIZE: usize>(&mut self, at: usize, number: usize) {
        self.0[at..at + SIZE].copy_from_slice(&number.to_le_bytes()[..SIZE]);
    }

    /// Where the header of a section stands.
    fn header(&self, section: usize) -> usize {
        self.number::<8>(40) + 64 * section
    }

    fn count(&self) -> usize {
        self.number::<2>(60)
    }

    /// The first section of a type.
    fn of_type(&self, kind: u32) -> usize {
        let is_one = |&section: &usize| self.number::<4>(self.header(section) + 4) == kind as usize;
        (0..self.count())
            .find(is_one)
            .expect("a section of the type")
    }
}

#[test]
fn numbers_in_the_first_header() {
    let mut object = Patched(OBJECT.to_vec());
    let (first, count, names) = (object.header(0), object.count(), object.number::<2>(62));
    object.set::<8>(first + 32, count);
    object.set::<2>(60, 0);
    object.set::<4>(first + 40, names);
    object.set::<2>(62, 0xffff);
    let same = |a: &Input, b: &Input| format!("{:?}", a.objects) == format!("{:?}", b.objects);
    let mut expected = read(OBJECT);
    expected.objects[0].sections[0].size = count as u64;
    assert!(same(&read(&object.0), &expected));
}

#[test]
fn section_numbers_of_symbols_in_a_table() {
    let mut object = Patched(OBJECT.to_vec());
    let (table, count) = (object.of_type(SHT_SYMTAB), object.count());
    let start = object.number::<8>(object.header(table) + 24);
    let symbols = object.number::<8>(object.header(table) + 32) / 24;
    let mut far = Vec::new();
    for symbol in 0..symbols {
        let place = start + 24 * symbol + 6;
        let section = object.number::<2>(place);
        let is_number = (1..0xff00).contains(&section);
        far.extend(if is_number { section as u32 } else { 0 }.to_le_bytes());
        object.set::<2>(place, if is_number { 0xffff } else { section });
    }
    assert!(
        error(&object.0).ends_with("a number is cut"),
        "no table yet"
    );
    // The headers once more at the end, with one for the table.
    let (headers, table_at) = (object.header(0), object.0.len());
    object.0.extend(&far);
    let (again, length) = (object.0.len(), 64 * count);
    object.0.extend_from_within(headers..headers + length);
    object.0.extend([0; 64]);
    object.set::<8>(40, again);
    object.set::<2>(60, count + 1);
    let header = object.header(count);
    object.set::<4>(header + 4, SHT_SYMTAB_SHNDX as usize);
    object.set::<8>(header + 24, table_at);
    object.set::<8>(header + 32, far.len());
    object.set::<4>(header + 40, table);
    let places = |bytes| -> Vec<Place> {
        let input = read(bytes);
        input.objects[0].symbols.iter().map(|it| it.place).collect()
    };
    assert_eq!(places(&object.0), places(OBJECT));
}

#[test]
fn counts_what_is_not_taken() {
    let whole = records(&read(OBJECT));
    let mut object = Patched(OBJECT.to_vec());
    let header = object.header(object.of_type(SHT_RELA));
    let (taken, target) = (
        object.number::<8>(header + 32) / 24,
        object.number::<4>(header + 44),
    );
    object.set::<4>(header + 4, SHT_REL as usize);
    let input = read(&object.0);
    assert_eq!(records(&input), whole - taken);
    assert_eq!(input.objects[0].rel_records, taken as u64 * 24 / 16);

    let mut object = Patched(OBJECT.to_vec());
    let flags = object.header(target) + 8;
    object.set::<8>(flags, object.number::<8>(flags) | 0x800);
    let input = read(&object.0);
    assert_eq!(records(&input), whole - taken);
    let passed_over = &input.objects[0];
    assert_eq!(
        (
            passed_over.compressed_sections,
            passed_over.compressed_records
        ),
        (1, taken as u64)
    );
}
