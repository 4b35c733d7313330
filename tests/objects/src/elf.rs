//! ELF64 relocatable objects for x86-64.

use crate::Object;
use crate::Place;
use crate::Relocation;
use crate::Section;
use crate::Symbol;
use crate::bytes::Parsed;
use crate::bytes::part;
use crate::bytes::text;
use crate::bytes::u8_at;
use crate::bytes::u16_at;
use crate::bytes::u32_at;
use crate::bytes::u64_at;

/// Class 64 bits, low byte first.
const IDENT: &[u8] = b"\x7fELF\x02\x01";
const ET_REL: u16 = 1;
const EM_X86_64: u16 = 62;

const SECTION_HEADER: u64 = 64;
const SYMBOL: u64 = 24;
const RELA: u64 = 24;
const REL: u64 = 16;

const SHT_SYMTAB: u32 = 2;
const SHT_RELA: u32 = 4;
const SHT_NOBITS: u32 = 8;
const SHT_REL: u32 = 9;
const SHT_SYMTAB_SHNDX: u32 = 18;
const SHF_COMPRESSED: u64 = 0x800;

const SHN_LORESERVE: u16 = 0xff00;
const SHN_X86_64_LCOMMON: u16 = 0xff02;
const SHN_ABS: u16 = 0xfff1;
const SHN_COMMON: u16 = 0xfff2;
const SHN_XINDEX: u16 = 0xffff;

/// Whether these are the bytes of an object that is read here.
pub fn is_object(bytes: &[u8]) -> bool {
    bytes.starts_with(IDENT)
        && u16_at(bytes, 16) == Ok(ET_REL)
        && u16_at(bytes, 18) == Ok(EM_X86_64)
}

struct Header {
    name: u32,
    kind: u32,
    flags: u64,
    offset: u64,
    size: u64,
    link: u32,
    info: u32,
    alignment: u64,
    entry_size: u64,
}

impl Header {
    fn read(row: &[u8]) -> Parsed<Self> {
        Ok(Self {
            name: u32_at(row, 0)?,
            kind: u32_at(row, 4)?,
            flags: u64_at(row, 8)?,
            offset: u64_at(row, 24)?,
            size: u64_at(row, 32)?,
            link: u32_at(row, 40)?,
            info: u32_at(row, 44)?,
            alignment: u64_at(row, 48)?,
            entry_size: u64_at(row, 56)?,
        })
    }

    /// The section's bytes in the file.
    fn body<'a>(&self, bytes: &'a [u8]) -> Parsed<&'a [u8]> {
        match self.kind {
            SHT_NOBITS => Ok(&[]),
            _ => part(bytes, self.offset, self.size, "a section lies outside"),
        }
    }

    /// The rows of a section that is a table.
    fn rows<'a>(&self, bytes: &'a [u8], size: u64) -> Parsed<impl Iterator<Item = &'a [u8]>> {
        if self.entry_size != size || !self.size.is_multiple_of(size) {
            return Err("a table's rows have the wrong size");
        }
        Ok(self.body(bytes)?.chunks_exact(size as usize))
    }
}

/// An object's parts while they are read.
struct Reader<'a> {
    bytes: &'a [u8],
    headers: Vec<Header>,
    object: Object,
}

/// Reads an object for which `is_object` holds.
pub fn read(bytes: &[u8]) -> Parsed<Object> {
    let (headers, names) = headers(bytes)?;
    let mut reader = Reader {
        bytes,
        headers,
        object: Object::default(),
    };
    reader.sections(names)?;
    let table = reader.symbol_table()?;
    for index in 0..reader.headers.len() {
        match reader.headers[index].kind {
            SHT_RELA => reader.relocations(index, table)?,
            SHT_REL => reader.object.rel_records += reader.headers[index].size / REL,
            _ => {}
        }
    }
    Ok(reader.object)
}

/// The section headers, and the number of the section with their names.
fn headers(bytes: &[u8]) -> Parsed<(Vec<Header>, u32)> {
    let start = u64_at(bytes, 40)?;
    let (size, count) = (u16_at(bytes, 58)?, u16_at(bytes, 60)?);
    let names = u16_at(bytes, 62)?;
    if start == 0 {
        return Ok((Vec::new(), 0));
    }
    if u64::from(size) != SECTION_HEADER {
        return Err("the section headers have the wrong size");
    }
    let outside = "the section headers lie outside";
    let first = Header::read(part(bytes, start, SECTION_HEADER, outside)?)?;
    // Numbers that don't fit stand in the first header.
    let count = if count == 0 { first.size } else { count.into() };
    let names = if names == SHN_XINDEX {
        first.link
    } else {
        names.into()
    };
    let length = count.checked_mul(SECTION_HEADER).ok_or(outside)?;
    let table = part(bytes, start, length, outside)?;
    let rows = table.chunks_exact(SECTION_HEADER as usize);
    Ok((rows.map(Header::read).collect::<Parsed<_>>()?, names))
}

impl Reader<'_> {
    fn header(&self, index: u32) -> Parsed<&Header> {
        let header = self.headers.get(index as usize);
        header.ok_or("there is no section of that number")
    }

    fn sections(&mut self, names: u32) -> Parsed<()> {
        if self.headers.is_empty() {
            return Ok(());
        }
        let names = self.header(names)?.body(self.bytes)?;
        for header in &self.headers {
            let compressed = header.flags & SHF_COMPRESSED != 0;
            self.object.compressed_sections += u64::from(compressed);
            if header.alignment & header.alignment.wrapping_sub(1) != 0 {
                return Err("an alignment is no power of two");
            }
            self.object.sections.push(Section {
                name: text(
                    names,
                    header.name.into(),
                    0,
                    "a section's name lies outside",
                )?,
                flags: header.flags,
                alignment: header.alignment.max(1),
                size: header.size,
                // The first header may hold a count where others hold a size.
                bytes: match header.kind {
                    0 => Vec::new(),
                    _ => header.body(self.bytes)?.to_vec(),
                },
                compressed,
                relocations: Vec::new(),
            });
        }
        Ok(())
    }

    /// Reads the symbols. Gives the number of their section, or 0 where there are none.
    fn symbol_table(&mut self) -> Parsed<u32> {
        let of_kind = |kind| self.headers.iter().position(|header| header.kind == kind);
        let Some(index) = of_kind(SHT_SYMTAB) else {
            return Ok(0);
        };
        let table = &self.headers[index];
        let names = self.header(table.link)?.body(self.bytes)?;
        let far = match of_kind(SHT_SYMTAB_SHNDX) {
            Some(far) if self.headers[far].link as usize == index => {
                self.headers[far].body(self.bytes)?
            }
            _ => &[],
        };
        let sections = self.headers.len();
        let rows = table.rows(self.bytes, SYMBOL)?.enumerate();
        let symbols =
            rows.map(|(number, row)| symbol(row, names, sections, || u32_at(far, 4 * number)));
        self.object.symbols = symbols.collect::<Parsed<_>>()?;
        Ok(index as u32)
    }

    /// The relocations in the section of that number, for the section that they are for.
    fn relocations(&mut self, index: usize, symbol_table: u32) -> Parsed<()> {
        let header = &self.headers[index];
        let target = self.object.sections.get_mut(header.info as usize);
        let target = target.ok_or("relocations are for no section")?;
        if target.compressed {
            self.object.compressed_records += header.size / RELA;
            return Ok(());
        }
        if header.link != symbol_table {
            return Err("relocations have another symbol table");
        }
        for row in header.rows(self.bytes, RELA)? {
            let relocation = Relocation {
                offset: u64_at(row, 0)?,
                r_type: u32_at(row, 8)?,
                symbol: u32_at(row, 12)?,
                addend: u64_at(row, 16)? as i64,
            };
            if relocation.symbol as usize >= self.object.symbols.len().max(1) {
                return Err("a relocation has no symbol");
            }
            target.relocations.push(relocation);
        }
        Ok(())
    }
}

/// `far` gives the section's number where it doesn't fit into the row.
fn symbol(
    row: &[u8],
    names: &[u8],
    sections: usize,
    far: impl FnOnce() -> Parsed<u32>,
) -> Parsed<Symbol> {
    let place = match u16_at(row, 6)? {
        0 => Place::Undefined,
        SHN_ABS => Place::Absolute,
        SHN_COMMON | SHN_X86_64_LCOMMON => Place::Common,
        SHN_XINDEX => Place::Section(far()?),
        SHN_LORESERVE.. => return Err("a symbol is in a section of an unknown kind"),
        section => Place::Section(section.into()),
    };
    if matches!(place, Place::Section(section) if section as usize >= sections) {
        return Err("a symbol is in no section");
    }
    let (info, other) = (u8_at(row, 4)?, u8_at(row, 5)?);
    Ok(Symbol {
        name: text(
            names,
            u32_at(row, 0)?.into(),
            0,
            "a symbol's name lies outside",
        )?,
        kind: info & 15,
        binding: info >> 4,
        visibility: other & 3,
        place,
        value: u64_at(row, 8)?,
        size: u64_at(row, 16)?,
    })
}
