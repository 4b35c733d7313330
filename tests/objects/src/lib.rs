//! Relocatable objects and archives: read, and their relocations as records for the relaxer.

mod archive;
mod bytes;
mod elf;
mod link;

pub use link::Linked;
pub use link::link;
pub use link::records;

use std::fmt;
use std::fs;
use std::path::Path;

/// An object, of its own or a member of an archive.
#[derive(Debug, Default)]
pub struct Object {
    /// The file's name without its folder.
    pub file: String,
    pub member: Option<String>,
    /// By their numbers in the object.
    pub sections: Vec<Section>,
    /// By their numbers in the object.
    pub symbols: Vec<Symbol>,
    /// Records in SHT_REL sections, which aren't taken.
    pub rel_records: u64,
    /// Compressed sections, and the records for them, which aren't taken.
    pub compressed_sections: u64,
    pub compressed_records: u64,
}

#[derive(Debug)]
pub struct Section {
    pub name: String,
    pub flags: u64,
    pub alignment: u64,
    /// In the output; where it has no bytes in the file, as .bss, `bytes` is empty.
    pub size: u64,
    pub bytes: Vec<u8>,
    pub compressed: bool,
    /// As they stand in the file, with any offset.
    pub relocations: Vec<Relocation>,
}

#[derive(Debug, Clone, Copy)]
pub struct Relocation {
    pub offset: u64,
    pub r_type: u32,
    /// The symbol's number. Only 0 may have no row.
    pub symbol: u32,
    pub addend: i64,
}

#[derive(Debug)]
pub struct Symbol {
    pub name: String,
    /// STT_
    pub kind: u8,
    /// STB_
    pub binding: u8,
    /// STV_
    pub visibility: u8,
    pub place: Place,
    pub value: u64,
    pub size: u64,
}

#[derive(Debug, Clone, Copy, PartialEq, Eq)]
pub enum Place {
    Undefined,
    Absolute,
    Common,
    /// The number of a section that there is.
    Section(u32),
}

/// What a file holds.
#[derive(Debug, Default)]
pub struct Input {
    pub objects: Vec<Object>,
    /// Members of an archive that aren't objects for x86-64, as Rust's metadata.
    pub other_members: u64,
}

#[derive(Debug)]
pub struct ReadError {
    /// The file's name without its folder.
    pub file: String,
    pub member: Option<String>,
    pub what: String,
}

impl fmt::Display for ReadError {
    fn fmt(&self, f: &mut fmt::Formatter<'_>) -> fmt::Result {
        write!(f, "{}: {}", place(&self.file, &self.member), self.what)
    }
}

impl std::error::Error for ReadError {}

/// FILE, or FILE(MEMBER).
fn place(file: &str, member: &Option<String>) -> String {
    match member {
        Some(member) => format!("{file}({member})"),
        None => file.to_string(),
    }
}

impl fmt::Display for Object {
    fn fmt(&self, f: &mut fmt::Formatter<'_>) -> fmt::Result {
        f.write_str(&place(&self.file, &self.member))
    }
}

/// The objects in a file.
pub fn read_file(path: &Path) -> Result<Vec<Object>, ReadError> {
    Ok(read_input(path)?.objects)
}

/// The objects in a file, and what was passed over.
pub fn read_input(path: &Path) -> Result<Input, ReadError> {
    let name = path.file_name().unwrap_or_default().to_string_lossy();
    let bytes = fs::read(path).map_err(|error| ReadError {
        file: name.to_string(),
        member: None,
        what: error.to_string(),
    })?;
    parse(&name, &bytes)
}

/// The same of bytes that were read already.
pub fn parse(file: &str, bytes: &[u8]) -> Result<Input, ReadError> {
    let error = |member, what: &str| ReadError {
        file: file.to_string(),
        member,
        what: what.to_string(),
    };
    let mut input = Input::default();
    let Some(members) = archive::members(bytes) else {
        if !elf::is_object(bytes) {
            return Err(error(None, "no archive, and no object for x86-64"));
        }
        let object = elf::read(bytes).map_err(|what| error(None, what))?;
        input.add(file, None, object);
        return Ok(input);
    };
    for (name, body) in members.map_err(|(member, what)| error(member, what))? {
        if elf::is_object(body) {
            let object = elf::read(body).map_err(|what| error(Some(name.clone()), what))?;
            input.add(file, Some(name), object);
        } else {
            input.other_members += 1;
        }
    }
    Ok(input)
}

impl Input {
    fn add(&mut self, file: &str, member: Option<String>, object: Object) {
        self.objects.push(Object {
            file: file.to_string(),
            member,
            ..object
        });
    }
}
