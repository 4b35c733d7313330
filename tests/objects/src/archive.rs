//! Archives of `ar`, System V and GNU.

use crate::bytes::Parsed;
use crate::bytes::part;
use crate::bytes::text;

const MAGIC: &[u8] = b"!<arch>\n";
const THIN_MAGIC: &[u8] = b"!<thin>\n";
const HEADER: u64 = 60;

// Members that hold what the archive itself needs.
const SYMBOLS: &str = "/";
const SYMBOLS_64: &str = "/SYM64/";
const LONG_NAMES: &str = "//";

/// The members with their names. An error comes with the name of the member, where it has one.
pub type Members<'a> = Result<Vec<(String, &'a [u8])>, (Option<String>, &'static str)>;

/// The members but for symbol tables and the long names; none where the file is no archive.
pub fn members(bytes: &[u8]) -> Option<Members<'_>> {
    if bytes.starts_with(THIN_MAGIC) {
        return Some(Err((None, "a thin archive: its members aren't in it")));
    }
    bytes.starts_with(MAGIC).then(|| read_members(bytes))
}

fn read_members(bytes: &[u8]) -> Members<'_> {
    let mut members = Vec::new();
    let mut long_names: &[u8] = &[];
    let mut at = MAGIC.len() as u64;
    while at < bytes.len() as u64 {
        let (field, length) = header(bytes, at).map_err(|what| (None, what))?;
        let name = member_name(&field, long_names).map_err(|what| (Some(field.clone()), what))?;
        let body = part(bytes, at + HEADER, length, "the member is cut");
        let body = body.map_err(|what| (Some(name.clone()), what))?;
        match field.as_str() {
            SYMBOLS | SYMBOLS_64 => {}
            LONG_NAMES => long_names = body,
            _ => members.push((name, body)),
        }
        // Members begin at even places.
        at += HEADER + length + length % 2;
    }
    Ok(members)
}

/// The name as it stands in the header, and the member's length.
fn header(bytes: &[u8], at: u64) -> Parsed<(String, u64)> {
    let header = part(bytes, at, HEADER, "a member's header is cut")?;
    if !header.ends_with(b"`\n") {
        return Err("a member's header has no end mark");
    }
    let field = |range| {
        String::from_utf8_lossy(&header[range])
            .trim_end()
            .to_string()
    };
    let length = field(48..58).parse().ok();
    // A length that could wrap the place of the next member is no length.
    let length = length.filter(|&length: &u64| length <= bytes.len() as u64);
    Ok((field(0..16), length.ok_or("a member's length is wrong")?))
}

/// The name, given the header's field, which may be a place among the long names.
fn member_name(field: &str, long_names: &[u8]) -> Parsed<String> {
    if field.starts_with("#1/") {
        return Err("the name is in BSD's form");
    }
    let name = match field.strip_prefix('/') {
        _ if [SYMBOLS, SYMBOLS_64, LONG_NAMES].contains(&field) => return Ok(field.to_string()),
        Some(place) => {
            let place = place.parse().map_err(|_| "the name is wrong")?;
            text(long_names, place, b'\n', "the name isn't in the table")?
        }
        None => field.to_string(),
    };
    Ok(name.trim_end_matches('/').to_string())
}
