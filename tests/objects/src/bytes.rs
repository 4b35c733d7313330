//! Parts of a file and numbers in it, the low byte first. What lies outside the file is an error.

/// What was read, or what is wrong with the file.
pub type Parsed<T> = Result<T, &'static str>;

/// `length` bytes from `start`, or the error named.
pub fn part<'a>(bytes: &'a [u8], start: u64, length: u64, error: &'static str) -> Parsed<&'a [u8]> {
    let range = || {
        let start = usize::try_from(start).ok()?;
        let end = start.checked_add(usize::try_from(length).ok()?)?;
        bytes.get(start..end)
    };
    range().ok_or(error)
}

fn number<const SIZE: usize>(bytes: &[u8], at: usize) -> Parsed<[u8; SIZE]> {
    let rest = bytes.get(at..).unwrap_or_default();
    rest.first_chunk().copied().ok_or("a number is cut")
}

pub fn u8_at(bytes: &[u8], at: usize) -> Parsed<u8> {
    number(bytes, at).map(u8::from_le_bytes)
}

pub fn u16_at(bytes: &[u8], at: usize) -> Parsed<u16> {
    number(bytes, at).map(u16::from_le_bytes)
}

pub fn u32_at(bytes: &[u8], at: usize) -> Parsed<u32> {
    number(bytes, at).map(u32::from_le_bytes)
}

pub fn u64_at(bytes: &[u8], at: usize) -> Parsed<u64> {
    number(bytes, at).map(u64::from_le_bytes)
}

/// The text from `at` to `end`, which isn't part of it.
pub fn text(bytes: &[u8], at: u64, end: u8, error: &'static str) -> Parsed<String> {
    let found = || {
        let rest = bytes.get(usize::try_from(at).ok()?..)?;
        let length = rest.iter().position(|&byte| byte == end)?;
        Some(String::from_utf8_lossy(&rest[..length]).into_owned())
    };
    found().ok_or(error)
}
