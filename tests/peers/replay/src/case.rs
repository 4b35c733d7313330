//! A line of the list; its layout stands at the head of make_peers.py.

pub struct Record {
    pub r_type: u32,
    pub offset: u64,
    pub addend: i64,
    pub flags: u8,
    pub address: u64,
    pub tp: Option<i64>,
    pub slot: Option<u64>,
}

pub struct Case {
    pub name: String,
    /// Whether assemblers make the form, with the type that belongs to it.
    pub by_the_book: bool,
    pub kind: u8,
    pub executable: bool,
    pub records: Vec<Record>,
    pub before: Vec<u8>,
    pub place: u64,
    pub got: Option<u64>,
    pub peers: Vec<String>,
    pub recorded: String,
    /// None where the peer refuses.
    pub after: Option<Vec<u8>>,
}

fn unsigned(text: &str) -> Option<u64> {
    u64::from_str_radix(text, 16).ok()
}

fn signed(text: &str) -> Option<i64> {
    i64::from_str_radix(text, 16).ok()
}

fn bytes(text: &str) -> Option<Vec<u8>> {
    let pair = |at| u8::from_str_radix(text.get(at..at + 2)?, 16).ok();
    (0..text.len()).step_by(2).map(pair).collect()
}

fn record(text: &str) -> Option<Record> {
    let fields: Vec<&str> = text.split(':').collect();
    let [r_type, offset, addend, flags, address, tp, slot] = fields[..] else {
        return None;
    };
    Some(Record {
        r_type: unsigned(r_type)?.try_into().ok()?,
        offset: unsigned(offset)?,
        addend: signed(addend)?,
        flags: unsigned(flags)?.try_into().ok()?,
        address: unsigned(address).unwrap_or(0),
        tp: signed(tp),
        slot: unsigned(slot),
    })
}

/// A case, or None where the line isn't one.
pub fn parse(line: &str) -> Option<Case> {
    let fields: Vec<&str> = line.split(' ').collect();
    let [
        name,
        group,
        kind,
        executable,
        records,
        before,
        place,
        got,
        peers,
        recorded,
        after,
    ] = fields[..]
    else {
        return None;
    };
    Some(Case {
        name: name.to_owned(),
        by_the_book: group == "book",
        kind: kind.parse().ok()?,
        executable: executable == "1",
        records: records.split('/').map(record).collect::<Option<_>>()?,
        before: bytes(before)?,
        place: unsigned(place).unwrap_or(0),
        got: unsigned(got),
        peers: peers.split(',').map(str::to_owned).collect(),
        recorded: recorded.to_owned(),
        after: if after == "-" {
            None
        } else {
            Some(bytes(after)?)
        },
    })
}
