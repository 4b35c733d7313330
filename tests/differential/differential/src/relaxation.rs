//! Wild's choosing, rewriting and relaxing, answering as the port does. Refusals 1 to 5 follow from
//! the input's numbers; 6 is a panic of wild's `apply`.

use jitamoro::sys::ChoiceAnswer;
use jitamoro::sys::MovedAnswer;
use jitamoro::sys::RelaxedAnswer;
use libwild::oracle;
use libwild::oracle::OutputKind;
use libwild::oracle::Relaxation;
use libwild::oracle::RelaxationKind;
use libwild::oracle::RelocationKindInfo;
use libwild::oracle::RelocationModifier;
use libwild::oracle::ValueFlags;
use std::panic;
use std::panic::AssertUnwindSafe;

/// The longest section that isn't refused.
pub const SECTION_LIMIT: usize = 268_435_456;

/// A record in document 01's numbers.
#[derive(Debug, Clone, Copy)]
pub struct Record {
    pub r_type: u32,
    pub offset: u64,
    pub flags: u8,
    pub output_kind: u8,
    pub executable: bool,
    pub address: u64,
    pub addend: i64,
}

impl Record {
    /// Refusals 1 to 4, or 0.
    pub fn refusal(&self, length: usize) -> u8 {
        let conditions = [
            length > SECTION_LIMIT,
            self.offset > length as u64,
            self.flags > 15,
            self.output_kind > 5,
        ];
        let first = conditions.iter().position(|&refused| refused);
        first.map_or(0, |place| place as u8 + 1)
    }
}

/// The kinds in the order of wild's enum, and the word for the instruction offset of those that
/// have one.
macro_rules! kinds {
    ($word:ident: $($number:literal $name:ident $(($inst_offset:ident))?,)*) => {
        pub const KIND_NAMES: [&str; 19] = [$(stringify!($name),)*];

        pub fn relaxation_kind(number: u8, $word: u8) -> Option<RelaxationKind> {
            match number {
                $($number => Some(RelaxationKind::$name $(($inst_offset))?),)*
                _ => None,
            }
        }

        /// A kind's number, and its instruction offset or 0.
        pub fn kind_number(kind: RelaxationKind) -> (u8, u8) {
            match kind {
                $(RelaxationKind::$name $(($inst_offset))? => ($number, 0 $(+ $inst_offset)?),)*
            }
        }
    };
}

kinds! { inst_offset:
    0 MovIndirectToLea,
    1 MovIndirectToAbsolute,
    2 RexMovIndirectToAbsolute(inst_offset),
    3 RexAddIndirectToAbsolute(inst_offset),
    4 RexAddIndirectToLea(inst_offset),
    5 RexSubIndirectToAbsolute(inst_offset),
    6 RexCmpIndirectToAbsolute(inst_offset),
    7 CallIndirectToRelative,
    8 JmpIndirectToRelative,
    9 NoOp,
    10 TlsGdToLocalExec,
    11 TlsGdToLocalExecLarge,
    12 TlsLdToLocalExec,
    13 TlsLdToLocalExecNoPlt,
    14 TlsLdToLocalExec64,
    15 TlsGdToInitialExec,
    16 TlsDescToLocalExec(inst_offset),
    17 TlsDescToInitialExec,
    18 SkipTlsDescCall,
}

pub const REX_ADD: u8 = 3;
pub const REX_ADD_TO_LEA: u8 = 4;
pub const NO_OP: u8 = 9;
/// The kinds that read a ModRM byte and write another.
pub const MOD_RM_KINDS: [u8; 7] = [1, 2, REX_ADD, REX_ADD_TO_LEA, 5, 6, 16];

/// The instruction offsets that a kind allows; 0 alone where it has none.
pub fn inst_offsets(kind: u8) -> &'static [u8] {
    match kind {
        REX_ADD => &[3, 4, 6],
        REX_ADD_TO_LEA => &[3],
        2 | 5 | 6 | 16 => &[3, 4],
        _ => &[0],
    }
}

pub fn has_inst_offset(kind: u8) -> bool {
    inst_offsets(kind) != [0]
}

fn is_allowed(kind: u8, inst_offset: u8) -> bool {
    kind < 19 && (!has_inst_offset(kind) || inst_offsets(kind).contains(&inst_offset))
}

/// Where a kind's window begins, before the offset, and where it ends, after the offset.
pub fn window(kind: u8, inst_offset: u8) -> (i64, i64) {
    match kind {
        0 | 17 => (2, -1),
        1 | 7 => (2, 0),
        REX_ADD if inst_offset == 6 => (5, 0),
        2..=6 | 16 => (3, 0),
        8 => (2, 4),
        NO_OP => (0, 0),
        10 | 15 => (4, 8),
        11 | 14 => (3, 19),
        12 => (3, 9),
        13 => (3, 10),
        18 => (0, 2),
        _ => panic!("no kind {kind}"),
    }
}

/// Whether the window lies wholly inside a section that isn't refused.
pub fn is_inside((before, after): (i64, i64), length: usize, offset: u64) -> bool {
    let offset = offset as i64;
    offset >= before && offset + after <= length as i64
}

pub fn choose(record: &Record, section: &[u8]) -> ChoiceAnswer {
    match record.refusal(section.len()) {
        0 => wild_choice(record, section).map_or_else(Default::default, |it| choice_answer(&it)),
        refusal => refused_choice(refusal),
    }
}

pub fn rewrite(
    kind: u8,
    inst_offset: u8,
    section: &mut [u8],
    offset: u64,
    addend: i64,
) -> MovedAnswer {
    let refused = |refusal| MovedAnswer {
        refusal,
        ..Default::default()
    };
    if section.len() > SECTION_LIMIT {
        return refused(1);
    }
    if offset > section.len() as u64 {
        return refused(2);
    }
    if !is_allowed(kind, inst_offset) {
        return refused(5);
    }
    let window = window(kind, inst_offset);
    let kind = relaxation_kind(kind, inst_offset).unwrap();
    let (mut moved, mut new_addend) = (offset, addend);
    let inside = is_inside(window, section.len(), offset);
    if apply(inside, || kind.apply(section, &mut moved, &mut new_addend)) {
        MovedAnswer {
            refusal: 0,
            offset: moved,
            addend: new_addend,
        }
    } else {
        refused(6)
    }
}

pub fn relax(record: &Record, section: &mut [u8]) -> RelaxedAnswer {
    let refused = |refusal| RelaxedAnswer {
        choice: refused_choice(refusal),
        ..Default::default()
    };
    let refusal = record.refusal(section.len());
    if refusal != 0 {
        return refused(refusal);
    }
    let Some(relaxation) = wild_choice(record, section) else {
        return RelaxedAnswer::default();
    };
    let choice = choice_answer(&relaxation);
    let (mut offset, mut addend) = (record.offset, record.addend);
    let window = window(choice.kind, choice.inst_offset);
    let inside = is_inside(window, section.len(), offset);
    if apply(inside, || {
        relaxation.apply(section, &mut offset, &mut addend)
    }) {
        RelaxedAnswer {
            choice,
            offset,
            addend,
        }
    } else {
        refused(6)
    }
}

fn refused_choice(refusal: u8) -> ChoiceAnswer {
    ChoiceAnswer {
        refusal,
        ..Default::default()
    }
}

/// Whether wild's `apply` comes back: it panics just where the window isn't wholly inside.
fn apply(inside: bool, call: impl FnOnce()) -> bool {
    let done = panic::catch_unwind(AssertUnwindSafe(call)).is_ok();
    assert_eq!(done, inside, "document 01's windows");
    done
}

fn wild_choice(record: &Record, section: &[u8]) -> Option<Relaxation> {
    let call = || {
        oracle::new_relaxation(
            record.r_type,
            section,
            record.offset,
            ValueFlags::from_number(record.flags).unwrap(),
            OutputKind::from_number(record.output_kind).unwrap(),
            record.executable,
            record.address,
            record.addend,
        )
    };
    panic::catch_unwind(call).unwrap_or_else(|_| panic!("wild's choosing panics: {record:?}"))
}

fn choice_answer(relaxation: &Relaxation) -> ChoiceAnswer {
    let (kind, inst_offset) = kind_number(relaxation.kind());
    ChoiceAnswer {
        refusal: 0,
        chosen: true,
        kind,
        inst_offset,
        mandatory: relaxation.is_mandatory(),
        skip_next: relaxation.next_modifier() == RelocationModifier::SkipNextRelocation,
        needs_got_fallback: relaxation.needs_got_fallback(),
        new_type: new_type(&relaxation.rel_info()),
    }
}

/// The types that a choice can name, each with wild's row. A choice has the row alone.
const NEW_TYPES: [(u32, RelocationKindInfo); 8] = [
    row(0),
    row(2),
    row(4),
    row(10),
    row(11),
    row(22),
    row(23),
    row(25),
];

const fn row(r_type: u32) -> (u32, RelocationKindInfo) {
    (r_type, oracle::relocation_from_raw(r_type).unwrap())
}

fn new_type(info: &RelocationKindInfo) -> u32 {
    let mut rows = NEW_TYPES.iter();
    let found = rows.find(|(_, row)| is_same_row(row, info));
    found.expect("the row of a type that can be chosen").0
}

/// `PageMask` can't be compared; no row on x86-64 has one.
fn is_same_row(a: &RelocationKindInfo, b: &RelocationKindInfo) -> bool {
    (a.kind, a.size, a.range) == (b.kind, b.size, b.range)
        && (a.mask.is_none(), b.mask.is_none()) == (true, true)
        && (a.alignment, a.bias) == (b.alignment, b.bias)
        && (a.thunkable, a.implicit_addend) == (b.thunkable, b.implicit_addend)
}

/// Whether each row is of one type alone among those that a choice can name.
pub fn rows_tell_new_types() -> bool {
    NEW_TYPES
        .iter()
        .all(|(r_type, row)| new_type(row) == *r_type)
}

/// The kind's name and instruction offset as wild prints them, and as `kind` gave them; none
/// where nothing is chosen.
pub fn printed_kind(record: &Record, section: &[u8]) -> Option<(String, String)> {
    let choice = wild_choice(record, section)?;
    let (kind, inst_offset) = kind_number(choice.kind());
    let name = KIND_NAMES[usize::from(kind)];
    let named = match inst_offset {
        0 => name.to_string(),
        _ => format!("{name}({inst_offset})"),
    };
    Some((format!("{:?}", choice.debug_kind()), named))
}

/// Asserts what docs/DIFFERENCES.md says that wild does under refusal 5 where the kind is one:
/// RexAddIndirectToLea as with 3, the others moving no register bit.
pub fn assert_goes_on(kind: u8, inst_offset: u8, section: &[u8], offset: u64) {
    let (mut moved, mut addend) = (offset, -4);
    let mut wild = section.to_vec();
    let call = || {
        let kind = relaxation_kind(kind, inst_offset).unwrap();
        kind.apply(&mut wild, &mut moved, &mut addend);
    };
    let done = panic::catch_unwind(AssertUnwindSafe(call)).is_ok();
    // An add with no register bit to move doesn't look at byte -3.
    let reach = if kind == REX_ADD { 2 } else { 3 };
    assert_eq!(done, offset >= reach, "refusal 5: where wild panics");
    let with_3 = if done {
        without_the_move(kind, section, offset)
    } else {
        section.to_vec()
    };
    let expected = (offset, if done { 0 } else { -4 }, with_3);
    assert_eq!((moved, addend, wild), expected, "refusal 5: what wild does");
}

/// The bytes that wild writes with the instruction offset 3, but byte -3 as it was, except for
/// RexAddIndirectToLea.
fn without_the_move(kind: u8, section: &[u8], offset: u64) -> Vec<u8> {
    // A byte more at the front, where offset 2 has no byte -3.
    let mut bytes = [&[0], section].concat();
    let place = offset as usize - 2;
    let byte = bytes[place];
    let with_3 = relaxation_kind(kind, 3).unwrap();
    with_3.apply(&mut bytes, &mut (offset + 1), &mut -4);
    if kind != REX_ADD_TO_LEA {
        bytes[place] = byte;
    }
    bytes.split_off(1)
}
