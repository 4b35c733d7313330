//! The exported functions as they are: numbers of document 01, a slice as a pointer and a length. A test holds
//! the declarations, types and all, against `include/jitamoro.h`. Nothing checks either against the Rattle
//! source, where each function has its contract, but the tests that call them.
//!
//! In an answer `refusal` is 0 or a refusal's number, and then every other field is 0.

use core::mem::offset_of;

/// The predicates of an output kind. Refusal 4.
#[derive(Debug, Default, Clone, Copy, PartialEq, Eq)]
#[repr(C)]
pub struct OutputKindAnswer {
    pub refusal: u8,
    pub is_executable: bool,
    pub is_static_executable: bool,
    pub is_position_independent: bool,
    pub has_fixed_load_address: bool,
}

/// The predicates of a flag number. Refusal 3.
#[derive(Debug, Default, Clone, Copy, PartialEq, Eq)]
#[repr(C)]
pub struct ValueFlagsAnswer {
    pub refusal: u8,
    pub is_dynamic: bool,
    pub is_ifunc: bool,
    pub has_link_time_address: bool,
    pub is_absolute: bool,
    pub is_interposable: bool,
}

/// The row of a relocation type. Refusal 7. `kind` counts the sixteen of `RelocationKind`; where `checked`
/// is false, every value is allowed, and `min` and `max` are 0.
#[derive(Debug, Default, Clone, Copy, PartialEq, Eq)]
#[repr(C)]
pub struct RelocationAnswer {
    pub refusal: u8,
    pub kind: u8,
    pub size: u8,
    pub checked: bool,
    pub mask: bool,
    pub bias: bool,
    pub thunkable: bool,
    pub implicit_addend: bool,
    pub alignment: u8,
    pub min: i64,
    pub max: i64,
}

/// A choice. Refusals 1 to 4. Where `chosen` is false, every field after it is 0.
#[derive(Debug, Default, Clone, Copy, PartialEq, Eq)]
#[repr(C)]
pub struct ChoiceAnswer {
    pub refusal: u8,
    pub chosen: bool,
    pub kind: u8,
    pub inst_offset: u8,
    pub mandatory: bool,
    pub skip_next: bool,
    pub needs_got_fallback: bool,
    pub new_type: u32,
}

/// Where the field lies after rewriting, and its addend. Refusals 1, 2, 5, 6.
#[derive(Debug, Default, Clone, Copy, PartialEq, Eq)]
#[repr(C)]
pub struct MovedAnswer {
    pub refusal: u8,
    pub offset: u64,
    pub addend: i64,
}

/// A choice that was carried out. Refusals 1 to 4 and 6, in the choice.
#[derive(Debug, Default, Clone, Copy, PartialEq, Eq)]
#[repr(C)]
pub struct RelaxedAnswer {
    pub choice: ChoiceAnswer,
    pub offset: u64,
    pub addend: i64,
}

/// Whether a field was filled. Refusals 1, 2, 7, 16, 15. Where it is neither refused nor filled, the type is none of
/// the four.
#[derive(Debug, Default, Clone, Copy, PartialEq, Eq)]
#[repr(C)]
pub struct FilledAnswer {
    pub refusal: u8,
    pub filled: bool,
}

/// A pass, held in place: the last record's offset, the end of the last window that wasn't empty, whether
/// a skip is pending, and whether the pass has ended; of these two 0 means no, and any other word yes.
#[derive(Debug, Default, Clone, Copy, PartialEq, Eq)]
#[repr(C)]
pub struct Pass {
    pub last: u64,
    pub window: u64,
    pub pending: u64,
    pub ended: u64,
}

/// What a walk's steps did, held in place beside the pass: records relaxed, by kind (0 to 18), records that nothing
/// was done for (19), records skipped (20), and the bytes of the relaxed records' windows (21), modulo 2^64.
#[derive(Debug, Default, Clone, Copy, PartialEq, Eq)]
#[repr(C)]
pub struct Tally {
    pub figures: [u64; 22],
}

/// What a step did. Refusals 21, 1 to 4, 22, 6, 23, in `relaxed.choice`.
#[derive(Debug, Default, Clone, Copy, PartialEq, Eq)]
#[repr(C)]
pub struct StepAnswer {
    pub skipped: bool,
    pub relaxed: RelaxedAnswer,
}

/// Asserts a struct's size and where each of its fields lies, where the crate is compiled.
macro_rules! layout {
    ($($name:ident: $size:literal { $($field:ident: $at:literal),* })*) => {$(
        const _: () = {
            assert!(size_of::<$name>() == $size, stringify!($name));
            $(assert!(
                offset_of!($name, $field) == $at,
                concat!(stringify!($name), ".", stringify!($field)),
            );)*
            // The pattern names every field.
            const fn _every_field($name { $($field: _),* }: $name) {}
        };
    )*};
}

layout! {
    OutputKindAnswer: 5 {
        refusal: 0, is_executable: 1, is_static_executable: 2, is_position_independent: 3,
        has_fixed_load_address: 4
    }
    ValueFlagsAnswer: 6 {
        refusal: 0, is_dynamic: 1, is_ifunc: 2, has_link_time_address: 3, is_absolute: 4, is_interposable: 5
    }
    RelocationAnswer: 32 {
        refusal: 0, kind: 1, size: 2, checked: 3, mask: 4, bias: 5, thunkable: 6, implicit_addend: 7,
        alignment: 8, min: 16, max: 24
    }
    ChoiceAnswer: 12 {
        refusal: 0, chosen: 1, kind: 2, inst_offset: 3, mandatory: 4, skip_next: 5, needs_got_fallback: 6,
        new_type: 8
    }
    MovedAnswer: 24 { refusal: 0, offset: 8, addend: 16 }
    RelaxedAnswer: 32 { choice: 0, offset: 16, addend: 24 }
    FilledAnswer: 2 { refusal: 0, filled: 1 }
    Pass: 32 { last: 0, window: 8, pending: 16, ended: 24 }
    Tally: 176 { figures: 0 }
    StepAnswer: 40 { skipped: 0, relaxed: 8 }
}

// Not bundled: the library is needed where a program is linked, not where this crate is compiled.
#[link(name = "jitamoro", kind = "static", modifiers = "-bundle")]
unsafe extern "C" {
    pub safe fn jitamoro_output_kind(number: u8) -> OutputKindAnswer;
    pub safe fn jitamoro_value_flags(number: u8) -> ValueFlagsAnswer;
    pub safe fn jitamoro_relocation_from_raw(r_type: u32) -> RelocationAnswer;
    pub safe fn jitamoro_allowed_range_contains(
        checked: bool,
        min: i64,
        max: i64,
        value: i64,
    ) -> bool;
    pub safe fn jitamoro_x86_64_r_type(kind: u32) -> u32;

    /// # Safety
    /// `plt_entry` is valid for reads and writes of `len` bytes.
    pub fn jitamoro_write_plt_entry(
        plt_entry: *mut u8,
        len: usize,
        got_address: u64,
        plt_address: u64,
    ) -> u8;

    /// # Safety
    /// `buf` is valid for reads and writes of `len` bytes.
    pub fn jitamoro_fill_section_padding(buf: *mut u8, len: usize, executable: bool);

    /// # Safety
    /// `section` is valid for reads and writes of `len` bytes.
    pub fn jitamoro_relax(
        r_type: u32,
        section: *mut u8,
        len: usize,
        offset: u64,
        flags: u8,
        output_kind: u8,
        executable: bool,
        address: u64,
        addend: i64,
    ) -> RelaxedAnswer;

    /// # Safety
    /// `section` is valid for reads of `len` bytes.
    pub fn jitamoro_new_relaxation(
        r_type: u32,
        section: *const u8,
        len: usize,
        offset: u64,
        flags: u8,
        output_kind: u8,
        executable: bool,
        address: u64,
        addend: i64,
    ) -> ChoiceAnswer;

    /// # Safety
    /// `section` is valid for reads and writes of `len` bytes.
    pub fn jitamoro_apply(
        kind: u8,
        inst_offset: u8,
        section: *mut u8,
        len: usize,
        offset: u64,
        addend: i64,
    ) -> MovedAnswer;

    /// Whether the next relocation is skipped, by a kind's number; false where there is no such kind.
    pub safe fn jitamoro_next_modifier(kind: u8) -> bool;

    /// # Safety
    /// `section` is valid for reads and writes of `len` bytes.
    pub fn jitamoro_fill(
        r_type: u32,
        section: *mut u8,
        len: usize,
        offset: u64,
        place: u64,
        value: u64,
        addend: i64,
    ) -> FilledAnswer;

    pub safe fn jitamoro_pass_fresh() -> Pass;

    /// # Safety
    /// `section` is valid for reads and writes of `len` bytes.
    pub fn jitamoro_pass_step(
        pass: &mut Pass,
        r_type: u32,
        section: *mut u8,
        len: usize,
        offset: u64,
        flags: u8,
        output_kind: u8,
        executable: bool,
        address: u64,
        addend: i64,
    ) -> StepAnswer;

    /// Answers 0, or refusal 21 or 24.
    pub safe fn jitamoro_pass_end(pass: &mut Pass) -> u8;

    pub safe fn jitamoro_tally_fresh() -> Tally;

    /// # Safety
    /// `section` is valid for reads and writes of `len` bytes.
    pub fn jitamoro_tally_step(
        pass: &mut Pass,
        tally: &mut Tally,
        r_type: u32,
        section: *mut u8,
        len: usize,
        offset: u64,
        flags: u8,
        output_kind: u8,
        executable: bool,
        address: u64,
        addend: i64,
    ) -> StepAnswer;
}

/// Safe wrappers: the slice goes as a pointer, which the method in brackets gives, and a length.
macro_rules! wrappers {
    ($(
        $(#[$meta:meta])*
        fn $name:ident(
            $($before:ident: $before_type:ty,)*
            [$pointer:ident] $slice:ident: $slice_type:ty,
            $($after:ident: $after_type:ty,)*
        ) $(-> $answer:ty)? = $function:ident;
    )*) => {$(
        $(#[$meta])*
        #[allow(clippy::too_many_arguments)]
        #[inline]
        pub fn $name(
            $($before: $before_type,)*
            $slice: $slice_type,
            $($after: $after_type,)*
        ) $(-> $answer)? {
            let (start, len) = ($slice.$pointer(), $slice.len());
            // SAFETY: a slice lent by its pointer and length.
            unsafe { $function($($before,)* start, len, $($after,)*) }
        }
    )*};
}

/// Wrappers that take a record's numbers with the section among them, after what else is lent.
macro_rules! record_wrappers {
    ($(
        $(#[$meta:meta])*
        fn $name:ident($($lent:ident: $lent_type:ty,)* [$pointer:ident] $section_type:ty)
            -> $answer:ty = $function:ident;
    )*) => {
        wrappers! {$(
            $(#[$meta])*
            fn $name(
                $($lent: $lent_type,)*
                r_type: u32,
                [$pointer] section: $section_type,
                offset: u64,
                flags: u8,
                output_kind: u8,
                executable: bool,
                address: u64,
                addend: i64,
            ) -> $answer = $function;
        )*}
    };
}

wrappers! {
    fn write_plt_entry(
        [as_mut_ptr] plt_entry: &mut [u8],
        got_address: u64,
        plt_address: u64,
    ) -> u8 = jitamoro_write_plt_entry;

    fn fill_section_padding(
        [as_mut_ptr] buf: &mut [u8],
        executable: bool,
    ) = jitamoro_fill_section_padding;

    fn apply(
        kind: u8,
        inst_offset: u8,
        [as_mut_ptr] section: &mut [u8],
        offset: u64,
        addend: i64,
    ) -> MovedAnswer = jitamoro_apply;

    fn fill(
        r_type: u32,
        [as_mut_ptr] section: &mut [u8],
        offset: u64,
        place: u64,
        value: u64,
        addend: i64,
    ) -> FilledAnswer = jitamoro_fill;
}

record_wrappers! {
    /// The section is lent for writing so that the caller can see that nothing is written.
    fn new_relaxation([as_mut_ptr] &mut [u8]) -> ChoiceAnswer = jitamoro_new_relaxation;

    /// As [`new_relaxation`], the section lent for reading.
    fn choose([as_ptr] &[u8]) -> ChoiceAnswer = jitamoro_new_relaxation;

    fn relax([as_mut_ptr] &mut [u8]) -> RelaxedAnswer = jitamoro_relax;

    fn pass_step(pass: &mut Pass, [as_mut_ptr] &mut [u8]) -> StepAnswer = jitamoro_pass_step;

    fn tally_step(pass: &mut Pass, tally: &mut Tally, [as_mut_ptr] &mut [u8])
        -> StepAnswer = jitamoro_tally_step;
}
