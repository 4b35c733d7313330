//! src/sys.rs against include/jitamoro.h, by the C compiler (`cc`, or what CC names): the declarations of sys.rs,
//! written in C after the header's, must agree with them. C tells bool from uint8_t, signed from unsigned and const
//! from not; names tell arguments of one type apart. Only usize and u64 are the same here.

use std::collections::BTreeMap;
use std::fmt::Write as _;
use std::io::Write as _;
use std::process::Command;
use std::process::Stdio;

const SYS: &str = include_str!("../../src/sys.rs");
const INCLUDE: &str = concat!(env!("CARGO_MANIFEST_DIR"), "/../../include");

/// What the C compiler prints for a text, or its errors.
fn cc(options: &[&str], text: &str) -> Result<String, String> {
    let compiler = std::env::var("CC").unwrap_or_else(|_| "cc".to_owned());
    let mut child = Command::new(&compiler)
        .args(["-std=c11", "-Wall", "-Wextra", "-Werror", "-I", INCLUDE])
        .args(options)
        .args(["-x", "c", "-"])
        .env("LC_ALL", "C")
        .stdin(Stdio::piped())
        .stdout(Stdio::piped())
        .stderr(Stdio::piped())
        .spawn()
        .unwrap_or_else(|error| panic!("{compiler}: {error}"));
    let mut stdin = child.stdin.take().unwrap();
    stdin.write_all(text.as_bytes()).unwrap();
    drop(stdin);
    let output = child.wait_with_output().unwrap();
    let printed = |bytes| String::from_utf8(bytes).unwrap();
    match output.status.success() {
        true => Ok(printed(output.stdout)),
        false => Err(printed(output.stderr)),
    }
}

/// The names of each function's arguments.
type Arguments<'a> = BTreeMap<&'a str, Vec<&'a str>>;

fn last_word(text: &str) -> &str {
    let is_word = |c: char| c.is_ascii_alphanumeric() || c == '_';
    let text = text.trim_end_matches(|c| !is_word(c));
    text.rsplit(|c| !is_word(c)).next().unwrap()
}

/// The functions that the preprocessed header declares and doesn't define.
fn declared(header: &str) -> Arguments<'_> {
    let (mut found, mut depth, mut start) = (Arguments::new(), 0, 0);
    for (at, c) in header.char_indices() {
        depth += i32::from(c == '{') - i32::from(c == '}');
        if depth > 0 || !matches!(c, ';' | '}') {
            continue;
        }
        let (before, arguments) = header[start..at].split_once('(').unwrap_or_default();
        if c == ';' && last_word(before).starts_with("jitamoro_") {
            let names = arguments.split(',').map(last_word);
            let names = names.filter(|&name| name != "void").collect();
            found.insert(last_word(before), names);
        }
        start = at + 1;
    }
    found
}

/// Names with their types.
type Fields<'a> = Vec<(&'a str, &'a str)>;

/// What sys.rs declares; a function has its arguments, and its answer's type or an empty text.
struct Declarations<'a> {
    structs: BTreeMap<&'a str, Fields<'a>>,
    functions: BTreeMap<&'a str, (Fields<'a>, &'a str)>,
}

/// The parts of a list that aren't white space.
fn parts(list: &str, separator: char) -> impl Iterator<Item = &str> {
    let parts = list.split(separator).map(str::trim);
    parts.filter(|part| !part.is_empty())
}

fn fields(list: &str) -> Option<Fields<'_>> {
    let fields = parts(list, ',').map(|part| part.trim_start_matches("pub "));
    fields.map(|field| field.split_once(": ")).collect()
}

impl<'a> Declarations<'a> {
    /// Reads sys.rs, which has no comments any more. None where something there isn't understood.
    fn read(code: &'a str) -> Option<Self> {
        let (mut structs, mut functions) = (BTreeMap::new(), BTreeMap::new());
        for part in code.split("#[repr(C)]\npub struct ").skip(1) {
            let (name, rest) = part.split_once(" {")?;
            structs.insert(name, fields(rest.split_once('}')?.0)?);
        }
        for block in code.split("unsafe extern \"C\" {").skip(1) {
            for part in parts(block.split_once('}')?.0, ';') {
                let (name, rest) = part.split_once("fn ")?.1.split_once('(')?;
                let (arguments, answer) = rest.split_once(')')?;
                let answer = answer.trim_start_matches(" -> ");
                functions.insert(name, (fields(arguments)?, answer));
            }
        }
        let all = code.matches("pub struct ").count() == structs.len()
            && code.matches("fn jitamoro_").count() == functions.len();
        all.then_some(Self { structs, functions })
    }

    fn arguments(&self) -> Arguments<'a> {
        let names = |fields: &Fields<'a>| fields.iter().map(|field| field.0).collect();
        let functions = self.functions.iter();
        functions.map(|(&name, it)| (name, names(&it.0))).collect()
    }

    /// The declarations in C, with what they must have in common with the header's.
    fn in_c(&self, header: &str) -> String {
        let mut c = "#include <jitamoro.h>\n".to_owned();
        for (&name, fields) in &self.structs {
            let own = c_type(name, header);
            let (mut body, mut all, mut asserts) = (String::new(), vec![], String::new());
            for &(field, rust) in fields {
                let kind = c_type(rust, header);
                all.push(match rust.starts_with('[') {
                    true => format!("{{it.{field}[0]}}"),
                    false => format!("it.{field}"),
                });
                write!(body, " {kind} {field};").unwrap();
                write!(
                    asserts,
                    r#"
_Static_assert(offsetof(struct {name}, {field}) == offsetof({own}, {field}), "place of {name}.{field}");
_Static_assert(_Generic(&(({own} *)0)->{field}, {kind} *: 1, default: 0), "type of {name}.{field}");"#
                )
                .unwrap();
            }
            // A field more or less is an error of the initialiser, in padding too.
            let all = all.join(", ");
            writeln!(
                c,
                r#"struct {name} {{{body} }};{asserts}
_Static_assert(sizeof(struct {name}) == sizeof({own}), "size of {name}");
{own} all_of_{name}({own} it) {{ {own} all = {{{all}}}; return all; }}"#
            )
            .unwrap();
        }
        for (name, (arguments, answer)) in &self.functions {
            let kinds = arguments.iter().map(|&(_, rust)| c_type(rust, header));
            let kinds = kinds.reduce(|list, kind| format!("{list}, {kind}"));
            let kinds = kinds.as_deref().unwrap_or("void");
            writeln!(c, "{} {name}({kinds});", c_type(answer, header)).unwrap();
        }
        c
    }
}

/// A type in C. A struct has the Rust one's name, with or without `Answer`.
fn c_type(rust: &str, header: &str) -> String {
    let pointers = [
        ("*const ", "const "),
        ("*mut ", ""),
        ("&mut ", ""),
        ("&", "const "),
    ];
    for (prefix, qualifier) in pointers {
        if let Some(target) = rust.strip_prefix(prefix) {
            return format!("{qualifier}{} *", c_type(target, header));
        }
    }
    let array = rust.strip_prefix('[').and_then(|it| it.strip_suffix(']'));
    if let Some((item, length)) = array.and_then(|it| it.split_once("; ")) {
        return format!("__typeof__({}[{length}])", c_type(item, header));
    }
    match rust {
        "" => "void".to_owned(),
        "bool" => "bool".to_owned(),
        "usize" => "size_t".to_owned(),
        "u8" | "u16" | "u32" | "u64" => format!("uint{}_t", &rust[1..]),
        "i8" | "i16" | "i32" | "i64" => format!("int{}_t", &rust[1..]),
        _ => {
            let mut name = "struct jitamoro".to_owned();
            for c in rust.chars() {
                name.extend(c.is_uppercase().then_some('_'));
                name.push(c.to_ascii_lowercase());
            }
            match header.contains(&format!("{name} {{")) {
                true => name,
                false => name.trim_end_matches("_answer").to_owned(),
            }
        }
    }
}

/// The header, preprocessed.
fn header() -> String {
    cc(&["-E", "-P"], "#include <jitamoro.h>\n").unwrap()
}

/// Whether the declarations of sys.rs agree with the header's, functions one for one.
fn check(sys: &str, header: &str) -> Result<(), String> {
    let lines = sys.lines().map(|line| line.split("//").next().unwrap());
    let code = lines.collect::<Vec<_>>().join("\n");
    let found = Declarations::read(&code).ok_or("sys.rs isn't understood")?;
    let (arguments, wanted) = (found.arguments(), declared(header));
    for name in arguments.keys().chain(wanted.keys()) {
        let (found, wanted) = (arguments.get(name), wanted.get(name));
        if found != wanted {
            return Err(format!("{name}: {found:?} here, {wanted:?} in the header"));
        }
    }
    cc(&["-fsyntax-only"], &found.in_c(header)).map(drop)
}

#[test]
fn sys_is_the_headers() {
    check(SYS, &header()).unwrap_or_else(|error| panic!("{error}"));
}

/// An edit of sys.rs, and what the error must name.
type Wrong = (&'static str, &'static str, &'static str);

#[rustfmt::skip]
const WRONG: [Wrong; 22] = [
    // Another type of an argument, a field, an answer; const and not.
    ("usize, executable: bool", "usize, executable: u8", "jitamoro_fill_section_padding"),
    ("pub chosen: bool", "pub chosen: u8", "type of ChoiceAnswer.chosen"),
    ("got_address: u64", "got_address: i64", "jitamoro_write_plt_entry"),
    ("pub offset: u64", "pub offset: i64", "type of MovedAnswer.offset"),
    ("pub choice: ChoiceAnswer", "pub choice: MovedAnswer", "type of RelaxedAnswer.choice"),
    ("-> MovedAnswer;", "-> RelaxedAnswer;", "jitamoro_apply"),
    ("section: *const u8", "section: *mut u8", "jitamoro_new_relaxation"),
    ("plt_entry: *mut u8", "plt_entry: *const u8", "jitamoro_write_plt_entry"),
    ("pass: &mut Pass", "pass: &Pass", "jitamoro_pass_step"),
    ("tally: &mut Tally", "tally: &Tally", "jitamoro_tally_step"),
    ("jitamoro_tally_fresh() -> Tally", "jitamoro_tally_fresh() -> Pass", "jitamoro_tally_fresh"),
    // An array of another length, of another type.
    ("figures: [u64; 22]", "figures: [u64; 21]", "type of Tally.figures"),
    ("figures: [u64; 22]", "figures: [i64; 22]", "type of Tally.figures"),
    // Fields swapped, left out, added, where it fits into padding too.
    ("pub kind: u8,\n    pub inst_offset: u8,", "pub inst_offset: u8,\n    pub kind: u8,", "place of ChoiceAnswer"),
    ("    pub needs_got_fallback: bool,\n", "", "new_type"),
    ("    pub new_type: u32,", "    pub more: bool,\n    pub new_type: u32,", "more"),
    // Arguments of one type swapped, an argument left out; a function left out, one that isn't there.
    ("flags: u8,\n        output_kind: u8,", "output_kind: u8,\n        flags: u8,", "jitamoro_relax"),
    ("        flags: u8,\n", "", "jitamoro_relax"),
    ("&mut Pass,\n        tally: &mut Tally,", "&mut Tally,\n        tally: &mut Pass,", "jitamoro_tally_step"),
    ("    pub safe fn jitamoro_pass_fresh() -> Pass;\n", "", "jitamoro_pass_fresh"),
    ("fn jitamoro_next_modifier", "fn jitamoro_next", "jitamoro_next"),
    // A struct laid out by Rust.
    ("#[repr(C)]\npub struct Pass", "pub struct Pass", "isn't understood"),
];

#[test]
fn wrong_declarations_are_noticed() {
    let header = header();
    for (right, wrong, named) in WRONG {
        let edited = SYS.replacen(right, wrong, 1);
        assert_ne!(edited, SYS, "{right}");
        let error = check(&edited, &header).expect_err(wrong);
        assert!(error.contains(named), "{wrong}: {error}");
    }
}
