"""Tries tools/case: names and numbers, random files there and back, bad text, failing reads and writes.

The only argument is what names.c printed.
"""
import importlib.machinery
import importlib.util
import os
import random
import subprocess
import sys
import tempfile
from pathlib import Path

from trying import ROOT, report, same, seen, shell, through_pipe

CASE = str(ROOT / "tools" / "case")
PROGRAM = os.environ["JITAMORO_BIN_DIR"] + "/relax_cases"
GOOD = (
    "type=R_X86_64_REX_GOTPCRELX flags=non-interposable output=static-fixed executable=yes offset=3 address=0x401000 "
    "addend=-4 section=4c8b2d00000000"
)
GOOD_BYTES = bytes.fromhex("52582a010001030007000010400000000000fcffffffffffffff4c8b2d00000000")
FLAGS = ["non-interposable", "absolute", "dynamic", "ifunc"]


def load():
    """tools/case as a module, for what is tried hundreds of times."""
    loader = importlib.machinery.SourceFileLoader("case_tool", CASE)
    module = importlib.util.module_from_spec(importlib.util.spec_from_loader("case_tool", loader))
    loader.exec_module(module)
    return module


case = load()


def decode(data):
    return "".join(line + "\n" for line in case.decode(data))


def tool(*arguments, script="", **more):
    return shell(script, CASE, *arguments, **more)


# ---- Names


def record(r_type=42, flags=1, output=0, executable=1, offset=3, address=0x401000, addend=-4, section=b"\0" * 3):
    """A record's bytes, without struct."""
    head = b"RX" + bytes([r_type, flags, output, executable]) + offset.to_bytes(2, "little")
    head += len(section).to_bytes(2, "little") + address.to_bytes(8, "little")
    return head + addend.to_bytes(8, "little", signed=True) + section


def field(data, key):
    """A field of the one record's text."""
    (line,) = decode(data).splitlines()
    return dict(word.split("=") for word in line.split(" "))[key]


def check_name(key, number, text):
    """A number has the header's name both ways, or stays a number."""
    named = not text.startswith("no such ")
    word = text.replace(" ", "-") if named else str(number)
    data = record(**{{"type": "r_type"}.get(key, key): number})
    same(f"the name of {key} {number}", field(data, key), word)
    line = decode(data)
    same(f"{line} encoded", case.encode(line.encode(), "-"), data)
    for digits in (str(number), hex(number), f"0x{number:04X}"):
        other = line.replace(f"{key}={word} ", f"{key}={digits} ")
        same(f"{other} encoded", case.encode(other.encode(), "-"), data)
    seen[f"{key}s with a name" if named else f"{key}s without"] += 1


def check_words(key, number, text):
    """A kind or a refusal is called by its name in words."""
    if key == "kind":
        line, expected = f"1 {number} 0 3 -4 2 0 0 000000", f": {text}, now R_X86_64_PC32 at 3, addend -4; 00 00 00"
    elif 10 <= number <= 13:
        line, expected = f"1 refused {number} -", f"1 the file is at fault at byte 0, {number}: {text}"
    else:
        line, expected = f"1 refused {number} 000000", f": refused, {number}: {text}; 00 00 00"
    (words,) = case.words(record(), f"{line}\n".encode())
    same(f"{key} {number} in words", words[-len(expected) :], expected)
    seen[f"{key}s with a name"] += 1


def check_names(names):
    """Types, outputs, kinds and refusals as the C compiler reads them from the header; flags and executable."""
    for (key, number), text in names.items():
        if key in ("type", "output"):
            check_name(key, number, text)
        elif not text.startswith("no such "):
            check_words(key, number, text)
    for number in range(256):
        same(f"flags {number}", field(record(flags=number), "flags"), flags_text(number))
        executable = {0: "no", 1: "yes"}.get(number, str(number))
        same(f"executable {number}", field(record(executable=number), "executable"), executable)


def check_long_words():
    """What the kept files don't have: skip, an unknown type, and sections longer than 32 bytes."""
    def words(section, offset, answer, **fields):
        lines = f"1 {answer} {section.hex()}\n".encode()
        return case.words(record(offset=offset, section=section, address=0, **fields), lines)

    data = bytes(range(100))
    shown, none = " ".join(f"{b:02x}" for b in range(42, 74)), "1 type 200 at {}, no flags, shared object: none; "
    for length, offset, section in (
        (100, 50, f"42 more .. {shown} .. 26 more"),
        (100, 0, f"{data[:32].hex(' ')} .. 68 more"),
        (100, 9, f"1 more .. {data[1:33].hex(' ')} .. 67 more"),
        (100, 100, f"68 more .. {data[68:].hex(' ')}"),
        (33, 0, f"{data[:32].hex(' ')} .. 1 more"),
        (33, 20, f"1 more .. {data[1:33].hex(' ')}"),
        (32, 32, data[:32].hex(" ")),
    ):
        found = words(data[:length], offset, "none", r_type=200, flags=0, output=4)
        same(f"{length} bytes at {offset}", found, [none.format(offset) + section])
    answer, fields = "10 0 12 -7 23 1 1", {"r_type": 19, "flags": 15, "executable": 0, "addend": 5}
    expected = (
        "1 R_X86_64_TLSGD at 4, addend 5, non-interposable, absolute, dynamic, ifunc, static fixed, not executable: "
        "TlsGdToLocalExec, mandatory, skip the next record, now R_X86_64_TPOFF32 at 12, addend -7; 01 02"
    )
    same("a record to skip", words(b"\1\2", 4, answer, **fields), [expected])
    same("an instruction offset", "RexAddIndirectToAbsolute(3), now" in words(b"\1", 0, "3 3 3 0 23 0 0")[0], True)
    same("mandatory", "mandatory" in words(b"\1", 0, "10 0 12 -7 23 1 0")[0], False)
    same("skip", "skip" in words(b"\1", 0, "10 0 12 -7 23 0 1")[0], False)


def flags_text(number):
    names = [name for i, name in enumerate(FLAGS) if number >> i & 1]
    return str(number) if number > 15 else "+".join(names) or "none"


# ---- There and back


def random_fields(rng):
    """A record's fields, with the ends of each range among them."""
    number = rng.choice([0, 1, 4, 2**31, 2**63 - 1, rng.getrandbits(63)])
    longest = [4096, 4097, 65535] if rng.random() < 0.05 else [0]
    length = rng.choice([0, 1, 7, 32, 33, rng.randrange(300), *longest])
    return {
        "r_type": rng.choice([0, 42, 43, 255, rng.randrange(256)]),
        "flags": rng.choice([rng.randrange(16), rng.randrange(256)]),
        "output": rng.choice([rng.randrange(6), rng.randrange(256)]),
        "executable": rng.choice([0, 1, 1, rng.randrange(256)]),
        "offset": rng.choice([0, 3, 65535, rng.randrange(65536)]),
        "address": rng.choice([number, 2**64 - 1 - number]),
        "addend": rng.choice([-4, number, -number - 1]),
        "section": rng.randbytes(length),
    }


def hand_text(rng, fields):
    """A record as a person may write it: any order, names or numbers, blanks, a comment."""
    def number(value):
        return rng.choice([str, hex, lambda n: hex(n).upper().replace("X", "x")])(value)

    def flags(value):
        names = [name for i, name in enumerate(FLAGS) if value >> i & 1]
        rng.shuffle(names)
        return number(value) if value > 15 or rng.random() < 0.5 else "+".join(names) or "none"

    section = fields["section"].hex()
    texts = {key: number(fields[key]) for key in ("output", "executable", "offset", "address", "addend")}
    texts |= {"type": number(fields["r_type"]), "flags": flags(fields["flags"])}
    texts["section"] = rng.choice([section, section.upper()]) or "-"
    words = [f"{key}={text}" for key, text in texts.items()]
    rng.shuffle(words)
    blank, comment = rng.choice([" ", "\t ", "   "]), rng.choice(["", "\r", " # x=y", "#"])
    return rng.choice(["", " ", "\t"]) + blank.join(words) + comment


def plain_text(fields, names):
    """A record as decode writes it."""
    def named(key, number):
        text = names[key, number]
        return str(number) if text.startswith("no such ") else text.replace(" ", "-")

    r_type, output, executable = fields["r_type"], fields["output"], fields["executable"]
    return (
        f"type={named('type', r_type)} flags={flags_text(fields['flags'])} output={named('output', output)} "
        f"executable={['no', 'yes'][executable] if executable < 2 else executable} offset={fields['offset']} "
        f"address={fields['address']:#x} addend={fields['addend']} section={fields['section'].hex() or '-'}\n"
    )


def random_file(rng, kind):
    """A file of a kind: whole records, or such with a byte changed, cut, or followed by noise, or noise alone."""
    data = b"".join(record(**random_fields(rng)) for _ in range(rng.randrange(1, 9)))
    if kind == "spoiled":
        at = rng.randrange(len(data))
        return data[:at] + bytes([data[at] ^ rng.randrange(1, 256)]) + data[at + 1 :]
    if kind == "cut":
        return data[: rng.randrange(len(data))]
    noise = rng.randbytes(rng.randrange(1, 200))
    return {"whole": data, "followed": data + noise, "noise": noise}[kind]


def check_files():
    """Any file as text and back."""
    rng = random.Random(20261117)
    for turn in range(600):
        kind = ("whole", "spoiled", "cut", "followed", "noise")[turn % 5]
        data = random_file(rng, kind)
        text = decode(data)
        same(f"file {turn}, {kind}, there and back", case.encode(text.encode(), "-"), data)
        seen[f"{kind} files"] += 1
        seen["records"] += text.count("type=")
        seen["lines of bytes"] += text.count("bytes=")
        seen["files of records alone"] += "bytes=" not in text
        seen["files of bytes alone"] += "type=" not in text
        if kind == "whole" and "bytes=" in text:
            sys.exit(f"run_command: file {turn} of whole records has lines of bytes")


def check_texts(names):
    """Any text to bytes: as decode would write it, and back, and as a person may write it."""
    rng = random.Random(1117)
    for _ in range(400):
        rows = [random_fields(rng) for _ in range(rng.randrange(1, 4))]
        data = b"".join(record(**row) for row in rows)
        text = "".join(plain_text(row, names) for row in rows)
        same(f"{text} encoded", case.encode(text.encode(), "-"), data)
        same(f"{text} there and back", decode(data), text)
        text = "".join(hand_text(rng, row) + rng.choice(["\n", "\n\n", "\n# comment\n"]) for row in rows)
        same(f"{text} encoded", case.encode(text.encode(), "-"), data)
        seen["texts"] += 1


def check_kept_files(folder):
    """The case files of tests/cases as text and back, through the command, and what relax_cases prints for them."""
    for path in sorted((ROOT / "tests" / "cases").glob("*.case")):
        status, text, said = tool("decode", path)
        same(f"decode {path.name}", (status, said), (0, ""))
        (folder / "text").write_bytes(text)
        for back in (tool("encode", folder / "text"), tool("encode", given=text), tool("encode", "-", given=text)):
            same(f"{path.name} there and back", back, (0, path.read_bytes(), ""))
        lines = subprocess.run(PROGRAM, input=back[1], capture_output=True, check=True).stdout
        same(f"the lines of {path.name}", lines, path.with_suffix(".lines").read_bytes())
        seen["kept files"] += 1
    text = (GOOD + "\n").encode()
    same("the sample's first record", tool("encode", given=text), (0, GOOD_BYTES, ""))
    same("the sample's first record as text", tool("decode", given=GOOD_BYTES), (0, text, ""))


# ---- Bad text


def without(key):
    return " ".join(word for word in GOOD.split(" ") if not word.startswith(key + "="))


NO_FIELD = "is no field: type=, flags=, output=, executable=, offset=, address=, addend=, section= or bytes="
# What stands in the line in the place of the good field, the column of the fault in it from 1, and the sentence.
BAD_FIELDS = [
    ("type", "R_X86_64_PC33", 1, "'R_X86_64_PC33' is no number, and no name that 'type' has"),
    ("type", "r_x86_64_pc32", 1, "'r_x86_64_pc32' is no number, and no name that 'type' has"),
    ("type", "256", 1, "256 doesn't fit 'type', which is 0 to 255"),
    ("type", "-1", 1, "-1 doesn't fit 'type', which is 0 to 255"),
    ("type", "", 1, "'' is no number, and no name that 'type' has"),
    ("flags", "interposable", 1, "'interposable' is no number, and no name that 'flags' has"),
    ("flags", "ifunc+static", 7, "'static' is no flag"),
    ("flags", "ifunc+dynamic+ifunc", 15, "'ifunc' stands twice"),
    ("flags", "ifunc+", 7, "'' is no flag"),
    ("flags", "0x100", 1, "0x100 doesn't fit 'flags', which is 0 to 255"),
    ("output", "static", 1, "'static' is no number, and no name that 'output' has"),
    ("executable", "true", 1, "'true' is no number, and no name that 'executable' has"),
    ("offset", "65536", 1, "65536 doesn't fit 'offset', which is 0 to 65535"),
    ("offset", "3h", 1, "'3h' is no number, and no name that 'offset' has"),
    ("offset", "9" * 5000, 1, "9" * 40 + " doesn't fit 'offset', which is 0 to 65535"),
    ("address", "0x10000000000000000", 1, f"0x10000000000000000 doesn't fit 'address', which is 0 to {2**64 - 1}"),
    ("address", "0x", 1, "'0x' is no number, and no name that 'address' has"),
    ("addend", str(2**63), 1, f"{2**63} doesn't fit 'addend', which is {-2**63} to {2**63 - 1}"),
    ("addend", str(-(2**63) - 1), 1, f"{-2**63 - 1} doesn't fit 'addend', which is {-2**63} to {2**63 - 1}"),
    ("section", "4c8", 4, "a byte is two hexadecimal digits"),
    ("section", "", 1, "a byte is two hexadecimal digits"),
    ("section", "4c8x2d", 4, "'x' is no hexadecimal digit"),
    ("section", "é", 1, "'\\xe9' is no hexadecimal digit"),
    ("section", "00" * 65536, 1, "65536 bytes don't fit 'section', which has at most 65535"),
]
# Whole lines, the column from 1, and the sentence.
BAD_LINES = [
    (without("section"), len(without("section")) + 1, "the record has no section"),
    (without("type") + "   # cut", len(without("type")) + 1, "the record has no type"),
    ("offset=3", 9, "the record has no type, flags, output, executable, address, addend, section"),
    ("  hello", 3, f"'hello' {NO_FIELD}"),
    (GOOD + " ofset=3", len(GOOD) + 2, f"'ofset=3' {NO_FIELD}"),
    (GOOD + " = ", len(GOOD) + 2, f"'=' {NO_FIELD}"),
    (GOOD + "\tflags=none", len(GOOD) + 2, "'flags' stands twice"),
    (GOOD + " bytes=00", len(GOOD) + 2, "'bytes' doesn't stand alone on the line"),
    ("bytes=00 offset=3", 10, "'bytes' doesn't stand alone on the line"),
    ("bytes=00 bytes=00", 10, "'bytes' stands twice"),
    ("bytes=-", 7, "'-' is no hexadecimal digit"),
    ("bytes=", 7, "a byte is two hexadecimal digits"),
    ("\udcff", 1, f"'\\udcff' {NO_FIELD}"),
    ("x" * 100, 1, f"'{'x' * 40}' {NO_FIELD}"),
]


def check_bad_text(folder):
    rows = list(BAD_LINES)
    for key, word, column, sentence in BAD_FIELDS:
        place = GOOD.index(key + "=") + len(key) + 1
        end = (GOOD + " ").index(" ", place)
        rows.append((GOOD[:place] + word + GOOD[end:], place + column, sentence))
    for turn, (line, column, sentence) in enumerate(rows):
        before = ["", "# é\n", GOOD + "\r\n\n"][turn % 3]
        text = (before + line + "\n" + "later=1\n").encode("utf-8", "surrogateescape")
        place = f"{before.count(chr(10)) + 1}:{column}"
        try:
            case.encode(text, "T")
        except case.Fault as fault:
            same(f"the fault of {line[:200]!a}", (str(fault), fault.status), (f"T:{place}: {sentence}", 4))
        else:
            sys.exit(f"run_command: {line[:200]!a} is taken")
        seen["bad texts"] += 1
        if turn % 4 == 0 or "é" in line:
            (folder / "bad").write_bytes(text)
            expected = (4, b"", f"tools/case: {folder / 'bad'}:{place}: {sentence}\n")
            same(f"the command on {line[:200]!a}", tool("encode", folder / "bad"), expected)
    same("bad text on standard input", tool("encode", given=b"a"), (4, b"", f"tools/case: -:1:1: 'a' {NO_FIELD}\n"))


# ---- Words that don't fit, use, reads and writes


MISFITS = [
    "2 none 000000",
    "1 none 0000",
    "1 none -",
    "1 none",
    "none 000000",
    "",
    "1 none 00000g",
    "1 19 0 3 -4 2 0 0 000000",
    "1 refused 30 000000",
    "1 2 3 3 0 52 0 0 000000",
    "1 2 3 3 0 0 0 000000",
    "1 none 000000\n2 none 000000",
]


def check_misfits(folder):
    """Lines that aren't the case program's for the file."""
    (folder / "file").write_bytes(record())
    for lines in MISFITS:
        (folder / "lines").write_text(lines + "\n")
        *_, last = lines.split("\n")
        number = lines.count("\n") + 1
        expected = (4, b"", f"tools/case: line {number} isn't the case program's for this file: {last!r}\n")
        same(f"the misfit {lines!r}", tool("words", folder / "file", folder / "lines"), expected)
        seen["misfits"] += 1


def check_use():
    wrong = (2, b"", "tools/case: wrong use: see tools/case --help\n")
    for arguments in ([], ["code"], ["encode", "a", "b"], ["decode", "-x"], ["words", "a"], ["words"], ["--help", "a"]):
        same(f"tools/case {arguments}", tool(*arguments), wrong)
        seen["wrong uses"] += 1
    status, text, said = tool("--help")
    same("--help", (status, said, text[:10]), (0, "", b"Case files"))
    for name in (GOOD, ", ".join(FLAGS), "static-fixed, static-position-independent, dynamic-fixed", "partial-link"):
        same(f"{name} in --help", name.encode() in text, True)


def fails(what, found, sentence):
    same(what, found, (5, b"", sentence and f"tools/case: {sentence}\n"))
    seen["failed reads and writes"] += 1


def check_reads_and_writes(folder):
    sample, missing = ROOT / "tests" / "cases" / "worked.case", folder / "none"
    unwritten = "standard output wasn't written whole: "
    for verb in ("encode", "decode"):
        fails("a folder", tool(verb, folder), f"can't read {folder}: Is a directory")
        fails("no file", tool(verb, missing), f"can't read {missing}: No such file or directory")
    fails("standard input closed", tool("decode", script='exec "$@" <&-'), "can't read -: Bad file descriptor")
    for script, why in (('exec "$@" >/dev/full', "No space left on device"), ('exec "$@" >&-', "Bad file descriptor")):
        fails(why, tool("decode", sample, script=script), unwritten + why)
    fails("no reader", through_pipe("gone", CASE, "decode", sample), unwritten + "Broken pipe")
    fails("standard error closed", tool("decode", folder, script='exec "$@" 2>&-'), "")
    long = folder / "long"
    long.write_bytes(record(section=bytes(4096)) * 20)
    status, written, said = through_pipe("late, nonblocking", CASE, "decode", long)
    same("the bytes that a full pipe took", decode(long.read_bytes()).startswith(written.decode()), True)
    fails("a pipe that doesn't wait", (status, b"", said), unwritten + "Resource temporarily unavailable")


def check_header(folder):
    """The header is looked for beside the tool, and it is said where it isn't as it should be."""
    copy, header, good = folder / "tools" / "case", folder / "include" / "jitamoro.h", folder / "good"
    copy.parent.mkdir()
    copy.write_bytes(Path(CASE).read_bytes())
    copy.chmod(0o755)
    good.write_text(GOOD)
    fails("no header", shell("", copy, "encode", good), f"can't read {header}: No such file or directory")
    header.parent.mkdir()
    text = (ROOT / "include" / "jitamoro.h").read_text()
    header.write_text(text.replace("JITAMORO_OTHER_R_TYPES(X)", "OTHER(X)"))
    fails("a table is missing", shell("", copy, "encode", good), f"{header} has no table OTHER_R_TYPES")
    header.write_text(text.replace('"ifunc"', '"gnu-ifunc"'))
    good.write_text(GOOD.replace("non-interposable", "gnu-ifunc"))
    same("another name", shell("", copy, "encode", good), (0, GOOD_BYTES[:3] + b"\x08" + GOOD_BYTES[4:], ""))


LEAST = {
    "types with a name": 50,
    "types without": 200,
    "outputs with a name": 6,
    "outputs without": 250,
    "kinds with a name": 19,
    "refusals with a name": 20,
    "whole files": 100,
    "spoiled files": 100,
    "cut files": 100,
    "followed files": 100,
    "noise files": 100,
    "records": 1000,
    "lines of bytes": 500,
    "files of records alone": 100,
    "files of bytes alone": 100,
    "texts": 400,
    "kept files": 11,
    "bad texts": 38,
    "misfits": 12,
    "wrong uses": 7,
    "failed reads and writes": 12,
}


def main(path):
    rows = [line.split(" ", 2) for line in Path(path).read_text().splitlines()]
    names = {(key, int(number)): text for key, number, text in rows}
    with tempfile.TemporaryDirectory() as name:
        folder = Path(name)
        check_names(names)
        check_long_words()
        check_files()
        check_texts(names)
        check_kept_files(folder)
        check_bad_text(folder)
        check_misfits(folder)
        check_use()
        check_reads_and_writes(folder)
        check_header(folder)
    report("tools/case", LEAST)


if __name__ == "__main__":
    main(sys.argv[1])
