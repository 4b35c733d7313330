"""Tries ./run: each exit status with what it writes on standard output and standard error.

JITAMORO_BIN_DIR has relax_cases; where proving itself is tried, a stand-in for rt is called, in a copy of what ./run
needs.
"""
import os
import re
import shutil
import signal
import subprocess
import tempfile
import time
from pathlib import Path

from trying import ROOT, report, same, seen, shell, through_pipe

HERE = Path(__file__).resolve().parent
CASES = ROOT / "tests" / "cases"
RUN = ROOT / "run"
PLANTS = (CASES / "plants.case").read_bytes()
PLANTS_LINES = (CASES / "plants.lines").read_bytes()
NONE = b"RX" + bytes(24)  # a record with no section, for which nothing is done
MORE = " (more: ./run --words FILE)"

# What is said of the kept case files, on standard error; of the others nothing.
SAID = {
    "worked": (3, "records refused: 2 of 15"),
    "refusals": (3, "records refused: 4 of 5"),
    "mark": (4, "the file is at fault at record 2, refusal 10: there is no mark 52 58 where a record should begin"),
    "head": (4, "the file is at fault at record 2, refusal 11: the file ends inside a record"),
    "section": (4, "the file is at fault at record 2, refusal 11: the file ends inside a record"),
    "executable": (4, "the file is at fault at record 2, refusal 12: the executable byte is neither 0 nor 1"),
    "length": (4, "the file is at fault at record 2, refusal 13: the record's section is longer than 4,096 bytes"),
    "longest": (4, "the file is at fault at record 3, refusal 13: the record's section is longer than 4,096 bytes"),
}
EMPTY = "the file is empty: it has no record"
UNPRIVILEGED = 'exec "$@"'
if os.getuid() == 0:  # who may read anything
    UNPRIVILEGED = 'less=-dac_override,-dac_read_search; exec setpriv --bounding-set=$less --inh-caps=$less "$@"'


def run(*arguments, script="", command=RUN, **more):
    return shell(script, command, *arguments, **more)


def expect(what, found, status, lines, *sentences):
    """Status, standard output, and each sentence as a line of standard error."""
    same(what, found, (status, lines, "".join(f"run: {sentence}\n" for sentence in sentences)))
    seen[f"status {status}"] += 1


# ---- Files


def check_kept_files():
    """Every kept case file: document 01's lines, and in words a line for each of them."""
    sample = ROOT / "crates" / "relax_cases"
    expect("the sample", run(), 0, (sample / "stdout").read_bytes())
    expect("the sample in words", run("--words"), 0, (HERE / "sample.words").read_bytes())
    for path in sorted(CASES.glob("*.case")):
        status, sentence = SAID.get(path.stem, (0, EMPTY if path.stem == "empty" else ""))
        lines = path.with_suffix(".lines").read_bytes()
        more = MORE if status else ""
        expect(path.stem, run(path), status, lines, *[sentence + more] * (sentence != ""))
        found = run("--words", path)
        kept = HERE / f"{path.stem}.words"
        words = kept.read_bytes() if kept.exists() else found[1]
        expect(f"{path.stem} in words", found, status, words, *[sentence] * (sentence != ""))
        numbers = [line.split(b" ")[0] for line in lines.splitlines()]
        same(f"the records of {path.stem}", [line.split(b" ")[0] for line in found[1].splitlines()], numbers)
        seen["kept files"] += 1
        seen["kept words"] += kept.exists()


def check_limit(folder):
    """Files around 65,536 bytes: 2,519 records of 26 bytes and one of 42, and what follows."""
    path = folder / "limit.case"
    last = b"RX" + bytes(6) + b"\x10" + bytes(17) + bytes(16)
    lines = "".join(f"{n} none -\n" for n in range(1, 2520)).encode()
    whole = lines + b"2520 none " + b"00" * 16 + b"\n"
    cut = "the file is at fault at record 2520, refusal 11: the file ends inside a record" + MORE
    longer = "the file is longer than 65,536 bytes; bytes not read: "
    for data, status, expected, *said in (
        (NONE * 2519 + last, 0, whole),
        (NONE * 2519 + last + b"R", 4, whole, longer + "1"),
        (NONE * 2519 + last + NONE * 3, 4, whole, longer + "78"),
        (NONE * 2521, 4, lines + b"2520 none -\n2521 refused 11 -\n", longer + "10", cut.replace("2520", "2521")),
        ((NONE * 2519 + last)[:-1], 4, lines + b"2520 refused 11 -\n", cut),
    ):
        path.write_bytes(data)
        expect(f"{len(data)} bytes", run(path), status, expected, *said)
        expect(f"{len(data)} bytes by a pipe", run("-", given=data), status, expected, *said)
    refused = b"RX" + bytes(4) + b"\1" + bytes(19)
    path.write_bytes(refused + NONE * 2518 + last + b"R")
    said = [longer + "1", "records refused: 1 of 2520" + MORE]
    expect("longer, and refused", run(path), 4, b"1 refused 2 -\n" + whole.split(b"\n", 1)[1], *said)


def check_ways_in(folder):
    """A file by every way that leads to it, and those that lead to none."""
    for what, found in (
        ("standard input", run("-", given=PLANTS)),
        ("a pipe by name", run(CASES / "plants.case", script='"$1" <(cat "$2")')),
        ("standard input by name", run("/dev/stdin", given=PLANTS)),
        ("a relative name", run("plants.case", cwd=CASES)),
        ("after --", run("--", "plants.case", cwd=CASES)),
        ("standard error closed", run(CASES / "plants.case", script='exec "$@" 2>&-')),
    ):
        expect(what, found, 0, PLANTS_LINES)
    (folder / "--words").write_bytes(PLANTS)
    (folder / "link").symlink_to(RUN)
    expect("a file called as an option", run("--", "--words", cwd=folder), 0, PLANTS_LINES)
    sample = (HERE / "sample.words").read_bytes()
    expect("run by a link", run("--words", cwd=folder, command="./link"), 0, sample)
    refused = run(CASES / "refusals.case", script='exec "$@" 2>&-')
    expect("standard error closed, and something to say", refused, 3, (CASES / "refusals.lines").read_bytes())

    unread = "can't read the case file: "
    hidden = folder / "hidden.case"
    hidden.write_bytes(PLANTS)
    hidden.chmod(0)
    for what, found, why in (
        ("a folder", run(folder), f"{folder}: Is a directory"),
        ("a folder as standard input", run("-", script=f'exec "$@" <{folder}'), "-: Is a directory"),
        ("no file", run(folder / "none"), f"{folder / 'none'}: No such file or directory"),
        ("no name", run(""), "'': No such file or directory"),
        ("a file that may not be read", run(hidden, script=UNPRIVILEGED), f"{hidden}: Permission denied"),
        ("a read that fails", run("/proc/self/mem"), "/proc/self/mem: Input/output error"),
        ("standard input closed", run("-", script='exec "$@" <&-'), "-: Bad file descriptor"),
    ):
        expect(what, found, 5, b"", unread + why)


def check_use():
    other = "there is no option {}: see ./run --help"
    many = "one file at a time, and options before it: see ./run --help"
    for arguments, sentence in (
        (["--unproved"], other.format("--unproved")),
        (["-x", CASES / "plants.case"], other.format("-x")),
        (["--words", "--", "a", "b"], many),
        ([CASES / "plants.case", "--words"], many),
    ):
        expect(f"./run {arguments}", run(*arguments), 2, b"", sentence)
    status, text, said = run("--help")
    same("--help", (status, said), (0, ""))
    same("-h", run("-h"), (0, text, ""))
    for words in ("usage: ./run", "tools/case", "65,536 bytes", "530 KiB", "rt try", "Exit status:"):
        same(f"{words} in --help", words in text.decode(), True)
    unwritten = "standard output wasn't written whole: No space left on device"
    expect("--help on a full device", run("--help", script='exec "$@" >/dev/full'), 5, b"", unwritten)


# ---- Writing


def check_writing(folder):
    unwritten = "standard output wasn't written whole: "
    closed = "standard output is closed"
    for file in ("plants", "refusals"):
        path = CASES / f"{file}.case"
        expect("a full device", run(path, script='exec "$@" >/dev/full'), 5, b"", unwritten + "No space left on device")
        expect("standard output closed", run(path, script='exec "$@" >&-'), 5, b"", closed)
        expect("no reader", through_pipe("gone", RUN, path), 5, b"", unwritten + "nobody reads it")
        found = through_pipe("gone", RUN, path, restore_signals=False)
        expect("no reader, and no signal of it", found, 5, b"", unwritten + "Broken pipe")
    long = folder / "long.case"
    long.write_bytes((b"RX" + bytes(6) + b"\0\x10" + bytes(16) + bytes(4096)) * 12)
    lines = b"".join(b"%d none %s\n" % (n, b"00" * 4096) for n in range(1, 13))
    expect("a long file", run(long), 0, lines)
    result, written, said = through_pipe("late, nonblocking", RUN, long)
    expect("a pipe that doesn't wait", (result, b"", said), 5, b"", unwritten + "Resource temporarily unavailable")
    same("its first bytes", (0 < len(written) < len(lines), lines.startswith(written)), (True, True))
    expect("a pipe that does", through_pipe("late", RUN, CASES / "plants.case"), 0, PLANTS_LINES)
    # Where what is kept meanwhile finds no room: a copy of the file, and the lines, which are longer.
    little = "trap '' XFSZ; ulimit -f {}; exec \"$@\""
    no_copy = "can't read the case file: head: error writing 'standard output': File too large"
    expect("no room for a copy", run(long, script=little.format(32)), 5, b"", no_copy)
    no_lines = "the lines can't be kept: File too large"
    expect("no room for the lines", run(long, script=little.format(60)), 5, b"", no_lines)
    nowhere = run(long, env={**os.environ, "TMPDIR": "/dev/null"})
    same("no temporary folder", (nowhere[0], nowhere[1]), (5, b""))
    same("why", nowhere[2].endswith("run: no temporary folder can be made below /dev/null\n"), True)


# ---- The program, and proving it


def copied(folder):
    """A copy of what ./run needs, with a stand-in for rt, which does what the file `does` says, and its environment."""
    names = "run KIT crates.txt crates/relax_cases/stdin include/jitamoro.h tools/case tools/kit"
    for name in names.split():
        (folder / name).parent.mkdir(parents=True, exist_ok=True)
        shutil.copy(ROOT / name, folder / name)
    rt = folder / "bin" / "rt"
    rt.parent.mkdir()
    version = f'if [ "$1" = version ]; then cat {folder}/found; exit; fi\n'
    rt.write_text(f'#!/bin/bash\n{version}echo "${{PWD##*/}}: $@" >>{folder}/calls\n. {folder}/does\n')
    shutil.copy(ROOT / "KIT", folder / "found")
    rt.chmod(0o755)
    environment = {**os.environ, "PATH": f"{rt.parent}:{os.environ['PATH']}", "WAIT": "0"}
    return environment | {"MADE_BY_GATE": environment.pop("JITAMORO_BIN_DIR")}


def crates():
    """The crates that relax_cases is made of, each after those that it uses, in the order of crates.txt."""
    rows = [line.split("#")[0].split(":") for line in (ROOT / "crates.txt").read_text().splitlines()]
    needs = {row[0].split()[0]: row[1].split() for row in rows if len(row) == 2}

    def below(name):
        found = [other for used in needs[name] if used in needs for other in below(used)]
        return list(dict.fromkeys([*found, name]))

    return below("relax_cases")


COUNT = len(crates())
BUILT = 'mkdir -p out && cp "$MADE_BY_GATE/relax_cases" out/\n'
RUNNING = "echo 'rt: running out/relax_cases; to give it other input, run that file yourself'\n"
UNCHANGED = "echo 'rt: nothing has changed since the last proved build, so nothing is checked now'\n" + RUNNING
PROVED = f"""echo 'rt: chose --jobs 2 for laws'
echo 'fn laws::f: proved'
echo 'logic=proved functions=1 sum=0 native=nat'
echo 'rt: x86_64_kind: begins with what a check kept in another folder'
sleep "$WAIT"
echo 'rt: chose --jobs 1 for rules' >&2
{RUNNING}"""


def timeless(found):
    """The same with every time as 'N s'."""
    return *found[:2], re.sub(r"\(\d+ s\)", "(N s)", found[2])


PROGRESS = [f"proving crate {crates().index(name) + 1} of {COUNT}: {name} (N s)" for name in ("laws", "rules")]


def check_proving(folder, environment):
    command, does = folder / "run", folder / "does"
    lines = (ROOT / "crates" / "relax_cases" / "stdout").read_bytes()
    first = f"the first run proves {COUNT} crates, which takes a few minutes"
    does.write_text(UNCHANGED)
    missing = "there is no program crates/relax_cases/out/relax_cases"
    expect("a program that isn't there", run(command=command, env=environment), 1, b"", first, missing)
    (folder / "found").write_text("another kit\n")
    found = run(command=command, env=environment)
    same("another kit", (found[:2], found[2][:23], found[2].count("\n")), ((1, b""), "kit: another kit, where", 3))
    does.write_text(PROVED + BUILT)
    shutil.copy(ROOT / "KIT", folder / "found")
    expect("the first run", timeless(run(command=command, env=environment)), 0, lines, first, *PROGRESS)
    does.write_text(UNCHANGED)
    expect("the second", run(command=command, env=environment), 0, lines)
    does.write_text(UNCHANGED + "exit 139\n")
    expect("a program that rt can't run", run(command=command, env=environment), 0, lines)
    same("what rt was asked", (folder / "calls").read_text(), "relax_cases: run\n" * 5)

    slow = command.read_text()
    same("the wait in ./run", slow.count("read -r -t 20 line"), 1)
    command.write_text(slow.replace("-t 20", "-t 1"))
    does.write_text(PROVED)
    found = timeless(run(command=command, env={**environment, "WAIT": "2.5"}))
    still = "run: still proving (N s)\n"
    same("a long wait", still in found[2], True)
    expect("a long wait", (*found[:2], found[2].replace(still, "")), 0, lines, *PROGRESS)
    command.write_text(slow)


def check_failures(folder, environment):
    """A proof that fails or is cut off, where there is a program of before; and words that can't be made."""
    does = folder / "does"
    for status in (1, 137):
        does.write_text(f"seq 100\necho 'rt: the library laws did not build'\nexit {status}\n")
        found = run(command=folder / "run", env=environment)
        log = [*map(str, range(62, 101)), "rt: the library laws did not build"]
        log.append("run: the case program is not proved: see target/run.log")
        same(f"a proof that ends with {status}", found, (1, b"", "\n".join(log) + "\n"))
        seen["status 1"] += 1
    does.write_text(PROVED)
    (folder / "tools" / "case").write_text("#!/bin/sh\nexit 7\n")
    found = timeless(run("--words", command=folder / "run", env=environment))
    expect("no words", found, 1, b"", *PROGRESS, "tools/case failed; it needs Python 3.9 or later")


def check_interrupt(folder, environment):
    """Interrupted while it proves, it leaves no temporary files."""
    calls, kept = folder / "calls", Path(os.environ["TMPDIR"])
    (folder / "does").write_text("sleep 60\n")
    before, called = sorted(kept.iterdir()), calls.stat().st_size
    # What was started in the background, as a gate may be, ignores the signal, and so would what it starts.
    heeds = {"preexec_fn": lambda: signal.signal(signal.SIGINT, signal.SIG_DFL)}
    with subprocess.Popen([folder / "run"], env=environment, start_new_session=True, **heeds) as started:
        deadline = time.monotonic() + 30
        while calls.stat().st_size == called and started.poll() is None and time.monotonic() < deadline:
            time.sleep(0.05)
        same("files while it waits", len(list(kept.iterdir())), len(before) + 1)
        os.killpg(started.pid, signal.SIGINT)
        same("interrupted", started.wait(30) != 0, True)
    same("files after that", sorted(kept.iterdir()), before)
    seen["interrupts"] += 1


def check_no_rt(folder, environment):
    few = folder / "few"
    few.mkdir()
    for name in "bash cat cp dirname head mkdir mktemp realpath rm sed tail tee wc".split():
        (few / name).symlink_to(shutil.which(name))
    found = run(command=folder / "run", env={**environment, "PATH": str(few)})
    same("no rt", (found[:2], found[2].count("\n")), ((1, b""), 1))
    same("what is said of it", found[2][:59], "run: kit: the command rt of the Rattle kit isn't here, and ")
    seen["status 1"] += 1


def check_program(folder):
    """A program that dies, says nothing, or isn't there."""
    died = "the case program died (139); it needs about 530 KiB of stack, and ulimit -s is 256"
    expect("little stack", run(script='ulimit -s 256; exec "$@"'), 1, b"", died)
    program = folder / "relax_cases"
    environment = {**os.environ, "JITAMORO_BIN_DIR": str(folder)}
    missing = f"there is no program {program}"
    expect("no program", run(env=environment), 1, b"", missing)
    program.write_text("#!/bin/sh\nexit 0\n")
    program.chmod(0o755)
    expect("a silent program", run(env=environment), 1, b"", "the case program printed nothing")


LEAST = {f"status {n}": least for n, least in enumerate((24, 8, 4, 5, 21, 19))}
LEAST |= {"kept files": 11, "kept words": 3, "interrupts": 1}


def main():
    with tempfile.TemporaryDirectory() as name:
        folder = Path(name)
        for part in ("tmp", "files", "copy", "bin"):
            (folder / part).mkdir()
        os.environ["TMPDIR"] = str(folder / "tmp")
        check_kept_files()
        check_limit(folder / "files")
        check_ways_in(folder / "files")
        check_use()
        check_writing(folder / "files")
        check_program(folder / "bin")
        environment = copied(folder / "copy")
        for check in (check_proving, check_failures, check_interrupt, check_no_rt):
            check(folder / "copy", environment)
        same("temporary files left", os.listdir(folder / "tmp"), [])
    report("./run", LEAST)


if __name__ == "__main__":
    main()
