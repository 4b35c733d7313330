"""What check_case.py and check_run.py share: running a command below a line of shell, and over awkward pipes."""
import collections
import fcntl
import os
import subprocess
import sys
from pathlib import Path

ROOT = Path(__file__).resolve().parent.parent.parent
seen = collections.Counter()


def same(what, found, expected):
    if found != expected:
        sys.exit(f"run_command: {what}:\n  found    {found!r}\n  expected {expected!r}")


def outcome(ended, written):
    """Status, standard output and standard error. Whatever is tried, Python has nothing to trace."""
    said = ended.stderr.decode()
    same(f"a traceback of {ended.args}", said if "Traceback" in said else "", "")
    return ended.returncode, written, said


def shell(script, command, *arguments, given=None, **more):
    """Runs a command below a line of shell, in which it is "$@"."""
    words = ["bash", "-c", script or 'exec "$@"', "-", str(command), *map(str, arguments)]
    given = {"stdin": subprocess.DEVNULL} if given is None else {"input": given}
    ended = subprocess.run(words, capture_output=True, check=False, timeout=120, **given, **more)
    return outcome(ended, ended.stdout)


def through_pipe(reader, command, *arguments, **more):
    """Runs a command whose standard output is a pipe that is read when it has ended ("late"), the same with a pipe
    that doesn't wait ("late, nonblocking"), or one that nobody reads ("gone")."""
    read_end, write_end = os.pipe()
    if reader == "gone":
        os.close(read_end)
    if reader == "late, nonblocking":
        fcntl.fcntl(write_end, fcntl.F_SETFL, os.O_NONBLOCK)
    words = [str(command), *map(str, arguments)]
    ended = subprocess.run(words, stdout=write_end, stderr=subprocess.PIPE, check=False, timeout=120, **more)
    os.close(write_end)
    if reader == "gone":
        return outcome(ended, b"")
    with open(read_end, "rb") as file:
        return outcome(ended, file.read())


def report(name, least):
    """Says what was seen, where each of it was seen often enough."""
    for what, count in least.items():
        if seen[what] < count:
            sys.exit(f"run_command: {name}: {what}: {seen[what]}, and at least {count} are to be seen")
    print(f"run_command: {name}: " + ", ".join(f"{what} {seen[what]}" for what in least))
