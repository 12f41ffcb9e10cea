"""Runs of the built program over lines and parts, held to the plain reference."""
import dataclasses
import pathlib
import shlex
import subprocess
import tempfile

import reference
from part_reader import Fault, read_parts

PROGRAM = pathlib.Path(__file__).resolve().parent.parent / "crates/jlreport/out/jlreport"
SECONDS = 60


def first_difference(met, wanted):
    """The first line in which an output differs from what is wanted."""
    for number, (one, other) in enumerate(zip(met.split(b"\n") + [b"(end)"], wanted.split(b"\n") + [b"(end)"]), 1):
        if one != other:
            return f"line {number}: {other[:150]!r} is wanted, {one[:150]!r} is met"
    return "one is longer"


def differences(met, wanted):
    """How the status and the outputs of a run differ from what is wanted."""
    told = [f"status {wanted[0]} is wanted, {met[0]} is met"] if met[0] != wanted[0] else []
    outputs = zip(("standard output", "standard error"), met[1:], wanted[1:])
    return "; ".join(told + [f"{name}, {first_difference(*both)}" for name, *both in outputs if both[0] != both[1]])


def run(words, data, environment=None):
    """The status and the two outputs of a command over some bytes."""
    with tempfile.TemporaryFile() as file:
        file.write(data)
        file.seek(0)
        ways = {"stdin": file, "env": environment, "capture_output": True, "close_fds": False, "timeout": SECONDS}
        try:
            ran = subprocess.run(words, check=False, **ways)
        except subprocess.TimeoutExpired:
            return f"none in {SECONDS} s", b"", b""
    return ran.returncode, ran.stdout, ran.stderr


@dataclasses.dataclass
class Tally:
    """How many comparisons passed, and what is told of the others."""

    passed: int = 0
    told: list = dataclasses.field(default_factory=list)

    def check(self, is_right, told):
        self.passed += is_right
        self.told += [] if is_right else [told]

    def run(self, name, query, flags, data, wanted):
        """Compares the status and the two outputs of a run of the program over some bytes."""
        words = ["--columns", query.texts()[0], "--query", query.typed, *flags, "/dev/stdin"]
        met = run([PROGRAM, *words], data)
        told = f"{name}: {differences(met, wanted)}\n  $ {shlex.join(['jlreport', *words]):.1000}"
        self.check(met == wanted, told)


def outcome(query, contents, is_part, limit=None):
    """The status and the two outputs of a run whose contents these are, and of which a part is wanted or a report."""
    if limit is not None and len(contents.refused) > limit:
        return 5, b"", f"jlreport: more than {limit} refused lines\n".encode()
    if is_part:
        return 0, reference.part_text(query, contents), b""
    refusals = reference.refusals_of(contents)
    return 1 if refusals else 0, reference.report_of(query, contents), refusals


def join(tally, name, query, data, flags=(), is_refused=None):
    """Joins what may be parts, to a report and where they are good to a part, and compares with what the reference reads."""
    try:
        contents = reference.joined(query, read_parts(query, data))
    except Fault as fault:
        tally.run(name, query, ["--join", *flags], data, (6, b"", f"jlreport: {fault}\n".encode()))
        contents = None
    else:
        tally.run(name, query, ["--join", *flags], data, outcome(query, contents, False))
        tally.run(name, query, ["--join", "--partial", *flags], data, outcome(query, contents, True))
    if is_refused not in (None, contents is None):
        tally.check(False, f"{name}: the reference {'refuses' if contents is None else 'takes'} it")
