"""Proving crates over what those below them state, and building a program over them.

The compiler is called itself: of a library it writes what the crates above it can cite, without the proofs, so that none
of these is read again. Such a library is for the program alone; a check of the toolchain's `rt` makes its own. It lies in
crates/*/out/rlib, beside that one, since `rt` takes sources that lie elsewhere for such as nobody reads.
"""
import hashlib
import os
import shutil
import subprocess

from linking import link, link_statically, object_of, program_of
from trees import SOURCES, TOP, crates, is_program, log_of, out_of, run, stands_on, words_of

# The processors that a program may be compiled for, and the one of these that is not asked for by name.
CPUS = ("x86-64", "x86-64-v2", "x86-64-v3")
USUAL_CPU = "x86-64-v2"


def folder_of(name):
    return f"{out_of(name)}/rlib/statements"


def library_of(name):
    return f"{folder_of(name)}/{name}.rlib"


def stamp_file_of(name):
    return f"{folder_of(name)}/stamp"


def sum_of_program(name):
    """A sum of the program as it was built, since other commands build it too; of a library nothing."""
    if not is_program(name):
        return ""
    with open(program_of(name), "rb") as it:
        return hashlib.sha256(it.read()).hexdigest()


def files_of(name):
    """The files that a proof of the crate reads, in a fixed order."""
    for part in SOURCES:
        for at, folders, files in os.walk(f"{TOP}/crates/{name}/{part}"):
            folders.sort()
            yield from (f"{at}/{it}" for it in sorted(files))


def toolchain():
    """The folder of the toolchain, in which its command `rt` and the compiler stand; None where there is no compiler."""
    kit = os.path.dirname(os.path.dirname(os.path.realpath(shutil.which("rt") or "")))
    return kit if os.access(f"{kit}/bin/rattle", os.X_OK) else None


class Statements:
    """Crates, each of which is proved once, in its own folder; a program is compiled for a processor."""

    def __init__(self, kit, cpu):
        self.kit, self.cpu = kit, cpu
        self.words, self.crates, self.begun = words_of(), crates(), {}
        self.version = subprocess.run(["rt", "version"], stdout=subprocess.PIPE, check=True).stdout

    def stamp(self, name):
        """A sum of all that the proof of a crate is made from: its files, and those of the crates below it."""
        made_from = hashlib.sha256(self.version)
        for crate in stands_on(name, self.crates):
            made_from.update(repr((crate, self.words[crate])).encode())
            for file in files_of(crate):
                with open(file, "rb") as it:
                    made_from.update(repr((os.path.relpath(file, TOP), it.read())).encode())
        if is_program(name):
            made_from.update(self.cpu.encode())
        return made_from.hexdigest()

    def is_proved(self, name):
        """Whether an earlier run proved the same, and what it made is there."""
        try:
            with open(stamp_file_of(name), encoding="ascii") as it:
                return it.read() == self.stamp(name) + sum_of_program(name)
        except FileNotFoundError:
            return False

    def start(self, name, jobs):
        """Starts to prove a crate by so many jobs."""
        shutil.rmtree(folder_of(name), ignore_errors=True)
        os.makedirs(folder_of(name))
        self.begun[name] = self.stamp(name)
        root = "src/main.rt" if is_program(name) else "src/lib.rt"
        words = [f"{self.kit}/bin/rattle", "build", "--crate-name", name, root, "--links", f"{name}=", "--jobs", str(jobs)]
        words += ["--antt-project", f"{self.kit}/rattle/logic/antt-project.json", "--logic-built", f"{self.kit}/logic_built"]
        for it in ["std", *self.words[name]]:
            words += ["--extern", f"{it}={library_of(it) if it in self.words else f'{self.kit}/rlibs/{it}.rlib'}"]
        for it in [f"{self.kit}/rlibs", *[folder_of(it) for it in stands_on(name, self.crates)[:-1]]]:
            words += ["-L", f"dependency={it}"]
        if is_program(name):
            words += ["--toolchain", f"{self.kit}/toolchain", "--backend", "llvm", "--cpu", self.cpu]
            words += ["-o", object_of(name)]
        else:
            words += ["--statements", "-o", library_of(name)]
        return run(words, f"{TOP}/crates/{name}", name)

    def ended(self, name, status):
        """Puts down that a crate is proved, where its run says so; a program is linked first. Whether all is well."""
        begun = self.begun.pop(name)
        if status or is_program(name) and not link(self.kit, name):
            return False
        if is_program(name):
            link_statically(self.kit, name)
        if self.stamp(name) != begun:
            with open(log_of(name), "a", encoding="utf-8") as log:
                log.write("error: the files of the crate changed while it was proved: run this again\n")
            return False
        with open(stamp_file_of(name), "w", encoding="ascii") as it:
            it.write(begun + sum_of_program(name))
        return True
