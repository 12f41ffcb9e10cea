"""Linking a program that is compiled.

It is linked twice: to the C library of the machine, as the toolchain does it, so that tests can stand in for single calls
of that library; and with a copy of the C library in it, so that it runs on each Linux of its kind of processor, whatever
libraries are there. The second is the one that a user gets.
"""
import os
import shutil
import subprocess
import sys

from trees import log_of, out_of

TARGET = "x86_64-unknown-linux-gnu"


def object_of(name):
    return f"{out_of(name)}/{name}.o"


def program_of(name):
    """The program that needs the C library of the machine."""
    return f"{out_of(name)}/{name}"


def static_program_of(name):
    """The program that needs no library."""
    return f"{out_of(name)}/static/{name}"


def archives(kit):
    """What the toolchain has in C for each program."""
    return [f"{kit}/c/libos_c.a", f"{kit}/c/liblibc_c.a"]


def has_linked(words, name):
    """Runs a linker, whose words go to the log of the program; whether all is well."""
    with open(log_of(name), "ab") as log:
        try:
            return subprocess.run(words, stdin=subprocess.DEVNULL, stdout=log, stderr=log).returncode == 0
        except FileNotFoundError as missing:
            log.write(f"{missing}\n".encode())
            return False


def link(kit, name):
    """Links a program to the C library of the machine; whether all is well."""
    words = [f"{kit}/bin/rattle-link", "--target", TARGET, "--toolchain", f"{kit}/toolchain", "-o", program_of(name)]
    return has_linked([*words, object_of(name), *archives(kit)], name)


def is_current(file, source):
    """Whether a file was made after its source was."""
    return os.path.isfile(file) and os.path.getmtime(file) >= os.path.getmtime(source)


def link_statically(kit, name):
    """Links a program with the C library in it, by gcc, unless it was since it was compiled. Where that cannot be, as where
    gcc or its libc.a is missing, or `rt ci` has kept the program alone and not what was compiled, the one that needs the C
    library of the machine takes its place, and standard error says so."""
    to, compiled = static_program_of(name), object_of(name)
    is_compiled = os.path.isfile(compiled)
    if is_current(to, compiled if is_compiled else program_of(name)):
        return
    os.makedirs(os.path.dirname(to), exist_ok=True)
    new = f"{to}.{os.getpid()}"
    if not is_compiled or not has_linked(["gcc", "-static-pie", "-o", new, compiled, *archives(kit)], name):
        why = f"gcc cannot link it statically; its words are in {log_of(name)}" if is_compiled else f"there is no {compiled}"
        print(f"jlreport: {name} needs the C library of this machine, as {why}", file=sys.stderr)
        shutil.copyfile(program_of(name), new)
        shutil.copymode(program_of(name), new)
    os.replace(new, to)
