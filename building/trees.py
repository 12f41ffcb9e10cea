"""The crates of the repository, commands that work on one, and small trees in which one of them is checked.

The toolchain lets one run at a time into a crate and into all crates below it. In a tree of its own, which has its
sources and those of the crates below it, and links to the libraries of these, a crate is checked beside others.
"""
import os
import re
import shutil
import subprocess

TOP = os.path.dirname(os.path.dirname(os.path.realpath(__file__)))
SOURCES = ("src", "specs", "proofs")
# What the check of one crate takes of memory, at most.
BYTES_OF_A_CHECK = 3_500_000_000


def words_of():
    """The crates of crates.txt: of each the libraries that it names."""
    named = {}
    with open(f"{TOP}/crates.txt", encoding="utf-8") as lines:
        for line in lines:
            head, colon, below = line.partition("#")[0].partition(":")
            if colon:
                named[head.split()[0]] = below.split()
    return named


def crates():
    """The crates of crates.txt: of each those of the repository that it names."""
    named = words_of()
    return {name: [it for it in below if it in named] for name, below in named.items()}


def stands_on(name, all_crates):
    """The crate and all that are below it, the lowest first."""
    found = []

    def visit(at):
        for below in all_crates[at]:
            visit(below)
        if at not in found:
            found.append(at)

    visit(name)
    return found


def is_program(name):
    return os.path.isfile(f"{TOP}/crates/{name}/src/main.rt")


def out_of(name):
    return f"{TOP}/crates/{name}/out"


def log_of(name):
    return f"{out_of(name)}/building.log"


def run(words, folder, name):
    """Starts a command in a group of processes of its own, whose words go to the log of a crate."""
    os.makedirs(out_of(name), exist_ok=True)
    with open(log_of(name), "wb") as log:
        return subprocess.Popen(words, cwd=folder, stdin=subprocess.DEVNULL, stdout=log, stderr=log, preexec_fn=os.setpgrp)


def places():
    """How many checks may run side by side."""
    processors = len(os.sched_getaffinity(0))
    try:
        with open("/proc/meminfo", encoding="ascii") as it:
            free = int(re.search(r"MemAvailable:\s+(\d+) kB", it.read())[1]) * 1024
    except (OSError, TypeError):
        free = BYTES_OF_A_CHECK
    return max(1, min(processors, free // BYTES_OF_A_CHECK))


def copy_sources(name, tree):
    for part in SOURCES:
        to = f"{tree}/crates/{name}/{part}"
        shutil.rmtree(to, ignore_errors=True)
        if os.path.isdir(f"{TOP}/crates/{name}/{part}"):
            shutil.copytree(f"{TOP}/crates/{name}/{part}", to)


def link(source, to):
    try:
        os.link(source, to)
    except OSError:
        shutil.copy2(source, to)


def lay_out(tree, name, below):
    """Lays out the tree of a crate over the crates below it, whose libraries are proved. What stands in the crate's
    own folder out is left as it is."""
    os.makedirs(tree, exist_ok=True)
    shutil.copy2(f"{TOP}/HANDLES", tree)
    with open(f"{TOP}/crates.txt", encoding="utf-8") as lines, open(f"{tree}/crates.txt", "w", encoding="utf-8") as to:
        wanted = [*below, name]
        to.writelines(it for it in lines if any(it.split(":")[0].split()[:1] == [one] for one in wanted))
    for it in below:
        copy_sources(it, tree)
        shutil.rmtree(f"{tree}/crates/{it}/out", ignore_errors=True)
        # What the program was built over lies there too.
        others = lambda at, _: ["statements"] if at == f"{out_of(it)}/rlib" else []
        shutil.copytree(f"{out_of(it)}/rlib", f"{tree}/crates/{it}/out/rlib", ignore=others, copy_function=link)
    copy_sources(name, tree)
