"""Proving libraries as the toolchain's `rt` finds them, for checks of the crates above.

What was made of a crate is kept with its proofs, so that a run that was interrupted, or a change, costs what is new.
"""
import os
import shutil

from trees import crates, lay_out, out_of, run, stands_on


class Libraries:
    """Crates, each of which is proved in a tree of its own."""

    def __init__(self):
        self.crates = crates()

    def is_proved(self, _name):
        """Whether that is known without a run. The toolchain looks by itself for what it may keep."""
        return False

    def start(self, name, jobs):
        """Starts to prove a crate by so many jobs, over what an earlier run kept."""
        tree = f"{out_of(name)}/proving"
        lay_out(tree, name, stands_on(name, self.crates)[:-1])
        kept = f"{tree}/crates/{name}/out"
        if not os.path.isdir(kept):
            os.makedirs(kept)
            for part in ("incremental", "rlib"):
                if os.path.isdir(f"{out_of(name)}/{part}"):
                    os.rename(f"{out_of(name)}/{part}", f"{kept}/{part}")
        return run(["rt", "lib", "--jobs", str(jobs)], f"{tree}/crates/{name}", name)

    def ended(self, name, status):
        """Puts what was made of a crate where the toolchain looks for it, proved or not, and clears its tree."""
        kept = f"{out_of(name)}/proving/crates/{name}/out"
        for part in os.listdir(kept):
            shutil.rmtree(f"{out_of(name)}/{part}", ignore_errors=True)
            os.rename(f"{kept}/{part}", f"{out_of(name)}/{part}")
        shutil.rmtree(f"{out_of(name)}/proving")
        return status == 0
