#!/usr/bin/env python3
"""The prover itself, over the libraries that `rt ci` has just built. Any other command of `rt` builds its own, which proves every crate once more.

  .ci/prover.py archive CRATE   proves a static library and writes crates/CRATE/out/libCRATE.a"""
import os
import subprocess
import sys

ROOT = os.path.dirname(os.path.dirname(os.path.realpath(__file__)))


def kit():
    """Returns the folder of the toolchain: that of its guide, which `rt doc` names."""
    return os.path.dirname(subprocess.run(["rt", "doc"], stdout=subprocess.PIPE, text=True, check=True).stdout.strip())


KIT = kit()
PROVER = f"{KIT}/bin/rattle"


def crates():
    """Returns the crates of crates.txt: of each whether it is a static library, and the libraries that it uses."""
    found = {}
    with open(f"{ROOT}/crates.txt", encoding="utf-8") as lines:
        for line in lines:
            name, _, uses = line.split("#")[0].partition(":")
            if name.strip():
                found[name.split()[0]] = "staticlib" in name.split(), uses.split()
    return found


CRATES = crates()


def library(crate):
    return f"{ROOT}/crates/{crate}/out/rlib/{crate}.rlib"


def below(crate):
    """Returns the repository's crates that this one uses."""
    return [it for it in CRATES[crate][1] if it in CRATES]


def is_current(crate):
    """Returns whether the libraries below are those of `rt ci`: it puts back what another command had built, which is marked and may be older than the sources."""
    return all(os.path.isdir(library(it)) and not os.path.exists(f"{ROOT}/crates/{it}/out/rlib/stamp") for it in below(crate))


def words(crate):
    """Returns what the prover is told of a crate; it is called in the crate's folder, or in a copy's."""
    is_static, uses = CRATES[crate]
    top = "src/main.rt" if os.path.exists(f"{ROOT}/crates/{crate}/src/main.rt") else "src/lib.rt"
    of_kit = [f"{it}={KIT}/rlibs/{it}.rlib" for it in ["std", *[it for it in uses if it not in CRATES]]]
    ours = [f"{it}={library(it)}" for it in below(crate)]
    places = [f"{KIT}/rlibs", *[os.path.dirname(library(it)) for it in below(crate)]]
    found = ["--crate-name", crate, top, "--antt-project", f"{KIT}/rattle/logic/antt-project.json", "--logic-built", f"{KIT}/logic_built"]
    found += [word for it in of_kit + ours for word in ("--extern", it)]
    found += [word for it in places for word in ("-L", f"dependency={it}")]
    return found + (["--crate-type", "staticlib"] if is_static else [])


def archive(crate):
    """Writes the archive of a static library, over libraries of its own where those of `rt ci` do not stand there."""
    os.makedirs(f"{ROOT}/crates/{crate}/out", exist_ok=True)
    over = [PROVER, "build", *words(crate), "--toolchain", f"{KIT}/toolchain", "--backend", "llvm", "-o", f"out/lib{crate}.a"]
    return subprocess.run(over if is_current(crate) else ["rt", "lib"], cwd=f"{ROOT}/crates/{crate}", check=False).returncode


if __name__ == "__main__":
    if len(sys.argv) != 3 or sys.argv[1] != "archive" or sys.argv[2] not in CRATES:
        sys.exit(__doc__)
    sys.exit(archive(sys.argv[2]))
