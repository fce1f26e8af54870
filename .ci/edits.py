"""Makes the changes of must-fail edits in a copy of a crate. Each is a `file:` and, from there on, `old:` texts that stand there once, with the `new:` texts for them."""
import glob
import os
import re
import shutil

from prover import ROOT

PARTS = ("src", "specs", "proofs")
# The line on which a function begins: its indent and its name.
A_FUNCTION = re.compile(r"(\s*)(?:pub(?:\([^)]*\))? )?(?:const )?(?:unsafe )?(?:extern \"C\" )?fn (\w+)")
# What the name of a function's copy ends in.
AGAIN = "_again"


class Unfit(Exception):
    """Why an edit cannot be made."""


def copy(crate, room):
    """Copies a crate's texts to the folder `room`."""
    for part in PARTS:
        if os.path.isdir(f"{ROOT}/crates/{crate}/{part}"):
            shutil.copytree(f"{ROOT}/crates/{crate}/{part}", f"{room}/{part}")


def read(path):
    with open(path, encoding="utf-8") as it:
        return it.read()


def write(path, text):
    # (a new file: the old one may have a second name)
    if os.path.exists(path):
        os.remove(path)
    with open(path, "w", encoding="utf-8") as it:
        it.write(text)


def changes(edit):
    """Returns an edit's changes in their order: file, old text, new text."""
    found, path, old = [], None, None
    for line in read(edit).split("\n"):
        if line.startswith("file: "):
            path = line[6:].strip()
        elif line.startswith("old: "):
            old = line[5:]
        elif line.startswith("new:"):
            found.append((path, old, line[5:] if line[4:5] == " " else line[4:]))
    return found


def place_of(old, text, where):
    if text.count(old) != 1:
        raise Unfit(f"an old: text stands {text.count(old)} times in {where}: {old}")
    return text.index(old)


def replaced(text, where, old, new):
    at = place_of(old, text, where)
    return text[:at] + new + text[at + len(old) :]


def apply(edit, folder):
    """Makes an edit's changes in the folder of its crate."""
    for path, old, new in changes(edit):
        write(f"{folder}/{path}", replaced(read(f"{folder}/{path}"), path, old, new))


def function_at(text, number):
    """Returns the function in which line `number` of a source file stands: its name, and the lines from its head's first to the one behind its last."""
    lines = text.split("\n")
    for first in range(number, -1, -1):
        head = A_FUNCTION.match(lines[first])
        if head:
            last = next((k for k in range(first, len(lines)) if lines[k] == head[1] + "}"), -1)
            if number <= last:
                return head[2], first, last + 1
    return "", 0, 0


def with_attributes(lines, first):
    """Returns the first of the lines above a function's head that belong to it."""
    while first > 0 and lines[first - 1].lstrip().startswith("#["):
        first -= 1
    return first


def copy_proofs(crate, path, name, folder):
    """Gives the copy of a function the function's proof files, and those of its closures."""
    module = re.sub(r"^src/|(?:/?(?:lib|main))?\.rt$", "", path)
    at = f"{folder}/proofs/{module}/".replace("//", "/")
    owns = glob.glob(f"{at}{name}") + glob.glob(f"{at}*/{name}")
    paths_in_antt = "|".join(re.escape(os.path.relpath(it, f"{folder}/proofs").replace("/", ".")) for it in owns)
    for own in owns:
        shutil.copytree(own, own + AGAIN)
        for file in glob.glob(f"{own + AGAIN}/**/*.antt", recursive=True):
            write(file, re.sub(rf"\b(Rattle\.{crate}\.(?:proofs|specs\.contracts)\.(?:{paths_in_antt}))\b", rf"\1{AGAIN}", read(file)))


def apply_in_copies(edit, crate, folder):
    """Makes an edit's changes in copies of the functions in which they stand, each beside its function in a folder where these may have been changed already."""
    copies = {}
    for path, old, new in changes(edit):
        text = read(f"{ROOT}/crates/{crate}/{path}")
        name, first, end = function_at(text, text[: place_of(old, text, path)].count("\n"))
        if not path.endswith(".rt") or not name:
            raise Unfit(f"an old: text stands in no function of {path}, so that it has no copy: {old}")
        lines = text.split("\n")
        known = copies.setdefault((path, lines[first], name), "\n".join(lines[with_attributes(lines, first) : end]))
        copies[path, lines[first], name] = replaced(known, f"the copy of {name}", old, new)
    for (path, head, name), text in copies.items():
        lines = read(f"{folder}/{path}").split("\n")
        if lines.count(head) != 1:
            raise Unfit(f"{path} has {lines.count(head)} functions that begin with {head.strip()}")
        end = function_at("\n".join(lines), lines.index(head))[2]
        lines[end:end] = ["", re.sub(rf"\bfn {name}\b", f"fn {name}{AGAIN}", text, count=1)]
        write(f"{folder}/{path}", "\n".join(lines))
        copy_proofs(crate, path, name, folder)
