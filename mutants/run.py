#!/usr/bin/env python3
"""Wrong rows of the machine, as the laws see them. A law must refuse each: `docs/PROOFS.md` has
the table.

No part of `rt ci`. For each folder mutants/CRATE it makes, in a copy of the repository beside
it, one crate of the files that show that each way keeps what CRATE's laws know, with the definitions
and the lemmas that they cite; the rows themselves stay away, since they would be refused first. Each
edit of the folder becomes a must-fail edit of that crate, and `rt must-fail` says which lemma fails
first. The crates below CRATE, and CRATE, must be proved. `run.py NAME..` does these edits alone.
"""
import os
import re
import shutil
import subprocess
import sys
import tempfile
from functools import cache
from pathlib import Path

TOP = Path(__file__).resolve().parent.parent

# by the crate whose laws must refuse an edit, and the crate that it is made in: the files that show
# that each way keeps the facts
WANTED = {
    ("laws_roles", "laws_roles"): ["NumberSteps", "LateSteps", "SizeSteps", "AdditionSteps",
                                   "SourceSteps"],
    ("laws_writes", "storage_ways"): ["BitSteps", "WindowSteps", "ContentSteps", "PageSteps",
                                      "AgainSteps", "ReadNeedSteps"],
    ("laws_recovery", "storage_ways"): ["Step"],
    ("laws_pending", "storage_ways"): ["Step", "Line"],
    ("laws_pending", "cluster_model"): ["FirstLeg"],
}
WORD = re.compile(r"Rattle\.(\w+)\.(specs|proofs)\.(\w+)")

# a crate, its specs or proofs, and one of these files
File = tuple[str, str, str]


def uses() -> dict[str, list[str]]:
    """By crate the libraries that it stands on."""
    lines = [line.split(":") for line in (TOP / "crates.txt").read_text().splitlines() if ":" in line]
    return {head.split()[0]: rest.split() for head, rest in lines}


def path_of(file: File) -> Path:
    return TOP / "crates" / file[0] / file[1] / f"{file[2]}.antt"


@cache
def cites(file: File) -> list[File]:
    """The files that a file cites."""
    lines = re.findall(r"^(?:pub )?use .*", path_of(file).read_text(), re.M)
    found = {word for line in lines for word in WORD.findall(line)}
    return sorted(it for it in found if path_of(it).exists())


def lines_of(edit: Path) -> dict[str, str]:
    """What an edit says: its file, old text and new text, where `\\n` ends a line."""
    lines = [line.split(": ", 1) for line in edit.read_text().splitlines() if line]
    return {key: text.replace("\\n", "\n") for key, text in lines}


def edited(edit: Path) -> File:
    """The file that the edit is made in."""
    found = re.fullmatch(r"(?:\.\./(\w+)/)?(specs|proofs)/(\w+)\.antt", lines_of(edit)["file"])
    return (found[1] or edit.parent.name, found[2], found[3])


def gathered(name: str, changed: set[File]) -> list[File]:
    """The wanted files of the crate, and of all that they cite what stands on a changed file."""

    @cache
    def depends(file: File) -> bool:
        return file in changed or any([depends(it) for it in cites(file)])

    files = [(name, "proofs", file) for where in {it[0] for it in changed} for file in WANTED[name, where]]
    for file in files:
        files += [it for it in cites(file) if it not in files and depends(it)]
    return files


def name_of(file: File) -> str:
    return f"{file[0]}_{file[2]}" if file[1] == "proofs" else f"{file[0]}_specs_{file[2]}"


def crate_of(copy: Path, name: str, where: str, edits: list[Path]) -> str:
    """Makes the crate in which these edits of the folder are tried, and gives its name."""
    made = f"wrong_{where}_of_{name}"
    files = gathered(name, {edited(edit) for edit in edits})
    texts = {file: path_of(file).read_text() for file in files}
    folder = copy / "crates" / made
    for part in ["src", "proofs", "must-fail"]:
        (folder / part).mkdir(parents=True)
    for number, edit in enumerate(edits):
        said, at = lines_of(edit), edited(edit)
        assert texts[at].count(said["old"]) == 1, f"{edit.name}: not once in {at[2]}"
        # each line that changes gets a mark, so that it stands there once
        pairs, marked = "", []
        for i, (old, new) in enumerate(zip(said["old"].split("\n"), said["new"].split("\n"), strict=True)):
            marked.append(f"{old}  -- {number}.{i}" if old != new else old)
            pairs += f"old: {marked[-1]}\nnew: {new}\n" if old != new else ""
        texts[at] = texts[at].replace(said["old"], "\n".join(marked))
        (folder / "must-fail" / edit.name).write_text(f"file: proofs/{name_of(at)}.antt\n{pairs}")
    for file, text in texts.items():
        here = lambda it: f"Rattle.{made}.proofs.{name_of(it.groups())}" if it.groups() in texts else it[0]
        (folder / "proofs" / f"{name_of(file)}.antt").write_text(WORD.sub(here, text))
    (folder / "proofs" / "Lib.antt").write_text("".join(f"pub mod {name_of(it)}\n" for it in files))
    (folder / "src" / "lib.rt").write_text("//! What each way keeps.\n#![tactic(auto)]\n")
    # the files cite what the crates that they come from stand on
    below = sorted({name, *[it for crate in {file[0] for file in files} for it in uses()[crate]]})
    with open(copy / "crates.txt", "a") as it:
        it.write(f"{made}: {' '.join(below)}\n")
    return made


def main() -> None:
    chosen = [e for e in sorted(TOP.glob("mutants/*/*.edit")) if e.stem in (sys.argv[1:] or [e.stem])]
    work = Path(tempfile.mkdtemp(prefix="mutants.", dir=TOP.parent))
    try:
        copy = work / "copy"
        # what is kept of the proofs below is large: linked, not copied
        (copy / "crates").mkdir(parents=True)
        shutil.copytree(TOP / "crates", copy / "crates", copy_function=os.link, dirs_exist_ok=True)
        for file in ["crates.txt", "HANDLES"]:
            shutil.copy(TOP / file, copy / file)
        groups: dict[tuple[str, str], list[Path]] = {}
        for edit in chosen:
            groups.setdefault((edit.parent.name, edited(edit)[0]), []).append(edit)
        made = [crate_of(copy, *group, edits) for group, edits in groups.items()]
        subprocess.run(["rt", "must-fail", *made], cwd=copy, check=False)
    finally:
        shutil.rmtree(work, ignore_errors=True)


main()
