#!/usr/bin/env python3
"""Tries the edits that must fail and that the gate leaves out, those of bench/edits.

python3 bench/check/edits.py [--check] [CRATE ..]

Where no crate is named, all crates that have such edits are tried. With --check nothing is proved: each edit is applied
to the text of its crate, and the status is 1 where one does not fit any more. It makes a clean clone of what is
committed, in a temporary folder. There it puts the edits of bench/edits/CRATE into crates/CRATE/must-fail, where the
gate's own edits are taken out, and runs 'rt must-fail'. It prints what rt says and, last, how many edits were refused.
It ends with the status of rt. The clone is removed at the end.
"""

import collections
import pathlib
import shutil
import subprocess
import sys
import tempfile

import shared  # noqa: F401

import page

# What rt says of an edit, after its name.
ENDS = {
    "refused": ": refused, as it must be",
    "not refused": ": NOT REFUSED",
    "bad": ": BAD EDIT",
    "not tried": ": NOT TRIED",
}


def crates_with_edits():
    return sorted(folder.name for folder in (page.TOP / "bench" / "edits").iterdir() if any(folder.glob("*.edit")))


def cloned(folder):
    """A clone of what is committed."""
    clone = pathlib.Path(folder) / "clone"
    subprocess.run(["git", "clone", "--quiet", page.TOP, clone], check=True)
    return clone


def put_edits(clone, crate):
    """Puts the edits that the gate leaves out in place of its own, and returns how many they are."""
    edits = sorted((clone / "bench" / "edits" / crate).glob("*.edit"))
    target = clone / "crates" / crate / "must-fail"
    shutil.rmtree(target, ignore_errors=True)
    target.mkdir()
    for edit in edits:
        shutil.copy(edit, target)
    return len(edits)


def misfit(folder, edit):
    """Why an edit does not fit the files of its crate, or None."""
    path, old, texts = None, None, {}
    for line in edit.read_text().splitlines():
        if line.startswith("file: "):
            path = line.removeprefix("file: ").strip()
            if not (folder / path).is_file():
                return f"there is no file {path}"
            texts.setdefault(path, (folder / path).read_text())
        elif line.startswith("old: "):
            old = line.removeprefix("old: ")
        elif line.startswith("new:"):
            if path is None or old is None:
                return "a 'new:' line is before any 'file:' or 'old:' line"
            if (count := texts[path].count(old)) != 1:
                return f"an 'old:' text is in {path} {count} times, and not once"
            texts[path], old = texts[path].replace(old, line.removeprefix("new:").removeprefix(" ")), None
    return None if texts else "it changes no file"


def check(crates):
    """Applies the edits of these crates, and returns whether all fit."""
    edits = [edit for crate in crates for edit in sorted((page.TOP / "bench" / "edits" / crate).glob("*.edit"))]
    wrong = [(edit, why) for edit in edits if (why := misfit(page.TOP / "crates" / edit.parent.name, edit))]
    for edit, why in wrong:
        print(f"{edit.parent.name}/{edit.name}: {why}")
    print(f"{len(edits)} edits outside the gate, {len(wrong)} do not fit")
    return not wrong


def tried(clone, crates):
    """Runs rt, prints what it says as it comes, and returns its status and how many edits ended in which way."""
    ends = collections.Counter()
    child = subprocess.Popen(
        ["rt", "must-fail", *crates], cwd=clone, stdout=subprocess.PIPE, stderr=subprocess.STDOUT, text=True
    )
    for line in child.stdout:
        print(line, end="", flush=True)
        ends.update(end for end, words in ENDS.items() if words in line)
    return child.wait(), ends


def main():
    known = crates_with_edits()
    words = sys.argv[1:]
    crates = [it for it in words if it != "--check"] or known
    for crate in crates:
        if crate not in known:
            sys.exit(f"{crate} has no edits in bench/edits")
    if "--check" in words:
        sys.exit(0 if check(crates) else 1)
    with tempfile.TemporaryDirectory(prefix="edits-") as folder:
        clone = cloned(folder)
        count = sum(put_edits(clone, crate) for crate in crates)
        status, ends = tried(clone, crates)
    print(f"{count} edits: " + ", ".join(f"{ends[end]} {end}" for end in ENDS))
    sys.exit(status)


if __name__ == "__main__":
    main()
