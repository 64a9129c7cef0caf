#!/usr/bin/env python3
"""Makes the pictures of docs/pictures, or compares them; or reads pictures of many runs with an XML parser.

python3 bench/check/pictures.py --write | --check | --parse [SCRIPTS] [--program PATH]

Run it once ./postmig prove or rt ci has built the program. --write redraws the pictures of docs/pictures: four
examples, and the scripts and the wrong histories that are beside their pictures. --check draws them too, and its status
is not 0 if one differs, is missing, or cannot be read, or if there is no program. --parse draws every example and
SCRIPTS explored scripts (200), and reads each picture. A picture that can be read is well-formed XML, its root is
`svg`, it has only elements and attributes that a picture has, no reference to anything outside, and less than 4,000,000
bytes.
"""

import argparse
import pathlib
import sys
import tempfile
import xml.etree.ElementTree

import shared  # noqa: F401

import page
from program import PROFILES, PROGRAM, require, run, written

PICTURES = page.TOP / "docs" / "pictures"
EXAMPLES = page.TOP / "examples"
STORIES = ("background-push", "fault", "page-moves", "lost-after-run")
# The processors of the scripts of docs/pictures, by name.
SCRIPTS = {"64-pages": 4, "one-page": 2, "real-memory": 4}
HISTORIES = ("split",)
SVG = "{http://www.w3.org/2000/svg}"
ELEMENTS = {SVG + name for name in ("svg", "title", "style", "defs", "pattern", "g", "path", "text")}
ATTRIBUTES = {"viewBox", "width", "height", "role", "id", "class", "patternUnits", "d", "transform"}
MOST_BYTES = 4_000_000


def drawn(program, script, cpus=2, name=None, folder=EXAMPLES):
    """The picture of a script, or of the file of that name in a folder."""
    return written([program, "draw", "--cpus", str(cpus), *([name] if name else [])], script, folder)


def contradiction(program, name):
    """The picture of what is wrong with a history of docs/pictures."""
    with tempfile.TemporaryDirectory() as folder:
        picture = pathlib.Path(folder) / "picture"
        ended = run([program, "history", "--draw", picture, f"{name}.history"], folder=PICTURES)
        if ended.returncode != 3:
            raise ValueError(f"{name}.history: status {ended.returncode}, {ended.stderr[-200:]}")
        return picture.read_bytes()


def judge(name, picture):
    """Ends the program unless the bytes are a picture."""
    try:
        root = xml.etree.ElementTree.fromstring(picture)
    except xml.etree.ElementTree.ParseError as error:
        raise SystemExit(f"{name}: {error}")
    if root.tag != SVG + "svg":
        raise SystemExit(f"{name}: the root is {root.tag}")
    for element in root.iter():
        if element.tag not in ELEMENTS or not set(element.attrib) <= ATTRIBUTES:
            raise SystemExit(f"{name}: {element.tag} {element.attrib}")
    if len(picture) >= MOST_BYTES:
        raise SystemExit(f"{name}: {len(picture)} bytes")
    return len(picture), sum(1 for _ in root.iter())


def pictures(program):
    """The pictures of docs/pictures, each read, by their files."""
    made = {PICTURES / f"{name}.svg": drawn(program, b"", name=f"{name}.script") for name in STORIES}
    for name, cpus in SCRIPTS.items():
        made[PICTURES / f"{name}.svg"] = drawn(program, b"", cpus, f"{name}.script", PICTURES)
    made |= {PICTURES / f"{name}.svg": contradiction(program, name) for name in HISTORIES}
    for file, picture in made.items():
        judge(file.name, picture)
    return made


def write(program):
    for file, picture in pictures(program).items():
        file.write_bytes(picture)


def check(program):
    made = pictures(program)
    wrong = [file for file, picture in made.items() if not file.is_file() or file.read_bytes() != picture]
    wrong += set(PICTURES.glob("*.svg")) - set(made)
    for file in wrong:
        print(f"pictures: {file} is not what the program draws: python3 bench/check/pictures.py --write")
    print(f"pictures: {len(made)} are drawn, {len(wrong)} differ")
    return 1 if wrong else 0


def parse(program, scripts):
    most = (0, 0)
    count = 0
    for script in sorted(EXAMPLES.glob("*.script")):
        most = max(most, judge(script.name, drawn(program, b"", name=script.name)))
        count += 1
    for seed in range(scripts):
        words = [
            "--seed", str(seed), "--profile", PROFILES[seed % len(PROFILES)], "--lines", str(50 + 7 * seed), "--pages",
            str(4 + seed),
        ]
        script = written([program, "explore", *words, "--cpus", "4"])
        most = max(most, judge(" ".join(words), drawn(program, script, cpus=4)))
        count += 1
    print(f"{count} pictures are read; the largest has {most[0]:,} bytes and {most[1]:,} elements")


def main():
    parser = argparse.ArgumentParser(description=__doc__, formatter_class=argparse.RawDescriptionHelpFormatter)
    parser.add_argument("--write", action="store_true")
    parser.add_argument("--check", action="store_true")
    parser.add_argument("--parse", type=int, nargs="?", const=200)
    parser.add_argument("--program", default=str(PROGRAM))
    given = parser.parse_args()
    require(given.program)
    if given.write:
        write(given.program)
    if given.parse is not None:
        parse(given.program, given.parse)
    return check(given.program) if given.check else 0


if __name__ == "__main__":
    try:
        sys.exit(main())
    except ValueError as error:
        sys.exit(str(error))
