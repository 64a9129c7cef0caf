"""Puts what a script has measured or found into its part of a page of docs/, between two comments that name the part,
or into a page of dist/, which is not kept in the repository."""

import argparse
import os
import pathlib
import platform
import sys

TOP = pathlib.Path(__file__).resolve().parent.parent
PAGE = TOP / "docs" / "PERFORMANCE.md"


def machine():
    """The machine on which it was measured, in a few words."""
    for line in open("/proc/cpuinfo"):
        if line.startswith("model name"):
            return (
                f"{line.partition(':')[2].strip()}, "
                f"{len([it for it in open('/proc/cpuinfo') if it.startswith('processor')])} processors"
            )
    return platform.machine()


def environment():
    """The environment that the launcher gives the program: huge pages for the allocator, where the kernel has them, and
    one arena for all threads."""
    return {"GLIBC_TUNABLES": "glibc.malloc.hugetlb=1:glibc.malloc.arena_max=1", **os.environ}


def option(*allowed):
    """The option of a script's command line that takes one of these at most, or None. --help writes the script's own
    text."""
    text = sys.modules["__main__"].__doc__
    parser = argparse.ArgumentParser(description=text, formatter_class=argparse.RawDescriptionHelpFormatter)
    choice = parser.add_mutually_exclusive_group() if allowed else parser
    for name in allowed:
        choice.add_argument(name, dest="option", action="store_const", const=name)
    return getattr(parser.parse_args(), "option", None)


def end(faults, summary):
    """Prints what is wrong and a line that sums up, and ends the script: with status 1 where something is."""
    print(*faults, f"{summary}, {len(faults)} faults", sep="\n")
    sys.exit(1 if faults else 0)


def keep(file, made):
    """With --write a file becomes as a script makes it; else the status is 1 where it is another."""
    name, faults = file.relative_to(TOP), []
    if sys.argv[1:] == ["--write"]:
        file.write_text(made)
    elif not file.is_file() or file.read_text() != made:
        script = pathlib.Path(sys.argv[0]).resolve().relative_to(TOP)
        faults = [f"{name} is not as 'python3 {script} --write' makes it"]
    end(faults, name)


def replaced(page, part, text, file):
    """The text of a page with another text in a part of it. The file is what a message names where the page has no such
    part."""
    begin, end = f"<!-- {part} -->\n", f"<!-- end of {part} -->\n"
    head, _, rest = page.partition(begin)
    _, found, tail = rest.partition(end)
    if not found:
        raise SystemExit(f"{file}: no part {part}")
    return head + begin + text.rstrip("\n") + "\n" + end + tail


def put(part, text, file=PAGE):
    file.write_text(replaced(file.read_text(), part, text, file))


def write(name, text):
    """Writes a page of dist/, and says where it is."""
    file = TOP / "dist" / name
    file.parent.mkdir(exist_ok=True)
    file.write_text(text.rstrip("\n") + "\n")
    print(file.relative_to(TOP))
