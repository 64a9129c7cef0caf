"""Compares the answers of a monitor with those of the model, line by line, and stops at the first that differs.

python3 compare.py SCRIPT ANSWERS     the script that was done, and a line for each of its lines that has an answer

The status is 1 where an answer differs, is missing or is one too many, where a file cannot be read, and where nothing
was compared.
"""

import pathlib
import sys

# (the package as it is in this checkout, where it is not installed)
sys.path.append(str(pathlib.Path(__file__).resolve().parents[2] / "python"))
try:
    import postmig
except OSError as fault:
    sys.exit(f"{fault} (./postmig library makes it; POSTMIG_LIBRARY names another)")


def compare(script, answers):
    """How many answers agree, and what is wrong with the next one, if something is."""
    agreed, given = 0, iter(answers)
    with postmig.World() as world:
        for number, line in enumerate(script.split(b"\n"), start=1):
            try:
                wanted = world.line(line)
            except postmig.Refused as refused:
                reason = "not a script line" if refused.status == postmig.NOT_A_LINE else str(refused)
                return agreed, f"line {number}: {reason}"
            if not wanted:  # a comment and an empty line have no answer
                continue
            found = next(given, b"")
            if found != wanted:
                line, wanted, found = (text.decode(errors="replace").strip() for text in (line, wanted, found))
                return agreed, f"line {number}: {line}: the model: {wanted}; the monitor: {found}"
            agreed += 1
    left = sum(1 for _ in given)
    return agreed, f"the monitor has {left} more answers than the script" if left else None


def main():
    if len(sys.argv) != 3:
        sys.exit("usage: compare.py SCRIPT ANSWERS")
    try:
        script, answers = (pathlib.Path(name).read_bytes() for name in sys.argv[1:])
    except OSError as fault:
        sys.exit(f"{fault.filename}: {fault.strerror}")
    agreed, wrong = compare(script, answers.splitlines(keepends=True))
    if wrong:
        sys.exit(wrong)
    if not agreed:
        sys.exit("no answer was compared")
    print(f"all {agreed} answers agree")


if __name__ == "__main__":
    main()
