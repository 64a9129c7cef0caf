"""Puts bench/ on the path of imports. The scripts of this folder import it before a module of bench/; each folder has
the same file. A read or a write that fails ends a script with one line."""

import pathlib
import sys

sys.path.insert(1, str(pathlib.Path(__file__).resolve().parent.parent))


def say(kind, fault, trace):
    if issubclass(kind, (OSError, KeyboardInterrupt)):
        print(f"{pathlib.Path(sys.argv[0]).name}: {fault or kind.__name__}", file=sys.stderr)
    else:
        sys.__excepthook__(kind, fault, trace)


sys.excepthook = say
