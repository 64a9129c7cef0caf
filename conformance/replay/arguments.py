"""Options, read before anything runs: what is wrong with one is said in one line."""

import argparse
import os
import pathlib
import shlex
import shutil
import sys

# The greatest seed of `postmig explore`.
GREATEST = 2**64 - 1


class Parser(argparse.ArgumentParser):
    """argparse has status 2 for a wrong option, which is in conformance/ that of a machine that cannot replay, and
    prints its usage as well."""

    def __init__(self, description, status=1):
        script = pathlib.Path(sys.argv[0]).absolute()
        super().__init__(prog=f"{script.parent.name}/{script.name}", description=description)
        self.status = status

    def parse_args(self, args=None, namespace=None):
        """Options may be between the arguments."""
        return self.parse_intermixed_args(args, namespace)

    def error(self, message):
        self.exit(self.status, f"{self.prog}: {message}\n")


def number(least, most):
    def read(text):
        if not (text.isascii() and text.isdigit() and least <= int(text) <= most):
            raise argparse.ArgumentTypeError(f"{text!r} is no number from {least:,} to {most:,}")
        return int(text)

    return read


def file(text):
    """The path of a program."""
    if not os.access(text, os.X_OK) or os.path.isdir(text):
        raise argparse.ArgumentTypeError(f"there is no program {text!r}")
    return text


def named(parser, words, names, is_all=False):
    """Those of the names that have one of these words in them, or with is_all each of them. Without words it is all."""
    unknown = [word for word in words if not any(word in name for name in names)]
    found = [name for name in names if not words or (all if is_all else any)(word in name for word in words)]
    if unknown or not found:
        parser.error(f"no case has {' or '.join(unknown) or ' and '.join(words)} in its name")
    return found


def seeds(text):
    """The seeds of FIRST:LAST, or one."""
    ends = text.split(":")
    if (
        len(ends) > 2
        or not all(it.isascii() and it.isdigit() for it in ends)
        or not int(ends[0]) <= int(ends[-1]) <= GREATEST
    ):
        raise argparse.ArgumentTypeError(f"{text!r} is no seed and no range FIRST:LAST of seeds")
    return range(int(ends[0]), int(ends[-1]) + 1)


def profiles(known):
    """Names of profiles with commas between them, as a list; `every` is all of them."""

    def read(text):
        unknown = [it for it in text.split(",") if it not in known] if text != "every" else []
        if unknown:
            raise argparse.ArgumentTypeError(f"there is no profile {unknown[0]!r}, only {', '.join(known)}, and every")
        return list(known) if text == "every" else text.split(",")

    return read


def command(text):
    """A command line whose program is there."""
    try:
        words = shlex.split(text)
    except ValueError as fault:
        raise argparse.ArgumentTypeError(f"{text!r}: {fault}") from None
    if not words or not shutil.which(words[0]):
        raise argparse.ArgumentTypeError(f"there is no program {words[0] if words else text!r}")
    return text


def one_of(names):
    """A name, if there is one of it."""

    def read(text):
        if text not in names:
            raise argparse.ArgumentTypeError(f"there is no {text!r}, only {', '.join(names)}")
        return text

    return read


def start(main):
    """Ends the program with the status of `main`; by what stops it, without a trace of the stack."""
    if sys.stdout is None:
        sys.exit("the standard output is closed")
    try:
        status = main()
        sys.stdout.flush()
    except KeyboardInterrupt:
        status = 130
    except BrokenPipeError:
        # No one reads the output any more: what is left of it goes nowhere.
        os.dup2(os.open(os.devnull, os.O_WRONLY), sys.stdout.fileno())
        status = 1
    except OSError as fault:
        print(f"{pathlib.Path(sys.argv[0]).name}: {fault}", file=sys.stderr)
        os.dup2(os.open(os.devnull, os.O_WRONLY), sys.stdout.fileno())
        status = 1
    sys.exit(status)
