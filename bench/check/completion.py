#!/usr/bin/env python3
"""Has the shells that are here complete the words of postmig, and compares what they find with the help texts.

python3 bench/check/completion.py [--program PATH]

Each reads what `postmig completion SHELL` writes. It must find each subcommand and each option that the help has,
and no other, the words that a value may be, and the names of files. The status is 1 where one finds something else, and
where no shell is here.
"""

import argparse
import pathlib
import re
import shutil
import tempfile

import shared  # noqa: F401

import page
from program import PROGRAM, require, run, written

# How each shell is asked: the script is its first argument, and the words of the command line are the others.
BASH = """
script=$1; shift; compopt() { :; }; source "$script"
COMP_WORDS=("$@"); COMP_CWORD=$(($# - 1)); _postmig; printf '%s\\n' "${COMPREPLY[@]}"
# (where nothing is found bash completes the name of a file)
[ ${#COMPREPLY[@]} -gt 0 ] || compgen -f -- "${COMP_WORDS[COMP_CWORD]}"
"""
ZSH = """
compdef() { : }; _files() { print -l -- *(N) }; _describe() { print -l -- "${(@P)2}" }
source $1; shift; words=("$@"); CURRENT=$#; _postmig
"""
FISH = """source $argv[1]; complete -C (string join ' ' -- $argv[2..])"""
SHELLS = {
    "bash": ["bash", "--norc", "-c", BASH, "bash"],
    "zsh": ["zsh", "-f", "-c", ZSH, "zsh"],
    "fish": ["fish", "-N", "-c", FISH],
}
# The file that lies where a shell is asked.
FILE = "a.script"


class Shell:
    """A shell that has read a script, in a folder with one file."""

    def __init__(self, name, program, folder):
        self.name, self.folder = name, folder
        self.script = pathlib.Path(folder) / f"completion.{name}"
        self.script.write_bytes(written([program, "completion", name]))
        self.here = pathlib.Path(folder) / "here"
        self.here.mkdir(exist_ok=True)
        (self.here / FILE).touch()

    def finds(self, *words):
        """What the last of these words may become. (zsh and fish look themselves which of them begin as it does.)"""
        asked = ["env", f"HOME={self.folder}", *SHELLS[self.name], self.script, "postmig", *words]
        ran = run(asked, folder=self.here)
        found = (re.split(r"[\t:]", line)[0] for line in ran.stdout.decode().splitlines() if line)
        return {it for it in found if it.startswith(words[-1])}, ran.stderr.decode().strip()


def subcommands(text):
    listed = text.partition("Commands:\n")[2].partition("\n\n")[0]
    return {line.split()[0] for line in listed.splitlines()}


def options(text):
    return set(re.findall(r"(?m)^ +(?:-\w, )?(--[\w-]+)", text))


def choices(text):
    """The options of a help text whose values it lists, with these."""
    for option, values in re.findall(r"(?m)^ +(--[\w-]+) <\w+>.*\[possible values: ([\w, ]+)\]", text):
        yield option, set(values.split(", "))


def wanted(program):
    """The words of each command line, and what the last of them may become."""
    top = written([program, "--help"]).decode()
    names = subcommands(top)
    yield [""], names
    yield ["--"], options(top)
    yield ["sh"], {"show"}
    for name in names - {"help"}:
        text = written([program, name, "--help"]).decode()
        yield [name, "--"], options(text)
        for option, values in choices(text):
            yield [name, option, ""], values
        for values in re.findall(r"(?m)^ +<[A-Z]+> .*\[possible values: ([\w, ]+)\]", text):
            yield [name, values[0]], {it for it in values.split(", ") if it[0] == values[0]}
    yield ["run", "--cpus", ""], set()
    yield ["run", "--wire", ""], {FILE}
    yield ["run", "a"], {FILE}
    yield ["explore", "--seed", "1", "--sw"], {"--sweep"}


def faults(shell, cases):
    for words, want in cases:
        found, said = shell.finds(*words)
        # (bash completes the name of a file unless its script turns that off, which is a call of its own)
        if shell.name == "bash" and not want:
            found -= {FILE}
        if found != want or said:
            yield f"{shell.name}: postmig {' '.join(words)!r}: {sorted(found)} {said}, and not {sorted(want)}"


def main():
    asked = argparse.ArgumentParser(description=__doc__, formatter_class=argparse.RawDescriptionHelpFormatter)
    asked.add_argument("--program", default=PROGRAM)
    program = pathlib.Path(asked.parse_args().program).resolve()
    require(program)
    cases = list(wanted(program))
    here = [name for name in SHELLS if shutil.which(name)]
    found = [] if here else ["no shell is here"]
    with tempfile.TemporaryDirectory() as folder:
        for name in here:
            found += faults(Shell(name, program, folder), cases)
    page.end(found, f"completion: {len(cases)} command lines, {', '.join(here)}")


if __name__ == "__main__":
    main()
