#!/usr/bin/env python3
"""The form of the sources in C and in Python, and names in Python that nothing uses.

python3 bench/check/style.py

C is as .clang-format says, where the machine has clang-format of the version whose form it is; that it has none is
said. Without it too: the brace of a function has its own line, any other ends its line, and there is no tab. In
Python each name that a file imports, and each that a function binds by itself, is used there; one that begins with _
need not be. The status is 1 otherwise. (measures.py counts wide lines and long functions.)
"""

import ast
import re
import shutil
import subprocess

import shared  # noqa: F401

import page

# Another version of clang-format has a form of its own.
VERSION = " version 14."
# The first line of a function with its brace; and of a statement that has one.
HEAD_OF_FUNCTION = re.compile(r"\w[^#=;]*\) \{$")
STATEMENT = re.compile(r"\s+(\} )?(if|for|while|switch|do|else)\b.*[^;]$")
# Sources of others' forms: what it is embedded in.
NOT_OURS = ("bench/sources/",)


def tracked():
    listed = subprocess.run(["git", "ls-files"], cwd=page.TOP, capture_output=True, text=True, check=True)
    return [it for it in listed.stdout.splitlines() if (page.TOP / it).is_file()]


def language_of(name):
    """Python, C or shell, by the suffix or by the first line; None of any other file."""
    path = page.TOP / name
    if path.suffix:
        return {".py": "Python", ".c": "C", ".h": "C", ".sh": "shell"}.get(path.suffix)
    with path.open("rb") as file:
        first = file.readline(80)
    return None if not first.startswith(b"#!") else "Python" if b"python" in first else "shell"


def used_in(tree):
    """The names that a tree reads, also within strings of annotations and __all__."""
    names = {it.id for it in ast.walk(tree) if isinstance(it, ast.Name) and not isinstance(it.ctx, ast.Store)}
    return names | {it.value for it in ast.walk(tree) if isinstance(it, ast.Constant) and isinstance(it.value, str)}


def imported(tree):
    for node in ast.walk(tree):
        if isinstance(node, (ast.Import, ast.ImportFrom)) and getattr(node, "module", None) != "__future__":
            for it in node.names:
                yield node.lineno, (it.asname or it.name).partition(".")[0]


def bound(function):
    """The names that a function's own statements bind, one at a time: not those of a tuple, which must be taken
    apart."""
    outer = {name for it in ast.walk(function) if isinstance(it, (ast.Global, ast.Nonlocal)) for name in it.names}
    for node in ast.walk(function):
        targets = (
            node.targets if isinstance(node, ast.Assign) else [node.target] if isinstance(node, ast.AnnAssign) else []
        )
        yield from ((node.lineno, it.id) for it in targets if isinstance(it, ast.Name) and it.id not in outer)


def faults_of(name):
    text = (page.TOP / name).read_text()
    lines, tree = text.splitlines(), ast.parse(text)
    used = used_in(tree)
    for number, it in imported(tree):
        if it not in used and "noqa" not in lines[number - 1] and not it.startswith("_") and it != "*":
            yield f"{name}:{number}: imports {it} and does not use it"
    for function in (it for it in ast.walk(tree) if isinstance(it, (ast.FunctionDef, ast.AsyncFunctionDef))):
        own = used_in(function)
        yield from (
            f"{name}:{number}: binds {it} and does not use it"
            for number, it in bound(function)
            if it not in own and not it.startswith("_")
        )


def braces(name):
    """Braces that are where the style of the kernel has none."""
    lines = (page.TOP / name).read_text().splitlines()
    for number, (above, line) in enumerate(zip(["", *lines], lines), 1):
        if "\t" in line:
            yield f"{name}:{number}: a tab"
        if HEAD_OF_FUNCTION.match(line) or line.strip() == "{" and STATEMENT.match(above):
            yield f"{name}:{number}: a brace in another place than .clang-format has it"


def sources():
    """What git has in Python, in C and for a shell."""
    found = {"Python": [], "C": [], "shell": []}
    for name in tracked():
        found.get(language_of(name), []).append(name)
    return found


def bodies(language, name, text):
    """The lines of each function's body in Python or C, with its place."""
    if language == "Python":
        for it in ast.walk(ast.parse(text)):
            if isinstance(it, (ast.FunctionDef, ast.AsyncFunctionDef)):
                yield it.end_lineno - it.body[0].lineno + 1, f"{name}: {it.name}"
    elif language == "C":
        for found in re.finditer(r"^([^\n]*)\n\{\n(.*?)^\}$", text, re.M | re.S):
            yield found[2].count("\n"), f"{name}: {found[1]}"


def c_faults(names):
    if not (page.TOP / ".clang-format").exists():
        return []
    tool = shutil.which("clang-format")
    if not tool or VERSION not in subprocess.run([tool, "--version"], capture_output=True, text=True).stdout:
        print(f"style: no clang-format{VERSION} here, so the form of C is not checked")
        return []
    wrong = [
        it
        for it in names
        if subprocess.run([tool, "--dry-run", "-Werror", it], cwd=page.TOP, capture_output=True).returncode
    ]
    return [f"{it}: not as .clang-format says (clang-format -i)" for it in wrong]


def main():
    page.option()
    python, c, _ = sources().values()
    c = [it for it in c if not it.startswith(NOT_OURS)]
    faults = [fault for name in python for fault in faults_of(name)]
    faults += [fault for name in c for fault in braces(name)] + c_faults(c)
    page.end(faults, f"form of {len(python)} sources in Python and {len(c)} in C")


if __name__ == "__main__":
    main()
