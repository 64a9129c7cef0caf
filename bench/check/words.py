#!/usr/bin/env python3
"""Lists words and turns of phrase that pages and comments avoid, with what to write instead.

python3 bench/check/words.py [CRATE ..]

It reads the pages that links.py reads, without code and without the parts that scripts write, the comments of every
*.rt and *.antt file of crates/, and those of the scripts and of the C outside of crates/, docstrings too. With crates
it reads the comments of these alone. TURNS are of pages, scripts and C. The status is 1 where one is found.
"""

import ast
import io
import re
import subprocess
import sys
import tokenize

import shared  # noqa: F401

import links
import page

WORDS = {
    r"(is|are|was|were|be|been) told": "says, reports, announces",
    r"so many": "a number, or 'as many'",
    r"wants?(ed)? (of|for) memory": "lack of memory, runs out of memory",
    r"ma(de|kes?) of": "how .. handles, changes, does",
    r"in the place of": "instead of",
    r"as many as": "the number of, all that",
    r"(comes?|came|coming) to": "becomes, reaches, begins to",
    r"g(ives?|ave|iven|iving) up": "drops, discards, releases",
    r"taken up again": "resumed",
    r"(what|that|which) (is|are) no(?! longer| more)": "is not a",
    r"it pays": "is worthwhile",
}

# What a call returns: code, an error number, a word of the code.
RESULT = r"(``|(?-i:E[A-Z]{3,}|Ok|Err|NoMemory)|0x\w+|no error)"
# Turns that are right in other senses: each pattern leaves out the idioms. (Code in a line is `` when a pattern meets
# it.)
TURNS = {
    r"(?<!network )(?<!lags )(?<!lag )(?<!falls )(?<!fall )behind": "after, following",
    r"st(ands?|ood)(?! (alone|for|out|still|up)\b)": "is, appears; of a crate: depends on",
    rf"(?<!the )(?<!its )answer(s|ed|ing) {RESULT}|(can|may|must|not|to|will|would) answer {RESULT}": "returns, writes",
    r"`` answers (the|an?|it|them|that|which|what|none|each|true|false)": "returns",
    r"(go|goes|went|going) on(?! (the|an?|its)\b)": "continues, resumes",
    r"(?<!would )(?<!could )(?<!may )(?<!might )(?<!will )(?<!not )(?<!still )ha(s|ve) to(?! be believed)": (
        "must, needs"
    ),
    r"(those|that) of\b[^.;:|]{0,80}\b(those|that) of": "the noun again",
    r"`` comes?(?! (from|after|before|first|last)\b)|comes? (unless|only if)": "is returned",
    r"ha(s|ve) come": "has arrived, was delivered",
    r"spell(s|ed)?(?! out)": "is, is written as",
    r"from anywhere": "from any state",
    r"for who(ever)?|whoever|who writes": "for authors of, if you, the caller that",
    r"gets? far": "as far as it can",
}
CODE = re.compile(r"`[^`]*`")


def prose(text):
    """The lines of a page with their numbers, without code and without parts that scripts write."""
    made = fenced = False
    for number, line in enumerate(text.splitlines(), 1):
        if line.startswith("<!-- "):
            made = not line.startswith("<!-- end of ")
        elif line.startswith("```"):
            fenced = not fenced
        elif not made and not fenced and not line.startswith("    "):
            yield number, CODE.sub("``", line)


def comments(text, mark):
    """The comments of a source file with their lines' numbers, without code in them."""
    for number, line in enumerate(text.splitlines(), 1):
        if line.lstrip().startswith(mark):
            yield number, CODE.sub("``", line)


def python_comments(text):
    """The same of a script in Python, with its docstrings."""
    lines, said = text.splitlines(), {}
    for node in ast.walk(ast.parse(text)):
        if isinstance(node, (ast.Module, ast.ClassDef, ast.FunctionDef)) and ast.get_docstring(node):
            it = node.body[0]
            said |= {number: lines[number - 1] for number in range(it.lineno, it.end_lineno + 1)}
    found = tokenize.generate_tokens(io.StringIO(text).readline)
    said |= {it.start[0]: it.string for it in found if it.type == tokenize.COMMENT}
    yield from ((number, CODE.sub("``", line)) for number, line in sorted(said.items()))


def c_comments(text):
    for found in re.finditer(r"/\*.*?\*/|(?<!:)//[^\n]*", text, re.DOTALL):
        first = text[: found.start()].count("\n") + 1
        yield from ((number, CODE.sub("``", line)) for number, line in enumerate(found[0].splitlines(), first))


def scripts():
    """The scripts, and the sources in C, that git has outside of crates/, but for this one, whose words are the
    rules."""
    listed = subprocess.run(["git", "ls-files"], cwd=page.TOP, capture_output=True, text=True, check=True)
    for name in listed.stdout.splitlines():
        file = page.TOP / name
        if name.startswith("crates/") or name == "bench/check/words.py" or not file.is_file():
            continue
        if file.suffix in (".c", ".h"):
            yield file, c_comments(file.read_text())
        elif file.suffix == ".py" or not file.suffix and file.read_bytes()[:2] == b"#!":
            text = file.read_text()
            is_python = file.suffix == ".py" or "python" in text.partition("\n")[0]
            yield file, python_comments(text) if is_python else comments(text, "#")


def texts(crates):
    """Each file that is read, with its lines of prose."""
    if not crates:
        for file in links.pages():
            yield file, prose(file.read_text())
        yield from scripts()
    for folder in [page.TOP / "crates" / crate for crate in crates] or [page.TOP / "crates"]:
        for suffix, mark in ((".rt", "//"), (".antt", "--")):
            for file in sorted(folder.rglob("*" + suffix)):
                # (out/ is what a check has written)
                if "out" not in file.relative_to(page.TOP).parts:
                    yield file, comments(file.read_text(), mark)


def found_in(line, words):
    """What a line has of some words, each with what to write instead."""
    for word, better in words.items():
        # (a turn may begin with code, which no word's edge precedes)
        for found in re.finditer(rf"(?<!\w)(?:{word})(?!\w)", line, re.IGNORECASE):
            yield found[0], better


def main():
    faults = 0
    for file, lines in texts(sys.argv[1:]):
        name = str(file.relative_to(page.TOP))
        words = WORDS if file.suffix in (".rt", ".antt") else {**WORDS, **TURNS}
        for number, line in lines:
            for found, better in found_in(line, words):
                faults += 1
                print(f"{name}:{number}: '{found}': {better}")
    print(f"words: {faults} found")
    sys.exit(1 if faults else 0)


if __name__ == "__main__":
    main()
