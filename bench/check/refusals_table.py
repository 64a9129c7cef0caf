#!/usr/bin/env python3
"""Lists the public calls of the library that can be refused: why, in which order, whether for memory, and which clauses
say so.

python3 bench/check/refusals_table.py [--write | --check]

With --write the tables go to dist/REFUSALS.md; with --check nothing is printed but what is wrong. docs/REFUSALS.md
explains them. Calls, their answers and their clauses are read from crates/*/src. The order of the refusals is written
by hand, in bench/refusals.txt. That an order has NoMemory exactly where the contract allows it, and only names of the
call's fault, is checked each time.
"""

import collections
import functools
import re

import shared  # noqa: F401

import page
from definitions import CRATES, definitions, imports, names
from tower import product

ORDERS = page.TOP / "bench" / "refusals.txt"
# What waits for a lock, and what only starts a program.
LEFT_OUT = ("rig", "threads", "postmig", "uffd_audit")
CALL = re.compile(r"( *)pub (?:const |final )?fn (\w+)")
CLAUSE = re.compile(r"\s*(requires|ensures)\*? (\w+ )?\{")
# A fault that is another type's fault, or hands arguments back, is memory's.
HANDED_BACK = ("PageBytes", "Vec<PageBytes>", "(Claims, ClaimSeat)", "(NoMemory, PageTable)", "AllocError")

Call = collections.namedtuple("Call", "crate name fault clauses file")


def public_modules(crate):
    """The files whose items callers may name, and the names that the crate hands out from others."""
    root = CRATES / crate / "src"
    waiting, files, handed_out = [root / "lib.rt"], [], set()
    while waiting:
        file = waiting.pop()
        files.append(file)
        text = file.read_text()
        folder = file.parent if file.name == "lib.rt" else file.with_suffix("")
        waiting += [folder / f"{name}.rt" for name in re.findall(r"^pub mod (\w+);", text, re.M)]
        for names_of in re.findall(r"^pub use (?:crate::)?[\w:]*?(\{[^}]*\}|\w+);", text, re.M):
            handed_out |= set(re.findall(r"\w+", names_of))
    return files, handed_out


def public_types(crate):
    files, handed_out = public_modules(crate)
    here = {name for file in files for name in re.findall(r"^pub (?:struct|enum) (\w+)", file.read_text(), re.M)}
    return here | handed_out


def blocks(text):
    """The public functions of a file: the type of the impl block that each is in, its name, and its lines up to its
    body."""
    owner, lines = None, text.splitlines()
    for at, line in enumerate(lines):
        if line.startswith("impl"):
            owner = re.sub(r"^impl(<[^{]*?>)? ", "", line).partition("<")[0].rstrip(" {")
        elif line == "}":
            owner = None
        found = CALL.match(line)
        if found:
            end = at
            while (
                not re.match(rf"{found[1]}\{{\}}?$|{found[1]}.*[^ ].* \{{\}}?$", lines[end]) or CLAUSE.match(lines[end])
            ):
                end += 1
            yield owner, found[2], lines[at : end + 1]


def signature_and_clauses(lines):
    signature, clauses = "", []
    for line in lines:
        if CLAUSE.match(line):
            clauses.append(line.strip())
        elif clauses and line.strip() and not line.strip().startswith(("//", "{")):
            clauses[-1] += " " + line.strip()
        elif not clauses:
            signature += " " + line.strip()
    return signature, clauses


def fault_of(signature):
    """The second type of a Result."""
    found = re.search(r"-> Result<(.*)> ?\{?\}?$", signature.strip())
    if not found:
        return None
    depth = 0
    for at, letter in enumerate(found[1]):
        depth += (letter in "<([") - (letter in ">)]")
        if letter == "," and depth == 0:
            return found[1][at + 1 :].strip()
    return None


def calls():
    """Every public call, lowest crate first, with the type of its fault or none."""
    for crate in product():
        if crate in LEFT_OUT:
            continue
        files, handed_out = public_modules(crate)
        types = public_types(crate)
        for file in sorted((CRATES / crate / "src").rglob("*.rt")):
            for owner, name, lines in blocks(file.read_text()):
                if owner is None and not (file in files or name in handed_out):
                    continue
                if owner is not None and owner not in types:
                    continue
                signature, clauses = signature_and_clauses(lines)
                if lines[-1].strip() == "{}" and "->" not in signature:
                    continue
                yield Call(crate, f"{owner}::{name}" if owner else name, fault_of(signature), clauses, file)


@functools.cache
def variants():
    """The names of each enum of the product's crates."""
    found = {}
    for crate in product():
        for file in (CRATES / crate / "src").rglob("*.rt"):
            for name, body in re.findall(r"^pub enum (\w+) \{\n(.*?)^\}", file.read_text(), re.M | re.S):
                found[name] = re.findall(r"^    (\w+)", body, re.M)
    return found


def speaks_of_refusal(clause):
    """Whether a clause says when the call is refused, or what a refusal leaves: not of an answer alone."""
    return clause.startswith("ensures") and re.search(r"(?<!IfOk )(?<!OnOk )\bresult\b(?!\.)", clause)


@functools.cache
def spec(crate, file):
    """A file of definitions: the words that it uses, by how it writes them, and its own definitions."""
    text = (CRATES / crate / "specs" / f"{file}.antt").read_text()
    return {it[0]: it[1:] for it in imports(text)}, definitions(text)


@functools.cache
def rests_on(crate, file, name):
    """The text of a definition, and the definitions that it names."""
    used, own = spec(crate, file)
    body = own.get(name, "")
    words = set(re.findall(r"[\w'-]+(?:\.[\w'-]+)?", body))
    words |= {it.partition(".")[0] for it in words}
    return (
        body, [(crate, file, it) for it in words if it in own and it != name] + [used[it] for it in words if it in used]
    )


def allows_no_memory(call):
    """Whether what a contract says of a refusal, with all the definitions that it rests on, has the name NoMemory."""
    said = "\n".join(it for it in call.clauses if speaks_of_refusal(it))
    # (a contract that says nothing of refusals allows each; where another fault comes exactly somewhere, elsewhere it
    # is memory's; and what one named fault implies excludes no other)
    if not said or re.search(r"NoMemory|OutOfMemory|↔|≡ Err [\w.]+ →", said):
        return True
    # (a check answers as a step of the machine, and the law a_run_short_of_memory says that no such step is refused for
    # lack of memory)
    if re.search(r"result ≡ checked \(", said):
        return False
    waiting, seen = [it[1:] for it in imports(call.file.read_text()) if names(it[0], said)], set()
    while waiting:
        at = waiting.pop()
        if at not in seen:
            seen.add(at)
            body, below = rests_on(*at)
            if "NoMemory" in body:
                return True
            waiting += below
    return False


def fault_names(fault):
    """The names that a refusal of this type may have."""
    known = variants()
    word = next((it for it in re.findall(r"\w+", fault) if it in known), None)
    return known.get(word, ["NoMemory"])


def takes_memory(call):
    if call.fault is None:
        return False
    if call.fault in HANDED_BACK or call.fault == "NoMemory":
        return True
    nested = {"CopyFault": ["IoctlFault"]}.get(call.fault, [call.fault])
    if not any("NoMemory" in fault_names(it) for it in nested):
        return False
    return allows_no_memory(call)


def read_orders():
    """What is written by hand: for each crate and call, or step, the names of its refusals; and for each crate the
    calls without memory."""
    orders = {}
    for line in ORDERS.read_text().splitlines():
        if line.strip() and not line.startswith("#"):
            crate, call, order = line.split(": ", 2)
            orders[crate, call] = order.split(", ")
    return orders


def order_of(call, orders, wrong):
    """The refusals of a call in their order. What is wrong with them is put into a list."""
    order = orders.get((call.crate, call.name))
    if order is None:
        if call.fault not in ("NoMemory", "AllocError"):
            wrong.append(f"{call.crate} {call.name}: no order for {call.fault}")
            return ["NoMemory"]
        return [call.fault]
    known = {"CopyFault": fault_names("Errno") + ["NoMemory"], "IoctlFault": fault_names("Errno") + ["NoMemory"]}.get(
        call.fault, fault_names(call.fault)
    )
    wrong += [f"{call.crate} {call.name}: {name} is no name of {call.fault}" for name in order if name not in known]
    if ("NoMemory" in order) != takes_memory(call):
        wrong.append(
            f"{call.crate} {call.name}: its contract {'allows' if takes_memory(call) else 'excludes'} NoMemory"
        )
    return order


def clause_names(call):
    found = [re.match(CLAUSE, it)[2] for it in call.clauses if speaks_of_refusal(it)]
    return ", ".join(
        f"`{it.strip()}`" if it else "the one clause" if len(call.clauses) == 1 else "the clause without a name"
        for it in found
    )


def steps(orders, wrong):
    """The table of the steps of a world."""
    named = variants()["Step"]
    yield "| Step | Refusals, in their order | Takes memory |"
    yield "|---|---|---|"
    for (crate, call), order in orders.items():
        if crate == "step":
            wrong += [f"step {name}: no such step" for name in call.split() if name not in named]
            wrong += [f"step {call}: {name} is no Refusal" for name in order if name not in variants()["Refusal"]]
            yield (
                f"| {', '.join(f'`{it}`' for it in call.split())} | {', '.join(order)} | "
                f"{'yes' if 'NoMemory' in order else 'no'} |"
            )
    told = [name for crate, call in orders if crate == "step" for name in call.split()]
    wrong += [f"step {name}: no row" for name in named if told.count(name) != 1]


def look_for_strangers(orders, found, wrong):
    """What is written by hand of calls that are not there, and of calls without memory whose contracts allow
    NoMemory."""
    known = {(it.crate, it.name): it for it in found}
    for (crate, call), order in orders.items():
        if crate == "without memory":
            wrong += [f"{call} {it}: no such call" for it in order if (call, it) not in known]
            wrong += [
                f"{call} {it}: it may take memory"
                for it in order
                if (call, it) in known and takes_memory(known[call, it])
            ]
        elif crate != "step" and not ((crate, call) in known and known[crate, call].fault):
            wrong.append(f"{crate} {call}: no such call")


def tables(wrong):
    orders, found = read_orders(), list(calls())
    look_for_strangers(orders, found, wrong)
    for crate in dict.fromkeys(it.crate for it in found):
        refused = [it for it in found if it.crate == crate and it.fault]
        others = sorted({it.name for it in found if it.crate == crate and not it.fault})
        yield f"## `{crate}`\n"
        if refused:
            yield "| Call | Refusals, in their order | Takes memory | Clauses on refusals |"
            yield "|---|---|---|---|"
            for call in refused:
                order = order_of(call, orders, wrong)
                memory = "yes" if "NoMemory" in order else "no"
                yield f"| `{call.name}` | {', '.join(order)} | {memory} | {clause_names(call)} |"
            yield ""
        if others:
            yield f"Never refused, and without memory: {', '.join(f'`{it}`' for it in others)}.\n"
    yield "## The steps of `World::step`\n"
    yield from steps(orders, wrong)


def text():
    """The tables. Ends the program where something is wrong with the orders."""
    wrong = []
    found = "\n".join(tables(wrong))
    if wrong:
        raise SystemExit("\n".join(wrong))
    return found


def write():
    page.write(
        "REFUSALS.md",
        "# Refusals of each call\n\n`./dev pages` writes this page. docs/REFUSALS.md explains it.\n\n" + text(),
    )


def main():
    wanted = page.option("--write", "--check")
    if wanted == "--write":
        write()
    elif wanted == "--check":
        text()
    else:
        print(text())


if __name__ == "__main__":
    main()
