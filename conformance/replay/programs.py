"""The programs of the command line: their options, and runs of many scripts."""

import functools
import json
import multiprocessing
import os
import pathlib
import platform
import shlex
import subprocess
import sys
import time

import page

from . import arguments as read, machine, table
from .comparison import Job, Result, answers_of, compare, cpus_of
from .generator import PROFILES, generate
from .minimise import minimise
from .settings import FOLDER, HOST, Settings

TOP = FOLDER.parent
LAUNCHER = TOP / "postmig"
STORED = FOLDER / "scripts"
# Of the stored scripts a quick run takes each third.
QUICK = 3
# The processors of the guests of random scripts, by seed.
CPUS = (2, 1, 3, 4, 2, 16, 2, 8)


def options(description, tested=None):
    """tested: what the first argument says of a program under test, if there is one."""
    parser = read.Parser(description)
    if tested:
        parser.add_argument("tested", metavar="PROGRAM", type=read.command, help=tested)
    parser.add_argument("scripts", nargs="*", default=[], metavar="SCRIPT", type=pathlib.Path)
    parser.add_argument(
        "--program",
        metavar="PATH",
        type=read.command,
        help="the postmig that answers (the launcher, once ./postmig prove has built it)",
    )
    parser.add_argument(
        "--host",
        metavar="PROGRAM",
        type=read.command,
        help="a program that takes the host protocol, instead of the one of this folder",
    )
    parser.add_argument(
        "--cpus",
        type=read.number(1, 16),
        metavar="N",
        help="processors of a guest (by the script's name, NAME.cpusN.script, else 2)",
    )
    parser.add_argument(
        "--jobs", type=read.number(1, 256), default=min(4, os.cpu_count() or 1), metavar="N", help="scripts at a time"
    )
    parser.add_argument("--any-kernel", action="store_true", help="also on a kernel before 6.17")
    parser.add_argument(
        "--minimise", action="store_true", help="leaves out lines of a script with something unexpected"
    )
    parser.add_argument("--trace", action="store_true", help="prints each line, and the host's commands for it")
    parser.add_argument(
        "--json",
        action="store_true",
        help="prints each finding, and then the counts, as a JSON object in a line of its own",
    )
    return parser


def comparing_options(description):
    parser = options(description)
    parser.add_argument(
        "--impl",
        metavar="PROGRAM",
        type=read.command,
        help="compares this program, which reads a script and writes its lines",
    )
    parser.add_argument("--eager", action="store_true", help="reads each fault as soon as its thread sleeps")
    parser.add_argument("--late", action="store_true", help="leaves a dontneed asleep on its message, as a kernel does")
    parser.add_argument("--show", action="store_true", help="prints the known differences too")
    return parser


@functools.cache
def has_proved():
    """Whether the launcher has a proved program of the sources as they are: it would build one without proof at each
    call."""
    said = subprocess.run([LAUNCHER, "--version"], capture_output=True, text=True).stdout
    return said.rstrip().endswith(", proved)")


def program_of(arguments):
    """The words that start the postmig that answers, or None. A program that is named and is none ends this one with
    status 1."""
    if not arguments.program:
        return [str(LAUNCHER)] if has_proved() else None
    if not is_postmig(arguments.program):
        sys.exit(f"{arguments.program} is no postmig: it does not answer `progress`")
    return shlex.split(arguments.program)


def started_by(program):
    """The words that start what a launcher starts, which ends as it: so its checks are made once, and not at each
    call."""
    with subprocess.Popen([*program, "run"], stdin=subprocess.PIPE, stdout=subprocess.PIPE) as process:
        process.stdin.write(b"progress\n")
        process.stdin.flush()
        process.stdout.readline()
        return [os.readlink(f"/proc/{process.pid}/exe")]


@functools.cache
def is_postmig(program):
    """Whether a command answers a line as `postmig run` does."""
    try:
        ran = subprocess.run([*shlex.split(program), "run"], input=b"progress\n", capture_output=True, timeout=20)
    except (OSError, subprocess.TimeoutExpired):
        return False
    return ran.stdout.startswith(b"progress phase idle ")


def require_program(arguments):
    program = program_of(arguments)
    if not program:
        sys.exit("there is no proved program to give the answers: ./postmig prove, or --program PATH")
    return program


def settings_of(arguments, cpus):
    host = shlex.split(arguments.host) if arguments.host else [str(HOST)]
    settings = Settings(cpus=arguments.cpus or cpus, host=host, trace=arguments.trace)
    for name in ("eager", "late", "serial", "skip_old", "descriptor"):
        setattr(settings, name, getattr(arguments, name, False))
    return settings


def require_machine(arguments):
    """Ends the program with one line and status 2 where this machine cannot replay."""
    if getattr(arguments, "impl", None):
        return
    host = shlex.split(arguments.host) if arguments.host else [str(HOST)]
    missing = machine.missing(host, arguments.any_kernel)
    if missing:
        print(f"conformance: not run: {missing}")
        sys.exit(2)


def stored_scripts(quick=False):
    """The examples, and the scripts of this folder."""
    found = sorted(STORED.glob("*.script"))
    return sorted((TOP / "examples").glob("*.script")) + (found[::QUICK] if quick else found)


def script_at(path):
    """The bytes of a script; one that cannot be read ends the program with status 1."""
    try:
        return path.read_bytes()
    except OSError as fault:
        sys.exit(f"{path}: {fault.strerror}")


def job_of(arguments, path):
    """A script with its answers: those beside it, else the program's."""
    data, settings = script_at(path), settings_of(arguments, cpus_of(path))
    beside = path.with_suffix(".out")
    program = program_of(arguments)
    if not beside.exists() and not program:
        require_program(arguments)
    answers = beside.read_text().splitlines() if beside.exists() else None
    return Job(
        str(path), data, settings, answers, None, program, implementation_of(arguments), is_stored=beside.exists()
    )


def implementation_of(arguments):
    return shlex.split(arguments.impl) if getattr(arguments, "impl", None) else None


def in_processes(jobs, work, items):
    """The results of `work` for each item, as they come."""
    if jobs == 1:
        yield from map(work, items)
        return
    with multiprocessing.Pool(jobs) as pool:
        yield from pool.imap_unordered(work, items)


def add(total, result):
    for part in ("counts", "totals", "checks"):
        getattr(total, part).update(getattr(result, part))
    for tag, example in result.examples.items():
        total.examples.setdefault(tag, example.replace(f"{TOP}/", ""))


def show(arguments, result, kinds, fields=("where", "line", "model", "other")):
    """Prints what was found. fields: what the parts of a finding are."""
    name = result.name.replace(f"{TOP}/", "")
    for kind, found in kinds:
        for entry in found:
            if arguments.json:
                print(
                    json.dumps({"finding": kind.lower(), "script": name, **dict(zip(fields, map(str, entry)))}),
                    flush=True,
                )
            else:
                print(kind, name, *entry, sep=" | ", flush=True)


def counts_of(total, differing):
    """The last line of --json."""
    lines, found = total.totals["lines"], dict(table.figures_of(total))
    kinds = {kind: total.totals[kind] for kind in table.KINDS if kind in total.totals}
    return json.dumps(
        {
            "system": headline(),
            "lines": lines,
            "scripts with findings": len(differing),
            "kinds": kinds,
            "looked at": found,
        }
    )


def compare_all(arguments, jobs):
    """Compares, and prints the table. The status: 3 where something was unexpected, 1 where no line was replayed."""
    begun, total, differing = time.time(), Result("all"), []
    for result in in_processes(arguments.jobs, compare_written, jobs):
        add(total, result)
        show(arguments, result, [("UNEXPECTED", result.differing), ("known", result.shown if arguments.show else [])])
        if result.differing:
            differing.append(result.name)
    if arguments.json:
        print(counts_of(total, differing))
    else:
        print(headline())
        print(*table.lines(total), "", *table.beside(total), sep="\n")
        print(
            f"{total.totals['lines']:,} lines in {time.time() - begun:.0f} s, {len(differing)} scripts with something "
            "unexpected"
        )
    if getattr(arguments, "write", False):
        write_page(total)
    if not total.totals["lines"]:
        print("conformance: no line was replayed", file=sys.stderr if arguments.json else sys.stdout)
        return 1, differing
    return 3 if differing else 0, differing


def headline():
    user = "root" if os.geteuid() == 0 else "a user without privileges"
    return f"Linux {platform.release()}, {platform.machine()}, {time.strftime('%Y-%m-%d')}, {user}"


def asked_for(words):
    """The options that say what was replayed, without those of this machine."""
    kept, words = [], iter(words)
    for word in words:
        if word in ("--jobs", "--program"):
            next(words)
        elif word != "--write":
            kept.append(word)
    return " ".join(kept)


def write_page(total):
    """Puts the table into its part of docs/LINUX.md."""
    text = "\n".join([f"`conformance/compare {asked_for(sys.argv[1:])}`, {headline()}:", "", *table.of_page(total)])
    page.put("measured", text, page.TOP / "docs" / "LINUX.md")


def differs(job, data):
    """Whether a shorter script still has something unexpected. Its answers are the program's."""
    shorter = Job(job.name, data, job.settings, None, None, job.program, job.implementation)
    return bool(compare_written(shorter).differing)


def minimise_all(arguments, jobs, differing):
    require_program(arguments)
    for job in jobs:
        if job.name in differing:
            written(job)
            print(
                f"minimised {job.name}", *minimise(job.data, functools.partial(differs, job)), sep="\n    ", flush=True
            )


def generating_options(parser):
    parser.add_argument(
        "--profiles",
        metavar="A,B",
        type=read.profiles(PROFILES),
        help=f"random scripts of these profiles: {', '.join(PROFILES)}; or `every`",
    )
    parser.add_argument(
        "--seeds", metavar="FIRST:LAST", type=read.seeds, default="1:20", help="with these seeds (1:20)"
    )
    parser.add_argument(
        "--lines", "--steps", type=read.number(1, 1_000_000), default=200, metavar="N", help="of at most N lines (200)"
    )
    return parser


def cpus_of_seed(seed):
    return CPUS[seed % len(CPUS)]


def random_jobs(arguments):
    """Random scripts that are yet to be made: a worker makes each with its answers."""
    if not arguments.profiles:
        return
    program = require_program(arguments)
    for profile in arguments.profiles:
        for seed in arguments.seeds:
            settings = settings_of(arguments, cpus_of_seed(seed))
            name = f"{profile}/{seed}.cpus{settings.cpus}.script"
            yield Job(
                name,
                None,
                settings,
                None,
                None,
                program,
                implementation_of(arguments),
                (seed, profile, arguments.lines),
            )


def named_jobs(arguments):
    """Scripts of which the program gives the answers, also where some are beside them."""
    program = require_program(arguments)
    for path in arguments.scripts:
        settings = settings_of(arguments, cpus_of(path))
        yield Job(str(path), script_at(path), settings, None, None, program, implementation_of(arguments))


def written(job):
    """The job with its script and its answers."""
    if job.data is None:
        seed, profile, steps = job.recipe
        lines, job.answers = generate(job.program, seed, profile, job.settings.cpus, steps)
        job.data, job.fault = ("\n".join(lines) + "\n").encode(), ""
    elif job.answers is None:
        job.answers, job.fault = answers_of(job.program, job.settings.cpus, job.data)
    return job


def compare_written(job):
    return compare(written(job))
