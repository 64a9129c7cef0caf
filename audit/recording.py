"""What audit/record does: the head of a log, the build of the recorder, and a run of a program under it or under
strace."""

import os
import pathlib
import platform
import re
import shutil
import signal
import struct
import subprocess
import sys
import tempfile

import uffdlog

FOLDER = pathlib.Path(__file__).resolve().parent
SOURCES = FOLDER / "recorder"
RECORDER = FOLDER / "out" / "recorder.so"
FLAGS = "-std=c11 -D_GNU_SOURCE -O2 -shared -fPIC -fvisibility=hidden".split()
SHARED_BYTES = 65536
LEAST_KERNEL = (5, 12)
ELF = b"\x7fELF"
PT_INTERP = 3
TRACED = (
    "userfaultfd,ioctl,read,readv,poll,ppoll,mmap,munmap,mremap,madvise,close,close_range,dup,dup2,dup3,fcntl,"
    "pidfd_getfd,sendmsg,recvmsg,clone,clone3,fork,vfork,execve,exit_group"
)
STRACE = ["strace", "-f", "-ttt", "-T", "-y", "-xx", "-s", "65536", "-v", "-e", "trace=" + TRACED, "-e", "signal=none"]


class CannotRecord(Exception):
    """Why nothing can be recorded, in one line."""


def say(text):
    print(f"audit/record: {text}", file=sys.stderr, flush=True)


def encoded(word):
    """A word as a text of the language."""
    data = os.fsencode(word)
    return "".join(chr(byte) if 0x21 <= byte <= 0x7e and byte != 0x25 else f"%{byte:02x}" for byte in data) or "%"


def head(recorder, clock, words):
    """The first lines of a log that is recorded here and now."""
    command = []
    for word in map(encoded, words):
        if len(" ".join(command)) + len(word) > uffdlog.LONGEST_LINE - 100:
            command.append("...")
            break
        command.append(word)
    system = platform.uname()
    return "\n".join(
        (
            f"uffdlog 1\nrecorder {recorder} 1",
            f"kernel {' '.join(map(encoded, (system.system, system.release, system.machine)))}",
            f"page {os.sysconf('SC_PAGESIZE')}",
            f"clock {clock}",
            f"command {' '.join(command) or '-'}",
        )
    ) + "\n"


def build():
    """Compiles the recorder where it is missing or older than its sources."""
    files = sorted(SOURCES.glob("*.[ch]"))
    if RECORDER.exists() and RECORDER.stat().st_mtime >= max(file.stat().st_mtime for file in files):
        return
    compiler = shutil.which(os.environ.get("CC", "cc"))
    if not compiler:
        raise CannotRecord("the recorder has to be compiled, and there is no C compiler 'cc'")
    RECORDER.parent.mkdir(exist_ok=True)
    # (a run that uses the old one at this moment keeps it)
    with tempfile.TemporaryDirectory(dir=RECORDER.parent) as folder:
        made = pathlib.Path(folder) / RECORDER.name
        command = [compiler, *FLAGS, "-o", str(made), *(str(file) for file in files if file.suffix == ".c"), "-ldl"]
        say(
            f"building the recorder: {compiler} {' '.join(FLAGS)} -o {os.path.relpath(RECORDER)} "
            f"{os.path.relpath(SOURCES)}/*.c -ldl"
        )
        if subprocess.run(command).returncode:
            raise CannotRecord("the recorder cannot be compiled")
        made.replace(RECORDER)


def found_program(word):
    path = shutil.which(word)
    if not path:
        raise CannotRecord(f"{word}: no such program")
    return path


def why_not_preloaded(path):
    """Why LD_PRELOAD does nothing to a program: None where nothing is known against it. A script is run by a program
    that may take it."""
    with open(path, "rb") as file:
        start = file.read(64)
        if not start.startswith(ELF) or len(start) < 64:
            return None
        if os.stat(path).st_mode & 0o6000:
            return "it changes its user, and LD_PRELOAD is ignored"
        if start[4] != 2 or struct.unpack_from("<H", start, 18)[0] != machine():
            return "it is of another kind of machine"
        offset, = struct.unpack_from("<Q", start, 32)
        size, count = struct.unpack_from("<HH", start, 54)
        file.seek(offset)
        table = file.read(size * count)
    kinds = [struct.unpack_from("<I", table, at)[0] for at in range(0, len(table) - 3, size)] if size else []
    return None if PT_INTERP in kinds else "it is a static program, which LD_PRELOAD does not reach"


def machine():
    """The number of this machine in an ELF file."""
    return {"x86_64": 62, "aarch64": 183}.get(platform.machine(), -1)


def check_machine():
    if sys.platform != "linux" or machine() < 0:
        raise CannotRecord(
            f"Linux on x86_64 or aarch64 is needed, and this is {platform.system()} on {platform.machine()}"
        )
    numbers = tuple(int(part) for part in platform.release().split("-")[0].split(".")[:2] if part.isdigit())
    if numbers < LEAST_KERNEL:
        raise CannotRecord(
            f"Linux 5.12 or later is needed, since objects are named by their inodes, and this is {platform.release()}"
        )


def create(log, text):
    """Makes the log with its head. The recorder only appends."""
    with open(log, "w", encoding="ascii") as file:
        file.write(text)


def run_to_end(command, path=None, environment=None, passed=(signal.SIGTERM,)):
    """Runs a program, and passes some signals on to it. Those of a terminal reach it anyway. Returns its status as a
    shell has it. The program is that of `path`, where it is not the first word of the command."""
    kinds = (signal.SIGINT, signal.SIGQUIT, signal.SIGTERM)
    before = [(it, signal.signal(it, signal.SIG_IGN)) for it in kinds]
    try:
        child = subprocess.Popen(command, executable=path, env=environment, close_fds=False,
                                 preexec_fn=lambda: [signal.signal(it, signal.SIG_DFL) for it in kinds])
        for it in passed:
            signal.signal(it, lambda kind, _: child.send_signal(kind))
        status = child.wait()
    finally:
        for it, handler in before:
            signal.signal(it, handler)
    return 128 - status if status < 0 else status


def preload(log, words, scan=True, sums=False):
    """Runs a program under the recorder, with `sums` also the file LOG.sums. Returns its status."""
    check_machine()
    path = found_program(words[0])
    if reason := why_not_preloaded(path):
        raise CannotRecord(f"{words[0]}: {reason}; --strace records it")
    build()
    create(log, head("preload", "thread", words))
    with tempfile.NamedTemporaryFile(prefix="uffdlog.") as page:
        page.truncate(SHARED_BYTES)
        environment = dict(os.environ, UFFDLOG=os.path.abspath(log), UFFDLOG_SHARED=page.name)
        environment["LD_PRELOAD"] = ":".join(filter(None, (str(RECORDER), os.environ.get("LD_PRELOAD"))))
        if not scan:
            environment["UFFDLOG_NO_SCAN"] = "1"
        if sums:
            create(f"{log}.sums", "")
            environment["UFFDLOG_SUMS"] = os.path.abspath(f"{log}.sums")
        status = run_to_end(words, path, environment)
        page.seek(0)
        lost, = struct.unpack("<Q", page.read(8))
    if lost:
        with open(log, "a", encoding="ascii") as file:
            file.write(f"lost {lost}\n")
        say(f"{lost} lines could not be written at the end, and the log says so")
    require_line(log, b" started ", "the program did not load the recorder, and nothing was recorded")
    return status


def require_line(log, part, reason):
    with open(log, "rb") as file:
        if not any(part in line for line in file):
            raise CannotRecord(reason)


def require_strace():
    if not shutil.which("strace"):
        raise CannotRecord("strace is needed for this, and it is not there (apt-get install strace)")


THREAD = re.compile(rb"(\d+) +([\d.]+) ")
MADE = re.compile(rb"(?:clone3?|fork|vfork)(?:\(| resumed).* = (\d+)(?: |$)")


def threads_before(trace, process):
    """Lines for the threads of a process that no line of strace's has made: they were there before, and share all with
    its first one."""
    made, first, seen = {b"%d" % process}, None, {}
    with open(trace, "rb") as file:
        for line in file:
            if found := THREAD.match(line):
                first = first or found[2]
                seen.setdefault(found[1], None)
            if found := MADE.search(line.rstrip(b"\n")):
                made.add(found[1])
    shared = b"clone(child_stack=NULL, flags=CLONE_VM|CLONE_FS|CLONE_FILES|CLONE_SIGHAND|CLONE_THREAD)"
    return [b"%d %s %s = %s <0.000000>\n" % (process, first, shared, it) for it in seen if it not in made]


def by_strace(log, options):
    """Records by strace, whose text is the log. Returns the status of what ran."""
    require_strace()
    status = run_to_end([*STRACE, "-o", log, *options], passed=(signal.SIGINT, signal.SIGTERM))
    if not os.path.exists(log) or not os.path.getsize(log):
        raise CannotRecord(f"strace has status {status} and wrote nothing")
    return status


def strace(log, words):
    return by_strace(log, ["--seccomp-bpf", "--", found_program(words[0]), *words[1:]])


def attach(log, process):
    """Records a process that runs, until it or audit/record is ended."""
    require_strace()
    if not os.path.isdir(f"/proc/{process}"):
        raise CannotRecord(f"there is no process {process}")
    say(f"process {process} is recorded until it ends, or until this is interrupted")
    status = by_strace(log, ["-p", str(process)])
    if before := threads_before(log, process):
        with open(log, "rb") as file:
            text = file.read()
        with open(log, "wb") as file:
            file.writelines([*before, text])
    return status
