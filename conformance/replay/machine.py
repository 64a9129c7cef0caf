"""What a replay needs of the machine, and the build of its host."""

import platform
import re
import shutil
import subprocess
import sys

from .pages import LOW
from .settings import FOLDER, HOST

LEAST_KERNEL = (6, 17)
FLAGS = "-std=gnu11 -D_GNU_SOURCE -O2 -Wall -Wextra -fPIE -pie -pthread".split()


def kernel():
    """The kernel's version as two numbers."""
    found = re.match(r"(\d+)\.(\d+)", platform.release())
    return (int(found[1]), int(found[2])) if found else (0, 0)


def setting(name):
    """A number of /proc/sys, or None where there is none."""
    try:
        with open(f"/proc/sys/{name}") as file:
            return int(file.read())
    except (OSError, ValueError):
        return None


def lack(any_kernel):
    """What this machine lacks to be a host, in one line; None where it can be one."""
    if sys.platform != "linux" or platform.machine() != "x86_64":
        return f"Linux on x86-64 is needed, and this is {platform.system()} on {platform.machine()}"
    if kernel() < LEAST_KERNEL and not any_kernel:
        return f"Linux 6.17 or later is needed, and this is {platform.release()} (--any-kernel tries it all the same)"
    least = setting("vm/mmap_min_addr")
    if least is not None and least > LOW:
        return f"vm.mmap_min_addr of at most {LOW} is needed, and it is {least}"
    if not shutil.which("cc"):
        return "a C compiler, cc, is needed"
    return None


def compile_program(sources, program, *flags):
    """Compiles a program into out/ where it is older than its sources."""
    newest = max(source.stat().st_mtime for source in sources)
    if program.exists() and program.stat().st_mtime >= newest:
        return
    program.parent.mkdir(exist_ok=True)
    compiled = [source for source in sources if source.suffix == ".c"]
    subprocess.run(["cc", *FLAGS, *flags, "-o", program, *compiled], check=True)


def build_host():
    compile_program(sorted((FOLDER / "host").glob("*.[ch]")), HOST)


def refused_userfault(host):
    """Whether a host can watch a page for both kinds of faults with the three events; else what it answered."""
    lines = ("open 0x14d", "cpu 0 mmap 4096 rw fixed 0x10000", "register 0x10000 4096 3", "quit")
    done = subprocess.run(host + ["1"], input="\n".join(lines) + "\n", capture_output=True, text=True, errors="replace")
    said = done.stdout.split("\n")
    if said[:3] == ["ok", "ret 65536", "ok"]:
        return None
    return "; ".join(filter(None, said + [done.stderr.strip()])) or f"status {done.returncode}"


def missing(host, any_kernel=False):
    """The sentence for a machine that cannot replay; None where it can. The host that comes with the repository is
    built."""
    if host == [str(HOST)]:
        lacking = lack(any_kernel)
        if lacking:
            return lacking
        try:
            build_host()
        except (subprocess.CalledProcessError, OSError) as error:
            return f"the host cannot be compiled: {error}"
    said = refused_userfault(host)
    if said:
        return f"a userfaultfd, and free addresses from 0x10000 up to 0x100000000, are needed; the host says: {said}"
    return None
