"""A source and a destination of live: both are started here, and what they print is read."""

import collections
import contextlib
import json
import os
import pathlib
import shlex
import shutil
import signal
import socket
import subprocess
import tempfile
import threading
import time

import between
import histories
import merging

FOLDER = pathlib.Path(__file__).resolve().parent
PROGRAM = FOLDER / "out/live"
POSTMIG = FOLDER.parent / "postmig"
# What a program ends with: live.h.
DONE, LOST, REFUSED, WRONG = range(4)
# A migration that makes progress may take this many times as long as one that makes none.
MOST_PATIENT = 3
# Of a source: a guest that is kept ends after a moment, and is checked. It is not kept only since the machine has much
# else to do.
KEPT = ["--after", "100", "--patience", "600"]
# Seconds in which a state is to come, and a process to end, on a machine that has much else to do.
PATIENCE = 120
# What a side says that does nothing more, and keeps what it has until it is abandoned: live.h.
HELD = "all that is here is kept as it is"
# The last lines of a side that are kept.
MOST_LINES = 2000


def wait_until(is_so, may_come=lambda: True):
    """Whether it is so, in time: a test waits for a state, and not for a moment."""
    until = time.monotonic() + PATIENCE
    while not is_so() and may_come() and time.monotonic() < until:
        time.sleep(0.005)
    return bool(is_so())


def figures_of(line):
    """The words KEY=VALUE of a line."""
    return dict(word.split("=", 1) for word in line.split() if "=" in word)


# All that were started, for a case that leaves some.
started = []


def end_started():
    for side in started:
        if side.is_running():
            side.process.kill()
            side.end()
    started.clear()


class Side:
    """One of the two programs. Threads read its lines: `lines` has the last of its standard output, `figures` the last
    of each kind, such as `verdict`, and `said` those of its standard error. `text` is all of that, once it has ended.
    `before` runs in the new process."""

    def __init__(self, words, on_progress=None, before=None):
        self.words, self.figures, self.on_progress = words, {}, on_progress
        self.lines, self.said, self.text = collections.deque(maxlen=MOST_LINES), [], ""
        self.process = subprocess.Popen(
            words,
            stdin=subprocess.DEVNULL,
            stdout=subprocess.PIPE,
            stderr=subprocess.PIPE,
            text=True,
            preexec_fn=before,
        )
        self.listening = threading.Event()
        self.readers = [threading.Thread(target=read, daemon=True) for read in (self.read, self.hear)]
        for reader in self.readers:
            reader.start()
        started.append(self)

    def hear(self):
        for line in self.process.stderr:
            self.said.append(line)

    def read(self):
        for line in self.process.stdout:
            self.lines.append(line)
            kind, found = line.split(" ", 1)[0], figures_of(line)
            if kind == "progress" and self.on_progress:
                self.on_progress(line.split()[1], found)
            self.figures[kind] = found
            if kind == "listening":
                self.listening.set()
        self.listening.set()

    def number(self, kind, key):
        return int(self.figures.get(kind, {}).get(key, 0))

    def says(self, text):
        """Whether a line of its standard error has this text before it ends."""
        return wait_until(lambda: any(text in line for line in self.said), self.readers[1].is_alive)

    def is_held(self):
        return any(HELD in line for line in self.said)

    def status(self, key):
        return self.order("status").get(key)

    def is_running(self):
        return self.process.poll() is None

    def ask_end(self):
        """It ends once nothing is lost by that."""
        if self.is_running():
            self.process.send_signal(signal.SIGTERM)

    def order(self, line):
        """The answer to a line at its control socket."""
        place = self.words[self.words.index("--control") + 1].removeprefix("unix:")
        with socket.socket(socket.AF_UNIX) as control:
            control.settimeout(PATIENCE)
            control.connect(place)
            control.sendall(f"{line}\n".encode())
            return json.loads(control.makefile().readline())

    def end(self, patience=PATIENCE):
        """The status, and the text of the standard error; a program that does not end is killed, and has status None:
        the text says then what it was doing."""
        status, stuck = None, ""
        try:
            status = self.process.wait(patience)
        except subprocess.TimeoutExpired:
            stuck = f"(killed after {patience} s: {self.state()}) "
            self.process.kill()
            self.process.wait()
        for reader in self.readers:
            reader.join()
        self.text = stuck + "".join(self.said).strip()
        self.process.stderr.close()
        return status, self.text

    def state(self):
        """Its last line of progress, and in which function of the kernel each thread sleeps, with its system call."""
        where = []
        try:
            for task in pathlib.Path(f"/proc/{self.process.pid}/task").iterdir():
                where.append(f"{(task / 'wchan').read_text()} {(task / 'syscall').read_text().strip()}")
        except OSError:
            pass
        return f"{self.figures.get('progress')} in {where}"


def new_key(folder, name="key", user="guest"):
    """The words that have live use a new key."""
    file = pathlib.Path(folder) / name
    with open(os.open(file, os.O_WRONLY | os.O_CREAT | os.O_EXCL, 0o600), "w", encoding="ascii") as out:
        print(f"{user}:{os.urandom(32).hex()}", file=out)
    return ["--psk", str(file)]


def without_key(words):
    """A monitor has no connection that leaves the host."""
    at = words.index("--psk") if "--psk" in words else len(words)
    return [*words[:at], *words[at + 2:]]


def has_tls(program):
    """Whether it was built with GnuTLS."""
    done = subprocess.run(
        [program, "dest", "--listen", "127.0.0.1:0", "--psk", "/nowhere"],
        stdin=subprocess.DEVNULL,
        capture_output=True,
        text=True,
    )
    return "TLS is not built in" not in done.stderr


class Migration:
    """shared, source, dest: words of the command lines. With is_unix the two talk over a Unix socket; with is_handed
    the guest's memory at the destination is that of a third process, the monitor. With cuts or a delay (seconds) their
    connections, of TCP, go by a relay that has these. With is_traced both write their steps, to files in the folder
    `kept` if there is one, and `judged` is what is wrong with them. With has_history the guest's accesses are written
    at both places, and `history` is the verdict on them. around: words in front of those of a side, "source" or
    "dest"."""

    def __init__(
        self,
        shared,
        source,
        dest,
        program=PROGRAM,
        is_unix=False,
        on_progress=None,
        is_handed=False,
        cuts=None,
        is_traced=False,
        kept=None,
        delay=0.0,
        around=None,
        has_history=False,
    ):
        self.folder = tempfile.TemporaryDirectory(prefix="live-")
        self.traces = [f"{kept or self.folder.name}/{side}.trace" for side in ("source", "dest")] if is_traced else None
        kept = kept or self.folder.name
        self.accesses = [f"{kept}/{side}.history" for side in ("source", "dest")] if has_history else None
        self.script = self.judged = self.no_judge = self.history = None
        if is_traced:
            source, dest = [*source, "--trace", self.traces[0], "--sums"], [*dest, "--trace", self.traces[1], "--sums"]
        recorded = [["--history", name] for name in self.accesses or ()] or [[], []]
        source, dest = [*source, *recorded[0]], [*dest, *([] if is_handed else recorded[1])]
        address = f"unix:{self.folder.name}/socket" if is_unix else "127.0.0.1:0"
        place = f"unix:{self.folder.name}/monitor"
        role = ["handler", "--monitor", place] if is_handed else ["dest"]
        control = [["--control", f"unix:{self.folder.name}/{side}.control"] for side in ("source", "dest")]
        around = around or {}
        self.dest = Side(
            [*around.get("dest", ()), str(program), *role, "--listen", address, *shared, *dest, *control[1]],
            on_progress,
        )
        monitor = [str(program), "monitor", "--connect", place, *without_key(shared), *recorded[1]]
        self.monitor = Side(monitor) if is_handed else None
        self.dest.listening.wait(PATIENCE)
        if not is_unix:
            address = f"127.0.0.1:{self.dest.number('listening', 'port')}"
        self.relay = between.Relay(between.place(address), cuts=cuts or (), delay=delay) if cuts or delay else None
        address = self.relay.address if self.relay else address
        self.source = Side(
            [
                *around.get("source", ()), str(program), "source", "--connect", address, *shared, *KEPT, *source,
                *control[0],
            ],
            on_progress,
        )

    def wait(self, patience):
        """Until one side has ended, or nothing that they say of their progress has changed for this time; MOST_PATIENT
        times as long at most."""
        begun, last, said = time.time(), time.time(), None
        while self.source.is_running() and self.dest.is_running():
            now, saying = time.time(), (self.source.figures.get("progress"), self.dest.figures.get("progress"))
            if saying != said:
                last, said = now, saying
            if (
                now - last > patience
                or now - begun > MOST_PATIENT * patience
                or any(side.is_held() for side in self.sides().values())
            ):
                return
            time.sleep(0.002)

    def finish(self, patience=PATIENCE, keep=None, look=None):
        """What is wrong, or None; `look` may find more. The destination is asked to end once the source is gone; one
        that stops trying ends both. What is left of a migration that is wrong goes to the folder `keep`, if there is
        one."""
        wrong = None
        try:
            wrong = self.end_all(patience) or (look and look(self))
        except Exception as fault:
            wrong = f"{type(fault).__name__}: {fault}"
            raise
        finally:
            for side in self.sides().values():
                if side.is_running():
                    side.process.kill()
            if wrong and keep:
                self.keep(keep, wrong)
            self.folder.cleanup()
        return wrong

    def end_all(self, patience):
        begun, hang = time.time(), None
        self.wait(patience)
        self.let_go()
        if self.source.is_running() and self.dest.is_running():
            hang = (
                f"no end after {time.time() - begun:.0f} s: source {self.source.state()}; destination "
                f"{self.dest.state()}"
            )
        if self.source.is_running() and not hang:
            time.sleep(0.05)
        is_killed = self.source.is_running()
        if is_killed:
            self.source.process.kill()
        self.source_status, self.source_text = self.source.end()
        self.end_dest(hang)
        self.dest_status, self.dest_text = self.dest.end(2 * PATIENCE)  # (it waits for its guest's threads itself)
        if self.monitor:
            self.end_monitor()
        if self.relay:
            self.relay.close()
        if self.traces and not hang and not is_killed:
            self.judge()
        if self.accesses and not hang and not is_killed:
            self.judge_history()
        return hang or self.wrong() or self.judged or (self.history and self.history.wrong())

    def let_go(self):
        """Sides that keep what they have."""
        for side in self.sides().values():
            if side.is_held():
                with contextlib.suppress(OSError, ValueError):
                    side.order("abandon")
                side.process.wait(PATIENCE)

    def number_of(self, option):
        """A number of both sides' command lines, or 0."""
        words = self.source.words
        return int(words[words.index(f"--{option}") + 1]) if f"--{option}" in words else 0

    def end_dest(self, hang):
        """It has all, or the source is gone for good."""
        if hang:
            self.dest.process.kill()
        elif self.source_status == DONE:
            self.dest.ask_end()
        else:
            with contextlib.suppress(OSError, ValueError):
                self.dest.order("abandon")

    def sides(self):
        return {
            name: side
            for name, side in (("source", self.source), ("dest", self.dest), ("monitor", self.monitor))
            if side
        }

    def keep(self, folder, wrong):
        """Files with what is wrong, what each program was called with and has said, the traces, and their merge."""
        shutil.rmtree(folder, ignore_errors=True)
        folder.mkdir(parents=True)
        report = [wrong, f"at {time.strftime('%F %T')}, with a load of {os.getloadavg()[0]:.1f}"]
        for name, side in self.sides().items():
            report.append(f"{name}, status {side.process.poll()}: {shlex.join(side.words)}")
            (folder / f"{name}.out").write_text("".join(side.lines))
            (folder / f"{name}.err").write_text(side.text)
        for file in filter(os.path.exists, (*(self.traces or ()), *(self.accesses or ()))):
            shutil.copy(file, folder)
        if self.script:
            for number, script in enumerate(self.script.scripts):
                (folder / f"merged-{number}.test").write_text(script.text())
        (folder / "wrong").write_text("\n".join(report) + "\n")

    def judge(self):
        """Both traces in one script, which `postmig test` judges if there is a proved program."""
        differs = None
        try:
            self.script = merging.merge_files(*self.traces)
            differs = self.script.judged(POSTMIG)
        except merging.NoJudge as none:
            self.no_judge = str(none)
        except (merging.NoOrder, merging.Unreadable, OSError) as fault:
            differs = str(fault)
        if differs:
            self.judged = (
                f"no run of the machine: {differs.replace(f'{self.folder.name}/', '').replace(f'{FOLDER.parent}/', '')}"
            )

    def judge_history(self):
        """Both files in one history, which `postmig history` judges if there is a proved program."""
        try:
            self.history = histories.Verdict(POSTMIG, histories.join(*self.accesses))
        except merging.NoJudge as none:
            self.no_judge = str(none)
        except histories.Unreadable as fault:
            self.judged = self.judged or str(fault)

    def end_monitor(self):
        """Its verdict, and the first operation of the guest, are taken for those of the destination."""
        status, text = self.monitor.end()
        self.dest.figures["verdict"] = self.monitor.figures.get("verdict", {})
        self.dest.figures.setdefault("destination", {})["first"] = self.monitor.number("monitor", "first")
        if self.dest_status == DONE:
            self.dest_status, self.dest_text = status, f"(the monitor) {text}"

    def wrong(self):
        if not self.source_status and self.dest_status == DONE:
            return None if self.source_status == DONE else f"source: status {self.source_status}"
        return "; ".join(
            f"{name}: status {status} {text}"
            for name, status, text in (
                ("source", self.source_status, self.source_text), ("destination", self.dest_status, self.dest_text)
            )
            if status != DONE
        )


def missing():
    """Why this machine cannot run it, or None."""
    if not PROGRAM.exists():
        return "live/out/live is not built"
    dest = Side([str(PROGRAM), "dest", "--listen", "127.0.0.1:0", "--memory", "1M"])
    dest.listening.wait(PATIENCE)
    dest.ask_end()
    status, text = dest.end()
    return text if status == REFUSED else None
