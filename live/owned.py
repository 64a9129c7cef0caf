"""Programs of someone's own: those of examples/monitor are built in an empty folder, from the words that liblive has
for a compiler, and take the parts of live one by one. Each case returns what is wrong, or None."""

import os
import pathlib
import shlex
import signal
import subprocess
import tempfile

import hurt
import pair

EXAMPLES = pair.FOLDER.parent / "examples/monitor"
PAGES, SIZE = 2048, "8M"


class Folder(tempfile.TemporaryDirectory):
    """Some of the programs, and what they write. The door is the Unix socket at which a monitor hands its memory
    over."""

    def __init__(self, program, *names):
        super().__init__(prefix="owned-")
        self.at = pathlib.Path(self.name)
        self.door = f"unix:{self.at}/door"
        words = f"@{pathlib.Path(program).resolve().parent}/liblive.words"
        for name in names:
            subprocess.run(
                [*shlex.split(os.environ.get("CC", "cc")), EXAMPLES / f"{name}.c", "-o", self.at / name, words],
                check=True,
                cwd=self.at,
            )

    def finish(self, *commands):
        """The first one that fails or does not end, with what it said; or None. They are started together."""
        processes = [
            subprocess.Popen(
                command,
                cwd=self.at,
                stdin=subprocess.DEVNULL,
                stdout=subprocess.DEVNULL,
                stderr=subprocess.PIPE,
                text=True,
                start_new_session=True,
            )
            for command in commands
        ]
        wrong = None
        for process in processes:
            try:
                said = process.communicate(timeout=pair.PATIENCE)[1]
            except subprocess.TimeoutExpired:
                os.killpg(process.pid, signal.SIGKILL)  # (with what it has started)
                said = process.communicate()[1] + "it does not end"
            if process.returncode and not wrong:
                wrong = f"{process.args[0]}: status {process.returncode}: {said}"
        return wrong

    def differ(self):
        """The first byte that the monitor's guest has read and the source's has not stored, or None."""
        there, here = (self.at / "there").read_bytes(), (self.at / "here").read_bytes()
        if len(here) != PAGES * 4096 or not any(here):
            return f"the source's memory has {len(here)} bytes, or none but 0"
        if there == here:
            return None
        differing = (i for i, (one, other) in enumerate(zip(there, here)) if one != other)
        return f"byte {next(differing, min(len(there), len(here)))} differs"


    def __enter__(self):
        return self


def a_monitor_a_handler_and_a_source(program):
    with Folder(program, "monitor", "handler", "source") as folder:
        handler = f"./handler {folder.door} {PAGES} 2"
        return (
            folder.finish(["./source", str(PAGES), "here", handler], ["./monitor", folder.door, str(PAGES), "there"])
            or folder.differ()
        )


def a_handler_for_the_monitor_and_the_source_of_live(program):
    """Its guest gives pages back, and checks each word."""
    guest = ["--memory", SIZE, "--threads", "4", "--given", "2"]
    with Folder(program, "handler") as folder:
        source = [program, "source", *guest, "--feed", f"./handler {folder.door} {PAGES} 4"]
        return folder.finish(source, [program, "monitor", "--connect", folder.door, *guest])


def a_monitor_and_a_source_for_the_handler_of_live(program):
    with Folder(program, "monitor", "source") as folder:
        handler = [
            program, "handler", "--monitor", folder.door, "--memory", SIZE, "--threads", "2", "--feed",
            f"./source {PAGES} here",
        ]
        return folder.finish(handler, ["./monitor", folder.door, str(PAGES), "there"]) or folder.differ()


def too_few_processors(program):
    """What would be refused at the Package is refused before the switch, and the guest runs on."""
    guest = ["--memory", SIZE, "--threads", "4"]
    text = "--threads: source 4, destination 2"
    with Folder(program, "handler") as folder:
        source = pair.Side(
            [program, "source", *guest, *pair.KEPT, "--feed", f"{folder.at}/handler {folder.door} {PAGES} 2"]
        )
        monitor = pair.Side([program, "monitor", "--connect", folder.door, *guest])
        kept = source.end()
        return hurt.expect([("source", kept, pair.LOST, text), ("source", kept, pair.LOST, "its memory is right"),
                            ("monitor", monitor.end(), pair.LOST, "before the guest was to run")])


CASES = (
    a_monitor_a_handler_and_a_source, a_handler_for_the_monitor_and_the_source_of_live,
    a_monitor_and_a_source_for_the_handler_of_live, too_few_processors,
)
