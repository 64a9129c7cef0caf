"""A program under test: it makes calls, one a line on its standard output, and reads the answer to each from its
standard input."""

import os
import select
import subprocess
import sys

from .errors import Wrong

CALLS = "conformance/README.md, Your own handler"


def how_it_ended(status):
    return f"it was ended by signal {-status}" if status < 0 else f"it has ended with status {status}"


class TestedProgram:
    def __init__(self, words, settings):
        self.settings, self.unread, self.last = settings, b"", ("", "")
        self.process = subprocess.Popen(words, stdin=subprocess.PIPE, stdout=subprocess.PIPE)

    def line(self):
        """The next line of the program."""
        while b"\n" not in self.unread:
            if not select.select([self.process.stdout], [], [], self.settings.patience)[0]:
                raise Wrong("a call", f"no line for {self.settings.patience} seconds", CALLS)
            piece = os.read(self.process.stdout.fileno(), 1 << 16)
            if not piece:
                raise Wrong("a call", how_it_ended(self.wait()) + self.last_call(), CALLS)
            self.unread += piece
        line, _, self.unread = self.unread.partition(b"\n")
        self.trace("handler:", line)
        self.last = line.decode(errors="replace").strip(), ""
        return self.last[0]

    def last_call(self):
        """Its last call with the answer, for a handler that has ended."""
        line, answer = self.last
        return f", after {line[:40]} -> {answer[:40]}" if line else ""

    def answer(self, text):
        self.trace("      ->", text.encode())
        self.last = self.last[0], text
        try:
            self.process.stdin.write(text.encode() + b"\n")
            self.process.stdin.flush()
        except OSError:
            pass  # (it has ended, which its next line says)

    def trace(self, who, line):
        if self.settings.trace:
            sys.stderr.write(f"    {who} {line.decode(errors='replace')[:100]}\n")

    def wait(self):
        """The status of a program that ends; one that does not is killed."""
        try:
            return self.process.wait(self.settings.patience)
        except subprocess.TimeoutExpired:
            self.process.kill()
            return self.process.wait()

    def end(self):
        """Its input ends, so it must end too, with status 0."""
        self.close_input()
        status = self.wait()
        if status:
            raise Wrong("status 0 at the end of its input", how_it_ended(status), CALLS)

    def close_input(self):
        try:
            self.process.stdin.close()
        except OSError:
            pass

    def close(self):
        self.close_input()
        if self.process.poll() is None:
            self.process.kill()
            self.process.wait()
        self.process.stdout.close()
