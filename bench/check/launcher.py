#!/usr/bin/env python3
"""The launcher and what it installs, with no Python, compiler or git on the PATH, and with tools that fail.

A launcher that cannot make the checksum of the sources runs nothing as proved, and keeps no checksum."""

import os
import pathlib
import re
import shutil
import subprocess
import sys
import tempfile

import shared  # noqa: F401

import page

# What docs/INSTALL.md says that it needs; the rest are coreutils.
TOOLS = ("bash", "sh", "gzip", "find", "xargs", "sed", "tar", "awk")
COREUTILS = ("basename cat chmod cp cut dirname env head install ln ls mkdir mktemp mv readlink rm sha256sum sort "
             "tail tee touch tr uname wc").split()
SCRIPT, OUTPUT = "examples/fault.script", "examples/fault.out"
LEFT_OUT = re.compile(r"crates/[^/]+/(proofs|must-fail|must-fail-more|data)/|bench/|live/|audit/|history/")
INSTALLED = ("share/man/man1/postmig.1", "share/man/man1/uffd-audit.1", "share/man/man5/postmig-script.5",
             "share/doc/postmig/README.md", "share/bash-completion/completions/postmig", "lib/libpostmig.so.0",
             "include/postmig.h", "lib/pkgconfig/postmig.pc")


def copy(target):
    """The tracked files, without the proofs and tests."""
    listed = subprocess.run(["git", "ls-files", "-z"], cwd=page.TOP, check=True, capture_output=True, text=True)
    for name in filter(None, listed.stdout.split("\0")):
        if (page.TOP / name).exists() and not LEFT_OUT.match(name):
            (target / name).parent.mkdir(parents=True, exist_ok=True)
            shutil.copy2(page.TOP / name, target / name)


def tools(folder):
    """A PATH with nothing but what the launcher needs."""
    folder.mkdir()
    for name in (*TOOLS, *COREUTILS):
        if shutil.which(name):
            (folder / name).symlink_to(shutil.which(name))
    return folder


class Launcher:
    def __init__(self, folder):
        self.top, self.wrong = folder / "clone", []
        self.top.mkdir()
        copy(self.top)
        self.path, self.home = tools(folder / "tools"), folder / "home"

    def run(self, *words, program="./postmig", before="", text=""):
        environment = {"PATH": f"{before}{self.path}", "HOME": str(self.home), "POSTMIG_PROVED_ONLY": "1"}
        return subprocess.run([program, *words], cwd=self.top, env=environment, input=text, capture_output=True,
                              text=True)

    def expect(self, name, is_right, ran):
        if not is_right:
            self.wrong.append(name)
            print(f"launcher: {name}: status {ran.returncode}\n{ran.stdout[-400:]}{ran.stderr[-400:]}")


def refuses(launcher):
    """Arguments that a command of the launcher does not take, and a tool that is not there."""
    for words in (["install", ""], ["install", "a", "b"], ["install", "--zz"], ["prove", "--zz"], ["library", "--zz"],
                  ["sources", "zz"], ["sources", "uffd-audit", "b"]):
        ran = launcher.run(*words)
        is_right = ran.returncode == 1 and f"postmig: {words[0]} takes " in ran.stderr and not ran.stdout
        launcher.expect(" ".join(words), is_right, ran)
    shutil.rmtree(launcher.top / "dist/release")
    (launcher.path / "gzip").rename(launcher.path / "no-gzip")
    ran = launcher.run("run")
    launcher.expect("no gzip", ran.returncode == 2 and ran.stderr.startswith("postmig: gzip is not on the PATH"), ran)
    (launcher.path / "no-gzip").rename(launcher.path / "gzip")


def fails(launcher, tool):
    """A tool that fails, in front of the others: with what is kept, and without."""
    folder = launcher.path.parent / f"failing-{tool}"
    folder.mkdir()
    (folder / tool).write_text("#!/bin/sh\nexit 1\n")
    (folder / tool).chmod(0o755)
    kept = launcher.top / "dist/sources.postmig"
    for is_kept in (True, False):
        if not is_kept:
            kept.unlink(missing_ok=True)
        before = kept.read_text() if kept.exists() else None
        ran = launcher.run("run", before=f"{folder}:", text=(launcher.top / SCRIPT).read_text())
        after = kept.read_text() if kept.exists() else None
        is_whole = ran.returncode == 0 and ran.stdout == (launcher.top / OUTPUT).read_text()
        is_right = (is_whole and is_kept or ran.returncode == 2) and before == after
        launcher.expect(f"{tool} fails, {'kept' if is_kept else 'not kept'}", is_right, ran)
        launcher.run("sources")


def main():
    page.option()
    with tempfile.TemporaryDirectory(prefix="launcher-") as name:
        folder = pathlib.Path(name)
        launcher = Launcher(folder)
        ran = launcher.run("sources")
        proved = ran.stdout.strip().endswith(" proved")
        if not proved:
            print(f"launcher: not looked at: {ran.stdout.strip()}{ran.stderr.strip()}")
            return 6
        script, output = ((launcher.top / file).read_text() for file in (SCRIPT, OUTPUT))
        ran = launcher.run("run", text=script)
        launcher.expect("run", ran.stdout == output and ran.returncode == 0, ran)
        prefix = folder / "a prefix"
        ran = launcher.run("install", str(prefix))
        launcher.expect("install", ran.returncode == 0, ran)
        ran = launcher.run("run", program=prefix / "bin/postmig", text=script)
        launcher.expect("installed run", ran.stdout == output and ran.returncode == 0, ran)
        ran = launcher.run("--version", program=prefix / "bin/postmig")
        launcher.expect("installed --version", ", proved)" in ran.stdout, ran)
        for file in INSTALLED:
            launcher.expect(f"installed {file}", (prefix / file).is_file() and (prefix / file).stat().st_size > 0, ran)
        refuses(launcher)
        for tool in ("sha256sum", "find", "sort", "xargs"):
            fails(launcher, tool)
        print(f"launcher: run, installed, refused, and with 4 tools that fail: {len(launcher.wrong)} wrong")
        return 3 if launcher.wrong else 0


if __name__ == "__main__":
    os.umask(0o022)
    sys.exit(main())
