#!/usr/bin/env python3
"""Makes the release of both programs and of the library for C in release/, from their proved builds, or compares them.

python3 bench/check/release.py --write       makes it: of crates/postmig/out/postmig and
                                             crates/uffd_audit/out/uffd_audit,
                                       which rt ci and ./postmig prove leave, and of the library in dist/, which
                                       ./postmig library --build makes. A program that is not built here stays as it is,
                                       if it is of these sources; so with the library, or it is built
python3 bench/check/release.py --sources     whether it is of these sources, and unpacks to what its checksums say
python3 bench/check/release.py --check       the same, and whether the proved builds are the programs of the release,
                                             byte by
                                       byte; so with the library, if dist/ has one that was built here. Another kit than
                                       the one that built it may give other bytes, which is said

release/ has the programs and the library, packed, the checksums of their sources (./postmig sources) and those of all
files, and for each program and the library the line of `rt version` of the kit that built it.
"""

import argparse
import gzip
import hashlib
import io
import subprocess
import sys
import tarfile

import shared  # noqa: F401

import page

FOLDER = page.TOP / "release"
LIBRARY = FOLDER / "libpostmig-x86_64-linux.tar.gz"
# Of each program its crate.
PROGRAMS = {"postmig": "postmig", "uffd-audit": "uffd_audit"}
# Of each crate that is released the file with the checksum of its sources.
SOURCES = {
    "postmig": FOLDER / "sources",
    "uffd_audit": FOLDER / "uffd-audit-sources",
    "postmig_c": FOLDER / "library-sources",
}
SUMS, KIT = FOLDER / "SHA256SUMS", FOLDER / "kit"
DIST = page.TOP / "dist"
PARTS = ("libpostmig.a", "libpostmig.so", "postmig.h", "postmig_node.h")
RENEW = "./dev release makes it again, after rt ci or ./postmig prove"


def packed_file(name):
    """The file of the release with a program."""
    return FOLDER / f"{name}-x86_64-linux.gz"


def built_file(crate):
    return page.TOP / "crates" / crate / "out" / crate


def sources(crate):
    """The checksum of the sources of a program or of the library, and whether there is a proved build of them."""
    ran = subprocess.run([page.TOP / "postmig", "sources", crate], check=True, capture_output=True, text=True)
    checksum, _, state = ran.stdout.strip().partition(" ")
    return checksum, state == "proved"


def is_built(crate):
    """Whether there is a proved build of a program here of its sources as they are, which ./postmig sources notes."""
    checksum, _ = sources(crate)
    built = built_file(crate)
    noted = built.with_name("proved")
    return (
        built.is_file()
        and noted.is_file()
        and noted.read_text().split() == [checksum, hashlib.sha256(built.read_bytes()).hexdigest()]
    )


def kit():
    """The line that names the kit which is here."""
    return subprocess.run(["rt", "version"], check=True, capture_output=True, text=True).stdout.strip()


def kits():
    """Of each program of the release, and of the library, the line that names the kit which built it."""
    return dict(line.split(": ", 1) for line in KIT.read_text().splitlines())


def is_of_these_sources(crate):
    """Whether the release of a program or of the library is of the sources as they are."""
    return SOURCES[crate].is_file() and SOURCES[crate].read_text().strip() == sources(crate)[0]


def archive(parts):
    """The text of a tar file with these files, which is the same for the same files."""
    text = io.BytesIO()
    with tarfile.open(fileobj=text, mode="w", format=tarfile.USTAR_FORMAT) as tar:
        for name, content in parts.items():
            it = tarfile.TarInfo(name)
            it.size, it.mode = len(content), 0o644
            tar.addfile(it, io.BytesIO(content))
    return text.getvalue()


def sums(files):
    """The text of the file with the checksums, as sha256sum reads it."""
    return "".join(f"{hashlib.sha256(content).hexdigest()}  {name}\n" for name, content in files.items())


def packed(text):
    return gzip.compress(text, 9, mtime=0)


def library_parts():
    """The files of the library, and whether they were built here. dist/ has them then; the release has them if it is of
    these sources; else the library is built."""
    # (a library of the release counts as proved, and need not be unpacked)
    is_built = sources("postmig_c")[1] and all((DIST / name).is_file() for name in PARTS)
    if not is_built and LIBRARY.is_file() and is_of_these_sources("postmig_c"):
        with tarfile.open(LIBRARY) as tar:
            return {it.name: tar.extractfile(it).read() for it in tar}, False
    if not is_built:
        subprocess.run([page.TOP / "postmig", "library", "--build"], check=True)
    return {name: (DIST / name).read_bytes() for name in PARTS}, True


def program(name):
    """A program: its proved build of these sources, or that of the release if it is of these."""
    crate = PROGRAMS[name]
    if is_built(crate):
        return built_file(crate).read_bytes()
    if packed_file(name).is_file() and is_of_these_sources(crate):
        return gzip.decompress(packed_file(name).read_bytes())
    sys.exit(f"release: there is no proved build of these sources of {name}: rt ci or ./postmig prove makes one")


def write():
    programs = {name: program(name) for name in PROGRAMS}
    parts, is_library_built = library_parts()
    FOLDER.mkdir(exist_ok=True)
    files = {**{packed_file(name): packed(text) for name, text in programs.items()}, LIBRARY: packed(archive(parts))}
    for file, content in files.items():
        file.write_bytes(content)
        print(f"release: {file.name}, {len(content):,} bytes")
    SUMS.write_text(sums({**programs, **parts, **{file.name: content for file, content in files.items()}}))
    for crate, file in SOURCES.items():
        file.write_text(sources(crate)[0] + "\n")
    built = [name for name, crate in PROGRAMS.items() if is_built(crate)] + ["libpostmig"] * is_library_built
    told = {**(kits() if KIT.is_file() else {}), **{name: kit() for name in built}}
    KIT.write_text("".join(f"{name}: {line}\n" for name, line in told.items()))


def unpacked():
    """The files that the release unpacks to."""
    with tarfile.open(LIBRARY) as tar:
        parts = {it.name: tar.extractfile(it).read() for it in tar}
    return {**{name: gzip.decompress(packed_file(name).read_bytes()) for name in PROGRAMS}, **parts}


def look_at_sources():
    """The files of the release, once they are known to be of these sources and to have their checksums."""
    packages = [*map(packed_file, PROGRAMS), LIBRARY]
    for file in (*SOURCES.values(), SUMS, KIT, *packages):
        if not file.is_file():
            sys.exit(f"release: there is no {file.name}: {RENEW}")
    for crate, file in SOURCES.items():
        if not is_of_these_sources(crate):
            sys.exit(f"release: {file.name} is of other sources: {RENEW}")
    if lacking := [name for name in (*PROGRAMS, "libpostmig") if f"\n{name}: " not in "\n" + KIT.read_text()]:
        sys.exit(f"release: kit does not say what built {lacking[0]}: {RENEW}")
    try:
        files = unpacked()
    except (OSError, EOFError, tarfile.TarError) as fault:
        sys.exit(f"release: it does not unpack: {fault}")
    if SUMS.read_text() != sums({**files, **{file.name: file.read_bytes() for file in packages}}):
        sys.exit(f"release: its checksums are of other files: {RENEW}")
    return files


def compare(name, what, is_same):
    """Says whether what was built is as in the release. A build by another kit may have other bytes."""
    told = kits()[name]
    if is_same:
        print(f"release: {what}, as built")
    elif told == kit():
        sys.exit(f"release: the build of {what} has other bytes: {RENEW}")
    else:
        print(f"release: {what}: {told.split()[0]} built it, and {kit().split()[0]}, which is here, gives other bytes")


def check():
    files = look_at_sources()
    for name, crate in PROGRAMS.items():
        if not is_built(crate):
            sys.exit(
                f"release: there is no proved build of {name} to compare it with: rt ci or ./postmig prove makes one"
            )
        compare(name, f"{name}, {len(files[name]):,} bytes", built_file(crate).read_bytes() == files[name])
    if sources("postmig_c")[1]:
        compare("libpostmig", "the library of dist/", all((DIST / name).read_bytes() == files[name] for name in PARTS))


def main():
    parser = argparse.ArgumentParser(
        description="Makes the release of both programs and of the library, or compares it."
    )
    asked = parser.add_mutually_exclusive_group(required=True)
    for word in ("--write", "--sources", "--check"):
        asked.add_argument(word, action="store_true")
    it = parser.parse_args()
    if it.write:
        write()
    elif it.check:
        check()
    else:
        look_at_sources()


if __name__ == "__main__":
    main()
