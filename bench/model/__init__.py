"""A migration in Python: frames, and both nodes without a host's memory. bench/ and conformance/ share it.

It is a second implementation, written from docs/PROTOCOL.md, docs/FORMATS.md and the refusals of docs/SCRIPT.md. What
it checks, the crates, has no part in it, and it has none of their code. Two scripts follow a run without it, so that
they check it too: bench/compare/wires.py derives the frames from the lines of a run, and bench/compare/guest.py the
bytes of the guest.
"""
