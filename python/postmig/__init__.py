"""postmig: an executable model of post-copy live migration, in this process, over its proved library.

    import postmig
    with postmig.World() as world:
        print(world.line(b"start"))

`World` does the lines of scripts; `run`, `check`, `explain` and `lint` take whole texts; `Frames` decodes a stream.
`nodes.Source` and `nodes.Destination` are one node each. docs/USING.md has complete programs, docs/SCRIPT.md the lines.
Texts are bytes. A call that is not OK raises `Refused`, whose status is one of `calls`.
"""

from . import calls, nodes
from .calls import NOT_A_LINE, Counts, Frame, Refused
from .nodes import Destination, Source
from .worlds import ALL, COMPLETE, CPUS, IDLE, OWED, PAGES, POSTCOPY, PRECOPY, QUEUES, SWITCHING, WIRES
from .worlds import Frames, World, check, explain, lint, reason, run

__all__ = [
    "ALL", "COMPLETE", "CPUS", "IDLE", "NOT_A_LINE", "OWED", "PAGES", "POSTCOPY", "PRECOPY", "QUEUES", "SWITCHING",
    "WIRES", "Counts", "Destination", "Frame", "Frames", "Refused", "Source", "World", "calls", "check", "explain",
    "lint", "nodes", "reason", "run",
]
