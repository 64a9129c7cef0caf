"""The replay of migration scripts on a real kernel: ../README.md."""

import pathlib
import sys

# The nodes and the frames are those of bench/model.
sys.path.insert(1, str(pathlib.Path(__file__).resolve().parents[2] / "bench"))
