"""How a replay may end, and how a step may: Refused is that of the model."""

from model.nodes import Refused  # noqa: F401


class NotAScript(Exception):
    """A line is not a script line; the argument is its number."""


class Finding(Exception):
    """The kernel did what neither the model nor docs/LINUX.md says. The replay of this script ends."""


class Wrong(Exception):
    """A handler under test broke a rule. The arguments: what was expected, what it did, and where the rule is
    written."""
