"""Judges a handler by one script, in the form that it has."""

from .descriptor import DescriptorHandling
from .handling import Handling


def judge(job):
    """What is wrong with a handler in a script, and what was looked at."""
    return (DescriptorHandling if job.settings.descriptor else Handling)(job).run()
