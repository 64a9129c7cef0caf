"""The calls of a handler: lines on standard output, each answered by a line; or with --descriptor the system calls
themselves."""

import sys


def call(*words):
    """Makes a call: the words of its answer."""
    if "--descriptor" in sys.argv:
        import descriptor

        return descriptor.call(*words)
    print(*words, flush=True)
    answer = sys.stdin.readline()
    if not answer:
        sys.exit(0)
    return answer.split()
