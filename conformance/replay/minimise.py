"""Makes a script shorter, as long as something about it stays."""


def minimise(data, holds):
    """The lines that are left once no line, and no half or quarter of them, can be left out."""
    lines = [line for line in data.split(b"\n") if line]
    size = len(lines) // 2
    while size:
        at = 0
        while at < len(lines):
            shorter = lines[:at] + lines[at + size :]
            if holds(b"\n".join(shorter) + b"\n"):
                lines = shorter
            else:
                at += size
        size = 0 if size == 1 else (size + 1) // 2
    return [line.decode(errors="replace") for line in lines]
