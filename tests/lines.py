"""Bytes as lines of a case."""


def as_digits(some_bytes, width=32):
    return ["x " + " ".join(f"{it:02x}" for it in some_bytes[at : at + width]) for at in range(0, len(some_bytes), width)]


def as_lines(some_bytes):
    """Text where it is plain, else two digits a byte. A blank at the end of a line is written in digits, so that it is seen."""
    made = []
    for line in some_bytes.splitlines(keepends=True):
        text = line.removesuffix(b"\n")
        plain = text.rstrip(b" ")
        if all(0x20 <= it < 0x7F for it in plain) and plain == text:
            made.append(("|" if line.endswith(b"\n") else "\\") + text.decode())
        elif all(0x20 <= it < 0x7F for it in plain) and plain:
            made += ["\\" + plain.decode(), *as_digits(line[len(plain) :])]
        else:
            made += as_digits(line)
    return made
