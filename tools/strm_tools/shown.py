"""Shows bytes of a script to a person."""

ESCAPES = {"\t": "\\t", "\r": "\\r", "\\": "\\\\"}
# What a carriage return before a line end means.
CARRIAGE_RETURN = "a carriage return ends the line; save the file with line feeds alone"
# How many bytes of a long text are shown.
SHOWN = 40


def octets(text: str) -> bytes:
    """The bytes of a text in which each character is a byte."""
    return text.encode("latin-1")


def escaped(char: str) -> str:
    """A character as it is if it can be printed, and otherwise its bytes."""
    if char in ESCAPES:
        return ESCAPES[char]
    return char if char.isprintable() else "".join(f"\\x{byte:02x}" for byte in char.encode("utf-8", "surrogateescape"))


def shown(text: str) -> str:
    """A text in which each character is a byte: quoted, with escapes for what can't be printed, and of a long text the beginning."""
    begin = octets(text[:SHOWN]).decode("utf-8", "surrogateescape")
    quoted = f"'{''.join(map(escaped, begin))}'"
    return quoted if len(text) <= SHOWN else f"{quoted} .. ({len(text)} bytes)"
