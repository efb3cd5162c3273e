"""Prints a case from the lines of its script and their replies."""
import sys

# The functions that print the cases of a program of tests/cases, each by its name, which is that of the case.
PRINTED = {}


def printed(function):
    """Makes a function print a case of the program."""
    assert function.__name__ not in PRINTED, f"two cases are called {function.__name__}"
    PRINTED[function.__name__] = function
    return function


def main():
    """Prints the case that the program's word names, or the names of all."""
    if sys.argv[1:]:
        PRINTED[sys.argv[1]]()
    else:
        print(*PRINTED, sep="\n")


def print_case(**sections):
    """Prints a case that is run in both modes. A section is one line, whole lines, or a list of lines; none has escapes."""
    for name, text in {"modes": "workers serial", **sections}.items():
        if not isinstance(text, str):
            text = "".join(f"{line}\n" for line in text)
        print(f"== {name}\n{text}" if text.endswith("\n") else f"== {name}: {text}\n", end="")


def numbered(header, sections):
    """The lines of a script, each with its line of the text, or None where it has none.

    A section has lines with their replies, which are None for lines that are no commands."""
    lines = [(line, None) for line in header]
    for worker, section in enumerate(sections):
        lines.append(("worker", None))
        for line, reply in section:
            lines.append((line, None if reply is None else f"{worker}:{len(lines) + 1} {reply}"))
    return lines


def quiet_report(held, total, *classes, read=1, enabled=0):
    """The report of a pool with one queue, which is empty. A class is its size, its free data blocks, and all of them."""
    data = [f"data size={size} free={free} total={count}" for size, free, count in classes]
    queue = f"queue 0 msgs=0 bytes=0 read={read} noenable=0 enabled={enabled}"
    return [f"blocks free={total - held} queued=0 held={held} total={total}", *data, queue, f"run {'0' if enabled else '-'}", "wishes -"]


def print_served(header, sections, report, **others):
    """Prints a case with a script, and the text where its sections are served one after another."""
    lines = numbered(header, sections)
    told = [told for _, told in lines if told is not None] + report
    print_case(**others, script=[line for line, _ in lines], stdout=told)
