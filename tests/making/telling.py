"""Makes checks, and prints what failed and what a script leaves out."""
import shutil
from concurrent.futures import ThreadPoolExecutor

from strm_tools.judge import Wrong


def indented(text):
    """Indents all lines but the first: a count among them must not look like the script's own."""
    return str(text).rstrip("\n").replace("\n", "\n    ")


def not_run(what, why):
    """Says that the script leaves something out, and why."""
    print(f"not run: {what}: {why}", flush=True)


def want(wanted, found, what=""):
    """Raises `Wrong` if something else is found than is wanted."""
    if found != wanted:
        raise Wrong(f"{what}{what and ': '}wanted {wanted!r}; there is {found!r}")


def hold(holds, why):
    """Raises `Wrong` with this reason if something does not hold."""
    if not holds:
        raise Wrong(why)


def count_checks(checks, *wrong, threads=0):
    """Makes checks, each given as its name, a function and what that gets, one after another or on several threads. One fails if it raises an
    exception of these types, and is printed. Prints how many passed and failed, and returns the script's status."""

    def passes(row):
        name, check, *given = row
        try:
            check(*given)
            return True
        except wrong as why:
            print(f"{name}: {indented(why)}", flush=True)
            return False

    if threads:
        with ThreadPoolExecutor(threads) as pool:
            results = list(pool.map(passes, checks))
    else:
        results = list(map(passes, checks))
    print(f"{sum(results)} passed, {len(results) - sum(results)} failed")
    return 0 if all(results) else 1


def compared(what, wanted, found):
    """A row for each key of two tables: its name, what is wanted of it, and what there is."""
    for key in dict.fromkeys([*wanted, *found]):
        yield f"{what} {key}", wanted.get(key), found.get(key)


def count_rows(rows):
    """Compares the second and the third item of each row, whose first is its name, as `count_checks` makes checks."""
    return count_checks(((name, want, wanted, found) for name, wanted, found in rows), Wrong)


def has(tool, of, what):
    """Whether a tool is on PATH. If not, says that the script leaves something out, and where the tool is from."""
    if shutil.which(tool):
        return True
    not_run(what, f"there is no {tool} ({of})")
    return False
