"""One reader of what pages are held to: the public calls, crates.txt, the names that files hand on, and what stands between marks of a page; and what is
wrong, which the commands tell at their end. Needed where a form of these files changes: tools/pages.py, laws.py, statements.py and plot.py read by it."""
import functools
import pathlib
import re
import sys

import tested
from surface import Surface

top = pathlib.Path(__file__).resolve().parent.parent.parent
here = Surface(top, tested.ROOTS)
read, calls_in, is_inner, is_public = here.read, here.calls_in, here.is_inner, here.is_public
wrong = []
WRITES = "--write" in sys.argv


def ended():
    """Tells what is wrong, unless that is put right."""
    if wrong and not WRITES:
        sys.exit("\n".join(wrong))


@functools.cache
def uses():
    """What each crate stands on, by crates.txt."""
    return {name: found.split() for name, found in re.findall(r"(?m)^(\w+)[^:#\n]*:(.*)$", (top / "crates.txt").read_text())}


def below(crate):
    """A crate with all those of the repository that it stands on."""
    return {crate}.union(*(below(it) for it in uses()[crate] if it in uses()))


@functools.cache
def handed_on(path):
    """The names that a file hands on, as they stand there, by the module that has them."""
    found, file = {}, top / path
    for module, names in re.findall(r"(?m)^pub use (Rattle[\w.]+)\.\{([^}]*)\}", file.read_text() if file.is_file() else ""):
        found.setdefault(module, []).extend(it.strip() for it in names.split(",") if it.strip())
    return found


def between(text, mark):
    """What stands between a mark of a page and its end."""
    return text.partition(f"<!-- {mark} -->\n")[2].partition(f"<!-- end of {mark} -->")[0]


def with_between(text, mark, new):
    """The page with this between a mark and its end."""
    before, begin, rest = text.partition(f"<!-- {mark} -->\n")
    return before + begin + new + "".join(rest.partition(f"<!-- end of {mark} -->")[1:])
