#!/usr/bin/env python3
"""Makes what a new public call needs beside its source, from templates, and tells the files that a person goes on in. Needed once the call stands in src/
with its contract.

  tools/new_call.py FILE NAME TESTS    FILE: crates/CRATE/src/.., which has the call; NAME: of the call; TESTS: crates/test_../src/.., which gets its tests

It makes tests, of which the first has the call's example, of a call that may be refused also their row of tools/sweep.txt and the call's row in
docs/PROMISES.md, and of one that ensures something a wrong body, which waits for its trial. What is left to a person says `to be said`, and fails until it
is: a test, a wrong body that changes nothing, a row of no request. What is there already stays as it is."""
import pathlib
import re
import sys

sys.dont_write_bytecode = True
from paging.sources import calls_in, top
from paging.tables import may_be_refused
from surface import Call, plain

FILES = 11  # that a call touches at the most: its source, its answers, those of MADE and those of LEFT
MADE = ("TESTS", "tools/sweep.txt", "docs/PROMISES.md", "crates/CRATE/edits/NAME-to-be-said.edit", "crates/CRATE/edits/WAITING")
LEFT = {
    "crates/CRATE/CALLING.md": "its contract: `contracts` names the file, and tools/pages.py --write quotes it",
    "tools/std.txt": "what stands for std's call, if this does",
    "docs/DIFFERENCES.md": "where it differs from the Rust crate's, and the entry's head in tools/told.txt",
    "CHANGELOG.md": "what tools/changes.py lists",
}
assert FILES == 2 + len(MADE) + len(LEFT)
TEST = """
// To be said: what {name} does, by reasoning.
#[test]
fn {test}(rt: HostRuntime) {{
    assert!(rt; false);
}}
"""
EXAMPLE = TEST.replace("    assert!(rt; false);", "    // example: {call}\n    assert!(rt; false);\n    // end")  # what the pages show of the call


def call_of(file, name):
    """The call of this name in the file."""
    found = [it for it in calls_in(file) if isinstance(it, Call) and it.name == name]
    return found[0] if len(found) == 1 else sys.exit(f"tools/new_call.py: {file} has {len(found)} public calls {name}")


def last_line(file, name):
    """The last line of a function's body that stands once in its file, which a wrong body may change."""
    text = (top / file).read_text()
    body = re.search(rf"(?ms)^( *)(?:pub )?(?:const )?fn {name}\b.*?^\1\{{\n(.*?)^\1\}}$", text)
    lines = [it for it in (body[2] if body else "").splitlines() if it.strip() and text.count(it) == 1]
    return lines[-1] if lines else sys.exit(f"tools/new_call.py: no line of {name} stands once in {file}, so its wrong body is to be written by hand")


def adds(path, new, is_there, behind=""):
    """Adds a text to a file, at its end, or before a line, unless it is there. Answers whether it did."""
    text = (top / path).read_text() if (top / path).is_file() else ""
    if is_there in text:
        return False
    at = text.index(behind) if behind else len(text)
    (top / path).parent.mkdir(exist_ok=True)
    (top / path).write_text(text[:at] + new + text[at:])
    return True


def made(file, call, tests):
    """Makes each file that there is a template for. Answers their names, and whether they are new."""
    crate, name, of_tests = file.split("/")[1], call.name, tests.split("/")[1]
    module = "::".join(it for it in pathlib.Path(tests).with_suffix("").parts[3:] if it not in ("lib", "main"))
    does, refused = f"{name}_does_as_it_says", f"a_refused_{name}_leaves_what_was_there"
    at = f"{plain(call.owner).rpartition(' for ')[2]}::{name}" if call.owner else name
    yield tests, adds(tests, EXAMPLE.format(name=name, test=does, call=at), f"fn {does}(")
    if may_be_refused(call.line):
        yield tests, adds(tests, TEST.format(name=f"a refused {name}", test=refused), f"fn {refused}(")
        row = f"{of_tests} {module}{'::' * bool(module)}{refused}"
        yield "tools/sweep.txt", adds("tools/sweep.txt", f"\n# To be said: which requests {name} makes.\n{row} 0 0\n", row)
        cells = f"| `{at}` | `{of_tests}::{does}` | `{of_tests}::{refused}` | to be said | to be said |\n"
        yield "docs/PROMISES.md", adds("docs/PROMISES.md", cells, f"`{at}`", "<!-- end of calls that take memory -->")
    if any(it.startswith("ensures") for it in call.clauses):
        edit, line = f"{name}-to-be-said", last_line(file, name)
        path, waiting = f"crates/{crate}/edits/{edit}.edit", f"crates/{crate}/edits/WAITING"
        yield path, adds(path, f"file: {file.partition(f'{crate}/')[2]}\nold: {line}\nnew: {line}\n", "file: ")
        yield waiting, adds(waiting, f"{edit}\n", f"{edit}\n")


def main(words):
    if len(words) != 3 or not all(it.startswith("crates/") and (top / it).is_file() for it in words[::2]):
        sys.exit(__doc__)
    file, name, tests = words
    call = call_of(file, name)
    for path, is_new in made(file, call, tests):
        print(f"{path}: {'made, to be said' if is_new else 'there already'}")
    for path, what in LEFT.items():
        print(f"{path.replace('CRATE', file.split('/')[1])}: {what}")


if __name__ == "__main__":
    main(sys.argv[1:])
