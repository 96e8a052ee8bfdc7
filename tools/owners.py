#!/usr/bin/env python3
"""Looks that no function of a test owns so much that its proof is dear: at each exit all that it owns is given up, in seconds that grow with the square of
how many collections there are. It fails where one binds three that were made by `?`, or makes one by a `?` beside an `&&`, but for those that
tools/owners.txt excuses, and where such a one needs no excuse. What makes a collection is a function of its type, a copy, or a function of the crate that
answers one. Needed where it tells a test: that is split, or excused."""
import itertools
import pathlib
import re
import sys

TOP = pathlib.Path(__file__).resolve().parent.parent
KINDS = "Vec|TryVec|String|BTreeMap|BTreeSet|TryHashMap|TryHashSet|Cache|Table|IntervalMap|TimerQueue|World|Node"
MAKERS = "try_collect|try_from_iterator|try_from_elem|try_clone|clone|concat|split_off|bitor|bitand|bitxor|sub|format!"
FUNCTION = re.compile(r"(?ms)^( *)(?:pub(?:\(crate\))? )?fn (\w+)(.*?)^\1\}$")
BOUND = re.compile(r"(?s)\blet [^=;{]*?=(?!=)(.*?);")
TESTS = re.compile(r"(?ms)^#\[cfg\(test\)\]\nmod \w+ \{$.*?^\}$")


def end_of(text, at):
    """The place after the bracket that closes the one at a place."""
    depths = itertools.accumulate((sign == "(") - (sign == ")") for sign in text[at:])
    return at + next((length for length, depth in enumerate(depths, 1) if depth == 0), len(text))


def made(text, call):
    """Whether each collection that a text makes by `?` is the whole of it or a part of a tuple, and no argument and no receiver."""
    for found in call.finditer(text):
        end = end_of(text, found.end() - 1)
        around = [it for it in re.finditer(r"(\w|!|>)?\(", text[: found.start()]) if end_of(text, it.end() - 1) > end]
        if text[end : end + 1] == "?":
            yield text[end + 1 :].lstrip()[:1] != "." and not any(it[1] for it in around)


def strays_of(body, call):
    owned = sum(sum(made(value, call)) for value in BOUND.findall(body))
    if owned > 2:
        yield f"it owns {owned} collections that were made by `?`"
    if any("&&" in statement and [*made(statement, call)] for statement in re.split(r"[;{}]\s", body)):
        yield "it makes a collection by a `?` beside an `&&`"


def strays_of_crate(folder):
    texts = {path: re.sub(r"//[^\n]*", "", path.read_text()) for path in sorted(folder.glob("src/**/*.rt"))}
    kinds = KINDS
    for name, what in re.findall(r"\btype (\w+)[^=;]*=\W*([^;]*);", "".join(texts.values())):
        kinds += f"|{name}" * bool(re.match(rf"(?:{kinds})\b", what))
    answers = re.compile(rf"-> Result<\(?(?:{kinds})\b")
    own = {path: {it[2]: bool(answers.search(it[3].partition("{\n")[0])) for it in FUNCTION.finditer(text)} for path, text in texts.items()}
    for path, text in texts.items():
        makers = {name for names in own.values() for name, is_maker in names.items() if is_maker and own[path].get(name, True)}
        call = re.compile(rf"\b(?:(?:{kinds})(?:::<[^;(]*>)?::\w+|{'|'.join(sorted(makers | {MAKERS}))})\(")
        for it in FUNCTION.finditer(text if folder.name.startswith("test_") else "".join(TESTS.findall(text))):
            yield from ((f"{path.relative_to(folder.parent)} {it[2]}", stray) for stray in strays_of(it[3], call))


excused = {*re.findall(r"(?m)^(\w\S+ \w+): ", (TOP / "tools/owners.txt").read_text())}
strays = [it for folder in sorted(TOP.glob("crates/*")) for it in strays_of_crate(folder)]
wrong = [f"{name}: {stray}" for name, stray in strays if name not in excused]
wrong += [f"{name}: it needs no excuse" for name in sorted(excused - {name for name, _ in strays})]
sys.exit("\n".join(wrong) or 0)
