#!/usr/bin/env python3
"""Whether proofs are written as a reader likes them. It prints what is not, a line each, and then fails. Needed after answers or lemmas were written.

  tools/proofs.py

No line of a proof is longer than 160 characters. In a file of answers no line of more than 60 characters stands three times: what several answers need is a
lemma. And somebody cites each lemma, except those that stand for readers and callers: laws, worked examples, and what the sizes are to one another.

In answers and lemmas of the tree and its walks each fact that a `let` names by its path is read by that name, but for one that has a type of its own or stands
right before `omega`: omega reads the records in scope itself, and facts that are functions by such a name alone.

No file of definitions imports a proof of this repository: what a statement means hangs on no proof. No clause says of something that it is the same, or that
it follows from itself. And no proof stands in two crates, by other names: what both need stands below them.
"""
import collections
import pathlib
import re
import sys

TOP = pathlib.Path(__file__).resolve().parent.parent
LONGEST = 160
REPEATED = 60
TIMES = 3
# Modules whose lemmas nobody needs to cite.
FOR_READERS = re.compile(r"(Laws|ExampleFacts|/Sizes)\.antt$")
# What the kit asks for by name, or a proof of one function.
ASKED_FOR = re.compile(r"/(Answers|Invariants|Proof)\.antt$|/The[A-Z]\w*/")
WORD = re.compile(r"[^\s(){}\[\],;.:]+")
IMPORTED_PROOF = re.compile(r"\s*(?:pub )?use Rattle\.(\w+)\.proofs\.")
NAMED_FACT = re.compile(r"let ([^\s(){}\[\],;.:=]+) = [\w'-]+(?:\.[\w'-]+)+ in(?! omega)(?:\s|$)")
# The other crates still name some that nobody reads.
NAMES_NO_MORE = re.compile(r"crates/(fc_tree_\w+|fc_map_iter)/proofs/(?!.*/(Proof|Invariants)\.antt$)")
CLAUSE = re.compile(r"\s*(?:requires|ensures)(?: \w+)? \{ (.*) \}[;,]?$")
SAYS_NOTHING = re.compile(r"(.+) (?:↔|≡|→) \1")
# A proof of fewer lines may be as another is.
ALIKE = 12
SIGNATURE = re.compile(r"^(\s*)(?:(?:pub|abbrev|record|data) )*([^\s:(){},;|]+) :(?: |$)")


def strays_of_lines(name, lines):
    for number, line in enumerate(lines, 1):
        if len(line) > LONGEST:
            yield f"{name}:{number}: {len(line)} characters"
    if name.endswith("/Answers.antt"):
        for line, times in collections.Counter(line.strip() for line in lines).items():
            if len(line) > REPEATED and times >= TIMES:
                yield f"{name}: {times} times: {line[:60]} .."


def read_by(lines, number, end):
    """What can read a name that a `let` of a line binds: the rest of the line from its end on, and the lines below that stand as far to the right."""
    line = lines[number]
    indent = len(line) - len(line.lstrip()) + (not line.lstrip().startswith("let "))
    below = lines[number + 1 :]
    last = next((at for at, it in enumerate(below) if it.strip() and len(it) - len(it.lstrip()) < indent), len(below))
    return "\n".join([line[end:], *below[:last]])


def unread(name, lines):
    for number, line in enumerate(lines if NAMES_NO_MORE.match(name) else []):
        for fact in NAMED_FACT.finditer(line):
            if fact[1] not in WORD.findall(read_by(lines, number, fact.end())):
                yield f"{name}:{number + 1}: nobody reads {fact[1]}"


def proofs_imported(name, lines):
    """Where a file of definitions imports a proof of a crate of the repository."""
    for number, line in enumerate(lines, 1):
        imported = IMPORTED_PROOF.match(line)
        if imported and (TOP / "crates" / imported[1]).is_dir():
            yield f"{name}:{number}: a definition imports a proof of {imported[1]}"


def says_nothing(name, lines):
    for number, line in enumerate(lines, 1):
        clause = CLAUSE.match(line)
        if clause and SAYS_NOTHING.fullmatch(clause[1]):
            yield f"{name}:{number}: the clause says nothing"


def shape(text):
    """A proof without imports and comments, in which each name is a number: how many others came before it."""
    names = {}
    lines = [it.strip() for it in bare(text).split("\n") if it.strip()]
    number = lambda word: names.setdefault(word[0], f"{len(names)}") if word[0][0].isalpha() or word[0][0] == "_" else word[0]
    return [WORD.sub(number, it) for it in lines]


def alike(files):
    """The proofs that another crate has by other names."""
    first = {}
    for name, text in files.items():
        _, crate, part, *_ = name.split("/")
        lines = shape(text) if part == "proofs" and not name.endswith("/Lib.antt") else []
        if len(lines) < ALIKE:
            continue
        other = first.setdefault("\n".join(lines), name)
        if other.split("/")[1] != crate:
            yield f"{name}: it differs from {other} in nothing but names"


def block(lines, start, name):
    """The line after the lemma that begins at a line: its signature, and the equations that begin with its name."""
    indent = len(lines[start]) - len(lines[start].lstrip())
    for number in range(start + 1, len(lines)):
        line = lines[number]
        if line.strip() and len(line) - len(line.lstrip()) <= indent and line.split()[0] != name:
            return number
    return len(lines)


def bare(text):
    """A file without its comments and imports."""
    text = re.sub(r"(?m)^\s*(--|//).*$", "", text)
    return re.sub(r"(?m)^\s*(?:pub |ghost )*use [^{;\n]*(\{[^}]*\})?", "", text)


def words_of(text):
    """How often each word stands in a file, but for its comments and imports."""
    return collections.Counter(WORD.findall(bare(text)))


def uncited(files):
    everywhere = collections.Counter()
    for text in files.values():
        everywhere.update(words_of(text))
    for name, text in files.items():
        if "/proofs/" not in name or FOR_READERS.search(name) or ASKED_FOR.search(name):
            continue
        lines = text.split("\n")
        for start, line in enumerate(lines):
            signature = SIGNATURE.match(line)
            if signature is None:
                continue
            own = words_of("\n".join(lines[start : block(lines, start, signature[2])]))
            if everywhere[signature[2]] == own[signature[2]]:
                yield f"{name}:{start + 1}: nobody cites {signature[2]}"


def main():
    paths = [path for kind in ("antt", "rt") for path in TOP.glob(f"crates/*/*/**/*.{kind}") if "/out/" not in str(path)]
    files = {str(path.relative_to(TOP)): path.read_text() for path in sorted(paths)}
    strays = [stray for name, text in files.items() if "/proofs/" in name for stray in strays_of_lines(name, text.split("\n"))]
    strays += [stray for name, text in files.items() for stray in unread(name, text.split("\n"))]
    strays += [stray for name, text in files.items() if "/specs/" in name for stray in proofs_imported(name, text.split("\n"))]
    strays += [stray for name, text in files.items() if name.endswith(".rt") for stray in says_nothing(name, text.split("\n"))]
    strays += [*uncited(files), *alike(files)]
    for stray in strays:
        print(stray)
    sys.exit(bool(strays))


if __name__ == "__main__":
    main()
