"""Examples of public calls: lines of tests that stand between '// example: CALL, CALL..' and '// end', so that the gate proves and runs each as it is shown.
A CALL is named as `BTreeMap::get`, or by a longer end of its path where several have that name. Needed where a public call is new: it has an example."""
import dataclasses
import re

from surface import COUNTED

BEGIN = re.compile(r"^( *)// example: (\w.*)$")
FEWEST, MOST = 3, 8  # lines


@dataclasses.dataclass(frozen=True)
class Example:
    """Lines of a test: the source, its line where they begin, the calls that they are of, and they themselves."""

    path: str
    line: int
    calls: tuple
    text: str

    @property
    def crate(self):
        return self.path.split("/")[1]


def in_file(top, file):
    """The examples of a source."""
    found, lines = [], file.read_text().splitlines()
    path = str(file.relative_to(top))
    for at, line in enumerate(lines):
        if begin := BEGIN.match(line):
            end = next((i for i in range(at, len(lines)) if lines[i] == f"{begin[1]}// end"), at)
            text = "\n".join(it[len(begin[1]) :] for it in lines[at + 1 : end])
            found.append(Example(path, at + 2, tuple(begin[2].split(", ")), text))
    return found


def read(top):
    """All examples of the repository's tests and programs."""
    return [it for file in sorted(top.glob("crates/*/src/**/*.rt")) if "// example: " in file.read_text() for it in in_file(top, file)]


class Examples:
    """The examples of public calls, by the path of each call; and what is wrong with them."""

    def __init__(self, top, calls):
        self.calls, self.of, self.wrong = calls, {}, []
        self.all = read(top)
        for it in self.all:
            self.take_in(it)
        short = lambda path: "::".join(path.split("::")[-2:])
        self.wrong += [f"{it} has no example: mark lines of a test by '// example: {short(it)}'" for it in calls if not self.find(it)]

    def take_in(self, example):
        """Gives an example to its calls."""
        count = len([it for it in example.text.splitlines() if it.strip()])
        where = f"{example.path}, line {example.line}"
        if not FEWEST <= count <= MOST:
            self.wrong.append(f"{where}: an example of {count} lines, and not of {FEWEST} to {MOST}")
        for name in example.calls:
            found = [it for it in self.calls if it == name or it.endswith(f"::{name}")]
            if len(found) != 1:
                self.wrong.append(f"{where}: {name} names {len(found)} public calls")
            elif not re.search(rf"\b{name.rpartition('::')[2]}\b|{self.calls[found[0]] or '$^'}", example.text):
                self.wrong.append(f"{where}: the example of {name} does not call it")
            for it in found[:1]:
                self.of.setdefault(it, []).append(example)

    def find(self, path):
        """The examples of a call: of a counted form without any, those of the call of the plain name."""
        return self.of.get(path) or self.of.get(path.rpartition("_")[0] if path.endswith(COUNTED) else path, [])
