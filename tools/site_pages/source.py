"""Reads Rattle source, as `rt fmt` lays it out, into its items: each with the text above it, its signature and its clauses."""
import dataclasses
import re

CLAUSE = re.compile(r"(requires|ensures|decreases)\*?(?![\w])")
KIND = re.compile(r"(?:pub(?:\(\w+\))? )?(?:unsafe |const )*(ghost use|use|mod|ghost|type|const|fn|struct|enum|trait|impl)\b(?: (\w+))?")
BLOCKS = ("struct", "enum", "trait", "impl")


@dataclasses.dataclass
class Item:
    """A function, a type, a trait, an impl, or one line of them."""

    kind: str
    name: str
    text: str  # up to the brace of its body, and of a line all
    doc: list  # the lines of its ///
    remarks: list  # the lines of // above it
    attributes: str
    clauses: list = dataclasses.field(default_factory=list)
    members: list = dataclasses.field(default_factory=list)
    has_body: bool = False
    line: int = 0  # where it begins, from 1

    @property
    def is_public(self):
        return self.text.startswith("pub ")

    def of_kind(self, *kinds):
        return [it for it in self.members if it.kind in kinds]


def is_balanced(text):
    """Whether each brace, bracket and parenthesis of a text is closed."""
    return all(text.count(a) <= text.count(b) for a, b in ("{}", "()", "[]"))


class Reader:
    """Goes through the lines of a file."""

    def __init__(self, lines):
        self.lines, self.at, self.doc = lines, 0, []

    def items(self, indent=0):
        """The items at an indent, up to the brace that closes them."""
        found, doc, remarks, attributes = [], [], [], []
        while self.at < len(self.lines):
            line = self.lines[self.at].strip()
            if self.lines[self.at] == " " * (indent - 4) + "}":
                self.at += 1
                break
            if line.startswith("#"):
                attributes.append(self.statement("]"))
            elif line.startswith("//") or not line:
                self.comment(line, doc, remarks)
            else:
                line = self.at + 1
                item = self.item(indent)
                item.doc, item.remarks, item.attributes, item.line = doc, remarks, " ".join(attributes), line
                found.append(item)
                doc, remarks, attributes = [], [], []
        return found

    def comment(self, line, doc, remarks):
        """Takes a comment into what is said of the file, or of the next item. A blank line parts a remark from it."""
        self.at += 1
        if not line:
            remarks.clear()
            return
        to, mark = (self.doc, "//!") if line.startswith("//!") else (doc, "///") if line.startswith("///") else (remarks, "//")
        to.append(line.removeprefix(mark).removeprefix(" "))

    def statement(self, *ends):
        """The lines from here to the first that ends so and closes each brace, as one text."""
        start = self.at
        while True:
            text = "\n".join(it.strip() for it in self.lines[start : self.at + 1])
            self.at += 1
            if text.endswith(ends) and is_balanced(text) or self.at >= len(self.lines):
                return text

    def item(self, indent):
        line = self.lines[self.at].strip()
        found = KIND.match(line)
        kind = found[1] if found else "field"
        if kind == "fn":
            return self.function(indent, re.search(r"\bfn (\w+)", line)[1])
        if kind in BLOCKS:
            return self.block(kind, found[2] if kind != "impl" else "", indent)
        text = self.statement(";", ",")
        name = found[2] if found else (re.match(r"(?:pub )?(\w+)", line) or [None, ""])[1]
        return Item(kind, name or "", text, [], [], "")

    def block(self, kind, name, indent):
        """A type, a trait or an impl with its members."""
        head = []
        while not head or not head[-1].endswith(("{", "}", ";")):
            head.append(self.lines[self.at].strip())
            self.at += 1
        text = " ".join(head)
        item = Item(kind, name, text.rstrip("{};, "), [], [], "", has_body=text.endswith("{"))
        item.members = self.items(indent + 4) if item.has_body else []
        return item

    def function(self, indent, name):
        """A function: its signature, its clauses, and after its body."""
        sign, clauses, ends = [], [], False
        while not ends:
            line = self.lines[self.at].strip()
            if CLAUSE.match(line):
                text = self.clause()
                ends = text.endswith(";")
                clauses.append(text.removesuffix(";"))
                continue
            has_body = line.endswith("{")
            ends = has_body or line.endswith((";", "{}"))
            sign.append(self.lines[self.at][indent:].rstrip())
            self.at += 1
        text = re.sub(r"\s*(\{\}?|;)?\s*$", "", "\n".join(sign)).removesuffix("\nwhere").rstrip(",")
        if ends and sign[-1].endswith("{"):
            self.at = self.lines.index(" " * indent + "}", self.at) + 1
        return Item("fn", name, text, [], [], "", clauses, has_body=not sign[-1].endswith(";") and line.endswith(("{", "{}")))

    def clause(self):
        """A clause, whose further lines keep their indent below its first."""
        start = self.at
        indent = len(self.lines[start]) - len(self.lines[start].lstrip())
        while True:
            text = "\n".join(it[indent:] for it in self.lines[start : self.at + 1])
            self.at += 1
            if is_balanced(text):
                return text


def read(file):
    """What is said of a file, and its items."""
    reader = Reader(file.read_text().splitlines())
    items = reader.items()
    return reader.doc, items
