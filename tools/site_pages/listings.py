"""Writes the pages of the sources that calls and definitions lead to, and finds the functions with contracts that the guide's pages quote. Needed where sources
or quotations have another form."""
import functools
import html
import re

QUOTED = re.compile(r"(?ms)^<!-- (?:proved|caller): \S+ ([^\n]+) -->\n```rust\n(.*?)^```$")
MOST_CALLERS = 3


def is_of(value, owner, text):
    """Whether a name of a function's text is a value of this type, by how it is declared."""
    return bool(re.search(rf"\b{value}: (?:&(?:'\w+ )?(?:mut )?)?{owner}\b|\blet (?:mut )?{value}(?:: [^=;]*)? = {owner}\b", text))


def page_of(path):
    """The page of a source."""
    return "source." + re.sub(r"/(?:src/)?", ".", path.removeprefix("crates/")) + ".html"


class Listings:
    """The part of the site that shows sources. It has `top`, `guides`, `pages` and `add` of the whole."""

    def source_link(self, path, line, said="source"):
        """A link to a line of a source, whose page is then made."""
        self.listed.add(path)
        return f'<a class="source" href="{page_of(path)}#L{line}">{said}</a>'

    @functools.cached_property
    def listed(self):
        """The sources that something leads to."""
        return set()

    def source_pages(self):
        for path in sorted(self.listed):
            lines = (self.top / path).read_text().splitlines()
            body = "".join(f'<span id="L{at}">{html.escape(it, quote=False)}\n</span>' for at, it in enumerate(lines, 1))
            self.add(page_of(path), path, f'<p class="from">source</p><h1><code>{path}</code></h1><pre class="listing" tabindex="0"><code>{body}</code></pre>')

    @functools.cached_property
    def callers(self):
        """The functions with contracts that the guide's pages quote whole: each with its page, its name and its text."""
        found = {}
        for path, page in self.guides.items():
            for names, text in QUOTED.findall((self.top / path).read_text()):
                parts = re.split(r"(?m)^(?=#\[tactic|(?:pub )?fn )", text)
                for name in names.split():
                    whole = next((it for it in parts if re.search(rf"\bfn {name}\b", it)), "")
                    found.setdefault(name, (page, name, whole))
        return [*found.values()]

    def callers_of(self, owner, name):
        """Which of these make a call of a type, or of none."""
        shown = []
        for page, function, text in self.callers:
            is_path = re.search(rf"\b{owner}(?:::<[^;]*?>)?::{name}\(" if owner else rf"(?<![.\w:]){name}\(", text.partition("\n{")[2])
            values = re.findall(rf"\b(\w+)\s*\.{name}\(", text) if owner else []
            is_method = any(is_of(it, owner, text) for it in values) or bool(values and self.is_only_one(name))
            if is_path or is_method:
                shown.append(f'<a href="{page}#proved.{function}"><code>{function}</code></a>')
        return shown[:MOST_CALLERS]

    def is_only_one(self, name):
        """Whether one call alone has this name."""
        return sum(it.rpartition("::")[2] == name for it in self.files_of_calls) == 1
