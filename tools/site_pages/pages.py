"""Writes the pages of the site: types, modules, words, names, guides and the first one."""
import functools
import html
import pathlib
import re

from tested import WRITTEN

from . import calls, examples, guides, linking, listings, markdown, surface as surfaces, words

here = pathlib.Path(__file__).resolve().parent
MAIN = surfaces.ROOTS[0]
FRAME = """<!doctype html>
<html lang="en">
<head>
<meta charset="utf-8">
<meta name="viewport" content="width=device-width, initial-scale=1">
<meta name="color-scheme" content="light dark">
<title>{title}</title>
<link rel="stylesheet" href="site.css">
<script src="search.js" defer></script>
</head>
<body>
<a class="skip" href="#main">Skip to the text</a>
<header>
<a class="home" href="index.html">fallible_collections <span>for Rattle</span></a>
<form action="names.html" role="search">
<label class="hidden" for="search">Search names</label>
<input id="search" type="search" placeholder="Search names ( / )" autocomplete="off" spellcheck="false" role="combobox" aria-expanded="false" aria-controls="found" aria-autocomplete="list">
<ul id="found" role="listbox" aria-label="Names found" hidden></ul>
<span id="told" class="hidden" role="status"></span>
</form>
<nav aria-label="Site">{links}</nav>
</header>
<div class="frame">
{side}
<main id="main">
{body}
</main>
</div>
</body>
</html>
"""
LINKS = [("index.html", "Types"), ("guide.html", "Guide"), ("words.html", "Words"), ("names.html", "All names")]
KINDS = {"struct": "Struct", "enum": "Enum", "trait": "Trait", "type": "Alias"}


def escape(text):
    return html.escape(str(text), quote=False)


def short(path):
    """A path without the library's own name."""
    return path.removeprefix(MAIN + "::")


def meanings(file):
    """What the words of the language and of the toolchain mean, by where they are of and their names."""
    found, of = {}, ""
    for line in file.read_text().splitlines():
        if line.startswith("[the "):
            of = words.LANGUAGE if line == f"[{words.LANGUAGE}]" else ""
        elif line and not line.startswith("#"):
            name, _, said = line.partition(" | ")
            found[of, name] = said
    return found


class Site(guides.Guides, listings.Listings):
    """All pages of the site, by their names."""

    def __init__(self, top):
        self.top, self.pages, self.names, self.lacking, self.texts = top, {}, [], [], {}
        self.surface = surfaces.Surface(top)
        self.meanings = meanings(here / "toolchain.txt")
        self.words = words.Words(self.surface, self.meanings)
        self.linker = linking.Linker(self.surface, self.words)
        self.guides = self.find_guides()
        self.calls = calls.Calls(self)
        self.examples = examples.Examples(top, self.call_paths())
        self.lacking += self.examples.wrong

    def call_paths(self):
        """The path of each public call that users make, and what may stand for its name, as a sign does."""
        calls = [(f"{it.home}::{call.name}", call, module.path) for it in self.surface.types for call, _, module in self.calls.inherent(it)]
        calls += [(it.home, it.item, it.module.path) for it in self.surface.functions]
        calls = [it for it in calls if not it[0].startswith(surfaces.BOUNDS)]
        self.files_of_calls = {path: file for path, _, file in calls}
        return {path: WRITTEN.get(it.name, "") for path, it, _ in calls}

    # What pages of the repository tell of calls.

    @functools.cached_property
    def promises(self):
        """The rows of the calls that take memory: by a call's name whether it is refused, what it asks for, and what a refusal leaves."""
        rows = (self.top / "docs/PROMISES.md").read_text().partition("<!-- calls that take memory -->\n")[2].partition("<!-- end of calls")[0].splitlines()[2:]
        found = {}
        for row in rows:
            names, _ample, refused, requests, left = [it.strip() for it in row.strip("|").split("|")]
            for it in re.findall("`([^`]+)`", names):
                found[it] = (refused != "never refused", requests, left)
        return found

    @property
    def never_refused(self):
        return {it for it, (is_refused, _, _) in self.promises.items() if not is_refused}

    def promise(self, call, owner):
        """The row of a call among those that take memory: under its type, or its trait where that is the library's."""
        if owner is None:
            return self.promises.get(call.name)
        trait, of = surfaces.parts_of_impl(owner.text) if owner.kind == "impl" else ("", owner.name)
        heads = [surfaces.head_of(of), of, surfaces.head_of(trait)]
        return next((self.promises[f"{it}::{call.name}"] for it in heads if f"{it}::{call.name}" in self.promises), None)

    def when_refused(self, call, owner):
        """What the table of promises says of a call's requests and refusals, as lines of text."""
        row = self.promise(call, owner)
        return [f"Requests for memory: {row[1]}. After a refusal: {row[2] or 'nothing is changed'}."] if row else []

    @functools.cached_property
    def groups(self):
        """Under which heading each file's calls stand, by the CALLING.md of its crate."""
        found = {}
        for page in sorted(self.top.glob("crates/fc_*/CALLING.md")):
            title = ""
            for line in page.read_text().splitlines():
                title = line.removeprefix("### ") if line.startswith("### ") else title
                for path in line.removeprefix("<!-- contracts: ").removesuffix(" -->").split() if line.startswith("<!-- contracts: ") else []:
                    found[path] = (len(found), title)
        order = {}
        return {path: (order.setdefault(title, at), title) for path, (at, title) in found.items()}

    def group(self, path):
        return self.groups.get(path, (len(self.groups), "Others"))

    @functools.cached_property
    def type_pages(self):
        """The page of each type's name that only one type has."""
        found = {}
        for it in self.surface.types:
            found.setdefault(it.name, []).append(it.page)
        return {name: pages[0] for name, pages in found.items() if len(pages) == 1}

    # Frames.

    def add(self, name, title, body, side=""):
        current = lambda to: ' aria-current="page"' if to == name else ""
        links = "".join(f'<a href="{to}"{current(to)}>{said}</a>' for to, said in LINKS)
        aside = f'<nav class="side" aria-label="On this page">{side}</nav>' if side else ""
        self.pages[name] = FRAME.format(title=escape(title) + (" · fallible_collections for Rattle" if name != "index.html" else ""), links=links, side=aside, body=body)

    # Types and modules.

    def type_page(self, public):
        item, telling = public.item, self.calls
        telling.start(public)
        module = public.home.rpartition("::")[0]
        crate = public.module.crate
        crate_page = self.guides.get(f"crates/{crate}/CALLING.md") or self.guides.get(f"crates/{crate}/README.md")
        ahead = f'<p class="from"><a href="{module.replace("::", ".")}.html">{escape(short(module))}</a> · {KINDS[item.kind].lower()} · defined in <a href="{crate_page}"><code>{crate}</code></a></p>'
        use = f'<pre class="use" tabindex="0"><code>use {escape(public.shortest)};</code></pre>' if module != surfaces.BOUNDS else ""
        head = f'{ahead}<h1>{KINDS[item.kind]} <code>{item.name}</code> {self.source_link(public.module.path, item.line)}</h1>{use}'
        body = head + self.declaration(public) + telling.prose(item.doc) + self.variants(public) + self.models(public)
        if item.kind == "trait" and item.of_kind("ghost"):
            body += f'<h2 id="{telling.anchor("ghosts")}">What a type says for contracts</h2>{telling.ghosts(item, public.module, True)}'
        made, groups = telling.calls_of(public)
        if groups:
            body += f'<h2 id="{telling.anchor("calls")}">Calls</h2>{made}'
        traits = telling.impls_of(public)
        self.add(public.page, f"{item.name} in {short(module)}", body + traits, self.side_of(public, groups, bool(traits)))
        self.names.append((item.name, short(module), public.page, "type"))
        self.names += [(it.name, f"{short(module)}::{item.name}", f"{public.page}#{it.name}", "call") for it, _, _ in telling.inherent(public)]
        self.texts |= {f"{public.page}#{it.name}": " ".join(it.doc) for it, _, _ in telling.inherent(public)} | {public.page: " ".join(item.doc)}
        if not item.doc:
            self.lacking.append(f"{public.home} has no text")
        self.lacking += [f"{public.home}::{it.name} has no text" for it, _, _ in telling.inherent(public) if not it.doc]

    def side_of(self, public, groups, has_traits):
        made = []
        for (_, title), group in groups:
            rows = "".join(f'<li><a href="#{it.name}"><code>{it.name}</code></a></li>' for it, _, _ in group)
            made.append(f"<h2>{markdown.Page().inline(title) if len(groups) > 1 else 'Calls'}</h2><ul>{rows}</ul>")
        if has_traits:
            rows = "".join(f'<li><a href="#{anchor}"><code>{escape(name)}</code></a></li>' for name, anchor in self.calls.side)
            made.append(f'<h2><a href="#traits">{"Types that have it" if public.item.kind == "trait" else "Traits"}</a></h2><ul>{rows}</ul>')
        return f'<p><a href="#main"><code>{public.name}</code></a></p>' + "".join(made)

    def declaration(self, public):
        """The declaration, with what fields are public."""
        item = public.item
        own = [it.name for it, _ in self.surface.hidden(public.module, item.text)]
        head = re.sub(rf"\b({'|'.join(own)})\b(<[^<>]*>)?", "..", item.text) if own else item.text
        if item.kind == "enum":
            return f'<pre class="sign" tabindex="0"><code>{self.calls.sign(head, public.module)} {{ .. }}</code></pre>'
        fields = [it.text for it in item.of_kind("field", "ghost") if it.text.startswith("pub ")] if item.kind == "struct" else []
        inside = "".join(f"    {it}\n" for it in fields)
        text = head + (" {\n" + inside + "    .. // fields that are its own\n}" if item.kind == "struct" else " { .. }" if item.kind == "trait" else "")
        return f'<pre class="sign" tabindex="0"><code>{self.calls.sign(text, public.module)}</code></pre>'

    def variants(self, public):
        if public.item.kind != "enum":
            return ""
        rows = []
        for it in public.item.of_kind("field"):
            anchor = self.calls.anchor(f"variant.{it.name}")
            rows.append(f'<dt id="{anchor}"><code>{self.calls.sign(it.text.rstrip(","), public.module)}</code></dt><dd>{self.calls.prose(it.doc)}</dd>')
            if not it.doc:
                self.lacking.append(f"{public.home}::{it.name} has no text")
        return f'<h2 id="{self.calls.anchor("variants")}">Variants</h2><dl>{"".join(rows)}</dl>'

    def models(self, public):
        """What contracts see of a value of the type."""
        models = [(it, module) for it, module in public.impls if surfaces.parts_of_impl(it.text)[0] == "Model"]
        inside = "".join(self.calls.ghosts(it, module) for it, module in models)
        return f'<details class="contract"><summary>What contracts see of a <code>{public.name}</code></summary>{inside}</details>' if inside else ""

    def module_page(self, path):
        """A module: what is said of it, its types, and its functions in full."""
        module, telling = self.surface.modules[path], self.calls
        telling.start(path=path)
        types, functions = self.in_module(path)
        telling.page_calls = {it.name: it.name for it in functions}
        body = f'<h1>Module <code>{escape(short(path))}</code></h1>{telling.prose(module.doc)}'
        inner = [it for it in self.homes if it.rpartition("::")[0] == path]
        if inner:
            body += f'<h2 id="modules">Modules</h2>{self.rows_of_modules(inner)}'
        if types:
            body += f'<h2 id="types">Types and traits</h2>{self.rows_of_types(types)}'
        if functions:
            body += '<h2 id="functions">Functions</h2>' + "".join(telling.call(it.item, None, it.module, 3) for it in functions)
        self.lacking += [f"{it.home} has no text" for it in functions if not it.item.doc]
        self.texts |= {f"{it.page}#{it.name}": " ".join(it.item.doc) for it in functions}
        self.add(path.replace("::", ".") + ".html", f"Module {short(path)}", body)
        self.names.append((short(path).rpartition("::")[2], path.rpartition("::")[0], path.replace("::", ".") + ".html", "module"))
        self.names += [(it.name, short(path), f"{it.page}#{it.name}", "call") for it in functions]

    def in_module(self, path):
        at = lambda it: it.home.rpartition("::")[0] == path
        return [it for it in self.surface.types if at(it)], [it for it in self.surface.functions if at(it)]

    @functools.cached_property
    def homes(self):
        """The modules that have pages: those where something is shown, and those above them."""
        found = {it.home.rpartition("::")[0] for it in [*self.surface.types, *self.surface.functions]}
        return sorted(found | {it[: it.rindex("::")] for it in found if "::" in it}, key=lambda it: ((*surfaces.ROOTS, surfaces.BOUNDS).index(it.split("::")[0]), it))

    def rows_of_types(self, types, functions=()):
        """A list of types, and of functions, each with its first sentence."""
        rows = "".join(f'<dt><a href="{it.page}"><code>{it.name}</code></a> <span class="kind">{KINDS[it.item.kind].lower()}</span></dt><dd>{self.one_line(it.item.doc)}</dd>' for it in types)
        rows += "".join(f'<dt><a href="{it.page}#{it.name}"><code>{it.name}</code></a> <span class="kind">function</span></dt><dd>{self.one_line(it.item.doc)}</dd>' for it in functions)
        return f'<dl class="brief">{rows}</dl>'

    def rows_of_modules(self, paths):
        rows = "".join(f'<dt><a href="{it.replace("::", ".")}.html"><code>{escape(short(it))}</code></a></dt><dd>{self.one_line(self.surface.modules[it].doc)}</dd>' for it in paths)
        return f'<dl class="brief">{rows}</dl>'

    def one_line(self, doc):
        return markdown.Page().inline(calls.first_sentence(doc))
