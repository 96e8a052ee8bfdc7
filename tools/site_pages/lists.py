"""Writes the lists of the site: its first page, the words of contracts, and all names."""
import html
import itertools
import re

from . import found, markdown, words
from .calls import in_lines
from .pages import escape, short

HOW = """A contract stands behind a call's fold: what its caller has to show, and what holds after it. Each word there leads to its definition. So reads
`ensures old { IfOk result (λ old. old ≡ value_at K.cmp (entries self.old) key) }`, a clause of the map's `try_insert`: where the answer is `Ok`, it is the value
that stood at the key in the map's list of pairs, as it was before the call."""


def first_page(site):
    """What the library is, its types by module, those that users name most before all, and then how to take it."""
    readme = (site.top / "README.md").read_text()
    lead = site.lead_from("README.md")
    page = markdown.Page(lead)
    head, _, rest = site.titled(readme[: readme.index("\n## What there is")], "README.md").partition("\n\n## ")
    title, _, said = head.partition("\n\n")
    first, _, more = said.partition("\n\n")
    used = sorted((it for it in site.surface.types if it.name in found.FIRST), key=lambda it: found.FIRST.index(it.name))
    body = [page.html(f"{title}\n\n{first}"), f'<h2 id="types">Types</h2>{site.rows_of_types(used)}<h2 id="modules">All types and functions, by module</h2>']
    side = ['<p><a href="#types">Types</a></p><p><a href="#start">Read on</a></p><h2>Modules</h2><ul>']
    for path in site.homes:
        types, functions = site.in_module(path)
        if not types and not functions:
            continue
        anchor = "module." + path.replace("::", ".")
        side.append(f'<li><a href="#{anchor}"><code>{escape(short(path))}</code></a></li>')
        body.append(f'<h3 id="{anchor}"><a href="{path.replace("::", ".")}.html"><code>{escape(short(path))}</code></a></h3>{site.rows_of_types(types, functions)}')
    body.append('<h2 id="start">What it is, and how to take it</h2>' + page.html(more + "\n\n## " + rest))
    body.append(f'<p><a class="more" href="{site.guides["README.md"]}">How to try it, and what is proved</a></p>')
    guides = re.search(r"(?ms)^\[[^\n]*\]\(docs/USING\.md\),.*?^$", readme)
    body.append(markdown.Page(lead).html(site.titled(guides[0] if guides else "", "README.md")))
    site.add("index.html", "fallible_collections for Rattle", "".join(body), "".join([*side, "</ul>"]))


def all_names(site):
    """Every name, by its first letter."""
    ordered = sorted(site.names, key=lambda it: (it[0].lower(), it[1]))
    calls = [it for it in ordered if it[3] != "guide" and it[3] != "word"]
    body, side = ["<h1>All names</h1><p>Types, modules and calls, by their first letters.</p>"], ["<ul>"]
    for letter, group in itertools.groupby(calls, lambda it: it[0][0].upper()):
        side.append(f'<li><a href="#letter-{letter}">{letter}</a></li>')
        inside = "".join(f'<li><a href="{html.escape(to)}"><code>{escape(name)}</code></a> <span class="kind">{escape(where)}</span></li>' for name, where, to, _ in group)
        body.append(f'<h2 id="letter-{letter}">{letter}</h2><ul class="names">{inside}</ul>')
    site.add("names.html", "All names", "".join(body), "".join([*side, "</ul>"]))


def word_pages(site):
    """The definitions that contracts cite, a page for each crate, with all that they cite in turn."""
    linked = {}
    while site.words.ahead:
        it = site.words.ahead.pop()
        linked[it.target] = site.linker.definition(it)
    used = sorted(site.words.used.values(), key=lambda it: (it.crate, it.place, it.name))
    crates = {crate: list(group) for crate, group in itertools.groupby(used, lambda it: it.crate)}
    for crate, group in crates.items():
        one_crate(site, crate, group, linked)
    site.names += [(it.name, f"{it.crate}.{it.module}", f"{it.target.page}#{it.target.anchor}", "word") for it in used]
    body = f'<h1>Words of contracts</h1>{markdown.Page().html(HOW)}<h2 id="library">The library\'s own</h2><dl class="brief">'
    for crate, group in crates.items():
        files = dict.fromkeys(it.module if it.module != "type" else "types" for it in group)
        body += f'<dt><a href="words.{crate}.html"><code>{crate}</code></a> <span class="kind">{len(group)} word{"s" * (len(group) > 1)}</span></dt><dd>{", ".join(files)}</dd>'
    body += f'</dl><h2 id="toolchain">The toolchain\'s</h2><p>Other words are those of Rattle\'s own std: <a href="words.toolchain.html">what they mean</a>.</p>{language(site)}'
    site.add("words.html", "Words of contracts", body)
    toolchain_page(site)


def one_crate(site, crate, group, linked):
    ahead = 'Definitions that contracts cite, and those that these cite. <a href="words.html">How to read a contract</a>.'
    body, side = [f"<h1>Words of <code>{crate}</code></h1><p>{ahead}</p>"], []
    for module, inside in itertools.groupby(group, lambda it: it.module):
        inside = list(inside)
        title = "Types that definitions name" if module == "type" else module
        side.append(f"<h2>{title}</h2><ul>" + "".join(f'<li><a href="#{html.escape(it.target.anchor)}"><code>{escape(it.name)}</code></a></li>' for it in inside) + "</ul>")
        body.append(f'<h2 id="of.{module}">{title}</h2>')
        body += [definition(site, it, linked[it.target]) for it in inside]
    site.add(f"words.{crate}.html", f"Words of {crate}", "".join(body), "".join(side))


def definition(site, word, code):
    """A word with the comment above it and its definition."""
    given = f'<p class="of">for each <code>{escape(" ".join(word.given))}</code></p>' if word.given else ""
    said = markdown.Page().html(word.said) if word.said else ""
    anchor = html.escape(word.target.anchor)
    head = f'<h3><a class="here" href="#{anchor}"><code>{escape(word.name)}</code></a></h3>'
    shown = f'<pre class="clauses" tabindex="0"><code>{in_lines(code)}</code></pre>'
    return f'<section class="word" id="{anchor}">{head}{said}{given}{shown}<p class="from">{site.source_link(word.path, word.line, escape(word.path))}</p></section>'


def language(site):
    """The signs and words that the language has itself."""
    found = [(name, said) for (of, name), said in site.meanings.items() if of == words.LANGUAGE and not name.startswith("T.")]
    made = "".join(f"<dt><code>{escape(name)}</code></dt><dd>{markdown.Page().inline(said)}</dd>" for name, said in found)
    return f'<h2 id="language">The language\'s</h2><dl class="brief">{made}</dl>'


def toolchain_page(site):
    """The words of the toolchain that contracts and definitions cite, by their modules."""
    ordered = sorted(site.words.of_toolchain.items(), key=lambda it: (it[0][0] != words.LANGUAGE, not it[0][0].startswith("Rattle.std.specs."), it[0]))
    ahead = "These are defined by Rattle's std, not here. What they mean in short: the toolchain's own files say it in full."
    body, side = [f"<h1>Words of the toolchain</h1><p>{ahead}</p>"], ["<ul>"]
    for at, (module, group) in enumerate(itertools.groupby(ordered, lambda it: it[0][0])):
        title = "Members of types" if module == words.LANGUAGE else module
        said = lambda of, name: markdown.Page().inline(said_of(site, of, name))
        made = "".join(f'<dt id="{html.escape(anchor)}"><code>{escape(name)}</code></dt><dd>{said(of, name)}</dd>' for (of, name), anchor in group)
        body.append(f'<h2 id="module-{at}">{title if module == words.LANGUAGE else f"<code>{escape(title)}</code>"}</h2><dl class="brief">{made}</dl>')
        side.append(f'<li><a href="#module-{at}"><code>{escape(title.removeprefix("Rattle.std.specs."))}</code></a></li>')
    site.add("words.toolchain.html", "Words of the toolchain", "".join(body), "".join([*side, "</ul>"]))


def said_of(site, module, name):
    plain = name.replace("◌", "") if "then" not in name else name
    return site.meanings.get((module, name)) or site.meanings.get(("", plain)) or "the toolchain's"
