"""Writes what is told of a type, a trait, a module's functions and their calls."""
import html
import re

from surface import COUNTED, COUNTED_FORMS

from . import markdown, surface as surfaces, traits

ERRORS = r"\b(TryReserveError|AllocError|ServeError|Reply)\b|\bio::Result\b"
SHOWN_AS = {"io::Result": "io::Error"}


def escape(text):
    return html.escape(str(text), quote=False)


def first_sentence(lines):
    """The first sentence of a comment, without its last sign."""
    paragraph = " ".join(lines).partition("  ")[0] if "" not in lines else " ".join(lines[: lines.index("")])
    return re.split(r"(?<=[.:;])\s", paragraph, maxsplit=1)[0].rstrip(".:;")


def answer(sign):
    """The type of what a call answers."""
    return re.split(r"\n\s*where\b|\bwhere\n", sign)[0].rpartition("->")[2]


def in_lines(text):
    """Code whose lines are broken where they are too long, and go on further in."""
    return "".join(f'<span class="line">{it}\n</span>' for it in text.split("\n"))


class Calls:
    """Writes calls with their signatures, texts, marks and contracts."""

    def __init__(self, site):
        self.site, self.surface, self.linker = site, site.surface, site.linker
        self.ids = set()

    # What a page has.

    def start(self, public=None, path=""):
        """Begins a page, of a type or of a module, whose addresses are all new."""
        self.ids, self.page_calls, self.side = set(), {}, []
        self.page, self.shown_at = (public.page, public.home.partition("::")[2]) if public else ("", "")
        self.shown_in = public.home if public else path
        if public:
            for it, _, _ in self.inherent(public):
                self.page_calls.setdefault(it.name, it.name)

    def anchor(self, name):
        """An address on the page that no other place of it has."""
        made, count = name, 1
        while made in self.ids:
            count += 1
            made = f"{name}-{count}"
        self.ids.add(made)
        return made

    def inherent(self, public):
        """The public calls of a type's own impls, or of a trait: each with its impl and its module."""
        if public.item.kind == "trait":
            return [(it, public.item, public.module) for it in self.shown(public.item, public.module)]
        found = []
        for impl, module in public.impls:
            if not surfaces.parts_of_impl(impl.text)[0]:
                found += [(it, impl, module) for it in self.shown(impl, module) if it.is_public]
        return found

    def shown(self, owner, module):
        """The functions of an impl or a trait that a user can call: those that name no type which is the library's own."""
        return [it for it in owner.of_kind("fn") if not self.surface.is_hidden(module, it.text)]

    # Texts.

    def prose(self, lines):
        """A comment as HTML, where the heads of its parts are bold."""
        text = re.sub(r"(?m)^#+ (.+)$", r"\n**\1.**\n", "\n".join(lines))
        return markdown.Page(lambda to: to, self.lead_code).html(text)

    def lead_code(self, code):
        """Where a text in code leads that names a call of the page, or a type."""
        if code in self.page_calls:
            return "#" + self.page_calls[code]
        page = self.site.type_pages.get(code)
        return page if page != self.page else None

    def parts(self, doc):
        """The parts of a comment: what is before its errors, and these."""
        at = next((i for i, it in enumerate(doc) if it.strip() == "# Errors"), len(doc))
        end = next((i for i in range(at + 1, len(doc)) if doc[i].startswith("# ")), len(doc))
        return doc[:at] + doc[end:], doc[at + 1 : end]

    def sign(self, text, module):
        """A signature with its types linked."""
        def lead(found):
            item, is_public = self.surface.named(module, found[0])
            if item is None or not is_public or item.kind not in surfaces.TYPES or self.surface.public[id(item)].page == self.page:
                return escape(found[0])
            return f'<a href="{self.surface.public[id(item)].page}">{escape(found[0])}</a>'

        parts = re.split(r"(\b(?:\w+::)*[A-Z]\w*)", text)
        return "".join(lead(re.match(r"(?s).*", it)) if at % 2 else escape(it) for at, it in enumerate(parts))

    # Refusals.

    def errors(self, call, owner):
        """The errors by which a call may be refused."""
        found = re.search(ERRORS, answer(call.text)) if "->" in call.text else None
        if not found or self.is_never_refused(call, owner):
            return []
        return [SHOWN_AS.get(found[0], found[0])]

    def is_never_refused(self, call, owner):
        """Whether a call is never refused although its type has the error."""
        trait, of = surfaces.parts_of_impl(owner.text) if owner is not None and owner.kind == "impl" else ("", owner.name if owner is not None else "")
        ghosts = [it.text for it in owner.of_kind("ghost")] if owner is not None else []
        is_clear = any(re.match(r"ghost (is_infallible = \{ λ _\. ⊤ \}|may_refuse = \{ λ _ _\. ⊥ \})", it) for it in ghosts)
        heads = {surfaces.head_of(of), of.split("<")[0]}
        return is_clear or any(f"{head}::{call.name}" in self.site.never_refused for head in heads if head)

    def mark(self, call, owner):
        errors = self.errors(call, owner)
        if not errors:
            return '<span class="mark never">never refused</span>'
        said = "takes memory" if self.site.promise(call, owner) else "may be refused"
        return f'<span class="mark may">{said}: {", ".join(errors)}</span>'

    # Calls.

    def contract(self, call, owner, module):
        """The clauses of a call behind a fold."""
        if not call.clauses:
            return ""
        clauses = in_lines("\n".join(self.linker.clause(it, owner, call, module) for it in call.clauses))
        count = len(call.clauses)
        return f'<details class="contract"><summary>Contract of <code>{call.name}</code>, {count} clause{"s" * (count > 1)}</summary><pre tabindex="0" class="clauses"><code>{clauses}</code></pre></details>'

    def call(self, call, owner, module, level, prefix="", of_std=False):
        """A call with all that is told of it."""
        anchor = self.anchor(prefix + call.name)
        said, refused = self.parts(call.doc)
        errors = self.errors(call, owner)
        source = self.site.source_link(module.path, call.line)
        head = f'<h{level} id="{anchor}"><a class="here" href="#{anchor}"><code>{call.name}</code></a> {"" if of_std and not errors else self.mark(call, owner)} {source}</h{level}>'
        bounds = f'<p class="of"><code>{self.sign(owner.text, module)}</code></p>' if owner is not None and owner.kind == "impl" and not of_std else ""
        when = ""
        if errors and not refused and not of_std:
            refused = self.site.when_refused(call, owner)
            self.site.lacking += [f"nothing says when {call.name} of {self.page or module.path} is refused"] * (not refused and "efused" not in " ".join(call.doc))
        if refused and not errors:
            said, refused = [*said, "", "**Errors.** " + " ".join(refused).strip()], []
        if refused:
            when = f'<div class="when"><p class="title">When it is refused, by <code>{", ".join(errors)}</code></p>{self.prose(refused)}</div>'
        if of_std and not call.doc:
            said = self.as_trait(call, owner, module)
        sign = f'<pre tabindex="0" class="sign"><code>{self.sign(call.text, module)}</code></pre>'
        shown = "" if of_std else self.examples(call, owner)
        return f'<section class="call">{head}{bounds}{sign}{self.prose(said)}{when}{shown}{self.contract(call, owner, module)}</section>'

    def examples(self, call, owner):
        """What shows a call in use: lines of tests, and functions that have a contract of their own."""
        of = f"{self.shown_in}::{call.name}"
        made = ""
        for it in self.site.examples.find(of)[:2]:
            test = self.site.source_link(it.path, it.line, "a test")
            made += f'<figure class="example"><figcaption>Example, of {test}</figcaption><pre tabindex="0"><code>{escape(it.text)}</code></pre></figure>'
        name = "" if owner is None else self.shown_in.rpartition("::")[2]
        callers = self.site.callers_of(name, call.name)
        return made + (f'<p class="callers">Called with a contract in {", ".join(callers)}</p>' if callers else "")

    def as_trait(self, call, owner, module):
        """What is said of a call that a trait of the library has: where it is told there."""
        trait = surfaces.head_of(surfaces.parts_of_impl(owner.text)[0])
        public = self.surface.public.get(id(self.surface.named(module, trait)[0]))
        return [f"As [`{public.name}::{call.name}`]({public.page}#{call.name}) says."] if public else []

    def summary(self, calls):
        """The list of calls: each by its name and what its first sentence says."""
        rows = []
        for it, owner, _ in calls:
            mark = ' <span class="dot">may be refused</span>' if self.errors(it, owner) else ""
            said = markdown.Page().inline(first_sentence(it.doc))
            rows.append(f'<dt><a href="#{self.page_calls.get(it.name, it.name)}"><code>{it.name}</code></a></dt><dd>{said}{mark}</dd>')
        return f'<dl class="brief">{"".join(rows)}</dl>'

    def calls_of(self, public):
        """The calls of a type or a trait, under the headings that the page of its crate groups files by."""
        calls = self.inherent(public)
        plain = {it.name for it, _, _ in calls}
        is_counted = lambda it: it.name.endswith(COUNTED) and it.name.rpartition("_")[0] in plain
        counted = {it[0].name: it for it in calls if is_counted(it[0])}
        groups = {}
        for it in calls:
            if not is_counted(it[0]):
                groups.setdefault(self.site.group(it[2].path), []).append(it)
        ordered = sorted(groups.items())
        level = 4 if len(groups) > 1 else 3
        made = [self.summary([it for _, group in ordered for it in group])] if len(calls) > 3 else []
        for (_, title), group in ordered:
            if len(groups) > 1:
                made.append(f'<h3 id="{self.anchor("group-" + markdown.slug(title, {}))}">{markdown.Page().inline(title)}</h3>')
            for it, owner, module in group:
                text = self.call(it, owner, module, level)
                for form in COUNTED:
                    if it.name + form in counted:
                        inner, said = self.call(*counted[it.name + form], level + 1), markdown.Page().inline(COUNTED_FORMS[form])
                        text += f'<details class="counted"><summary><code>{it.name}{form}</code>: the same, {said}</summary>{inner}</details>'
                made.append(text)
        return "".join(made), ordered

    # Impls and ghost members.

    def ghosts(self, owner, module, with_anchors=False):
        """What an impl or a trait says for contracts alone."""
        made = []
        for it in owner.of_kind("ghost"):
            said = self.prose(it.remarks) if it.remarks else ""
            code = f'<pre tabindex="0" class="clauses"><code>{in_lines(self.linker.clause(it.text.rstrip(";"), owner, None, module))}</code></pre>'
            anchor = f' id="{self.anchor("ghost." + it.name)}"' if with_anchors else ""
            made.append(f'<div class="ghost"{anchor}>{said}{code}</div>')
        return "".join(made)

    def impl(self, impl, module, of_trait):
        """An impl of a trait behind a fold."""
        trait, of = surfaces.parts_of_impl(impl.text)
        name = re.sub(r"\W+", "-", f"impl-{of if of_trait else trait}").strip("-")
        anchor = self.anchor(name)
        self.side.append((of if of_trait else trait, anchor))
        functions = self.shown(impl, module)
        if not of_trait:
            self.site.names += [(it.name, f"{self.shown_at} as {surfaces.head_of(trait)}", f"{self.page}#{anchor}.{it.name}", "call") for it in functions]
        calls = "".join(self.call(it, impl, module, 3, f"{anchor}.", of_std=True) for it in functions)
        types = "".join(f'<pre class="sign" tabindex="0"><code>{self.sign(it.text, module)}</code></pre>' for it in impl.of_kind("type"))
        mark = "" if not any(self.errors(it, impl) for it in functions) else ' <span class="mark may">may be refused</span>'
        inside = self.prose(impl.doc) + types + self.ghosts(impl, module) + calls
        said = markdown.Page().inline(traits.in_words(impl.text, of_trait))
        told = f' <span class="kind">{said}</span>' * bool(said) + f" {self.site.source_link(module.path, impl.line)}"
        if not inside:
            return f'<p class="impl bare" id="{anchor}"><code>{self.sign(impl.text, module)}</code>{told}</p>'
        return f'<details class="impl" id="{anchor}"><summary><code>{self.sign(impl.text, module)}</code>{mark}{told}</summary>{inside}</details>'

    def impls_of(self, public):
        """The traits of a type, derived ones first; of a trait the types that have it."""
        of_trait = public.item.kind == "trait"
        pairs = [(it, module) for it, module in public.impls if surfaces.parts_of_impl(it.text)[0] and surfaces.parts_of_impl(it.text)[0] != "Model"]
        derived = re.findall(r"\w+", " ".join(re.findall(r"derive\(([^)]*)\)", public.item.attributes)))
        crosses = self.surface.crossing.get(id(public.item), "")
        if not pairs and not derived and not crosses:
            return ""
        title = "Types that have it" if of_trait else "Traits"
        made = [f'<h2 id="{self.anchor("traits")}">{title}</h2>']
        self.side = []
        if derived:
            rows = "".join(f"<li>{markdown.Page().inline(it)}</li>" for it in traits.derived(derived))
            made.append(f"<p>Derived, as each of its parts has them:</p><ul>{rows}</ul>")
        if crosses:
            made.append(f"<p>{crosses}, where what it holds is: a test asks it of numbers.</p>")
        return "".join(made) + "".join(self.impl(it, module, of_trait) for it, module in pairs)
