"""Writes the repository's own pages: the guide of the site."""
import html
import pathlib
import re

from . import calls, found, markdown


def escape(text):
    return html.escape(str(text), quote=False)


class Guides:
    """The part of the site that the repository's pages make. It has `top`, `guides`, `names` and `add` of the whole."""

    def find_guides(self):
        """The pages of the repository that the site has, by their paths."""
        found = {"README.md": "guide.README.html"}
        found |= {str(it.relative_to(self.top)): f"guide.{it.stem}.html" for it in sorted(self.top.glob("docs/*.md"))}
        for pattern in ("fallible_collections", "fc_*", "bounded_lines", "example_*", "fcrun*"):
            for it in sorted(self.top.glob(f"crates/{pattern}/*.md")):
                found[str(it.relative_to(self.top))] = f"{it.stem.lower() if it.stem != 'README' else 'crate'}.{it.parent.name}.html"
        found |= {str(it.relative_to(self.top)): f"example.{it.parent.name}.html" for it in sorted(self.top.glob("examples/*/README.md"))}
        readme = (self.top / "README.md").read_text().partition("## I want to")[2]
        return dict(sorted(found.items(), key=lambda it: -1 if it[0] == "README.md" else readme.find(f"({it[0]}") % (1 << 30)))

    def lead_from(self, path):
        """Makes addresses of the links of a page of the repository: to a page of the site, or to none."""
        folder = pathlib.PurePosixPath(path).parent

        def lead(to):
            if re.match(r"\w+:", to):
                return to
            named, mark, anchor = to.partition("#")
            if not named:
                return to
            parts = []
            for it in (folder / named).parts:
                parts = parts[:-1] if it == ".." else [*parts, it]
            target = "/".join(parts)
            if target.startswith("docs/") and target.endswith(".svg"):
                return pathlib.PurePosixPath(target).name
            return self.guides[target] + mark + anchor if target in self.guides else None

        return lead

    def titled(self, text, path):
        """A text of a page whose links that are named by a page's path are named by its title."""
        folder = (self.top / path).parent

        def title(found):
            file = folder / found[2]
            heading = re.search(r"(?m)^# (.+)$", file.read_text()) if file.is_file() and file.suffix == ".md" else None
            return f"[{heading[1]}]({found[2]})" if heading else found[0]

        return re.sub(r"\[(`?)([\w./-]+\.md)\1\]\(\2\)", title, text)

    def guide(self, path, page):
        text = self.titled((self.top / path).read_text(), path)
        made = markdown.Page(self.lead_from(path), lambda code: self.guides.get(code) if code != path else None)
        made.row_id = found.row_id if path == found.FROM_STD else made.row_id
        body = made.html(text)
        title = re.sub(r"<[^>]*>", "", made.headings[0][2]) if made.headings else path
        listed = "".join(f'<li><a href="{self.guides[it]}"{" aria-current=page" if it == path else ""}>{self.title_of(it)}</a></li>' for it in self.guides if "/" not in it or it.startswith("docs/"))
        inside = "".join(f'<li><a href="#{anchor}">{re.sub("</?a[^>]*>", "", said)}</a></li>' for level, anchor, said in made.headings if level == 2)
        side = f"<h2>On this page</h2><ul>{inside}</ul>" * bool(inside) + f"<h2>Guide</h2><ul>{listed}</ul>"
        self.add(page, html.unescape(title), f'<p class="from">{escape(path)}</p>{body}', side)

    def plain_title(self, path):
        return re.search(r"(?m)^# (.+)$", (self.top / path).read_text())[1].replace("`", "")

    def title_of(self, path):
        return markdown.Page(lambda to: None).inline(re.search(r"(?m)^# (.+)$", (self.top / path).read_text())[1])

    def list_of_guides(self):
        """The page that leads to the repository's pages."""
        groups = [("The library", lambda it: "/" not in it or it.startswith("docs/")), ("Calls and contracts of each crate", lambda it: it.endswith(("CALLING.md", "COUNTED.md")))]
        groups += [("Programs over it", lambda it: "/example_" in it or it.startswith("examples/")), ("Its crates", lambda it: it.endswith("README.md"))]
        body, left = ["<h1>Guide</h1>"], [*self.guides]
        for title, is_in in groups:
            rows = "".join(f'<dt><a href="{self.guides[it]}">{self.title_of(it)}</a></dt><dd>{self.opening_of(it)}</dd>' for it in left if is_in(it))
            body.append(f'<h2>{title}</h2><dl class="brief">{rows}</dl>')
            left = [it for it in left if not is_in(it)]
        self.add("guide.html", "Guide", "".join(body))

    def opening_of(self, path):
        """The first sentence of a page."""
        texts = [it for it in (self.top / path).read_text().split("\n\n")[1:] if re.match(r"[\w`*'\"(\[]", it)]
        return markdown.Page(lambda to: None).inline(calls.first_sentence(re.sub(r"<!--.*?-->", "", texts[0]).splitlines())) if texts else ""
