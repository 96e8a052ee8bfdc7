"""Turns the Markdown that the repository's pages and comments are written in into HTML."""
import html
import re

INLINE = re.compile(
    r"(?P<ticks>`+)(?P<code>.+?)(?P=ticks)"
    r"|(?P<image>!?)\[(?P<text>(?:`[^`]*`|[^\[\]]|\[[^\]]*\])*)\]\((?P<to>[^()\s]+)\)"
    r"|\*\*(?P<bold>.+?)\*\*|(?<![\w*])\*(?P<italic>[^\s*](?:[^*]*[^\s*])?)\*(?!\w)"
    r"|(?P<url>https?://[^\s)>]+)",
    re.S,
)
FENCE = re.compile(r"(?ms)^( *)```(\w*)\n(.*?)^\1```$")
ITEM = re.compile(r"( *)([-*]|\d+\.) +")


def slug(text, taken):
    """The anchor of a heading, as the hosts of repositories make it."""
    plain = re.sub(r"\[([^\]]*)\]\([^)]*\)", r"\1", text)
    made = re.sub(r"[^\w\- ]", "", plain.lower().replace("`", "")).replace(" ", "-")
    count = taken.get(made, 0)
    taken[made] = count + 1
    return f"{made}-{count}" if count else made


class Page:
    """One text on its way to HTML. `lead` makes an address of a link's target, or none; `lead_code` one of a text in code, or none."""

    def __init__(self, lead=lambda to: to, lead_code=lambda code: None, top_level=1):
        self.lead, self.lead_code, self.top_level = lead, lead_code, top_level
        self.headings, self.taken, self.row_id = [], {}, lambda heading, cell: ""

    def html(self, text):
        text = re.sub(r"(?m)^<!-- (?:proved|caller): \S+ ([^\n]+) -->$", r"@@ \1", text)  # a place that calls lead to
        kept = [re.sub(r"(?s)<!--.*?-->\n?", "", it) if at % 4 == 0 else it for at, it in enumerate(FENCE.split(text))]
        whole = "".join(it if at % 4 == 0 else "" if at % 4 != 3 else f"{kept[at - 2]}```{kept[at - 1]}\n{it}{kept[at - 2]}```" for at, it in enumerate(kept))
        return self.blocks(whole.splitlines())

    def blocks(self, lines):
        """The blocks of some lines, one after another."""
        made, at = [], 0
        while at < len(lines):
            line = lines[at]
            kind = self.kind(line)
            end = at + 1
            if kind == "fence":
                end = next((i for i in range(at + 1, len(lines)) if lines[i].strip() == "```"), len(lines)) + 1
            elif kind == "item":
                end = self.end_of_list(lines, at)
            elif kind == "indented":
                while end < len(lines) and (not lines[end].strip() or lines[end].startswith("    ")):
                    end += 1
            elif kind in ("table", "text"):
                while end < len(lines) and self.kind(lines[end]) == kind:
                    end += 1
            if kind != "blank":
                made.append(getattr(self, kind)(lines[at:end]))
            at = end
        return "\n".join(made)

    def kind(self, line):
        if not line.strip():
            return "blank"
        if line.strip().startswith("```"):
            return "fence"
        if line.startswith("@@ "):
            return "place"
        if re.match(r"#{1,6} ", line):
            return "heading"
        if line.startswith("|"):
            return "table"
        if ITEM.match(line) and not line.startswith("    "):
            return "item"
        return "indented" if line.startswith("    ") else "text"

    def end_of_list(self, lines, at):
        """Where a list ends: at the first line that is neither of its indent nor an item."""
        end = at + 1
        while end < len(lines):
            line = lines[end]
            if not line.strip():
                rest = next((it for it in lines[end:] if it.strip()), "")
                if not (rest.startswith("  ") or ITEM.match(rest)):
                    break
            elif not line.startswith("  ") and not ITEM.match(line) and self.kind(line) != "text":
                break
            end += 1
        return end

    def place(self, lines):
        """The places of the functions that stand below."""
        new = [it for it in lines[0].split()[1:] if not self.taken.setdefault(f"proved.{it}", 0)]
        self.taken |= {f"proved.{it}": 1 for it in new}
        return "".join(f'<span id="proved.{it}"></span>' for it in new)

    def fence(self, lines):
        indent = len(lines[0]) - len(lines[0].lstrip())
        return self.code([it[indent:] for it in lines[1:-1]])

    def indented(self, lines):
        return self.code("\n".join(it[4:] for it in lines).rstrip().splitlines())

    def code(self, lines):
        return f'<pre tabindex="0"><code>{html.escape(chr(10).join(lines))}</code></pre>'

    def heading(self, lines):
        marks, _, text = lines[0].partition(" ")
        level = min(6, len(marks) + self.top_level - 1)
        anchor = slug(text, self.taken)
        self.headings.append((level, anchor, self.inline(text)))
        return f'<h{level} id="{anchor}">{self.inline(text)}</h{level}>'

    def text(self, lines):
        return f"<p>{self.inline(chr(10).join(it.strip() for it in lines))}</p>"

    def item(self, lines):
        """A list, whose items may have blocks of their own."""
        items, tag = [], "ol" if re.match(r" *\d", lines[0]) else "ul"
        indent = len(ITEM.match(lines[0])[1])
        for line in lines:
            found = ITEM.match(line)
            if found and len(found[1]) <= indent:
                items.append([line[found.end() :]])
            else:
                items[-1].append(re.sub(r"^ {1,3}", "", line) if line.startswith(" ") else line)
        made = "".join(f"<li>{self.loose(it)}</li>\n" for it in items)
        return f"<{tag}>\n{made}</{tag}>"

    def loose(self, lines):
        """The blocks of an item, where the first paragraph stands bare."""
        return re.sub(r"^<p>(.*?)</p>", r"\1", self.blocks(lines), count=1, flags=re.S)

    def table(self, lines):
        rows = [self.cells(it) for it in lines if not re.fullmatch(r"\|[-:| ]+\|", it.strip())]
        if len(rows) == len(lines):
            return self.rows(rows, "td")
        return f'<div class="wide" tabindex="0"><table><thead>{self.rows(rows[:1], "th")}</thead><tbody>{self.rows(rows[1:], "td")}</tbody></table></div>'

    def rows(self, rows, tag):
        scope = ' scope="col"' if tag == "th" else ""
        return "".join(f"<tr{self.id_of(row) * (tag == 'td')}>" + "".join(f"<{tag}{scope}>{self.inline(it)}</{tag}>" for it in row) + "</tr>\n" for row in rows)

    def id_of(self, row):
        """The address of a row that something leads to."""
        made = self.row_id(self.headings[-1][1] if self.headings else "", row[0])
        if not made or made in self.taken:
            return ""
        self.taken[made] = 1
        return f' id="{html.escape(made)}"'

    def cells(self, line):
        inside = line.strip().removeprefix("|").removesuffix("|")
        return [it.strip().replace("\\|", "|") for it in re.split(r"(?<!\\)\|", inside)]

    def inline(self, text):
        made, at = [], 0
        for found in INLINE.finditer(text):
            made += [html.escape(text[at : found.start()], quote=False), self.piece(found)]
            at = found.end()
        return "".join([*made, html.escape(text[at:], quote=False)])

    def piece(self, found):
        """One piece of a line that is no plain text."""
        if found["code"]:
            code = found["code"].strip() if found["ticks"] != "`" else found["code"]
            to = self.lead_code(code)
            shown = f"<code>{html.escape(code, quote=False)}</code>"
            return f'<a href="{html.escape(to)}">{shown}</a>' if to else shown
        if found["to"]:
            to = self.lead(found["to"])
            if found["image"]:
                return f'<img src="{html.escape(to or found["to"])}" alt="{html.escape(found["text"])}">'
            inside = Page(self.lead).inline(found["text"])
            return f'<a href="{html.escape(to)}">{inside}</a>' if to else inside
        if found["url"]:
            return f'<a href="{html.escape(found["url"])}">{html.escape(found["url"])}</a>'
        return f"<strong>{self.inline(found['bold'])}</strong>" if found["bold"] else f"<em>{self.inline(found['italic'])}</em>"
