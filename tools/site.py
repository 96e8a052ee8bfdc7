#!/usr/bin/env python3
"""Makes a site of the library's calls, words and pages, as plain HTML that opens from a folder. Needed to read the calls by type, or where a public call has
no text.

  tools/site.py [--check]         makes it and writes nothing; it fails at a link that leads nowhere, a word of a contract without a definition, a public call
                               without a text or an example, and HTML that is not well-formed
  tools/site.py --write FOLDER    makes it in a folder, which is new, empty or of an earlier site
  tools/site.py --browser FOLDER  opens each page of a site in headless chromium and looks for errors, whether the search finds its way, and whether it finds each
                               public call, with an example and a link to its source

What is public is read from what `fallible_collections` hands on, and from the crates beside it; texts and contracts from the sources, definitions from
`specs/`, guides from the repository's pages, examples from tests, where '// example: BTreeMap::get' and '// end' mark them (tools/site_pages/examples.py). tools/site_pages/ has its parts, and toolchain.txt there what words of the toolchain mean."""
import json
import pathlib
import shutil
import sys

sys.dont_write_bytecode = True
from site_pages import check, found, lists, pages

top = pathlib.Path(__file__).resolve().parent.parent
FILES = ["site.css", "search.js"]


def made():
    """The site: its pages by their names, and what is wrong with them."""
    site = pages.Site(top)
    for path in site.homes:
        site.module_page(path)
    for it in site.surface.types:
        site.type_page(it)
    for path, page in site.guides.items():
        site.guide(path, page)
    site.list_of_guides()
    lists.word_pages(site)
    lists.all_names(site)
    lists.first_page(site)
    site.source_pages()
    pictures = sorted(top.glob("docs/*.svg"))
    wrong = site.lacking + [f"no definition of a word: {it}" for it in dict.fromkeys(site.linker.lacking)]
    wrong += check.wrong_in(site.pages, {*FILES, *(it.name for it in pictures)})
    return site, pictures, wrong


def write(folder, site, pictures):
    """Puts the site into a folder, in the place of an earlier one."""
    if folder.exists() and not folder.is_dir():
        sys.exit(f"tools/site.py: {folder} is no folder")
    folder.mkdir(parents=True, exist_ok=True)
    there = [it.name for it in folder.iterdir()]
    if there and "search.js" not in there:
        sys.exit(f"tools/site.py: {folder} has files that are of no earlier site")
    for it in folder.glob("*.html"):
        it.unlink()
    for name, text in site.pages.items():
        (folder / name).write_text(text)
    for it in pictures:
        shutil.copyfile(it, folder / it.name)
    shutil.copyfile(pages.here / "site.css", folder / "site.css")
    names = json.dumps(found.entries(site), ensure_ascii=False, separators=(",", ":"))
    (folder / "search.js").write_text(f"const NAMES = {names};\n{(pages.here / 'search.js').read_text()}")


def main(asked):
    if asked[:1] == ["--browser"] and len(asked) == 2:
        from site_pages import browser

        return browser.main(pathlib.Path(asked[1]))
    if asked not in ([], ["--check"]) and not (asked[:1] == ["--write"] and len(asked) == 2):
        sys.exit(__doc__)
    site, pictures, wrong = made()
    if wrong:
        sys.exit("\n".join(f"tools/site.py: {it}" for it in wrong))
    if asked[:1] == ["--write"]:
        write(pathlib.Path(asked[1]), site, pictures)
    calls = sum(it[3] == "call" for it in site.names)
    print(f"{len(site.pages)} pages, {len(site.surface.types)} types, {calls} calls, {len(site.words.used)} definitions")


main(sys.argv[1:])
