"""Opens each page of a site in headless chromium: no error in its console, no page wider than its window, and a search that finds its way; and at each public
call there is an example and a link to its source, and the search finds the call by its name and its type."""
import json
import pathlib
import re
import shutil
import subprocess
import sys
import tempfile

WIDTHS = (400, 1400)
MAP, STD = "fallible_collections.btree.map.BTreeMap.html", "guide.FROM_STD.html"
SOUGHT = {
    "try_insert": f"{MAP}#try_insert",
    "insert": f"{MAP}#try_insert",
    "entry": "fallible_collections.btree.map.Entry.html",
    "btreemap::range": f"{MAP}#range",
    "btreemap::insert": f"{MAP}#try_insert",
    "or_insert": f"{STD}#std.btreemap.or_insert",
    "or_insert_with": f"{STD}#std.btreemap.or_insert_with",
    "from_iter": f"{STD}#std.btreemap.from_iter",
    "frames of the job": "guide.USING.html#stack",
}
TEST = """<!doctype html><meta charset="utf-8"><title>test</title><pre id="told"></pre><script>
const pages = %s, widths = %s, sought = %s, calls = %s, site = %s, told = [];
const opened = (page, width) => new Promise((done) => {
  const frame = document.createElement("iframe");
  frame.style.cssText = "border:0;height:900px;width:" + width + "px";
  frame.onload = () => done(frame);
  frame.src = site + page;
  document.body.append(frame);
});
const press = (at, key) => at.dispatchEvent(new at.ownerDocument.defaultView.KeyboardEvent("keydown", { key, bubbles: true, cancelable: true }));
function seek(inside, text) {
  const field = inside.document.getElementById("search");
  field.value = text;
  field.dispatchEvent(new inside.Event("input"));
  return [...inside.document.querySelectorAll("#found a")].map((it) => it.href);
}
// What a call's place on its page lacks.
function lacks(root, anchor) {
  const place = root.getElementById(anchor), section = place && place.closest("section.call");
  if (!section) return "a place";
  const counted = section.closest("details.counted"), shown = counted ? counted.closest("section.call, main") : section;
  if (!section.querySelector("a.source")) return "a link to its source";
  return section.querySelector(".example pre") || shown.querySelector(".example pre") ? "" : "an example";
}
async function look() {
  for (const width of widths) for (const page of pages) {
    const frame = await opened(page, width), root = frame.contentDocument.documentElement;
    for (const it of frame.contentDocument.querySelectorAll("details")) it.open = true;
    if (root.scrollWidth > root.clientWidth) told.push(page + " is " + root.scrollWidth + " wide in " + root.clientWidth);
    for (const [name, to] of width === widths[0] ? calls.filter((it) => it[1].startsWith(page + "#")) : []) {
      const lacking = lacks(frame.contentDocument, to.split("#")[1]);
      if (lacking) told.push(name + " has not " + lacking + " at " + to);
    }
    frame.remove();
  }
  const frame = await opened("index.html", widths[0]);
  for (const [name, to] of calls) if (!seek(frame.contentWindow, name).slice(0, 3).some((it) => it.endsWith(to))) told.push(name + " does not find " + to);
  frame.remove();
  for (const [text, to] of Object.entries(sought)) {
    const frame = await opened("index.html", widths[0]), inside = frame.contentWindow, field = inside.document.getElementById("search");
    press(inside.document.body, "/");
    if (inside.document.activeElement !== field) told.push("/ does not lead to the search");
    const first = seek(inside, text)[0];
    if (!first || !first.endsWith(to)) told.push(text + " finds " + (first || "nothing") + " and not " + to);
    const gone = new Promise((done) => { frame.onload = done; setTimeout(done, 5000); });
    field.form.requestSubmit();
    await gone;
    if (!frame.contentWindow.location.href.endsWith(to)) told.push(text + " goes to " + frame.contentWindow.location.href);
    frame.remove();
  }
  document.getElementById("told").textContent = JSON.stringify(told);
}
look().catch((wrong) => { document.getElementById("told").textContent = JSON.stringify([...told, String(wrong)]); });
</script>"""


def calls_in(folder):
    """The public calls that users make, by their type and name, each with its address: those that the search has, but of impls of traits."""
    names = json.loads(re.match(r"const NAMES = (.*);\n", (folder / "search.js").read_text())[1])
    return [(f"{where}::{name}".lower(), to) for name, where, to, kind, *_ in names if kind == "call" and " as " not in where and not where.startswith("bounds")]


def main(folder):
    program = next((it for it in map(shutil.which, ("chromium", "chromium-browser", "google-chrome")) if it), None)
    if program is None:
        sys.exit("tools/site.py: chromium is not on the path (Debian has it as `chromium`)")
    pages = sorted(it.name for it in folder.glob("*.html"))
    if not pages:
        sys.exit(f"tools/site.py: {folder} has no pages; tools/site.py --write {folder} makes them")
    calls = calls_in(folder)
    with tempfile.TemporaryDirectory() as inside:
        test = pathlib.Path(inside) / "test.html"
        test.write_text(TEST % (*map(json.dumps, (pages, WIDTHS, SOUGHT, calls)), json.dumps(folder.resolve().as_uri() + "/")))
        flags = ["--headless=new", "--disable-gpu", "--allow-file-access-from-files", f"--user-data-dir={inside}/profile"]
        flags += ["--enable-logging=stderr", "--virtual-time-budget=600000"]
        run = subprocess.run([program, "--no-sandbox", *flags, "--dump-dom", test.as_uri()], capture_output=True, text=True, timeout=1800)
    found = re.search(r'<pre id="told">(.*?)</pre>', run.stdout, re.S)
    wrong = json.loads(found[1]) if found and found[1] else ["the test did not end"]
    wrong += [f"the console: {it}" for it in re.findall(r"CONSOLE[^\n]*?\] (.*)", run.stderr)]
    if wrong:
        sys.exit("\n".join(f"tools/site.py: {it}" for it in wrong))
    print(f"{len(pages)} pages open at {' and '.join(map(str, WIDTHS))} pixels without an error, the search finds its way, and each of {len(calls)} calls")
    print("is found by its name, with an example and a link to its source")
