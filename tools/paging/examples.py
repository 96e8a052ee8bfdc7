"""The examples that CALLING.md of a crate has: those of each call whose contract it quotes. Needed where their form changes; tools/site_pages/examples.py finds
them, and tells a call that has none."""
import functools

from paging.quoted import contracts_of
from paging.sources import top
from site_pages import pages


@functools.cache
def site():
    return pages.Site(top)


def example(it, number):
    """An example: the calls that it shows, where it stands, and its lines."""
    calls = ", ".join(f"`{name.removeprefix('btree::')}`" for name in it.calls)
    return f"{number}. {calls}\n\n<!-- example: {it.path} {it.calls[0]} -->\n```rust\n{it.text}\n```"


def examples_of(text):
    """The examples of the calls whose contracts a page quotes."""
    files, known = {*contracts_of(text)}, site()
    shown = {call for call, path in known.files_of_calls.items() if path in files}
    found = [it for it in known.examples.all if any(it in known.examples.of.get(call, ()) for call in shown)]
    return "\n\n".join(example(it, at) for at, it in enumerate(found, 1))
