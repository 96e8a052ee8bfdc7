#!/usr/bin/env python3
"""Looks for what could lose a block of memory, which no contract refuses. Needed where it tells a place: what is let go there has to be dropped.

Types are linear: a value whose type has no `Drop` is moved on, or taken apart by a pattern that names each field. The room of a list is such a value, a `Row`.
So a block is lost only by what lets go of a value without dropping it, by a derived `Drop` of a type that itself owns memory, which forgets what it owns,
or where such a type is taken apart. In the crates of the library none of the first stands, no type that owns memory derives `Drop`, and one is taken apart
in the functions of APART alone. Each place where it is otherwise is told, and the status is 1."""
import pathlib
import re
import sys

TOP = pathlib.Path(__file__).resolve().parent.parent / "crates"
LOSES = r"\b(?:forget|ManuallyDrop|leak|into_raw\w*)\b"
# What gives the room of a row back.
APART = {("fc_tree_slots/src/raw.rt", "free")}
# A file in which so many of the above are to be seen.
MANY = 5
PLANTED = """
#[derive_where(Debug, Drop)]
/// Room that an allocator gave.
pub struct Room<A> {
    start: *mut A,
}

impl<A> Model for Room<A> {
    ghost also_owns = { λ r. owned r };
}

fn lose<A>(room: Room<A>, list: Vec<u8>) {
    let Room { start: _ } = room;
    mem::forget(list);
}

fn lose_another<A>(Room { start: _ }: Room<A>) {}

fn lose_either<A>(room: Option<Room<A>>) {
    if let Some(Room { start: _ }) = room {}
}
"""


def code(text):
    """The text without comments and texts in quotes."""
    return re.sub(r'//[^\n]*|"(?:\\.|[^"\\])*"', "", text)


def owners(text):
    """The types of a file that own memory themselves: those of which a model says so, but of nothing."""
    models = re.finditer(r"(?ms)^impl[^{]*\bModel for (\w+).*?^\}", text)
    return {it[1] for it in models if re.search(r"also_owns = \{ (?!λ _\. ftrue \})", it[0])}


def lost(name, text, owning):
    """What may lose a block in a file, by the types that own memory."""
    function = lambda at: [it[1] for it in re.finditer(r"\bfn (\w+)", text[:at])][-1:] or ["no function"]
    for found in re.finditer(LOSES, text):
        yield f"{name}: {found[0]}, in {function(found.start())[0]}"
    for one in sorted(owning):
        if re.search(rf"derive\w*\([^)]*\bDrop\b[^)]*\)\]\s*(?:#\[[^]]*\]\s*)*(?:pub(?:\([^)]*\))? )?(?:struct|enum) {one}\b", text):
            yield f"{name}: {one} owns memory, and a derived Drop forgets it"
        for found in re.finditer(rf"\b(?:{one}|Self)(?:::<[^{{]*>)? \{{[^{{}}]*\}}(?:\)* =|:)", text):
            if (name, function(found.start())[0]) not in APART:
                yield f"{name}: {one} is taken apart in {function(found.start())[0]}"
        if re.search(rf"\b{one} as\b|\btype \w+[^;]*= {one}\b", text):
            yield f"{name}: {one} goes by another name"


def main():
    seen = [*lost("planted", code(PLANTED), owners(PLANTED))]
    wrong = [] if len(seen) == MANY else [f"this tool sees of its planted file only: {'; '.join(seen)}"]
    files = [it for it in sorted(TOP.glob("*/src/**/*.rt")) if it.relative_to(TOP).parts[0].startswith(("fc_", "fallible_"))]
    texts = {str(it.relative_to(TOP)): code(it.read_text(encoding="utf-8")) for it in files}
    # Fields are private, so that a type is taken apart in its own crate alone.
    owning = {}
    for name, text in texts.items():
        owning.setdefault(name.partition("/")[0], set()).update(owners(text))
    wrong += [it for name, text in texts.items() for it in lost(name, text, owning[name.partition("/")[0]])]
    wrong += [] if "Row" in owning["fc_tree_slots"] else ["fc_tree_slots has no Row that owns memory"]
    print("\n".join(wrong), end="\n" * bool(wrong))
    return 1 if wrong else 0


sys.exit(main())
