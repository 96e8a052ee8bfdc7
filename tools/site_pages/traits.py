"""Says in words what an impl is: what a trait of std's brings to a type, and for which types a blanket impl is. Needed where a type has a trait that is not told."""
import re

from . import surface as surfaces

MEANS = {
    "Clone": "`clone` copies it",
    "Copy": "it is copied where it is used",
    "Debug": "`{:?}` prints it",
    "Display": "`{}` prints it",
    "PartialEq": "`==` compares it",
    "Eq": "`==` holds of each and itself",
    "PartialOrd": "`<` and `partial_cmp` order it",
    "Ord": "`cmp` orders it, so that it can be a key",
    "Hash": "it can be hashed",
    "Drop": "what it owns is given up with it",
    "Iterator": "a `for` walks over it, with `map`, `count` and the like",
    "DoubleEndedIterator": "`next_back` and `rev` walk from the end",
    "ExactSizeIterator": "`len` tells how many are left",
    "IntoIterator": "a `for` walks over it",
    "Deref": "calls of what it holds are made on it",
    "DerefMut": "calls that write what it holds are made on it",
    "Index": "`x[..]` reads",
    "IndexMut": "`x[..]` writes",
    "From": "`?`, `from` and `into` make it",
    "Read": "it is read as a source",
    "Write": "bytes are written to it",
    "Error": "it is an error, as of `anyhow`",
    "Allocator": "collections take their memory of it",
    "TryClone": "`try_clone` copies it",
    "MadeWith": "`or_default` makes it",
    "EmptiedLike": "`mem::try_take` leaves an empty one",
    "TryFromIterator": "`try_collect` makes it of what an iterator gives",
    "Query": "keys are looked up by it",
}


def said_of(name):
    return MEANS.get(name, "")


def derived(names):
    """What the traits that a type derives bring, in a sentence for each that is told."""
    return [f"`{it}`: {MEANS[it]}" if it in MEANS else f"`{it}`" for it in names]


def parameters(text):
    """The type parameters of an impl, each with what is asked of it."""
    rest = re.sub(r"^(unsafe )?impl ?", "", text).strip()
    inside = rest[1 : len(rest) - len(surfaces.past_brackets(rest))] if rest.startswith("<") else ""
    flat = surfaces.outermost(inside)
    return {name: bound.strip() for name, bound in re.findall(r"\b([A-Z]\w*)(?:: ([^,>]*))?", flat)}


def blanket(text):
    """For which types an impl is that names none: those that a parameter stands for, or references to them."""
    _, of = surfaces.parts_of_impl(text)
    head = re.sub(r"^(?:&(?:'\w+ )?(?:mut )?)+", "", of)
    known = parameters(text)
    if head not in known:
        return ""
    kind = "a reference to any type" if head != of else "any type"
    return f"for {kind} that has " + " and ".join(f"`{it.strip()}`" for it in known[head].split("+")) if known[head] else f"for {kind}"


def in_words(text, of_trait):
    """What an impl says, in words: what the trait brings, and for which types."""
    trait, _ = surfaces.parts_of_impl(text)
    name = (surfaces.head_of(trait) or "").rpartition("::")[2]
    parts = [blanket(text)] + ([] if of_trait else [said_of(name)])
    return "; ".join(it for it in parts if it)
