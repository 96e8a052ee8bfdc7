#!/usr/bin/env python3
"""Wrong bodies that have no proof: crates/NAME/edits/*.edit, each of which the prover was seen to refuse, as the record tools/tried/NAME has it.

  tools/edits.py                 (the gate) looks that every edit, of must-fail/ too, can still be applied, that each record holds the crate's edits
                              as they are, in the bodies as they are, over the clauses as they are, that few wait, and that each long function and each call
                              of users has an edit
  tools/edits.py NAME..          tries the edits of these crates that their records do not hold, which are all once a clause changed, and writes the records
  tools/edits.py --anew NAME..   tries all edits of these crates;  --all: of every crate
  --by LOG NAME..             tries them by rt check --only of the functions that they change, which by LOG, of rt ci or rt check, were proved as they are:
                              the crate is not proved whole, which pays where few are left. It leaves out those that change more than bodies
  --jobs N                    is for rt check, which first proves the crate over what it kept

An edit is a line 'file: src/FILE' and pairs of lines 'old: TEXT' and 'new: TEXT'; each old text stands in the file once. In a text ⏎ is a line's end, but not
in must-fail/, which the toolchain tries, and leaves out what it can't read.
A body is proved by the contracts of what it calls, and by no other body. So one check tries many edits that change different functions, while an edit that
changes a clause, a type or a constant is tried alone. An edit is refused where a goal of a function that it changes is not proved. It fails if it cannot
be applied or compiled, if all is proved with it, and if nothing is refused but a proof file's mention of what the edit took away.
An edit of specs/ or proofs/ says nothing of a body, and fails.
What a record holds, tools/wrong_bodies/records.py says.
WAITING beside the edits names edits that nobody has tried over the clauses as they are: the gate lets MOST_WAITING of all these wait, and tools/edits.py NAME
tries them, and takes out of WAITING those that were refused.
"""
import re
import signal
import sys

sys.dont_write_bytecode = True
from wrong_bodies.records import RECORDS, Crate, crates
from wrong_bodies.stated import TOP
from wrong_bodies.trials import tried

# The most edits that may wait for their trial, in all crates: a change tries its own before it is done.
MOST_WAITING = 25
# Each longer function of the library has a wrong body, but for these.
SHORT = 10
EXCUSED = {
    "fc_map_iter/src/into_iter/debug.rt: list_pairs": "what is printed for debugging has no contract",
    "fc_tree_build/src/growing.rt: new": "there is no pair that could be put in",
    "fc_tree_slots/src/rest.rt: into_slots": "there is no item that could be left in",
    "fc_command/src/command/world.rt: within": "there is no key, value or item that could be put in",
    "fc_budget/src/meter.rt: charge": "no clause sees what an atomic holds; tests do",
}
# Each call that users may make, of these crates, has a wrong body where it ensures something, but for these: there is no other value that they could give.
CALLED = "fc_base fc_budget fc_cache fc_hash fc_index fc_intervals fc_map fc_map_iter fc_laws fc_set fc_timers fc_vec".split()
ALONE = {
    "an empty collection": {"new", "default"},
    "a law has no body": {"held_within", *re.findall(r"(?m)^pub fn (\w+)", (TOP / "crates/fc_base/src/list_laws.rt").read_text())},
    "an entry has one key and one value to lend": {"key", "get_mut", "into_mut", "insert"},
    "what is taken out with its key is tried": {"remove"},
    "an item that is left out of these walks could not be dropped": {"into_keys", "into_values"},
}


def not_applied(crate):
    """The edits that can't be applied, each with why. Those of must-fail/ the toolchain applies, and one of more lines it leaves out, by a note alone."""
    gate, every = crate.edits("must-fail"), crate.edits()
    long = [f"{it.told}: it has a text of more than a line, which the toolchain does not read" for it in gate if "⏎" in it.text]
    return long + [f"{it.told}: {why}" for it in (*gate, *every) for _, why in [it.applied({})] if why]


def not_covered(crate):
    """Of a crate of the library the functions of more than SHORT lines, clauses counted and comments not, that no wrong body changes."""
    every = [it for part in ("must-fail", "edits") for it in crate.edits(part)] if crate.name.startswith("fc_") else []
    changed = {(path, crate.sources()[path].function_at(at)) for it in every for path, at in it.applied({})[0]}
    read = crate.sources().items() if every else ()
    long = [(path, it, number) for path, it in read for number, length in enumerate(it.lengths) if length > SHORT]
    bare = {f"{crate.name}/{path}: {it.functions[number][2]}" for path, it, number in long if (path, number) not in changed}
    wrong = [f"{it} has more than {SHORT} lines, and no wrong body changes it" for it in sorted(bare - {*EXCUSED})]
    return wrong + [f"{it} is excused, and need not be" for it in EXCUSED if it.startswith(f"{crate.name}/") and it not in bare]


def not_called_wrongly(crate):
    """Of a crate whose calls users make, the public functions that ensure something and that no wrong body changes, unless they stand alone."""
    every = [it for part in ("must-fail", "edits") for it in crate.edits(part)] if crate.name in CALLED else []
    changed = {(path, crate.sources()[path].function_at(at)) for it in every for path, at in it.applied({})[0]}
    bare = []
    for path, read in crate.sources().items() if every else ():
        for number, (start, end, name, _) in enumerate(read.functions):
            is_called = re.match(r"\s*pub (const )?fn", read.text[start:end]) and re.search(r"\bensures\b", read.text[start:end])
            if is_called and (path, number) not in changed and not any(name in names for names in ALONE.values()):
                bare.append(f"{crate.name}/{path}: no wrong body changes {name}, which users call")
    return bare


def not_ended(every):
    """That more edits wait for their trial than may, if so."""
    waits = {it.name: len(it.waiting()) for it in every if it.waiting()}
    told = f"{sum(waits.values())} wrong bodies wait for their trial, and {MOST_WAITING} may: run tools/edits.py {' '.join(waits)}"
    return [told] * (sum(waits.values()) > MOST_WAITING)


def listed(names):
    return ", ".join(names[:4]) + f" and {len(names) - 4} more" * (len(names) > 4)


def not_tried(crate):
    edits = {it.name: it for it in crate.edits()}
    stated, refused = crate.recorded()
    changed, gone = crate.changed(stated)
    wrong = [f"the clauses or definitions of {', '.join(changed)} are not those that its edits were tried over"] * bool(changed)
    waiting = crate.waiting()
    untried = [name for name, it in edits.items() if name not in waiting and not it.stands(refused.get(name, []), gone)]
    wrong += [f"{len(untried)} of its {len(edits)} edits were not tried over what they, their functions and these call are: {listed(untried)}"] * bool(untried)
    missing = [name for name in refused if name not in edits]
    wrong += [f"its record has edits that are not there: {listed(missing)}"] * bool(missing)
    return [f"{crate.name}: {it}: run tools/edits.py {crate.name}" for it in wrong]


def main(words):
    if "--help" in words:
        return print(__doc__)
    every = crates()
    flags = ["--jobs", words.pop(words.index("--jobs") + 1)] if "--jobs" in words[:-1] else []
    log = words.pop(words.index("--by") + 1) if "--by" in words[:-1] else ""
    names = [it for it in words if it not in ("--all", "--anew", "--jobs", "--by")]
    chosen = [it for it in every if (it.edits() or it.record.is_file()) and ("--all" in words or it.name in names)]
    wrong = [it for name in names if name not in Crate.known for it in [f"there is no crate {name}"]]
    wrong += [it for crate in every for it in not_applied(crate)]
    if not wrong:
        wrong = [it for crate in chosen for it in tried(crate, flags, {"--all", "--anew"} & {*words}, log)]
    wrong += [it for crate in every if not names or crate in chosen for it in not_tried(crate)]
    wrong += [f"tools/tried/{it.name} is the record of no crate" for it in sorted(RECORDS.iterdir()) if it.name not in Crate.known]
    wrong += [it for crate in every if not names for it in (*not_covered(crate), *not_called_wrongly(crate))]
    wrong += [] if names else not_ended(every)
    for it in wrong:
        print(f"edits: {it}", file=sys.stderr)
    return 1 if wrong else 0


if __name__ == "__main__":
    signal.signal(signal.SIGTERM, lambda *_: sys.exit(2))
    sys.exit(main(sys.argv[1:]))
