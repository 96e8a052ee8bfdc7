"""Tries wrong bodies by `rt check`, many at once, and reads what it says of them.

Needed where the toolchain words a verdict in another way, and tools/edits.py then takes a refusal for a proof, or the other way round.
It has no command of its own."""
import os
import pathlib
import re
import shutil
import subprocess
import tempfile

from wrong_bodies.records import Crate
from wrong_bodies.stated import TOP, Statements

# The most edits of one check, whose room for terms a larger number filled.
MOST = 16


class Room:
    """A copy of a crate, in which it is checked with edits over what a check of the crate as it stands kept."""

    def __init__(self, crate, folder, flags):
        self.crate, self.flags, self.folder = crate, flags, pathlib.Path(folder) / "crates" / crate.name
        subprocess.run(["git", "init", "-q", folder], check=True)
        shutil.copy(TOP / "HANDLES", folder)
        (pathlib.Path(folder) / "crates.txt").write_text("".join(f"{Crate.known[name].line}\n" for name in crate.below()))
        # (what a check of the crate built of the libraries below is not built again)
        for name in crate.below():
            for part in ("src", "specs", "proofs", "out/rlib"):
                if (TOP / "crates" / name / part).is_dir():
                    shutil.copytree(TOP / "crates" / name / part, self.folder.parent / name / part)

    def said(self, texts, edits):
        """What a check says of the crate with these texts, in which the edits are."""
        shutil.rmtree(self.folder / "out", ignore_errors=True)
        # (a check replaces a file with this ending, and never writes into one)
        link = lambda one, other: os.link(one, other) if one.endswith(".oantt") else shutil.copy2(one, other)
        if (kept := self.crate.folder / "out/incremental").is_dir():
            shutil.copytree(kept, self.folder / "out/incremental", copy_function=link)
        for path, text in texts.items():
            (self.folder / path).write_text(text)
        only = {f"--only={symbol}" for edit in edits for symbol in edit.symbols}
        said = checked(self.folder, [*self.flags, *sorted(only)])
        for path in texts:
            shutil.copy(self.crate.folder / path, self.folder / path)
        return said


def checked(folder, flags):
    how = {"stdin": subprocess.DEVNULL, "stdout": subprocess.PIPE, "stderr": subprocess.STDOUT, "text": True, "errors": "replace"}
    said = subprocess.run(["rt", "check", *flags], cwd=folder, **how).stdout
    # (once more where it gave no verdict, as where it was killed for want of memory)
    return said if re.search("(?m)^logic=|^only=|error", said) else subprocess.run(["rt", "check", *flags], cwd=folder, **how).stdout


class Goal:
    """A goal that is not proved, and the functions that it may be of: more than one only where a symbol does not tell them apart."""

    def __init__(self, symbol, functions, name, is_name=False, is_answer=False):
        self.symbol, self.functions, self.name, self.is_name, self.is_answer = symbol, functions, name, is_name, is_answer


class Verdict:
    """What a check says of a crate with these texts in place of its own."""

    SOURCE = re.compile(
        r"(?:note: )?(?:\./)?(src/\S+\.rt):(\d+):(\d+): (?:(?:error: )?(?:it is not proved\b|`search` (?:found no proof|did not prove)).*?\(|(error: ))`([^`]+)`"
    )
    PROOF = re.compile(r"(?:note: )?(?:\./)?proofs/(\S+)/\w+\.antt:\d+:\d+: error: (?:`([^`]*)`: )?(.*)")
    SYMBOL = re.compile(r"(?:fn|impl|struct|enum|trait|const) \w+::(\S+): (?:no proof|not proved|could not tell)")
    # What it says where a proof file names what an edit took away, cites what was not proved for that, or follows by hand a step that is gone.
    NAMES = re.compile(r"has no field|is not in scope(?! here, so)|has no `|was not admitted|is no name|depends? on `[^`]*`, which was rejected|^expected type `Step |one has `mir[.]")

    def __init__(self, crate, said, texts):
        self.read = {**crate.sources(), **{path: Statements(text) for path, text in texts.items()}}
        self.is_read = bool(re.search(r"(?m)^(logic=|only=|rattle: no verdict)", said))
        self.is_proved = bool(re.search(r"(?m)^(logic=proved |only=(\d+) proved=\2$)", said))
        self.goals, self.waiting, above = [], set(), []
        # (what a long line says goes on in lines that begin with two spaces)
        for line in re.sub(r"\n  +(?=\S)", " ", said).split("\n"):
            if found := self.SOURCE.match(line):
                functions = self.functions_at(found[1], int(found[2]), int(found[3]))
                (self.goals if found[4] else above).append(Goal(found[1], functions, found[5]))
            elif found := self.PROOF.match(line):
                # (the folder of a function that calls itself begins with a sign)
                symbol = found[1].replace("/", "::").replace("+", "")
                self.goals.append(Goal(symbol, self.functions_of(symbol), found[2] or "proof", bool(self.NAMES.search(found[3])), True))
            elif found := self.SYMBOL.match(line):
                # (the lines on a function's goals stand above its own; a place may be that of the attributes above it)
                functions = self.functions_of(found[1])
                self.goals += [Goal(found[1], it.functions or functions, it.name) for it in above]
                left = re.search(r"did not prove ((?:`[^`]+`(?:, | and )?)+)", line)
                known = {it.name for it in self.goals if it.functions & functions}
                self.goals += [Goal(found[1], functions, it) for it in re.findall("`([^`]+)`", left[1] if left else "") if it not in known]
                above = []
                if re.search(r"which (is|are) not proved", line):
                    self.waiting |= self.functions_of(found[1])

    def functions_at(self, path, line, column):
        starts = [0, *(it.end() for it in re.finditer("\n", self.read[path].text))]
        number = self.read[path].function_at(starts[line - 1] + column - 1)
        return set() if number is None else {(path, number)}

    def functions_of(self, symbol):
        """The functions that a symbol may name. What stands in an impl block of a type alone is named below the module of the type, wherever it is written."""
        module = max((it for it in map(module_of, self.read) if symbol.startswith(it)), key=len, default="")
        names = symbol.removeprefix(module).removeprefix("fn::").split("::")
        of_name = [
            (block if names[0].lower().startswith(block) and name in names[1:2] else "", path, number)
            for path, it in self.read.items()
            if module_of(path).startswith(module)
            for number, (_, _, name, block) in enumerate(it.functions)
            if name in names[:2]
        ]
        best = max((len(block) for block, _, _ in of_name), default=0)
        return {(path, number) for block, path, number in of_name if len(block) == best}

    def of(self, edit, is_alone):
        """The goals of the functions that the edit changes; all if it changes more than bodies."""
        is_own = lambda it: it.functions & edit.changed if is_alone else it.functions and it.functions <= edit.changed
        return [it for it in self.goals if not edit.changed or is_own(it)]


def module_of(path):
    inside = re.sub(r"(^(lib|main)|/mod)?\.rt$", "", path.removeprefix("src/"))
    return f"{inside}/".replace("/", "::") if inside else ""


def judged(room, edits):
    """What becomes of each edit, tried at once: the symbol and the goal at which it is refused, or what is wrong with it."""
    texts = {}
    wrong = [why for edit in edits for why in [edit.applied(texts)[1]] if why]
    if wrong:
        return {edits[0]: wrong[0]}
    said = room.said(texts, edits)
    verdict = Verdict(room.crate, said, texts)
    own = {edit: verdict.of(edit, len(edits) == 1) for edit in edits}
    changed = set().union(*(edit.changed for edit in edits))
    beside = [it for it in verdict.goals if changed and not it.functions & changed]
    if len(edits) == 1:
        return {edits[0]: outcome(verdict, own[edits[0]], beside, said)}
    # An answer may fail for want of the proof of what its function calls. And a goal's symbol alone may not tell functions of one name apart.
    is_unsure = lambda it: it.changed & verdict.waiting and all(goal.is_answer for goal in own[it] if not goal.is_name)
    found = {edit: outcome(verdict, goals, beside, said) for edit, goals in own.items() if verdict.is_read and not is_unsure(edit)}
    found = {edit: it for edit, it in found.items() if not isinstance(it, str)}
    again = [edit for edit in edits if edit not in found]
    half = 0 if found else len(again) // 2
    for part in filter(None, (again[:half], again[half:])):
        found.update(judged(room, part))
    return found


def outcome(verdict, own, beside, said):
    if refused := [it for it in own if not it.is_name]:
        first = next((it for it in refused if it.name.startswith("returns")), refused[0])
        return first.symbol, first.name
    if own:
        return f"refused only since a proof file names what it took away, or follows steps that it took away: {own[0].symbol} {own[0].name}"
    if verdict.is_proved:
        return "all is proved with it"
    if not verdict.is_read:
        wrong = next((it for it in said.split("\n") if "error" in it), "")
        return f"it does not compile: {wrong}" if wrong else f"its check gave no verdict, so try it again: {said.strip()[-200:]}"
    return "no goal of what it changes is refused" + "".join(f", but {it.name} of {it.symbol} is" for it in beside[:1])


def gathered(edits):
    """The first of the edits, and as many more as change other functions and can be applied beside it, but no more than a check has room for."""
    batch, texts = [], {}
    for edit in edits:
        fits = not batch or len(batch) < MOST and (edit.changed and batch[0].changed and not edit.changed & set().union(*(it.changed for it in batch)))
        after = dict(texts)
        if fits and (not edit.applied(after)[1] or not batch):
            batch, texts = [*batch, edit], after
    return batch


def named_by(log, crate, edits):
    """Those of the edits whose functions a log tells as proved, each with the names that these have there."""
    verdict, path = Verdict(crate, "", {}), rf"(?m)^fn {crate.name}::(\S+): proved$"
    symbols = {it: verdict.functions_of(it) for it in re.findall(path, pathlib.Path(log).read_text(errors="replace"))}
    for edit in edits:
        edit.symbols = {f"{crate.name}::{it}" for it, functions in symbols.items() if functions & edit.changed}
    return [it for it in edits if it.symbols]


def tried(crate, flags, is_anew, log):
    """Tries the crate's edits that its record does not hold, and writes those that were refused. Returns why they could not be tried."""
    stated, refused = crate.recorded()
    edits = {it.name: it for it in crate.edits()}
    changed, gone = crate.changed(stated)
    is_same = not changed and not is_anew
    refused = {name: it for name, it in refused.items() if is_same and name in edits and edits[name].stands(it, gone)}
    left = [it for name, it in edits.items() if name not in refused]
    if left and not log and not Verdict(crate, checked(crate.folder, flags), {}).is_proved:
        return [f"{crate.name} itself is not proved: see rt check"]
    for edit in left:
        edit.changed = edit.functions()
    left = named_by(log, crate, left) if log else left
    with tempfile.TemporaryDirectory(prefix="edits-") as folder:
        room = Room(crate, folder, flags)
        while left:
            found = judged(room, gathered(left))
            for edit, said in found.items():
                print(f"{edit.told}: {'NOT REFUSED: ' + said if isinstance(said, str) else 'refused at ' + ' '.join(said)}", flush=True)
            refused.update({edit.name: [*edit.sums(), *said] for edit, said in found.items() if not isinstance(said, str)})
            left = [it for it in left if it not in found]
            crate.write(refused)
    crate.write(refused)
    crate.wait_less(refused)
    return []
