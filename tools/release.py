#!/usr/bin/env python3
"""Makes an archive of the library with what was proved of it, from which `tools/take.py --from` takes. Needed to hand the library on with its proofs.

  tools/release.py --write FOLDER [--gate LOG]   makes FOLDER/fallible_collections-VERSION-KIT.tar.zst, or .tar.xz where there is no zstd; LOG: what ./test printed
  tools/release.py --over                        tells the commit and the kit, as ./test prints them
  tools/release.py                               (the gate) looks that what comes from an archive is what comes from the checkout, and proves nothing

VERSION is that of CHANGELOG.md's newest heading of a version where the crates are as in the commit that its section names, and else the one that the section
Unreleased says will come, that word and the commit: 0.5.0-1-unreleased-0123abcd. KIT is the first word of `rt version`. The checkout has to be as its commit
is. Archived are the crates of the library as `tools/take.py` takes them, with their pages, that
script, the site of their calls and pages (site/index.html), and what is proved of them: `rt ci` takes over what this machine kept of the crates, as after ./test, and proves the others from nothing. `rt check`
goes on from that once a stamp says what it was made of, which the kit's own code makes; a crate that names all of them is checked as a trial.
RELEASE in it has the commit, the kit, what `rt ci` and the gate said (that it was not seen, where no LOG is given) and the checksum of each file."""
import contextlib
import importlib.machinery
import importlib.util
import os
import pathlib
import re
import shutil
import subprocess
import sys
import tarfile
import tempfile
import time

sys.dont_write_bytecode = True
import take

top = pathlib.Path(__file__).resolve().parent.parent
TRIAL = "#![tactic(auto)]\n\npub fn tried(x: u64) -> u64 {\n    x\n}\n"
FAST, SMALL = 1, 10  # levels of packing
MADE_UP = ("stamp", "made_up")  # what stands for proofs in the check, in out/rlib


def command_of_kit():
    """The module that the command `rt` is."""
    loader = importlib.machinery.SourceFileLoader("rt_of_kit", str(pathlib.Path(shutil.which("rt")).resolve()))
    module = importlib.util.module_from_spec(importlib.util.spec_from_loader(loader.name, loader))
    loader.exec_module(module)
    return module


def stop(text):
    sys.exit(f"tools/release.py: {text}")


def git(*words):
    """What git says, or nothing where it can't."""
    try:
        return subprocess.run(["git", "-C", str(top), *words], capture_output=True, text=True, check=True).stdout.strip()
    except (OSError, subprocess.CalledProcessError):
        return ""


def over():
    """The commit and the kit, in one line."""
    changed = " with changes that are not committed" * bool(git("status", "--porcelain"))
    return f"commit {git('rev-parse', 'HEAD') or 'unknown'}{changed} with {take.kit()}"


def is_as_at(named):
    """Whether the library is as in that commit. Where the commit is not in this clone, nobody knows, so it is not said to be."""
    crates = [f"crates/{crate}/{part}" for crate in take.library(take.lines_of(top)) for part in ("src", "specs", "proofs")]
    return git("cat-file", "-t", named) == "commit" and not git("diff", "--name-only", named, "HEAD", "--", *crates)


def version():
    """The version: CHANGELOG.md's newest, or that to come with the commit, where the library is no longer as the newest's commit has it."""
    text = (top / "CHANGELOG.md").read_text() if (top / "CHANGELOG.md").is_file() else ""
    found = re.search(r"(?ms)^## (\d+\.\d+\.\d+-\d+)$(.*?)(?=^## |\Z)", text)
    if not found:
        stop("CHANGELOG.md has no heading of a version, as '## 0.4.9-1'")
    named = re.search(r"\b[0-9a-f]{40}\b", found[2])
    if not named or is_as_at(named[0]):
        return found[1]
    to_come = re.search(r"(?m)^It will be (\S+-\d+)\.$", text[: found.start()].partition("\n## Unreleased\n")[2])
    if not to_come:
        stop(f"the library is not as in the commit of version {found[1]}, and CHANGELOG.md has no '## Unreleased' with a line 'It will be VERSION.': see tools/changes.py --check")
    return f"{to_come[1]}-unreleased-{git('rev-parse', 'HEAD')[:8]}"


def stop_on_changes():
    """Stops where the checkout is not as its commit."""
    if not git("rev-parse", "HEAD"):
        stop("this is no checkout, so nothing tells which commit it is")
    if changed := git("status", "--porcelain"):
        stop(f"the checkout is not as its commit is:\n{take.listing(changed.splitlines())}")


def gate(log):
    """What the gate said, by what it printed: only of this commit and kit, and only where it passed."""
    if not log:
        return "not seen"
    if not os.path.isfile(log):
        stop(f"{log} is no file")
    lines = pathlib.Path(log).read_text(errors="replace").splitlines()
    if not lines or not re.fullmatch(r"\d+ passed, 0 failed", lines[-1]):
        stop(f"{log} does not end with 'N passed, 0 failed', so the gate did not pass")
    if f"test: over {over()}" not in lines:
        stop(f"{log} has no line 'test: over {over()}', so it is of another commit or kit")
    return f"{lines[-1]}, over this commit by this kit, as the log says that was handed in"


def stage(folder):
    """Copies what the archive has but proofs. Answers the crates."""
    lines = take.lines_of(top)
    crates = take.library(lines)
    files = [*take.sources(top, crates).values(), top / "tools/take.py", *top.glob("CHANGELOG.md")]
    for file in files:
        to = folder / file.relative_to(top)
        to.parent.mkdir(parents=True, exist_ok=True)
        shutil.copy(file, to)
    (folder / "crates.txt").write_text("".join(f"{lines[it]}\n" for it in crates))
    is_well, said = ran(sys.executable, top / "tools/site.py", "--write", folder / "site")
    if not is_well:
        stop(f"the site is not made: {said}")
    return crates


def proved(folder):
    """Has `rt ci` prove the crates there, or take over what this machine kept of them. Answers its last line, and how much it took over."""
    print("rt ci: what this machine kept is taken over, and the rest is proved from nothing, all of it in an hour", flush=True)
    last = how = ""
    with subprocess.Popen(["rt", "ci"], cwd=folder, stdout=subprocess.PIPE, stderr=subprocess.STDOUT, text=True) as ran:
        for line in ran.stdout:
            last = line.strip()
            if last.startswith(("rt: ", "error")):
                print(last, flush=True)
            how = last.partition("done in this run: ")[2] or how
    if ran.returncode:
        stop(f"the crates are not proved: {last}")
    return f"{last}; done in the run that made this archive: {how}"


def stamp(folder, crates):
    """Writes beside each proved library what it was made of, as the kit's own code makes it, so that `rt check` goes on from it."""
    rt = command_of_kit()
    for crate in rt.rtlib.crates_below(str(folder)):
        if os.path.isdir(crate.rlib):
            pathlib.Path(crate.rlib).with_name("stamp").write_text(crate.stamp())
        if not crate.is_built():
            stop(f"rt ci left nothing of {crate.name} in its out/rlib that rt check could go on from")
    if lacking := [it for it in crates if not (folder / f"crates/{it}/out/rlib/stamp").is_file()]:
        stop(f"nothing is proved of {' '.join(lacking)}")


def tried(folder, crates):
    """Checks a crate of one function that names all crates, and takes it away again. Answers the seconds it took."""
    began, crate, lines = time.time(), folder / "crates/trial", folder / "crates.txt"
    text = lines.read_text()
    (crate / "src").mkdir(parents=True)
    (crate / "src/lib.rt").write_text(TRIAL)
    lines.write_text(f"{text}trial: {' '.join(crates)}\n")
    ran = subprocess.run(["rt", "check"], cwd=crate, stdout=subprocess.PIPE, stderr=subprocess.STDOUT, text=True, check=False)
    shutil.rmtree(crate)
    lines.write_text(text)
    again = [it for it in crates if f"crate {it}: modules" in ran.stdout]
    if ran.returncode or again:
        stop(f"a check over what was proved failed, or proved {' '.join(again) or 'nothing'} again:\n{ran.stdout[-2000:]}")
    return time.time() - began


def listed(folder):
    """The archive's files: what was proved after all else."""
    files = [it.relative_to(folder).as_posix() for it in folder.rglob("*") if it.is_file() and it != folder / "RELEASE"]
    return sorted((it for it in files if "/out/" not in it or take.proof_of.match(it)), key=lambda it: (bool(take.proof_of.match(it)), it))


def ending():
    """How an archive's name ends: by what packs best of what is here."""
    return "zst" if shutil.which("zstd") else "xz"


@contextlib.contextmanager
def packing(archive, level):
    """An archive that is being written, and gets its name at the end."""
    part = archive.with_name(f"{archive.name}.part")
    if archive.suffix == ".xz":
        with tarfile.open(part, "w:xz", preset=min(level, 6)) as tar:
            yield tar
    else:
        with open(part, "wb") as to, subprocess.Popen(["zstd", "-q", "-T0", "--long=27", f"-{level}"], stdin=subprocess.PIPE, stdout=to) as ran:
            with tarfile.open(fileobj=ran.stdin, mode="w|") as tar:
                yield tar
            ran.stdin.close()
        if ran.returncode:
            stop(f"zstd failed at {archive}")
    part.replace(archive)


def seal(folder, said):
    """Writes RELEASE: what is said of the archive, and the checksum of each file."""
    text = "# A release of fallible_collections for Rattle. To see whether all is as it was packed, in this folder: sha256sum --quiet -c RELEASE\n"
    text += "".join(f"# {word} {about}\n" for word, about in said.items())
    (folder / "RELEASE").write_text(text + "".join(f"{take.checksum((folder / it).read_bytes())}  {it}\n" for it in listed(folder)))


def pack(folder, archive, level):
    """Packs the folder, with RELEASE before all else. Times and owners are the same wherever it is made."""
    seconds = int(git("log", "-1", "--format=%ct") or 0)

    def plain(it):
        it.uid = it.gid = 0
        it.uname = it.gname = ""
        it.mtime, it.mode = seconds, 0o755 if it.name.endswith("/tools/take.py") else 0o644
        return it

    with packing(archive, level) as tar:
        for it in ["RELEASE", *listed(folder)]:
            tar.add(folder / it, f"{folder.name}/{it}", recursive=False, filter=plain)


def write(to, log):
    """Makes the archive."""
    stop_on_changes()
    number = version()
    said = {"version": number, "commit": git("rev-parse", "HEAD"), "kit": take.kit(), "gate": gate(log)}
    with tempfile.TemporaryDirectory() as room:
        folder = pathlib.Path(room) / f"fallible_collections-{number}-{said['kit'].split()[0]}"
        crates = stage(folder)
        said["proofs"] = f"of {len(crates)} crates by rt ci: {proved(folder)}"
        stamp(folder, crates)
        seconds = tried(folder, crates)
        archive = to / f"{folder.name}.tar.{ending()}"
        seal(folder, said)
        pack(folder, archive, SMALL)
    print(f"a crate that names all {len(crates)} was checked over what was proved in {seconds:.0f} seconds; gate: {said['gate']}")
    print(f"{take.checksum(archive.read_bytes())}  {archive}")


def files_of(folder):
    """The content of each file below a folder, by its path."""
    return {it.relative_to(folder).as_posix(): it.read_bytes() for it in sorted(folder.rglob("*")) if it.is_file()}


def ran(*words):
    """Whether a command ended well, and what it said."""
    done = subprocess.run(words, stdout=subprocess.PIPE, stderr=subprocess.STDOUT, text=True, check=False)
    return not done.returncode, done.stdout


def differing(room, archive, script, asked, keeps):
    """What is not as it is to be where crates are taken from the archive: beside what the checkout gives, and what was packed as proved, if it is to come."""
    one, other = room / "from_checkout", room / "from_archive"
    for it in (one, other):
        shutil.rmtree(it, ignore_errors=True)
        it.mkdir()
    own = other / "crates/own/out/rlib/stamp"
    own.parent.mkdir(parents=True)
    own.touch()
    for words in ([top / "tools/take.py", one], [sys.executable, script, "--from", archive, other]):
        is_well, said = ran(*words, *asked)
        if not is_well:
            return [said]
    wanted, found = files_of(one), files_of(other)
    crates = [line.split(":")[0] for line in wanted["crates.txt"].decode().splitlines()] if keeps else []
    wanted |= {f"crates/{crate}/out/rlib/{name}": crate.encode() for crate in crates for name in MADE_UP} if keeps else {"crates/own/out/rlib/stamp": b""}
    wrong = [it for it in sorted({*wanted, *found}) if wanted.get(it) != found.get(it)]
    is_well, said = ran(sys.executable, script, "--check", other)
    return [f"taken from an archive{' with' if keeps else ' without'} proofs, {' '.join(asked)}: {it}" for it in wrong] + [said] * (not is_well)


def refusals(room, folder, script):
    """Which archives the script takes that it has to refuse: half of one, one with another file in a file's place, and one that lacks a file."""
    archive, to, proof = room / f"wrong.tar.{ending()}", room / "refused", folder / "crates/fc_vec/out/rlib/made_up"
    to.mkdir()
    wrong = []
    for name in ("half of an archive", "an archive with another file", "an archive that lacks a file"):
        if name.endswith("another file"):
            proof.write_text("another")
        elif name.endswith("a file"):
            proof.unlink()
        pack(folder, archive, FAST)
        if name.startswith("half"):
            archive.write_bytes(archive.read_bytes()[: archive.stat().st_size // 2])
        is_well, said = ran(sys.executable, script, "--from", archive, to, "fc_vec")
        if is_well or "is damaged" not in said or [*to.rglob("stamp")]:
            wrong.append(f"{name} was taken: {said[-300:]}")
    return wrong


def check():
    """Packs with made-up files in the place of what is proved, and takes from that by the archive's own script. Answers what is wrong."""
    with tempfile.TemporaryDirectory() as there:
        room = pathlib.Path(there)
        folder, script = room / "fallible_collections-0-kit", room / "alone/take"
        for crate in stage(folder):
            for name in MADE_UP:
                (folder / f"crates/{crate}/out/rlib/{name}").parent.mkdir(parents=True, exist_ok=True)
                (folder / f"crates/{crate}/out/rlib/{name}").write_text(crate)
        script.parent.mkdir()
        wrong = []
        for kit, asked in (("another", ["fallible_collections"]), (take.kit(), ["fc_vec"])):
            archive = room / f"{asked[0]}.tar.{ending()}"
            seal(folder, {"commit": take.commit(top), "kit": kit, "gate": "not seen"})
            pack(folder, archive, FAST)
            script.write_bytes(next(content for path, content in take.files_in(archive) if path == "tools/take.py"))
            wrong += differing(room, archive, script, asked, keeps=kit != "another")
        return wrong + refusals(room, folder, script)


def main(words):
    if words == ["--over"]:
        return print(over())
    if not words:
        wrong = check()
        return sys.exit("\n".join([f"tools/release.py: {len(wrong)} differ or are wrong", *wrong[:20]]) if wrong else 0)
    if words[0] != "--write" or len(words) not in (2, 4) or words[2:3] not in ([], ["--gate"]):
        return sys.exit(__doc__)
    if not os.path.isdir(words[1]):
        stop(f"{words[1]} is no folder")
    return write(pathlib.Path(words[1]), "".join(words[3:]))


if __name__ == "__main__":
    main(sys.argv[1:])
