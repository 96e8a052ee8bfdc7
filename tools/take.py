#!/usr/bin/env python3
"""Takes the library, or crates of it, into another repository, and brings what was taken before up to date. Needed by users.

  tools/take.py FOLDER [CRATE..]     CRATE: fallible_collections (the default at the first time), one of the crates that it stands on, or of those beside it
  tools/take.py --from ARCHIVE FOLDER [CRATE..]    the same from an archive that tools/release.py made, with what was proved of the crates
  tools/take.py --proved FOLDER [CRATE..]    the same from a checkout, with what this machine kept of the crates' proofs, or else proves, in an hour
  tools/take.py --check FOLDER       tells which files are not as they were taken

Each crate comes with all that it stands on: sources, definitions, proofs, pages and its line of crates.txt; without tests and wrong bodies. Budgets come
with each, and with the map the laws on maps for callers and the bounds on a map's bytes. README.md, CHANGELOG.md and docs/ come as FOLDER/crates/fc_base/docs. In each page a link leads to where its page or file was taken to,
and is text where that was not taken; a page of docs/ is named by the path that it has in FOLDER.
FOLDER/crates/fc_base/TAKEN then has the commit, and the checksum of each file in the form of `sha256sum`. Nothing is written where
a file that was taken is not as it was, or another file stands in its place.
An archive has this script in it, which needs nothing beside it to take from there. What was proved of a crate becomes its out/rlib, with which `rt check`
of the archive's kit goes on; with another kit it is left out. Each file is held to the checksum in the archive's RELEASE."""
import contextlib
import hashlib
import lzma
import os
import pathlib
import re
import shutil
import subprocess
import sys
import tarfile
import tempfile

parts = ("src", "specs", "proofs", "README.md", "CALLING.md", "COUNTED.md")
home = "fc_base"  # each taking has this crate
alone = ["bounded_lines", "fc_cache", "fc_index", "fc_intervals", "fc_timers"]  # crates that come where they are asked for
beside = {"fc_base": ["fc_budget"], "fc_map": ["fc_laws"]}  # what callers of a crate use besides, in crates that it doesn't stand on
proof_of = re.compile(r"crates/(\w+)/out/rlib/")  # where an archive has what was proved of a crate
origin = f"*Taken with the library: what this page names and is not here stands in the repository of the commit in `crates/{home}/TAKEN`.*"


def stop(text):
    sys.exit(f"tools/take.py: {text}")


def checksum(content):
    return hashlib.sha256(content).hexdigest()


def lines_of(folder):
    """The line of each crate in crates.txt, by the crate's name."""
    file = folder / "crates.txt"
    lines = file.read_text().splitlines() if file.is_file() else []
    return {line.split(":")[0].split()[0]: line for line in lines if ":" in line and not line.startswith("#")}


def below(crate, lines):
    """The crate and all crates of this repository that it stands on, lowest first."""
    found = []
    for it in lines[crate].split(":")[1].split():
        found += [name for name in below(it, lines) if name not in found] if it in lines else []
    return [*found, crate]


def library(lines):
    """All crates of the library, each after those that it stands on."""
    asked = ["fallible_collections", *(more for it in beside.values() for more in it), *alone]
    return list(dict.fromkeys(it for name in asked for it in below(name, lines)))


def sources(top, crates):
    """What is taken: where each file stands in this repository, by its path in the other's crates/."""
    files = {f"{home}/LICENSE": top / "LICENSE", **{f"{home}/docs/{it}": top / it for it in ("README.md", "CHANGELOG.md")}}
    files |= {f"{home}/docs/{it.name}": it for it in sorted((top / "docs").iterdir())}
    for crate in crates:
        for part in parts:
            at = top / "crates" / crate / part
            files |= {str(it.relative_to(top / "crates")): it for it in ([at] if at.is_file() else sorted(at.rglob("*"))) if it.is_file()}
    return files


def contents(files):
    """The content of each file that is taken, by its path in the other's crates/: of a page with its links put right."""
    taken_to = {file: path for path, file in files.items()}
    return {path: page(path, file, taken_to).encode() if file.suffix == ".md" else file.read_bytes() for path, file in files.items()}


def page(path, file, taken_to):
    """The text of a page that is taken to this path."""

    def link(found):
        named, hash, place = found[3].partition("#")
        to = taken_to.get(pathlib.Path(os.path.normpath(file.parent / named)), "") if named else path
        if not to:
            return found[2] if found[1] == "[" else ""
        return f"{found[1]}{found[2]}]({os.path.relpath(to, os.path.dirname(path)) if named else ''}{hash}{place})"

    written = re.split(r"(?ms)(^```.*?^```$)", file.read_text())  # each second part is a block of code
    for at in range(0, len(written), 2):
        text = re.sub(r"(!?\[)([^\]]*)\]\((?!\w+:)([^)\s]+)\)", link, written[at])
        written[at] = re.sub(r"`docs/(?=\w+\.\w+`)", f"`crates/{home}/docs/", text)
    return "".join(written).replace("\n\n", f"\n\n{origin}\n\n" if path.startswith(f"{home}/docs/") else "\n\n", 1)


def commit(top):
    """The commit that is checked out, and whether files differ from it; or that of which a release was made."""
    if (top / "RELEASE").is_file():
        return release_of((top / "RELEASE").read_text())[0].get("commit", "unknown")
    git = ["git", "-C", str(top)]
    try:
        name = subprocess.run([*git, "rev-parse", "HEAD"], capture_output=True, text=True, check=True).stdout.strip()
        changed = subprocess.run([*git, "status", "--porcelain", "--", "crates", "crates.txt", "LICENSE", "README.md", "CHANGELOG.md", "docs"], capture_output=True, text=True, check=True).stdout
    except (OSError, subprocess.CalledProcessError):
        return "unknown"
    return name + " with changes that are not committed" * bool(changed)


def taken_before(to):
    """What TAKEN says: the commit, the crates' lines by name, and the checksums of files by path."""
    file = to / "crates" / home / "TAKEN"
    text = file.read_text() if file.is_file() else ""
    lines = {line.split(":")[0].split()[0]: line for line in re.findall(r"(?m)^# line (.+)$", text)}
    sums = {path: sum for sum, path in re.findall(r"(?m)^([0-9a-f]{64})  (.+)$", text)}
    return "".join(re.findall(r"(?m)^# commit (.+)$", text)), lines, sums


def differing(to, lines, sums):
    """Which of these files and lines of crates.txt are not there as they were taken."""
    there = lines_of(to)
    wrong = [f"the line of {name} in crates.txt" for name in lines if there.get(name) != lines[name]]
    for path, sum in sums.items():
        file = to / "crates" / path
        if not file.is_file() or checksum(file.read_bytes()) != sum:
            wrong.append(f"crates/{path}" + " (not there)" * (not file.exists()))
    return wrong


def listing(names):
    """The first twenty of the names, each on a line, and how many more there are."""
    more = [f"and {len(names) - 20} more"] if len(names) > 20 else []
    return "\n".join(f"  {it}" for it in names[:20] + more)


def in_the_way(to, files, lines, known):
    """Which files and lines of the taker's own stand where others are to be written."""
    there = lines_of(to)
    _, known_lines, known_sums = known
    own = [f"the line of {name} in crates.txt" for name in lines if name in there and name not in known_lines and there[name] != lines[name]]
    for path, content in files.items():
        file = to / "crates" / path
        if path not in known_sums and file.exists() and (not file.is_file() or file.read_bytes() != content):
            own.append(f"crates/{path}")
    return own


def write(to, files, lines, gone, gone_lines):
    """Writes what differs, takes away what is gone, and puts the lines into crates.txt. Answers how many files were new or changed."""
    count = 0
    for path, content in files.items():
        file = to / "crates" / path
        if not file.is_file() or file.read_bytes() != content:
            file.parent.mkdir(parents=True, exist_ok=True)
            file.write_bytes(content)
            count += 1
    for path in gone:
        (to / "crates" / path).unlink()
    listed, there = to / "crates.txt", lines_of(to)
    now = {there[name]: line for name, line in lines.items() if name in there}
    kept = [now.get(line, line) for line in (listed.read_text().splitlines() if listed.is_file() else []) if line not in gone_lines]
    listed.write_text("".join(f"{line}\n" for line in [*kept, *(line for name, line in lines.items() if name not in there)]))
    return count


def chosen(lines_here, known_lines, asked):
    """The crates to take: those asked for, those that were taken before, what callers use besides, and all that these stand on."""
    for crate in asked:
        if crate not in library(lines_here):
            stop(f"{crate} is no crate of the library")
    crates = below(home, lines_here)
    for crate in [*known_lines, *(asked or ([] if known_lines else ["fallible_collections"]))]:
        crates += [it for it in below(crate, lines_here) if it not in crates] if crate in lines_here else []
    for crate in [more for it in [*crates] for more in beside.get(it, [])]:
        crates += [it for it in below(crate, lines_here) if it not in crates]
    return crates


def take(top, to, asked):
    """Takes from a checkout of the library, or from what an archive has of one. Answers the crates that were taken."""
    lines_here, known = lines_of(top), taken_before(to)
    known_commit, known_lines, known_sums = known
    crates = chosen(lines_here, known_lines, asked)
    files, lines = contents(sources(top, crates)), {crate: lines_here[crate] for crate in crates}
    wrong = differing(to, known_lines, known_sums) + in_the_way(to, files, lines, known)
    if wrong:
        stop("nothing was written, since these are not as they were taken, or are your own; move your changes elsewhere first:\n" + listing(wrong))
    gone = [path for path in known_sums if path not in files]
    count, now = write(to, files, lines, gone, [known_lines[it] for it in known_lines if it not in lines]), commit(top)
    sums = "".join(f"{checksum(content)}  {path}\n" for path, content in files.items())
    said = "# Taken by tools/take.py of fallible_collections for Rattle, as of the commit below. To see whether all is as it was taken, in crates/:\n"
    said += f"#   sha256sum --quiet -c {home}/TAKEN\n# commit {now}\n" + "".join(f"# line {line}\n" for line in lines.values())
    (to / "crates" / home / "TAKEN").write_text(said + sums)
    before = f" (before: {known_commit})" if known_commit else ""
    print(f"took {len(crates)} crates of commit {now}{before}: {' '.join(crates)}")
    print(f"{count} of {len(files)} files were written, the others stood there as they are, and {len(gone)} were removed; crates.txt has a line for each crate")
    print(f"to see that all is in place: tools/take.py --check {to}; crates/{home}/docs/USING.md there has the line of crates.txt for a crate of yours")
    return crates


def release_of(text):
    """What the file RELEASE of an archive says: its remarks by their first word, and the checksums of files by path."""
    return dict(re.findall(r"(?m)^# (\w+) (.+)$", text)), {path: sum for sum, path in re.findall(r"(?m)^([0-9a-f]{64})  (.+)$", text)}


@contextlib.contextmanager
def opened(archive):
    """The archive, to be read from its start to its end."""
    if not archive.is_file():
        stop(f"{archive} is no file")
    if archive.suffix != ".zst":
        with tarfile.open(archive, "r|*") as tar:
            yield tar
        return
    if not shutil.which("zstd"):
        stop(f"zstd, which unpacks {archive}, is not on the path")
    with subprocess.Popen(["zstd", "-dcq", "--long=27", archive], stdout=subprocess.PIPE, stderr=subprocess.DEVNULL) as ran:
        with tarfile.open(fileobj=ran.stdout, mode="r|") as tar:
            yield tar


def held(archive, path, content, sums):
    """Stops where a file of the archive is not as its RELEASE says, or would lie outside the archive's folder."""
    if sums.get(path) != checksum(content) or path != os.path.normpath(path) or path.startswith(("/", "..")):
        stop(f"{archive} is damaged: {path} is not as its RELEASE says")


def files_in(archive, is_wanted=lambda path: True):
    """RELEASE, which comes first, and each wanted file of the archive, held to it: its path below the one folder of the archive, and its content."""
    sums = {}
    try:
        with opened(archive) as tar:
            for it in filter(tarfile.TarInfo.isfile, tar):
                path = it.name.partition("/")[2]
                if not sums and path == "RELEASE":
                    content = tar.extractfile(it).read()
                    sums = release_of(content.decode())[1]
                    yield path, content
                elif not sums or is_wanted(path):
                    content = tar.extractfile(it).read()
                    held(archive, path, content, sums)
                    yield path, content
    except (tarfile.TarError, lzma.LZMAError, EOFError, OSError, UnicodeDecodeError) as error:
        stop(f"{archive} is damaged, or no archive of tools/release.py: {error}")


def unpack(archive, room):
    """Puts all of the archive but what was proved into a folder. Answers what RELEASE says."""
    for path, content in files_in(archive):
        if proof_of.match(path):
            break
        (room / path).parent.mkdir(parents=True, exist_ok=True)
        (room / path).write_bytes(content)
    if not (room / "RELEASE").is_file():
        stop(f"{archive} is no archive of tools/release.py: it has no RELEASE")
    said, sums = release_of((room / "RELEASE").read_text())
    # (an archive that was cut may end between two files)
    stop_if_lacking(archive, {path for path in sums if not proof_of.match(path) and not (room / path).is_file()})
    return said, sums


def stop_if_lacking(archive, lacking):
    """Stops where the archive lacks files that its RELEASE names."""
    if lacking:
        stop(f"{archive} is damaged: it lacks {len(lacking)} files that its RELEASE names, {min(lacking)} among them")


def keep(archive, to, crates, sums):
    """Puts what an archive has as proved of these crates into their out/. Answers of how many crates it was."""
    lacking = {path for path in sums if (it := proof_of.match(path)) and it[1] in crates}
    wanted = {*lacking}

    def proofs():
        for path, content in files_in(archive, wanted.__contains__):
            lacking.discard(path)
            yield path, content
        stop_if_lacking(archive, lacking)

    return place(to, crates, proofs())


def place(to, crates, proofs):
    """Puts what was proved of these crates into their out/, in the place of what is there. Stamps, without which it counts for nothing, come last.
    Those of the taker's own libraries go: they are built over what was there, and are built again in seconds."""
    stamps = {}
    for stamp in to.glob("crates/*/out/rlib/stamp"):
        stamp.unlink()
    for crate in crates:
        shutil.rmtree(to / f"crates/{crate}/out/rlib", ignore_errors=True)
    for path, content in proofs:
        if path.endswith("/out/rlib/stamp"):
            stamps[path] = content
        elif proof_of.match(path):
            (to / path).parent.mkdir(parents=True, exist_ok=True)
            (to / path).write_bytes(content)
    for path, content in stamps.items():
        (to / path).write_bytes(content)
    return len(stamps)


def take_proved(top, to, asked):
    """Takes from a checkout, and with it what `rt ci` proves of the crates on a copy: what this machine kept is taken over."""
    import release  # beside this script in a checkout

    crates = take(top, to, asked)
    with tempfile.TemporaryDirectory() as room:
        folder = pathlib.Path(room) / "copy"
        for path, file in sources(top, crates).items():
            (folder / "crates" / path).parent.mkdir(parents=True, exist_ok=True)
            shutil.copy(file, folder / "crates" / path)
        lines = lines_of(top)
        (folder / "crates.txt").write_text("".join(f"{lines[it]}\n" for it in crates))
        release.proved(folder)
        release.stamp(folder, crates)
        found = sorted(it for crate in crates for it in (folder / f"crates/{crate}/out/rlib").rglob("*") if it.is_file())
        count = place(to, crates, ((it.relative_to(folder).as_posix(), it.read_bytes()) for it in found))
    print(f"what was proved of {count} crates came along, as out/rlib of each, with which rt check of a crate of yours goes on")


def kit():
    """The kit that is here, as its command tells it."""
    try:
        return subprocess.run(["rt", "version"], capture_output=True, text=True, check=True).stdout.strip()
    except (OSError, subprocess.CalledProcessError):
        return "none"


def take_from(archive, to, asked):
    """Takes from an archive, and with it what was proved of the crates, where it is of the kit that is here."""
    with tempfile.TemporaryDirectory() as room:
        said, sums = unpack(archive, pathlib.Path(room))
        crates = take(pathlib.Path(room), to, asked)
    print(f"the archive is of commit {said.get('commit')}, with {said.get('kit')}; its gate: {said.get('gate')}")
    if kit() != said.get("kit"):
        print(f"what was proved did not come along, since the kit here is {kit()}: rt check proves the library from nothing")
        return
    count = keep(archive, to, crates, sums)
    print(f"what was proved of {count} crates came along, as out/rlib of each: rt check of a crate of yours goes on from it, on the word of who made the archive;")
    print("rt ci, as your gate, takes nothing of it and proves the library once from nothing. out/ is not to be committed: let .gitignore name it")


def main(words):
    checks, proves, archive = words[:1] == ["--check"], words[:1] == ["--proved"], ""
    if words[:1] == ["--from"] and len(words) > 2:
        archive, words = pathlib.Path(words[1]), words[2:]
    words = words[checks or proves :]
    if not words or words[0].startswith("-") or checks and len(words) > 1:
        sys.exit(__doc__)
    to, top = pathlib.Path(words[0]), pathlib.Path(__file__).resolve().parent.parent
    if not to.is_dir() or to.resolve() == top and not archive:  # the script alone may lie anywhere
        stop(f"{to} is no folder of another repository")
    if archive:
        return take_from(archive, to, words[1:])
    if not checks:
        if not lines_of(top):
            stop("no checkout of the library stands round this script: --from takes from an archive")
        if proves:
            return take_proved(top, to, words[1:])
        take(top, to, words[1:])
        print("rt ci NAME of that crate proves over what this machine kept, where the first rt check proves the library again, but after take.py --proved")
        return
    name, lines, sums = taken_before(to)
    if not sums:
        stop(f"{to}/crates/{home}/TAKEN is not there: nothing was taken, or by a form of this command that recorded nothing")
    if wrong := differing(to, lines, sums):
        stop("not as they were taken:\n" + listing(wrong))
    print(f"{len(sums)} files of {len(lines)} crates are as they were taken of commit {name}")


if __name__ == "__main__":
    main(sys.argv[1:])
