#!/usr/bin/env python3
"""Looks that each source file is in the layout that `rt fmt` gives it, on a copy, and that no file is a link. The gate refuses a crate that is not, once it
comes to it, and at once a tree that has a link: `rt ci` with names of crates does not look. Needed before sources are handed in: `rt fmt` puts right what it
tells."""
import filecmp
import pathlib
import shutil
import subprocess
import sys
import tempfile

top = pathlib.Path(__file__).resolve().parent.parent
wrong = [f"{it.relative_to(top)} is a link, which rt ci refuses" for it in top.rglob("*") if it.is_symlink() and it.relative_to(top).parts[0] != ".git"]
with tempfile.TemporaryDirectory() as folder:
    room = pathlib.Path(folder)
    shutil.copy(top / "crates.txt", room)
    for crate in sorted((top / "crates").iterdir()):
        for part in (it for it in ("src", "specs", "proofs") if (crate / it).is_dir()):
            shutil.copytree(crate / part, room / "crates" / crate.name / part)
        said = subprocess.run(["rt", "fmt"], cwd=room / "crates" / crate.name, capture_output=True, text=True, check=False)
        wrong += [f"{crate.name}: {(said.stdout + said.stderr).strip()[-300:]}"] * (said.returncode != 0)
    for file in sorted(it for part in ("src/**/*.rt", "specs/**/*.antt", "proofs/**/*.antt") for it in (top / "crates").glob(f"*/{part}")):
        path = file.relative_to(top)
        wrong += [f"{path} is not in the layout: run rt fmt in its crate's folder"] * (not filecmp.cmp(file, room / path, shallow=False))
if wrong:
    sys.exit("\n".join(wrong))
