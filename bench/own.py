#!/usr/bin/env python3
"""The toolchain's own ordered map beside std's `BTreeMap`: instructions a call at a thousand pairs, and times at three sizes.

  bench/own.py >bench/figures/own      prints rows 'NAME  ITS / STD'S (ITS AS A MULTIPLE OF STD'S)', which bench/table.py makes a table of"""
import pathlib
import subprocess
import sys
import tempfile

sys.dont_write_bytecode = True
import instructions

BENCH = pathlib.Path(__file__).resolve().parent
with tempfile.TemporaryDirectory() as folder:
    work = pathlib.Path(folder)
    if subprocess.run([BENCH / "build", "own_driver", work / "own_driver", "bench_own"], check=False).returncode != 0:
        sys.exit(2)
    first, *times = subprocess.run([work / "own_driver"], capture_output=True, text=True, check=True).stdout.splitlines()
    print(first)
    instructions.print_rows("instructions, 1000 pairs", instructions.counted(work, "own_driver", "count", [["Ir"]], [])[0].items())
    print(*times, sep="\n")
