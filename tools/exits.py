#!/usr/bin/env python3
"""Runs the built programs to each of their ends that needs no refused memory, and compares status, output and standard error: fcrun, and fcrun_memory with
bytes enough, with none, and with words that are not one number; each example where its input fails; and talks to both programs as a person does, a line, its
reply, and only then the next line: by pipes, and by a terminal. Needed where a program ends, reads or writes in another way.

  tools/exits.py [PROGRAM [BYTES]]    looks at this one alone, in place of those that are built; with BYTES it is one that has a budget

Its last line is 'N passed, M failed'."""
import os
import pathlib
import pty
import re
import select
import subprocess
import sys
import tempfile
import termios
import time

TOP = pathlib.Path(__file__).resolve().parent.parent
# Each program with its words, of which one that has a budget has one after its name.
PROGRAMS = [sys.argv[1:]] if len(sys.argv) > 1 else [[str(TOP / "crates/fcrun/out/fcrun")], [str(TOP / "crates/fcrun_memory/out/fcrun_memory"), "1000000"]]
# A reply comes in microseconds. A program that keeps its replies back is told so after these seconds.
PATIENCE = 20
LINE, BAD = "insert a 1 2\n", "len a\nbogus\nlen a\n"
# A leaf of a map takes 240 bytes, and one of a set 120.
LEAF = 240
FULL = "insert a 1 2\nadd s 3\nboth 1 4 5 6\nremove a 1\nadd s 3\nlen a\n"
NO_NUMBER = "one argument is wanted: the bytes that all maps and sets together may take\n"
NO_NUMBERS = ([], [""], ["x"], ["1x"], ["-1"], ["+1"], [" 1"], ["1 "], ["1", "2"], ["1", ""], ["0x10"], ["1e3"], ["18446744073709551616"], ["\udcff"])
TALK = (
    ("insert a 1 2\n", "none\n"),
    ("insert a 1 3\n", "some 2\n"),
    ("extend s 2 1\n", "done\n"),
    ("walk s * * fff\n", "list 1 2 -\n"),
    ("both 5 6 1 9\n", "both - -\n"),
    ("get b 1\n", "some 9\n"),
    # A line that comes in two parts is answered once, and lines that come together are each answered.
    ("le", ""),
    ("n a\n", "2\n"),
    ("remove a 5\nlen a\nhas a 5\n", "some 6\n1\nfalse\n"),
)


def run_to_end(program, given, out=subprocess.PIPE, **how):
    """Status, output and standard error of a run over this text, or over what `how` says, with its output where `out` says."""
    with tempfile.TemporaryFile() as source:
        source.write(given.encode())
        source.seek(0)
        ran = subprocess.run(program, **{"stdin": source, "stdout": out, "stderr": subprocess.PIPE, "timeout": PATIENCE, "check": False, **how})
    return ran.returncode, (ran.stdout or b"").decode(), ran.stderr.decode()


def closed(number):
    return lambda: os.close(number)


def to_nobody(program, given):
    """The same where nobody reads the output any more."""
    reads, writes = os.pipe()
    os.close(reads)
    try:
        return run_to_end(program, given, writes)
    finally:
        os.close(writes)


def ends(program):
    """Each end of a program, with what it is and what it should be."""
    with open("/dev/full", "wb") as full:
        folder = os.open(TOP, os.O_RDONLY)
        yield "no input", run_to_end(program, ""), (0, "", "")
        yield "a line", run_to_end(program, LINE), (0, "none\n", "")
        yield "a line without its line feed", run_to_end(program, "len a"), (0, "0\n", "")
        yield "a line that is not a command", run_to_end(program, BAD), (1, "0\nline 2: not a command\n", "")
        yield "a folder as input", run_to_end(program, "", stdin=folder), (2, "", "input failed\n")
        yield "a closed input", run_to_end(program, "", stdin=None, preexec_fn=closed(0)), (2, "", "input failed\n")
        yield "a full output", run_to_end(program, LINE, full), (2, "", "output failed\n")
        yield "a closed output", run_to_end(program, LINE, None, preexec_fn=closed(1)), (2, "", "output failed\n")
        yield "a full output where a line is not a command", run_to_end(program, BAD, full), (2, "", "output failed\n")
        yield "a full output that nothing is written to", run_to_end(program, "", full), (0, "", "")
        yield "an output that nobody reads", to_nobody(program, LINE), (2, "", "output failed\n")
        os.close(folder)


def ends_of_budgets(program):
    """The ends by the word that says the bytes: where it is no number, or there are none or two, nothing is read; and replies in budgets that are as small as can be."""
    for words in NO_NUMBERS:
        yield f"the words {words}", run_to_end([program, *words], LINE), (2, "", NO_NUMBER)
    yield "no bytes", run_to_end([program, "0"], FULL), (0, "refused alloc 1 2\nrefused alloc 3\nrefused alloc 1 4 5 6\nnone\nrefused alloc 3\n0\n", "")
    for bytes_ in str(LEAF), "000" + str(LEAF):
        yield f"{bytes_} bytes", run_to_end([program, bytes_], FULL), (0, "none\nrefused alloc 3\nrefused alloc 1 4 5 6\nsome 2\ntrue\n0\n", "")
    yield "as many bytes as can be", run_to_end([program, str(2**64 - 1)], FULL), (0, "none\ntrue\nboth 2 -\nsome 4\nfalse\n0\n", "")


def examples():
    """Each example that reads, without input, and where its input fails: a failed read is not the end of the input, and it tells an error."""
    plain = lambda found: (*found[:2], re.sub("(?m)^Error: .*", "Error", found[2]))
    for folder in sorted(it.parent for it in TOP.glob("crates/example_*/stdin") if it.stat().st_size):
        name, program, top = folder.name, [str(folder / "out" / folder.name)], os.open(TOP, os.O_RDONLY)
        yield f"{name}, no input", run_to_end(program, ""), (0, "", "")
        yield f"{name}, a folder as input", plain(run_to_end(program, "", stdin=top)), (1, "", "Error\n")
        yield f"{name}, a closed input", plain(run_to_end(program, "", stdin=None, preexec_fn=closed(0))), (1, "", "Error\n")
        os.close(top)


def read_from(source, wanted, until):
    """What comes, up to as many bytes as are wanted, the end of the source, or that time."""
    found = b""
    while len(found) < wanted and select.select([source], [], [], max(0, until - time.time()))[0]:
        try:
            piece = os.read(source, wanted - len(found))
        except OSError:  # a terminal that the program has left
            break
        if not piece:
            break
        found += piece
    return found.decode()


def told(said, source, last, status, running):
    """Talks, and ends by what `last` says; what differs first, if anything does."""
    for line, reply in TALK:
        said(line)
        found = read_from(source, len(reply), time.time() + PATIENCE)
        if found != reply:
            return f"after {line!r} it answered {found!r} and not {reply!r}"
    sent, reply = last
    said(sent)
    found = read_from(source, 4096, time.time() + PATIENCE)
    try:
        code = running.wait(PATIENCE)
    except subprocess.TimeoutExpired:
        return "it did not end"
    return None if (found, code) == (reply, status) else f"it ended with {found!r} and status {code}, and not with {reply!r} and {status}"


def by_pipes(program, last, status):
    with subprocess.Popen(program, stdin=subprocess.PIPE, stdout=subprocess.PIPE) as running:
        def said(text):
            if text is None:
                running.stdin.close()
            else:
                running.stdin.write(text.encode())
                running.stdin.flush()
        try:
            return told(said, running.stdout.fileno(), last, status, running)
        finally:
            running.kill()


def by_terminal(program, last, status):
    person, terminal = pty.openpty()
    # What is typed is not shown, and a line feed is shown as it is; a line reaches the program when it ends.
    how = termios.tcgetattr(terminal)
    how[1] &= ~termios.OPOST
    how[3] &= ~termios.ECHO
    termios.tcsetattr(terminal, termios.TCSANOW, how)
    with subprocess.Popen(program, stdin=terminal, stdout=terminal, start_new_session=True) as running:
        os.close(terminal)
        try:
            return told(lambda text: os.write(person, b"\x04" if text is None else text.encode()), person, last, status, running)
        finally:
            running.kill()
            os.close(person)


def talks(program):
    """Whether it talks by pipes and by a terminal, up to the end of what is said and up to a line that is not a command."""
    bad = f"line {sum(line.count(chr(10)) for line, _ in TALK) + 1}: not a command\n"
    for way in (by_pipes, by_terminal):
        for last, status in (((None, ""), 0), (("bogus\n", bad), 1)):
            yield f"{way.__name__}, status {status}", way(program, last, status), None


def main():
    passed, failed = 0, 0
    looks = [(pathlib.Path(program[0]).name, it) for program in PROGRAMS for it in (*ends(program), *(ends_of_budgets(program[0]) if program[1:] else ()), *talks(program))]
    looks += [("examples", it) for it in (examples() if len(sys.argv) == 1 else ())]
    for of, (name, found, wanted) in looks:
        passed, failed = passed + (found == wanted), failed + (found != wanted)
        if found != wanted:
            print(f"exits of {of}: {name}: {found} and not {wanted}")
    print(f"{passed} passed, {failed} failed")
    return 1 if failed else 0


sys.exit(main())
