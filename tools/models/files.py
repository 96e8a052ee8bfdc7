"""The cases of lines/, which tools/lines has the built programs run, and tools/quick.py a trial. Needed where such a case gets another file."""
import pathlib

FOLDER = pathlib.Path(__file__).resolve().parent.parent.parent / "lines"


def text_of(path):
    return path.read_bytes() if path.is_file() else None


def lines_of_files():
    """Of each case its name, what is given, what is to be written, or None where no file has it, the status, and the request that is refused, or 0."""
    for case in sorted(FOLDER.glob("*.in")):
        status, refused = (int(text_of(case.with_suffix(it)) or 0) for it in (".status", ".refuse"))
        yield case.stem, case.read_bytes(), text_of(case.with_suffix(".out")), status, refused
    lines = (FOLDER / "refused.txt").read_bytes().removesuffix(b"\n").split(b"\n")
    yield from ((f"refused.txt:{number}", line + b"\n", b"line 1: not a command\n", 1, 0) for number, line in enumerate(lines, 1))
