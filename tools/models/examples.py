"""What programs tell where some of their lines are refused. Each check takes a run, and answers how many refusals it tells, or None where it tells another
thing than what the lines that were not refused make. Needed where a program in tools/sweep replies in another way."""
import itertools
import re

OUT, NO = "out of memory", "no memory"


def told_among(ran, refusals, wanted):
    """How many of the first lines are replied to by these refusals. `wanted` gives the replies to those at other places, and what stands after all."""
    well = [at for at, it in enumerate(refusals) if ran.replies[at : at + 1] != [it]]
    replies, behind = wanted(well)
    replied = dict(zip(well, replies))
    return len(refusals) - len(well) if ran.replies == [*(replied.get(at, it) for at, it in enumerate(refusals)), *behind] else None


def orders(keys):
    """Orders to sell that nothing fills: each rests under the next number or is refused, and those that rest are shown."""
    resting = lambda well: ([f"0 filled, 1 rest as {it}" for it in range(len(well))], [f"sell {at + 1} 1 as {it}" for it, at in enumerate(well)])
    return lambda ran: told_among(ran, [f"{OUT}: the book is as it was"] * keys, resting)


def locks(keys):
    """Ranges apart: each is locked or refused, and those that were locked are listed."""
    held = lambda well: (["locked"] * len(well), [*(f"{at + 1}0 {at + 1}5 1" for at in well), f"{len(well)} held"])
    return lambda ran: told_among(ran, [OUT] * keys, held)


def limiter(keys):
    """Each client's first request is allowed, or there was no memory; and then just those are known that were allowed."""
    kept = lambda well: (["allowed"] * len(well), [f"{int(at in well)} kept" for at in range(keys)])
    return lambda ran: told_among(ran, [f"{OUT}: {it} at {it} is not counted" for it in range(1, keys + 1)], kept)


def sessions(keys):
    """As many sessions of each of two users are opened or refused, and then each user's are counted. Or it could not begin."""
    counts = lambda well: (["opened"] * len(well), [f"{sum(at // keys == user for at in well)} sessions in some of 2000 bytes" for user in (0, 1)])
    refusals = [f"{OUT}: user {at // keys} has taken some of 2000 bytes" for at in range(2 * keys)]

    def told(ran):
        return told_among(ran._replace(replies=[re.sub(r"\d+(?= of 2000 bytes$)", "some", it) for it in ran.replies]), refusals, counts)

    return or_not_begun(OUT, told)


def or_not_begun(refusal, told):
    return lambda ran: 1 if ran.replies == [refusal] else told(ran)


def media(whole):
    """Each box is shown as it is, but those whose payload was refused; or it could not begin."""

    def told(ran):
        gone = [(reply, it) for reply, it in zip(ran.replies, whole) if reply != it]
        is_well = len(ran.replies) == len(whole) and all(reply.endswith(OUT) and it.startswith(reply.removesuffix(OUT)) for reply, it in gone)
        return len(gone) if is_well else None

    return or_not_begun(OUT, told)


def boxes(whole):
    """The tracks of each file are shown as they are, or of a file, in place of them, that there was no memory."""
    file_of = lambda line: line.partition(" ")[0]
    of_files = lambda lines: {file: [*its] for file, its in itertools.groupby(sorted(lines, key=file_of), file_of)}
    wanted = of_files(whole)

    def told(ran):
        shown = of_files(ran.replies)
        gone = [file for file in wanted if shown.get(file) == [f"{file} {OUT}"]]
        return len(gone) if shown == wanted | {file: shown[file] for file in gone} else None

    return told


def rows_of_map(patterns):
    """Each row is answered as its expression says, which allows for a refused insertion that it tells the very pair that it was given; or it could not
    begin."""

    def told(ran):
        is_well = len(ran.replies) == len(patterns) and all(map(re.fullmatch, patterns, ran.replies))
        return sum(it.count(NO) for it in ran.replies) if is_well else None

    return or_not_begun(NO, told)


def hands_back(row):
    """Whether each item that a row puts in is answered by one word, or by two where it was refused: that it was, and the item."""
    words = row.split()
    at = words.index("->") if "->" in words else len(words)
    items, answers = words[1:at], iter(words[at + 1 :])
    for item in items:
        if (answer := next(answers, None)) is None or answer == "refused" and next(answers, None) != item:
            return False
    return "->" in words and next(answers, None) is None


def rows_of_set(whole):
    """Each row is answered as it should be, up to the first refusal. Then a row may answer another thing, but none tells that a refused call changed a set or
    that an item was lost, each refused insertion tells the very item that it was given, and the last row is as it should be; or the probe could not begin.
    Where one request is refused, and the row that it is of comes once more, that and those after it are answered as they should be."""

    def told(ran):
        refused, is_off, last = 0, False, ""
        for at, (row, wanted) in enumerate(zip(ran.replies, whole)):
            words, meant = row.split(), wanted.split()
            comes_again = ran.refusals == 1 and " refused" in last and whole[at] == whole[at - 1]
            is_off = is_off and not comes_again
            if comes_again and " refused" in row or len(words) != len(meant) and not is_off and " refused" not in row:
                return None
            if words[0].startswith(("insert", "replace")) and not hands_back(row) or not is_allowed(words, meant, is_off):
                return None
            refused, is_off, last = refused + words.count("refused"), is_off or "refused" in words, row
        return refused if len(ran.replies) == len(whole) and last == whole[-1] else None

    return or_not_begun(NO, told)


def is_allowed(words, meant, is_off):
    """Whether the words of a row are as they should be, up to the first refusal, and none tells of harm."""
    before = len(words) if "refused" not in words else words.index("refused")
    harm = {"changed", "lost", "overflow", "?", *(["no"] if words[0] == "insert" else [])}
    return not harm & {*words} and (is_off or words[:before] == meant[:before])
