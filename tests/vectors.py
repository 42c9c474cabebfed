#!/usr/bin/env python3
"""Runs a program on the stored cases and compares what it prints with printed.txt, byte by byte; what it says on standard
error too, where that is known.

    tests/vectors.py PROGRAM admit|host|replay|handover|offers [ARGUMENT ..]

A host has the cases of admit, and its standard error isn't compared.
The arguments are passed on to the program, which must print the same with them.
Each case runs in a folder of its own that holds just the case's input files. After the stored cases come some by hand: files
that are missing, a folder, unended or far too long, changes, registries with gaps or full, and gates. The first difference
ends the run; no case at all is a failure."""
import shutil
import subprocess
import sys
import tempfile
from pathlib import Path

ROOT = Path(__file__).resolve().parent.parent
STORED = ROOT / "tests" / "vectors"
OF_LISTS = ["replay", "handover", "offers"]  # a stored case is of the one that its name holds, else of admit
EXAMPLES = {"admit": [".", "hall", "fragmented"], "handover": ["handover"], "offers": ["gate"]}
# What `handover` says of a stored case, where it says anything: `replay` prints it of the same table.txt and calls.txt. The one of 9
# columns is a refused table's code and line; `end` has the length of the whole calls before what is none.
SAID = {"handover05": b"end      2916\n", "handover08": b"end      3821\n", "handover09": b"  1     1\n"}
FOLDER = object()  # stands for a folder in a file's place
SECONDS = 60
REFUSED_BYTES = 10  # a refused batch's line

TABLE = b"   1   1   2   100 1    370     2000\n"
REGISTER = b" 1     7     1000    1542 1542     370  1   1 1\n"
RELEASE = b" 2     7\n"
FIGURES = b"   1 1           0              0    0\n"
CHANGE = b" 3     7     1000    1980\n"  # 8000 * (1542 + 1980) / 100000 is 282 (281.76) of 370, 1980 + 16 (15.42) is 1996 of 2000
REFUSED_CHANGES = [
    (b" 3     7     1000    3084\n", b" 22   0   1 1\n"),  # 371 (370.08) of 370
    (b" 3     7     1000    3083\n", b" 23   0   1 1\n"),  # 370, but 3083 + 16 of 2000
    (b" 3     7   100000    1980\n", b" 21   0   1 0\n"),
    (b" 3     7     1000    1541\n", b" 17   0   0 0\n"),
    (b" 3     8     1000    1980\n", b" 13   0   0 0\n"),
    (b" 3     7        0    1980\n", b" 11   0   0 0\n"),
    (b" 3     7     1000   1980\n", b" 10   0   0 0\n"),
]
DONE = b"  0   1   0 0\n"
LIST_BYTES = 200_000  # so many of calls.txt and of offers.txt count
SLOTS = 256
HOP_ENTRIES = 1_024


def chain(links):
    """A table of links one after the other, with much room."""
    return b"".join(b"%4d%4d%4d 10000 1   1000   100000\n" % (link, link, link + 1) for link in range(1, links + 1))


def flow(number, hops=1, rate=1, burst=84):
    """A registration over a chain's first links."""
    head = b" 1%6d%9d%8d%5d%8d%3d" % (number, rate, burst, 84, 12_000, hops)
    return head + b"".join(b"%4d 1" % link for link in range(1, hops + 1)) + b"\n"


def release(number):
    return b" 2%6d\n" % number


TWELVE = chain(12)
FOUR = [flow(number, hops=number) for number in range(1, 5)]
FULL = [flow(number) for number in range(1, SLOTS + 1)]
LONG_PATHS = [flow(number, hops=12) for number in range(1, 86)] + [flow(86, hops=4)]
ALL_ROOM = [flow(number, hops=HOP_ENTRIES // SLOTS) for number in range(1, SLOTS + 1)]
WIDEST = b" 1 65535  9999999 1000000 154210000000  1   1 1\n"


def answered(lines):
    """Answer lines, of lines given as what stands after their numbers."""
    return b"".join(b"%6d%b" % (number, line) for number, line in enumerate(lines, 1))


def call(kind, given):
    return b"%2d%6d\n%b" % (kind, len(given), given)


def calls(*lines):
    """Each line as the call that it is for."""
    return b"".join(call(int(line[:2]), line) for line in lines)


def unopened(program, name):
    return f"{program}: {name}.txt: can't be opened, counts as empty\n".encode()


def handed(lines, held, table=TWELVE, after=b"", said=b""):
    """A case of handover: the calls for these lines, then whatever follows; the lines that are printed."""
    return {"table.txt": table, "calls.txt": calls(*lines) + after}, b"".join(held), said


def opening(rate=1_000, burst=168, frame=84, reading=0):
    """By default 84 bytes take 672 us, and two frames are the burst."""
    return b"%9d%8d%5d%9d\n" % (rate, burst, frame, reading)


def offer(length, wait=0):
    return b"%5d%9d\n" % (length, wait)


def gate(code, tokens):
    """A line of what offers prints."""
    return b"%3d%14d\n" % (code, tokens)


def end(line):
    return b"end%10d\n" % line


def offered(*steps, first=opening(), after=b"", printed=b"", said=b""):
    """A case of offers: the first line opens a full gate; each step is an offer and what is printed of it; then whatever follows."""
    rows = b"".join(row for row, _ in steps)
    return {"offers.txt": first + rows + after}, gate(0, FULL_GATE) + b"".join(line for _, line in steps) + printed, said


FULL_GATE = 8_000 * 168
EMPTIED = [(offer(84), gate(0, 672_000)), (offer(84), gate(0, 0))]
FIFTH = 858_993_459  # us; five of them are 1 less than a turn of the clock
# The longest list of whole lines; 3 bytes more count, so every longer list is cut within a line.
WHOLE_OFFERS = (LIST_BYTES - len(opening())) // len(offer(84))
LONGEST = EMPTIED + [(offer(84), gate(1, 0))] * (WHOLE_OFFERS - 2)

# A call that is given no line, as long that just one of a registration is read behind it.
FILLING = call(2, b"x" * (LIST_BYTES - len(call(2, b"")) - len(calls(REGISTER))))
NO_TABLE = unopened("admit", "table")
NO_ORDERS = unopened("admit", "orders")
LONG_OFFERS = b"offers: offers.txt: only the first 200,000 bytes count\n"
LONG_LIST = b"handover: calls.txt: only the first 200,000 bytes count\n"
LONG_TABLE = b"admit: refused: the table is too long\n"

# name: (files, printed, said); the expected lines are given by hand. What isn't given is nothing.
BY_HAND = {
    "admit": {
        "no files": ({}, b"", NO_TABLE + NO_ORDERS),
        "no orders": ({"table.txt": TABLE}, b"", NO_ORDERS),
        "no table": ({"orders.txt": REGISTER + RELEASE}, b"     1 14   0   1 1\n     2 13   0   0 0\n", NO_TABLE),
        "folders": ({"table.txt": FOLDER, "orders.txt": FOLDER}, b""),
        "a folder for a table": ({"table.txt": FOLDER, "orders.txt": RELEASE}, b"     1 13   0   0 0\n"),
        "a last line unended": ({"table.txt": TABLE, "orders.txt": REGISTER + RELEASE[:-1]}, b"     1  0   1   0 0\n     2 10   0   0 0\n"),
        "a table unended": ({"table.txt": TABLE + TABLE[:-1], "orders.txt": RELEASE}, b"  1     2\n",
            b"admit: refused: table.txt, line 2: its columns are wrong, or the last line has no LF\n"),
        "changes": ({"table.txt": TABLE, "orders.txt": REGISTER + CHANGE + b"".join(line for line, _ in REFUSED_CHANGES) + RELEASE},
            answered([DONE, DONE, *(answer for _, answer in REFUSED_CHANGES), DONE])),
        "a table of 25,089 bytes": ({"table.txt": b"x" * 25_089, "orders.txt": RELEASE}, b"  5     0\n", LONG_TABLE),
        "a table of 30 MB": ({"table.txt": TABLE * 810_811, "orders.txt": RELEASE}, b"  5     0\n", LONG_TABLE),
        "orders of 30 MB": ({"table.txt": TABLE, "orders.txt": RELEASE * 3_333_334}, b" 41     0\n",
            b"admit: refused: the orders are too long, or too many\n"),
        "both of 30 MB": ({"table.txt": b"\n" * 30_000_000, "orders.txt": b" " * 30_000_000}, b"  5     0\n", LONG_TABLE),
    },
    "replay": {
        "no files": ({}, b""),
        "no calls": ({"table.txt": TABLE}, FIGURES),
        "no table": ({"calls.txt": b" 1    48\n" + REGISTER}, b" 14   0   1 1\n"),
        "folders": ({"table.txt": FOLDER, "calls.txt": FOLDER}, b""),
        "changes": ({"table.txt": TABLE, "calls.txt": call(1, REGISTER) + call(3, CHANGE) + b"".join(call(3, line) for line, _ in REFUSED_CHANGES)},
            DONE + DONE + b"".join(answer for _, answer in REFUSED_CHANGES)
            + b"   1 1        1000           1980 1542\n   1     7     1000    1980 1542     370  1   1 1\n"),
        "calls with lines of another kind": ({"table.txt": TABLE, "calls.txt":
            call(1, CHANGE) + call(2, CHANGE) + call(3, REGISTER) + call(3, RELEASE) + call(3, b" 2 rest\n") + call(3, b" x\n")},
            b" 11   0   0 0\n" * 5 + b" 10   0   0 0\n" + FIGURES),
        "a call of kind 4": ({"table.txt": TABLE, "calls.txt": call(4, RELEASE)}, b"end         0\n" + FIGURES),
        "a cut call": ({"table.txt": TABLE, "calls.txt": b" 2     9\n" + RELEASE[:-1]}, b"end         0\n" + FIGURES),
        "a table of 30 MB": ({"table.txt": TABLE * 810_811, "calls.txt": b" 2     9\n" + RELEASE}, b"  5     0\n 13   0   0 0\n"),
    },
    "handover": {
        "no files": ({}, b"", unopened("handover", "table") + unopened("handover", "calls")),
        "no calls": ({"table.txt": TABLE}, b"", unopened("handover", "calls")),
        "no table": ({"calls.txt": calls(REGISTER)}, b"", unopened("handover", "table")),
        "folders": ({"table.txt": FOLDER, "calls.txt": FOLDER}, b""),
        "a folder for a table": ({"table.txt": FOLDER, "calls.txt": calls(REGISTER)}, b""),
        "a folder for calls": ({"table.txt": TABLE, "calls.txt": FOLDER}, b""),
        "refused calls": handed([REGISTER, REGISTER, FOUR[1], RELEASE.replace(b"7", b"8")], [REGISTER], TABLE),
        "gaps": handed([*FOUR, release(1), release(3)], [FOUR[1], FOUR[3]]),
        "a later flow at a lower place": handed([*FOUR, release(2), flow(9)], [FOUR[0], flow(9), *FOUR[2:]]),
        "a change": handed([REGISTER, CHANGE, *(line for line, _ in REFUSED_CHANGES)], [REGISTER.replace(b"1542 1542", b"1980 1542")], TABLE),
        "a change of a path of twelve": handed([*FOUR, flow(9, 12), b" 3     9       50     300\n"], [*FOUR, flow(9, 12, 50, 300)]),
        "all released": handed([*FOUR, *map(release, range(1, 5))], []),
        "the widest numbers": handed([WIDEST], [WIDEST], b"   1   1   2 10000 1 100000 16777215\n"),
        "256 flows": handed([*FULL, flow(300)], FULL),
        "256 flows, one of them later": handed([*FULL, release(100), flow(300)], [*FULL[:99], flow(300), *FULL[100:]]),
        "1,024 hop entries": handed([*LONG_PATHS, flow(87)], LONG_PATHS),
        "1,024 hop entries and gaps": handed([*LONG_PATHS, release(1), flow(87, hops=11), release(2)], [flow(87, hops=11), *LONG_PATHS[2:]]),
        "the longest text": handed(ALL_ROOM, ALL_ROOM),
        "a refused table": handed(FOUR, [], TWELVE + b"x\n", said=b"  1    13\n"),
        "an ended list": handed(FOUR, FOUR, after=calls(flow(9))[:-1], said=b"end%10d\n" % len(calls(*FOUR))),
        "a call of kind 4": handed(FOUR, FOUR, after=call(4, flow(9)) + calls(release(1)), said=b"end%10d\n" % len(calls(*FOUR))),
        "a refused table and an ended list": handed(FOUR, [], TWELVE[:-1], b"x", b"  1    12\nend%10d\n" % len(calls(*FOUR))),
        "200,000 bytes of calls": ({"table.txt": TABLE, "calls.txt": FILLING + calls(REGISTER)}, REGISTER),
        "a byte more": ({"table.txt": TABLE, "calls.txt": FILLING + calls(REGISTER) + b"x"}, REGISTER, LONG_LIST),
        "calls past 200,000 bytes": ({"table.txt": TABLE, "calls.txt": FILLING + calls(REGISTER, RELEASE)}, REGISTER, LONG_LIST),
        "a call cut at 200,000 bytes": ({"table.txt": TABLE, "calls.txt": b" 2     0\n" + FILLING + calls(REGISTER, RELEASE)}, b"",
            LONG_LIST + b"end%10d\n" % (LIST_BYTES - len(calls(REGISTER)) + 9)),
        "a table of 30 MB": ({"table.txt": TABLE * 810_811, "calls.txt": calls(REGISTER)}, b"", b"  5     0\n"),
    },
    "offers": {
        "no file": ({}, b"", unopened("offers", "offers")),
        "a folder": ({"offers.txt": FOLDER}, b""),
        "an empty file": ({"offers.txt": b""}, b""),
        "an opening alone": offered(),
        "the widest opening": ({"offers.txt": opening(10_000_000, 1_000_000, 1_542, 999_999_999)}, gate(0, 8_000_000_000)),
        "an unended opening": ({"offers.txt": opening()[:-1]}, end(1)),
        "one byte": ({"offers.txt": b"1"}, end(1)),
        "an empty line": ({"offers.txt": b"\n" + opening()}, end(1)),
        "an opening a column too long": ({"offers.txt": b" " + opening() + offer(84)}, end(1)),
        "an opening a column too short": ({"offers.txt": opening()[1:] + offer(84)}, end(1)),
        "an opening with a blank after it": ({"offers.txt": opening()[:-1] + b" \n"}, end(1)),
        "an opening with CR LF": ({"offers.txt": opening()[:-1] + b"\r\n"}, end(1)),
        "an opening with a leading zero": ({"offers.txt": opening().replace(b" 1000", b"01000")}, end(1)),
        "an opening without a reading": ({"offers.txt": opening()[:22] + b" " * 9 + b"\n"}, end(1)),
        "a refused opening": ({"offers.txt": opening(rate=0)}, gate(61, 0)),
        "a refused opening, lines after it": ({"offers.txt": opening(frame=169) + offer(84) + b"x"}, gate(61, 0)),
        "a rate out of range": ({"offers.txt": opening(rate=10_000_001)}, gate(61, 0)),
        "a burst out of range": ({"offers.txt": opening(burst=1_000_001)}, gate(61, 0)),
        "a burst below a frame": ({"offers.txt": opening(burst=83)}, gate(61, 0)),
        "a largest frame out of range": ({"offers.txt": opening(burst=2_000, frame=1_543)}, gate(61, 0)),
        "a largest frame below the smallest": ({"offers.txt": opening(frame=83)}, gate(61, 0)),
        "an unended offer": offered(*EMPTIED, after=offer(84)[:-1], printed=end(4)),
        "an offer a column too long": offered(*EMPTIED, after=b" " + offer(84) + offer(84), printed=end(4)),
        "an offer a column too short": offered(*EMPTIED, after=offer(84)[1:] + offer(84), printed=end(4)),
        "an offer that isn't right-justified": offered(after=b"84   " + offer(84)[5:], printed=end(2)),
        "an offer with a leading zero": offered(after=b"   84       00\n", printed=end(2)),
        "an offer with a NUL": offered(after=b"   84       \x000\n", printed=end(2)),
        "an empty line later": offered(*EMPTIED, after=b"\n", printed=end(4)),
        "one byte later": offered(*EMPTIED, after=b" ", printed=end(4)),
        "just in time": offered(*EMPTIED, (offer(84, 672), gate(0, 0))),
        "1 us too soon, then in time": offered(*EMPTIED, (offer(84, 671), gate(1, 671_000)), (offer(84, 1), gate(0, 0))),
        "never above full": offered((offer(84, 999_999_999), gate(0, 672_000)), (offer(84, 671), gate(0, 671_000)), (offer(84, 999_999_999), gate(0, 672_000))),
        "frames refused, then in time": offered(*EMPTIED, (offer(83, 600), gate(60, 0)), (offer(85, 71), gate(60, 0)), (offer(84), gate(1, 671_000)),
            (offer(0, 1), gate(60, 671_000)), (offer(84), gate(0, 0)), (offer(99_999), gate(60, 0))),
        "round the corner": offered((offer(84, 999_999_999), gate(0, 672_000)), (offer(84), gate(0, 0)),
            *[(offer(83, 999_999_999), gate(60, 0))] * 3, (offer(83, 294_967_299), gate(60, 0)), (offer(84, 671), gate(0, 672_000))),
        "within a turn": offered(*EMPTIED, *[(offer(83, FIFTH), gate(60, 0))] * 5, (offer(84), gate(0, 672_000))),
        "a whole turn unseen": offered(*EMPTIED, *[(offer(83, FIFTH), gate(60, 0))] * 5, (offer(84, 1), gate(1, 0)), (offer(84, 672), gate(0, 0))),
        "past the corner between two offers": offered(*[(offer(84, 999_999_999), gate(0, 672_000))] * 4, (offer(84), gate(0, 0)),
            (offer(84, 671), gate(1, 671_000)), (offer(84, 1), gate(0, 0)), first=opening(reading=294_967_299)),
        "the longest list": offered(*LONGEST),
        "200,000 bytes": offered(*LONGEST, after=b"   ", printed=end(WHOLE_OFFERS + 2)),
        "a byte more": offered(*LONGEST, after=b"   8", printed=end(WHOLE_OFFERS + 2), said=LONG_OFFERS),
        "an offer cut at 200,000 bytes": offered(*LONGEST, after=offer(84) * 2, printed=end(WHOLE_OFFERS + 2), said=LONG_OFFERS),
        "a long list that ends early": offered(after=b"x\n" * LIST_BYTES, printed=end(2), said=LONG_OFFERS),
        "a long list, its opening refused": ({"offers.txt": opening(rate=0) + offer(84) * WHOLE_OFFERS + b"   8"}, gate(61, 0), LONG_OFFERS),
        "30 MB": offered(*LONGEST, after=offer(84) * 2_000_000, printed=end(WHOLE_OFFERS + 2), said=LONG_OFFERS),
    },
}


def stored(kind):
    """The stored cases of this kind, and examples: name, input files, printed.txt."""
    found = [path for path in sorted(STORED.iterdir()) if path.is_dir() and kind == next((name for name in OF_LISTS if name in path.name), "admit")]
    if found:
        found += [ROOT / "examples" / name for name in EXAMPLES.get(kind, [])]
    for folder in found:
        inputs = [path for path in folder.glob("*.txt") if path.name != "printed.txt"]
        yield folder.name, {path.name: path.read_bytes() for path in inputs}, (folder / "printed.txt").read_bytes()


def known_words(kind, name, expected):
    """What a program says of a stored case; of a refused batch `admit` says more than is known here."""
    return None if kind == "admit" and len(expected) == REFUSED_BYTES else SAID.get(name, b"")


def fill(folder, files):
    for name, content in files.items():
        if content is FOLDER:
            (folder / name).mkdir()
        else:
            (folder / name).write_bytes(content)


def run(command, files, output=subprocess.PIPE):
    """The command run in a folder that holds these files."""
    folder = Path(tempfile.mkdtemp(prefix="vectors-"))
    try:
        fill(folder, files)
        return subprocess.run(command, cwd=folder, stdin=subprocess.DEVNULL, stdout=output, stderr=subprocess.PIPE, timeout=SECONDS)
    finally:
        shutil.rmtree(folder)


def difference(found, expected):
    """The first line that differs, for a message."""
    one, other = found.splitlines(keepends=True), expected.splitlines(keepends=True)
    at = next((i for i, (a, b) in enumerate(zip(one, other)) if a != b), min(len(one), len(other)))
    shown = [lines[at] if at < len(lines) else "nothing" for lines in (one, other)]
    return f"line {at + 1}: printed {shown[0]!r}, expected {shown[1]!r}"


def judge(command, name, files, expected, said):
    """Standard error isn't compared where `said` is None."""
    try:
        done = run(command, files)
    except subprocess.TimeoutExpired:
        sys.exit(f"vectors: {name}: not done after {SECONDS} s")
    except OSError as error:
        sys.exit(f"vectors: {command[0]}: {error.strerror}")
    if done.stdout != expected:
        sys.exit(f"vectors: {name}: {difference(done.stdout, expected)}")
    if said is not None and done.stderr != said:
        sys.exit(f"vectors: {name}: on standard error {difference(done.stderr, said)}")
    if done.returncode != 0:
        sys.exit(f"vectors: {name}: the program ended with {done.returncode}")


def judge_full(command):
    """Answers that can't be written."""
    with open("/dev/full", "wb") as full:
        done = run(command, {"table.txt": TABLE, "orders.txt": RELEASE}, full)
    if done.stderr != b"admit: the output can't be written\n":
        sys.exit(f"vectors: a full disk: said {done.stderr!r}")


def main(arguments):
    if len(arguments) < 2 or arguments[1] not in [*BY_HAND, "host"]:
        sys.exit("usage: tests/vectors.py PROGRAM admit|host|replay|handover|offers [ARGUMENT ..]")
    program, named, *passed = arguments
    kind, heard = ("admit", False) if named == "host" else (named, True)
    command = [str(Path(program).resolve()), *passed]
    cases = list(stored(kind))
    if not cases:
        sys.exit(f"vectors: no case of {kind} in {STORED}")
    for name, files, expected in cases:
        judge(command, name, files, expected, known_words(kind, name, expected) if heard else None)
    by_hand = BY_HAND[kind]
    for name, (files, expected, *said) in by_hand.items():
        judge(command, name, files, expected, b"".join(said) if heard else None)
    if named == "admit":
        judge_full(command)
    print(f"vectors: {' '.join([named, *passed])}: {len(cases)} stored cases and {len(by_hand)} by hand passed")


main(sys.argv[1:])
