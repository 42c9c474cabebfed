#!/usr/bin/env python3
"""Writes the inputs of the programs table_cases, order_cases and registry_cases, each case beside what document 01 says of it.

Run at the project's root after a change to a case; --check only says which files differ. The expected lines are given by
hand, not worked out."""
import sys
from pathlib import Path


def row(link, frm, to, speed, level, threshold, buffer, fixed=None, best=None):
    """A table line; without a fixed delay it has 36 columns, with one 43, with a best-effort frame 48."""
    later = ("" if fixed is None else f"{fixed:7}") + ("" if best is None else f"{best:5}")
    return f"{link:4}{frm:4}{to:4}{speed:6}{level:2}{threshold:7}{buffer:9}{later}\n"


def full(links, levels, fixed=None, best=None):
    return "".join(row(l, l, l + 1, 100, p, 370, 2000, fixed, best) for l in range(1, links + 1) for p in range(1, levels + 1))


one = row(1, 1, 2, 100, 1, 370, 2000)
two = one + row(1, 1, 2, 100, 2, 374, 2000)
cabled = row(1, 1, 2, 100, 1, 370, 2000, 5)
shared = row(1, 1, 2, 100, 1, 370, 2000, 5, 1542)

# (text, code, line, links, queues)
tables = [
    ("", 0, 0, 0, 0),                                            # an empty text
    ("1", 1, 1, 0, 0),                                           # one byte
    ("\n", 1, 1, 0, 0),                                          # an empty line
    (two, 0, 0, 1, 2),                                           # document 01's table
    (two[:-1], 1, 2, 0, 0),                                      # the last line isn't ended
    (two.replace("\n", "\r\n"), 1, 1, 0, 0),                     # CR LF
    (two[:40] + "\0" + two[41:], 1, 2, 0, 0),                    # a NUL byte
    (full(64, 8), 0, 0, 64, 512),                                # 64 links of 8 levels: 18,944 bytes
    (full(64, 8) + "x", 1, 513, 0, 0),                           # a line more of them, and it isn't ended
    (full(64, 8) + row(65, 65, 66, 100, 1, 370, 2000), 3, 513, 0, 0),
    (full(64, 8, 10000), 0, 0, 64, 512),                         # the same with fixed delays: 22,528 bytes
    (full(64, 8, 10000) + "x", 1, 513, 0, 0),
    (full(64, 8, 10000, 1542), 0, 0, 64, 512),                   # the same with best-effort frames: 25,088 bytes
    (full(64, 8, 10000, 1542) + "x", 5, 0, 0, 0),                # 25,089 bytes
    (full(64, 7) + row(65, 65, 66, 100, 1, 370, 2000), 3, 449, 0, 0),   # link 65
    (full(1, 8) + row(1, 1, 2, 100, 9, 370, 2000), 3, 9, 0, 0),  # level 9
    (row(2, 1, 2, 100, 1, 370, 2000), 3, 1, 0, 0),               # the first line is link 1 level 1
    (row(0, 1, 2, 100, 1, 370, 2000), 3, 1, 0, 0),
    (one + row(1, 1, 2, 100, 1, 370, 2000), 3, 2, 0, 0),         # level 1 again
    (one + row(3, 1, 2, 100, 1, 370, 2000), 3, 2, 0, 0),         # a link left out
    (one + row(2, 2, 1, 100, 1, 370, 2000), 0, 0, 2, 2),
    (one + row(1, 1, 3, 100, 2, 370, 2000), 4, 2, 0, 0),         # to differs
    (one + row(1, 1, 2, 101, 2, 370, 2000), 4, 2, 0, 0),         # speed differs
    (row(1, 7, 7, 100, 1, 370, 2000), 4, 1, 0, 0),               # from equals to
    (row(1, 0, 2, 100, 1, 370, 2000), 2, 1, 0, 0),
    (row(1, 9999, 1, 10000, 1, 100000, 16777215), 0, 0, 1, 1),   # the ranges' ends
    (row(1, 1, 2, 10001, 1, 370, 2000), 2, 1, 0, 0),
    (row(1, 1, 2, 0, 1, 370, 2000), 2, 1, 0, 0),
    (row(1, 1, 2, 100, 1, 100001, 2000), 2, 1, 0, 0),
    (row(1, 1, 2, 100, 1, 0, 2000), 2, 1, 0, 0),
    (row(1, 1, 2, 100, 1, 370, 16777216), 2, 1, 0, 0),
    (row(1, 1, 2, 100, 1, 370, 0), 2, 1, 0, 0),
    (one.replace("   370", "  0370"), 1, 1, 0, 0),               # a leading zero
    (one.replace("   1   1", "1      1"), 1, 1, 0, 0),           # not right-justified
    (one.replace("370", "37O"), 1, 1, 0, 0),                     # no digit
    (one.replace("     2000", "         "), 1, 1, 0, 0),         # no number
    (one[:-1] + " \n", 1, 1, 0, 0),                              # 37 columns
    (two + "\n", 1, 3, 0, 0),
    (row(2, 5, 5, 0, 3, 370, 2000), 2, 1, 0, 0),                 # 2 before 3 and 4
    (row(2, 5, 5, 1, 3, 370, 2000), 3, 1, 0, 0),                 # 3 before 4
    (cabled, 0, 0, 1, 1),                                        # fixed delays
    (row(1, 1, 2, 100, 1, 370, 2000, 0), 0, 0, 1, 1),
    (row(1, 1, 2, 100, 1, 370, 2000, 10001), 2, 1, 0, 0),
    (row(1, 1, 2, 100, 1, 370, 2000, 1000000), 2, 1, 0, 0),      # from column 37 on
    (row(1, 1, 2, 100, 1, 370, 2000, "     05"), 1, 1, 0, 0),    # a leading zero
    (row(1, 1, 2, 100, 1, 370, 2000, ""), 1, 1, 0, 0),           # no number
    (row(1, 1, 2, 100, 1, 370, 2000, "5 "), 1, 1, 0, 0),         # not right-justified
    (one[:-1] + "     5\n", 1, 1, 0, 0),                         # 42 columns
    (cabled[:-1] + " \n", 1, 1, 0, 0),                           # 44 columns
    (cabled + row(1, 1, 2, 100, 2, 374, 2000, 5), 0, 0, 1, 2),
    (one + row(1, 1, 2, 100, 2, 374, 2000, 0), 0, 0, 1, 2),      # lines of a link may differ in length
    (row(1, 1, 2, 100, 1, 370, 2000, 0) + two[len(one):], 0, 0, 1, 2),
    (cabled + row(1, 1, 2, 100, 2, 374, 2000, 6), 4, 2, 0, 0),   # what must agree is the value
    (cabled + two[len(one):], 4, 2, 0, 0),
    (one + row(1, 1, 2, 100, 2, 374, 2000, 1), 4, 2, 0, 0),
    (cabled + row(2, 2, 1, 100, 1, 370, 2000), 0, 0, 2, 2),      # another link has its own
    (cabled + row(1, 1, 2, 100, 2, 374, 2000, 10001), 2, 2, 0, 0),   # 2 before 4
    (cabled + row(1, 1, 2, 100, 3, 374, 2000, 6), 3, 2, 0, 0),   # 3 before 4
    (shared, 0, 0, 1, 1),                                        # best-effort frames
    (row(1, 1, 2, 100, 1, 370, 2000, 0, 0), 0, 0, 1, 1),
    (row(1, 1, 2, 100, 1, 370, 2000, 0, 84), 0, 0, 1, 1),
    (row(1, 1, 2, 100, 1, 370, 2000, 0, 1), 2, 1, 0, 0),
    (row(1, 1, 2, 100, 1, 370, 2000, 0, 83), 2, 1, 0, 0),
    (row(1, 1, 2, 100, 1, 370, 2000, 0, 1543), 2, 1, 0, 0),
    (row(1, 1, 2, 100, 1, 370, 2000, 0, 10084), 2, 1, 0, 0),     # from column 44 on
    (row(1, 1, 2, 100, 1, 370, 2000, 10001, 84), 2, 1, 0, 0),    # the fixed delay still ends in column 43
    (row(1, 1, 2, 100, 1, 370, 2000, 0, "  084"), 1, 1, 0, 0),   # a leading zero
    (row(1, 1, 2, 100, 1, 370, 2000, 0, ""), 1, 1, 0, 0),        # no number
    (row(1, 1, 2, 100, 1, 370, 2000, "", 84), 1, 1, 0, 0),       # no fixed delay before it
    (row(1, 1, 2, 100, 1, 370, 2000, 0, "84 "), 1, 1, 0, 0),     # not right-justified
    *((cabled[:-1] + f"{84:{n}}" + "\n", 1, 1, 0, 0) for n in (2, 3, 4, 6)),     # 45, 46, 47 and 49 columns
    (shared + row(1, 1, 2, 100, 2, 374, 2000, 5, 1542), 0, 0, 1, 2),
    (one + row(1, 1, 2, 100, 2, 374, 2000, 0, 0), 0, 0, 1, 2),   # lines of a link may differ in length
    (cabled + row(1, 1, 2, 100, 2, 374, 2000, 5, 0), 0, 0, 1, 2),
    (shared + row(1, 1, 2, 100, 2, 374, 2000, 5, 1541), 4, 2, 0, 0),     # what must agree is the value
    (shared + row(1, 1, 2, 100, 2, 374, 2000, 5), 4, 2, 0, 0),
    (one + row(1, 1, 2, 100, 2, 374, 2000, 0, 84), 4, 2, 0, 0),
    (shared + row(2, 2, 1, 100, 1, 370, 2000), 0, 0, 2, 2),      # another link has its own
    (shared + row(1, 1, 2, 100, 2, 374, 2000, 5, 83), 2, 2, 0, 0),       # 2 before 4
    (shared + row(1, 1, 2, 100, 3, 374, 2000, 5, 84), 3, 2, 0, 0),       # 3 before 4
]


def order(number, rate, burst, frame, deadline, hops, path):
    return f" 1{number:6}{rate:9}{burst:8}{frame:5}{deadline:8}{hops:3}" + "".join(f"{l:4}{p:2}" for l, p in path) + "\n"


path12 = [(l, 8) for l in range(1, 13)]
base = dict(number=7, rate=1000, burst=1542, frame=1542, deadline=370, hops=1, path=[(1, 1)])


def reg(**changes):
    return order(**{**base, **changes})


def read(number, rate, burst, frame, deadline, hops, link, level):
    return f"  0{number:6}{rate:9}{burst:8}{frame:5}{deadline:9}{hops:3}{link:5}{level:3}\n"


def bare(code, number=0, rate=0, burst=0):
    return f"{code:3}{number:6}{rate:9}{burst:8}    0        0  0    0  0\n"


def change(number, rate, burst):
    return f" 3{number:6}{rate:9}{burst:8}\n"


# (line, what is printed)
orders = [
    (reg(), read(7, 1000, 1542, 1542, 370, 1, 1, 1)),
    (reg(number=65535), read(65535, 1000, 1542, 1542, 370, 1, 1, 1)),
    (reg(number=65536), bare(11)),
    (reg(number=0), bare(11)),
    (reg(hops=12, path=path12), read(7, 1000, 1542, 1542, 370, 12, 12, 8)),
    (reg(hops=13, path=path12 + [(13, 8)]), bare(11)),
    (reg(hops=13, path=[]), bare(11)),                           # nothing after column 41 is read
    (reg(hops=0, path=[]), bare(11)),
    (reg(hops=2), bare(10)),                                     # a hop too few
    (reg(path=[(1, 1), (2, 1)]), bare(10)),                      # a hop too many
    (reg(rate=10000000, burst=1000000, frame=84, deadline=10000000), read(7, 10000000, 1000000, 84, 10000000, 1, 1, 1)),
    (reg(rate=10000001), bare(11)),
    (reg(rate=0), bare(11)),
    (reg(burst=83), bare(11)),
    (reg(burst=1000001), bare(11)),
    (reg(frame=83), bare(11)),
    (reg(frame=1543), bare(11)),
    (reg(deadline=0), bare(11)),
    (reg(deadline=10000001), bare(11)),
    (reg(path=[(0, 0)]), read(7, 1000, 1542, 1542, 370, 1, 0, 0)),   # 14 judges these
    (reg(path=[(9999, 99)]), read(7, 1000, 1542, 1542, 370, 1, 9999, 99)),
    (reg(rate=0).replace("   1 1\n", "   1 x\n"), bare(10)),     # 10 before 11
    (reg(hops=13, path=[]).replace("1000", "10x0"), bare(10)),
    (" 2     7\n", bare(0, 7)),
    (" 2 65535\n", bare(0, 65535)),
    (" 2 65536\n", bare(11)),
    (" 2     0\n", bare(11)),
    (" 2     7 \n", bare(10)),
    (" 2    7\n", bare(10)),
    (" 2    07\n", bare(10)),
    (" 2     7\r\n", bare(10)),                                  # CR LF
    (" 2    \0" + "7\n", bare(10)),                              # a NUL byte
    (change(7, 1000, 1542), bare(0, 7, 1000, 1542)),
    (change(65535, 10000000, 1000000), bare(0, 65535, 10000000, 1000000)),
    (change(1, 1, 84), bare(0, 1, 1, 84)),
    (change(0, 1000, 1542), bare(11)),
    (change(65536, 1000, 1542), bare(11)),
    (change(7, 0, 1542), bare(11)),
    (change(7, 10000001, 1542), bare(11)),
    (change(7, 1000, 83), bare(11)),
    (change(7, 1000, 1000001), bare(11)),
    (change(7, 1000, 1542)[:-2] + "\n", bare(10)),               # 24 columns
    (change(7, 1000, 1542)[:-1] + " \n", bare(10)),              # 26
    (change(0, 1000, "x"), bare(10)),                            # 10 before 11
    (" 3" + reg()[2:], bare(10)),                                # a change ends after its burst
    (" 3\n", bare(10)),
    (" 4 whatever\n", bare(11)),                                 # another kind: the rest isn't read
    (" 0\n", bare(11)),
    ("99\n", bare(11)),
    ("01     7\n", bare(10)),
    ("3\n", bare(10)),                                           # one byte
    ("\n", bare(10)),                                            # an empty line
    (" 1\n", bare(10)),
    (reg()[:41] + "\n", bare(10)),
    (" 2     7", bare(10)),                                      # the last line isn't ended
]

def said(code, slot=0, link=0, level=0):
    return f"{code:3}{slot:4}{link:4}{level:2}\n"


# The registry's arrays, and where a number stands in them, links, queues and slots counted from 0.
TABLE, BITS, STORE, FIGURES = range(4)
LINK_NUMBERS, QUEUE_NUMBERS, SLOT_NUMBERS, QUEUE_FIGURES, SLOT_COUNT = 6, 2, 7, 3, 256
COUNT = 64 * LINK_NUMBERS + 512 * QUEUE_NUMBERS


def put(array, index, n):
    """An x line: sets one number of the registry, of the bits that of a slot, and prints nothing."""
    return (f"x{array:2}{index:5}{n:9}\n", "")


def link(i, k):
    """Link i: from node (k = 0), to node, speed, number of levels, fixed delay, best-effort frame (k = 5)."""
    return LINK_NUMBERS * i + k


def queue(e, k):
    """Queue e: threshold (k = 0), buffer."""
    return 64 * LINK_NUMBERS + QUEUE_NUMBERS * e + k


def slot(i, k):
    """Slot i: flow number (k = 0), rate, burst, largest frame, deadline, hop count, start of its path (k = 6)."""
    return SLOT_COUNT * k + i


def figure(e, k):
    """Queue e: rate sum (k = 0), burst sum, largest frame."""
    return QUEUE_FIGURES * e + k


def entry(p):
    """Hop entry p, behind the numbers of all slots."""
    return SLOT_COUNT * SLOT_NUMBERS + p


def queues(*pairs, best=None):
    """One link at 100 Mbit/s, a threshold and a buffer for each level; its best-effort frame."""
    return "".join(row(1, 1, 2, 100, p, t, b, None if best is None else 0, best) for p, (t, b) in enumerate(pairs, 1))


def chain(n, threshold):
    """Links 1 to n one after the other, a level each."""
    return "".join(row(l, l, l + 1, 100, 1, threshold, 16777215) for l in range(1, n + 1))


def along(number, hops):
    return reg(number=number, rate=1, deadline=132000, hops=hops, path=[(l, 1) for l in range(1, hops + 1)])


# Thresholds along a chain that 18 flows of rate 1,000 meet: bursts grow from hop to hop.
RISING = [2400, 2900, 3400, 4000, 4700, 5600, 6600, 7800, 9200, 10800, 12800, 15100]


def chains(n):
    """n chains of twelve links, a level each."""
    return "".join(row(12 * c + k, 13 * c + k, 13 * c + k + 1, 100, 1, t, 16777215)
                   for c in range(n) for k, t in enumerate(RISING, 1))


def on(number, c, hops):
    """A flow of rate 1,000 on the first hops of chain c."""
    return reg(number=number, deadline=sum(RISING), hops=hops, path=[(12 * c + k, 1) for k in range(1, hops + 1)])


def gone(number):
    """A release, handed to `release`."""
    return f"r 2{number:6}\n"


def changed(number, rate, burst):
    """A change, handed to `change`."""
    return "c" + change(number, rate, burst)


def written(size, code, text=""):
    """An area of so many dots lent to the writer: its code, how many bytes it filled, and what stands there then."""
    return (f"w{size:4}\n", f"{code:3}{len(text):6}\n{text}{'.' * (size - len(text))}\n")


def damaged(*changes):
    """Numbers wrong, (array, index, wrong, right) each: 42. Put right, the registry answers as before: flow 7 is held."""
    wrong = [put(array, index, n) for array, index, n, _ in changes]
    right = [put(array, index, n) for array, index, _, n in changes]
    return wrong + [(reg(), said(42)), (gone(7), said(42))] + right + [(reg(), said(12))]


def hop(k, burst):
    """The numbers by which flow 7 of the chain gets a k-th hop, its figures with it."""
    return [(STORE, slot(0, 5), k, k - 1), (STORE, entry(k - 1), 8 * k - 8, 0)] + [
        (FIGURES, figure(8 * k - 8, i), n, 0) for i, n in enumerate([1, burst, 1542])]


def three(buffer, fixed=0):
    """Three links one after the other, the last with this buffer; their fixed delays sum to `fixed`, most of it the last one's."""
    return "".join(row(l, l, l + 1, 100, 1, 371, b, d) for l, b, d in [(1, 2000, None), (2, 2000, fixed // 3), (3, buffer, fixed - fixed // 3)])


def behind(speed, threshold, buffer):
    """A link of this speed and threshold, then one at 100 Mbit/s with this buffer."""
    return row(1, 1, 2, speed, 1, threshold, 2000) + row(2, 2, 3, 100, 1, 371, buffer)


through = reg(deadline=1113, hops=3, path=[(1, 1), (2, 1), (3, 1)])
onward = reg(deadline=5000, hops=2, path=[(1, 1), (2, 1)])
first = (reg(number=7, deadline=1000), said(0, 1))
second = reg(number=8, deadline=1000, path=[(1, 2)])
both = [first, (second, said(0, 2))]
exact = queues((371, 1573), (374, 1574))

# Two flows as order lines, by hand.
HELD = """\
 1 65535        1    1542 1542  132000  3   1 1   2 1   3 1
 1     9        2    1543 1542  132000  2   1 1   2 1
"""

# (table, [(line, what is printed)])
registries = [
    (queues((247, 1558)), [first]),                              # document 01's sums
    (queues((246, 1558)), [(first[0], said(22, 0, 1, 1))]),
    (queues((247, 1557)), [(first[0], said(23, 0, 1, 1))]),
    (exact, both),                                               # a second on level 2
    (queues((370, 2000), (374, 2000)), [first, (second, said(22, 0, 1, 1)), (first[0], said(12))]),
    (queues((371, 1572), (374, 2000)), [first, (second, said(23, 0, 1, 1))]),
    (queues((371, 2000), (373, 2000)), [first, (second, said(22, 0, 1, 2))]),
    (queues((371, 2000), (374, 1573)), [first, (second, said(23, 0, 1, 2))]),
    (queues((371, 1573), best=1542), [first]),                   # with a best-effort frame, at the last level too
    (queues((370, 1573), best=1542), [(first[0], said(22, 0, 1, 1))]),
    (queues((371, 1572), best=1542), [(first[0], said(23, 0, 1, 1))]),
    (queues((371, 1573), (499, 1589), best=1542), both + [       # the larger, not the sum: level 1 stays 371
        put(TABLE, link(0, 5), 84), (reg(), said(12)),           # a smaller one: nothing wrong
        put(TABLE, link(0, 5), 0), (reg(), said(12)),            # none at all
        put(TABLE, link(0, 5), 1542), (reg(), said(12)),
        *damaged((TABLE, link(0, 5), 1543, 1542)),               # out of range
        *damaged((TABLE, link(0, 5), 83, 1542)),
        *damaged((TABLE, queue(1, 0), 498, 499)),                # the held flows pass the threshold
        *damaged((TABLE, queue(1, 1), 1588, 1589)),              # .. the buffer
    ]),
    (queues((371, 1573), (498, 1589), best=1542), [first, (second, said(22, 0, 1, 2))]),
    (queues((371, 1573), (499, 1588), best=1542), [first, (second, said(23, 0, 1, 2))]),
    (queues((371, 1573), (374, 1574), best=0), both              # a laptop where the thresholds have no room for it
        + damaged((TABLE, link(0, 5), 84, 0))),
    (queues((1000, 9000)), [                                     # rates
        (reg(number=1, rate=99000, deadline=1000), said(0, 1)),
        (reg(number=2, rate=1000, deadline=1000), said(21, link=1)),
        (reg(number=3, rate=999, deadline=1000), said(0, 2)),
        (reg(number=4, rate=1, deadline=1000), said(21, link=1)),
    ]),
    (two, [
        (reg(burst=1541), said(17)),
        (reg(number=65536), said(11)),
        (reg(number=65535), said(0, 1)),
        (reg(number=65535), said(12)),
        (reg(number=65535, burst=1541), said(12)),               # 12 before 17
        (reg(deadline=369), said(20)),
        (reg(path=[(1, 3)]), said(14, 0, 1, 3)),
        (reg(path=[(2, 1)]), said(14, 0, 2, 1)),
        (reg(path=[(0, 0)]), said(14, 0, 0, 0)),
        (reg(hops=13, path=[]), said(11)),
        (" 2 65535\n", said(11)),                                # the other call's kind
        ("\n", said(10)),
        (reg()[:-1], said(10)),                                  # the last line isn't ended
    ]),
    (chain(3, 11000), [
        (reg(hops=2, path=[(1, 1), (1, 1)], deadline=132000), said(16, 0, 1, 1)),
        (reg(hops=2, path=[(2, 1), (1, 1)], deadline=132000), said(15, 0, 1, 1)),
        (reg(hops=3, path=[(1, 1), (3, 1), (1, 1)], deadline=132000), said(16, 0, 1, 1)),   # 16 over all before 15
        (reg(hops=2, path=[(1, 1), (3, 1)], deadline=132000), said(15, 0, 3, 1)),
        (reg(hops=2, path=[(1, 1), (2, 1)], deadline=21999), said(20)),
        (reg(hops=2, path=[(1, 1), (2, 1)], deadline=22000), said(0, 1)),
    ]),
    (three(1649), [(through, said(0, 1))]                        # 1,633 after two thresholds of 371, and 16 (15.42)
        + damaged((FIGURES, figure(8, 1), 1589, 1588), (FIGURES, figure(16, 1), 1635, 1633))    # figures by whole thresholds
        + damaged((TABLE, link(0, 2), 200, 100))                 # another speed of the first link: 1,634 at the third
        + damaged((TABLE, queue(0, 0), 6, 371))),                # a threshold below the shortest sending time
    (three(1648), [(through, said(23, 0, 3, 1))]),
    (three(1649, 12000), [                                       # 1,113 of thresholds and 12,000 of cables; the bursts are as before
        (reg(deadline=13112, hops=3, path=[(1, 1), (2, 1), (3, 1)]), said(20)),
        (reg(deadline=13113, hops=3, path=[(1, 1), (2, 1), (3, 1)]), said(0, 1)),
        *damaged((TABLE, link(2, 4), 8001, 8000)),               # one µs more of cable at the last hop
        put(TABLE, link(2, 4), 7999), (reg(), said(12)),         # one less: nothing wrong
    ]),
    (row(1, 1, 2, 448, 1, 6, 300) + row(2, 2, 3, 448, 1, 6, 172) + row(3, 3, 1, 448, 1, 6, 169), [       # changes
        (reg(number=1, rate=1000, burst=168, frame=84, deadline=6, path=[(3, 1)]), said(0, 1)),
        (reg(number=7, rate=1000, burst=168, frame=100, deadline=12, hops=2, path=[(1, 1), (2, 1)]), said(0, 2)),
        (gone(1), said(0, 1)),
        (changed(7, 4000, 168), said(0, 2)),                     # its own place, though place 1 is free
        *damaged((FIGURES, figure(0, 0), 1000, 4000)),           # the rate before
        *damaged((FIGURES, figure(8, 1), 169, 170)),             # the burst before at the later hop
        *damaged((STORE, slot(1, 1), 1000, 4000)),
        (changed(7, 5000, 168), said(23, 0, 2, 1)),              # 171 at the second link, and 2
        (changed(7, 4000, 237), said(22, 0, 1, 1)),              # 8000 x (100 + 237) / 448000 is 7
        (changed(7, 448000, 168), said(21, link=1)),
        (changed(7, 4000, 99), said(17)),
        (changed(1, 4000, 168), said(13)),
        (changed(1, 4000, 99), said(13)),                        # 13 before 17
        (changed(7, 0, 99), said(11)),
        ("c 3     7     4000     168 \n", said(10)),
        ("c" + reg(), said(11)),                                 # another call's kind
        ("c 2     7\n", said(11)),
        ("c\n", said(10)),
        ("r" + change(7, 4000, 168), said(11)),
        (change(7, 4000, 168), said(11)),
        (changed(7, 1000, 100), said(0, 2)),
        *damaged((FIGURES, figure(8, 1), 102, 101)),
        (gone(7), said(0, 2)),
        (changed(7, 4000, 168), said(13)),
        ("c" + change(7, 4000, 168)[:-1], said(10)),             # the last line isn't ended
    ]),
    (one[:-1], [(reg(), said(14, 0, 1, 1))]),                    # a refused table: no queues
    (chains(5), [(on(k, k % 5, 12), said(0, k)) for k in range(1, 86)] + [       # 1,020 hop entries
        (on(100, 0, 5), said(31)),
        (on(100, 0, 4), said(0, 86)),
        (on(101, 0, 1), said(31)),
        put(STORE, slot(85, 5), 5),                              # counts that pass the pool
        (on(101, 0, 1), said(42)),
        put(STORE, slot(85, 5), 4),
        (on(101, 0, 1), said(31)),
        (on(200, 0, 12), said(31)),
        (gone(40), said(0, 40)),                                 # free at once
        (on(200, 0, 12), said(0, 40)),
        (on(201, 0, 1), said(31)),
        (gone(100), said(0, 86)),
        (on(202, 0, 5), said(31)),
        (on(202, 0, 4), said(0, 86)),
        *((gone(k), said(0, k)) for k in range(1, 85, 2) if k % 5 == 1),         # free entries here and there
        *((on(300 + k, 1, 12), said(0, k)) for k in range(1, 85, 2) if k % 5 == 1),
        (on(400, 1, 1), said(31)),
    ]),
    (two, [                                                      # document 01's whole batch, call by call
        (reg(), said(0, 1)),
        (reg(number=8, deadline=374, path=[(1, 2)]), said(22, 0, 1, 1)),
        (gone(7), said(0, 1)),
        (reg(number=8, deadline=374, path=[(1, 2)]), said(0, 1)),
        (gone(7), said(13)),
        (gone(0), said(11)),
        (gone(65536), said(11)),
        ("r" + reg(), said(11)),                                 # the other call's kind
        ("r 2     8 \n", said(10)),
        ("r\n", said(10)),
        ("r 3\n", said(11)),
        ("r 2 65535\n", said(13)),
        (gone(8), said(0, 1)),
        ("r 2     8", said(10)),                                 # the last line isn't ended
    ]),
    (queues((254, 16777215)), [                                  # the largest frame of the flows left
        (reg(number=1, deadline=1000), said(0, 1)),
        (reg(number=2, deadline=1000, burst=84, frame=84), said(0, 2)),
        (reg(number=3, deadline=1000, burst=3007, frame=84), said(22, 0, 1, 1)),
        (gone(1), said(0, 1)),
        (reg(number=3, deadline=1000, burst=3008, frame=84), said(22, 0, 1, 1)),
        (reg(number=3, deadline=1000, burst=3007, frame=84), said(0, 1)),        # 8000 x (84 + 84 + 3007) / 100000 is 254
    ]),
    (chain(3, 11000), [(reg(rate=1, deadline=132000, hops=2, path=[(1, 1), (2, 1)]), said(0, 1))]
        + damaged((STORE, entry(1), 16, 8), *((FIGURES, figure(8, i), 0, n) for i, n in enumerate([1, 1544, 1542])),
                  *((FIGURES, figure(16, i), n, 0) for i, n in enumerate([1, 1544, 1542])))     # 15, the figures right
        + damaged((STORE, entry(1), 0, 8), *((FIGURES, figure(8, i), 0, n) for i, n in enumerate([1, 1544, 1542])),
                  (FIGURES, figure(0, 0), 2, 1), (FIGURES, figure(0, 1), 3086, 1542))   # 16, the figures right
        + [(gone(7), said(0, 1)), (gone(7), said(13))]),
    (chain(1, 100000), [(along(k, 1), said(0, k)) for k in range(1, 257)] + [(along(257, 1), said(30))]
        + [call for k in (256, 1, 64, 65, 128, 129, 192, 193) for call in [       # the last place, and both sides of each word's end
            (gone(k), said(0, k)), (along(k, 1), said(0, k)), (along(257, 1), said(30))]]
        + [(gone(k), said(0, k)) for k in (256, 65, 64)]         # the lowest of several
        + [(along(300 + k, 1), said(0, k)) for k in (64, 65, 256)] + [(along(257, 1), said(30))]),
    (chain(13, 11000), [(reg(rate=1, deadline=143000, hops=11, path=[(l, 1) for l in range(1, 12)]), said(0, 1))]
        + [put(TABLE, link(0, 4), 10000), (reg(), said(12))] + damaged((TABLE, link(0, 4), 10001, 0))    # fixed delay out of range
        + [put(*change[:3]) for change in hop(12, 1558)] + [(reg(), said(12))]   # a twelfth hop: nothing wrong
        + damaged(*hop(13, 1559))),                              # a thirteenth, all else right
    (exact, both
        + damaged((STORE, slot(0, 2), 1541, 1542), (FIGURES, figure(0, 1), 1541, 1542))  # 17, the figures right
        + damaged((STORE, entry(0), 8, 0), *((FIGURES, figure(0, i), 0, n) for i, n in enumerate([1000, 1542, 1542])),
                  *((FIGURES, figure(8, i), n, 0) for i, n in enumerate([1000, 1542, 1542])))   # 14, the figures right
        + damaged((STORE, slot(0, 5), 13, 1))                    # a hop count of 13
        + damaged((STORE, slot(0, 5), 0, 1))                     # a held flow without hops
        + damaged((STORE, slot(1, 6), 0, 1))                     # a path that starts elsewhere
        + damaged((BITS, 0, 0, 1))                               # a flow gone, its figures not
        + damaged((BITS, 2, 1, 0))                               # a slot held without a flow
        + damaged((BITS, 255, 1, 0))
        + damaged((STORE, entry(0), 2, 0))                       # level 3: no such queue
        + damaged((STORE, entry(0), 8, 0))                       # link 2
        + damaged((STORE, entry(1), 999999999, 1))
        + damaged((FIGURES, figure(0, 0), 1001, 1000))           # a figure off by one
        + damaged((FIGURES, figure(0, 1), 1541, 1542))
        + damaged((FIGURES, figure(1, 2), 1541, 1542))
        + damaged((STORE, slot(1, 0), 7, 8))                     # two flows of one number
        + damaged((STORE, slot(1, 0), 0, 8))                     # flow number 0
        + damaged((STORE, slot(0, 3), 1543, 1542))               # largest frame above burst
        + damaged((STORE, slot(0, 4), 370, 1000))                # deadline below the threshold
        + damaged((TABLE, link(0, 3), 0, 2))                     # number of levels
        + damaged((TABLE, link(0, 3), 9, 2))
        + damaged((TABLE, link(0, 0), 2, 1))                     # from equals to
        + damaged((TABLE, link(0, 2), 10001, 100))               # speed
        + damaged((TABLE, queue(0, 0), 0, 371))                  # threshold out of range
        + damaged((TABLE, queue(0, 0), 370, 371))                # the held flows pass the threshold
        + damaged((TABLE, queue(1, 1), 1573, 1574))              # the held flows pass the buffer
        + damaged((TABLE, COUNT, 0, 1))                          # paths without a link
        + damaged((TABLE, COUNT, 2, 1))                          # a link of no levels
        + damaged((TABLE, COUNT, 65, 1))
        + [put(STORE, slot(2, k), 7) for k in range(7)] + [put(STORE, entry(2), 999), (reg(), said(12))]),      # a free slot, a free entry: nothing wrong
    (chain(1, 100000), [(along(k, 1), said(0, k)) for k in range(1, 5)] + [
        (gone(2), said(0, 2)),
        *(put(STORE, slot(1, k), n) for k, n in enumerate([1, 0, 0, 1543, 0, 13, 999999999])),  # what stands in a free slot means nothing
        (along(1, 1), said(12)),
        (gone(2), said(13)),
        (along(9, 1), said(0, 2)),
        (gone(1), said(0, 1)),
        *(put(STORE, slot(0, k), n) for k, n in enumerate([9, 0, 0, 0, 0, 12, 1])),
        (gone(9), said(0, 2)),
        (along(9, 1), said(0, 1)),
        (gone(4), said(0, 4)),
    ]),
    (behind(100, 375, 1604), [(onward, said(0, 1))]),            # 1,588 after a threshold of 375, and 16
    (behind(100, 376, 1604), [(onward, said(23, 0, 2, 1))]),     # 1,589 after 376
    (behind(10, 2468, 1858), [(onward, said(0, 1))]),            # 68 µs less at 10 Mbit/s, the earlier link's speed: 1,842
    (behind(10, 2468, 1857), [(onward, said(23, 0, 2, 1))]),
    (behind(100, 6, 2000), [(onward, said(22, 0, 1, 1))]),       # a threshold below the shortest sending time
    (chain(3, 11000), [                                          # the held flows as order lines
        written(0, 0),                                           # none is held
        written(5, 0),
        (along(65535, 3), said(0, 1)),
        (along(8, 1), said(0, 2)),
        (along(9, 2), said(0, 3)),
        (gone(8), said(0, 2)),
        (changed(9, 2, 1543), said(0, 3)),
        written(114, 0, HELD),                                   # an area just long enough
        written(113, 43),                                        # one byte too short
        written(0, 43),
        written(115, 0, HELD),
        written(300, 0, HELD),
        put(STORE, slot(1, 0), 65535), put(STORE, slot(1, 5), 999999999),       # a free slot's numbers mean nothing
        written(114, 0, HELD),
        put(FIGURES, figure(0, 0), 4),                           # a figure off by one
        written(300, 42),
        written(113, 42),                                        # 42 before 43
        written(0, 42),
        put(FIGURES, figure(0, 0), 3),
        put(BITS, 1, 1),                                         # a slot held without a flow
        written(300, 42),
        put(BITS, 1, 0),
        put(STORE, slot(2, 6), 2),                               # a path that starts elsewhere
        written(300, 42),
        put(STORE, slot(2, 6), 3),
        written(114, 0, HELD),
        (gone(9), said(0, 3)),
        (gone(65535), said(0, 1)),
        written(0, 0),
    ]),
    (row(1, 1, 2, 10000, 1, 100000, 16777215), [                 # the widest numbers
        (reg(number=65535, rate=9999999, burst=1000000, frame=1542, deadline=10000000), said(0, 1)),
        written(50, 0, " 1 65535  9999999 1000000 154210000000  1   1 1\n"),
    ]),
    (one[:-1], [written(3, 0)]),                                 # a refused table
]


def files():
    """What stands in each file."""
    out = {}
    shown = ""
    for k, (text, code, line, links, queues) in enumerate(tables):
        out[f"crates/table_cases/data/t{k:02}"] = text
        shown += f"{code:3}{line:6}{links:4}{queues:5}\n"
    out["crates/table_cases/stdout"] = shown
    out["crates/order_cases/data/orders.txt"] = "".join(o for o, _ in orders)
    out["crates/order_cases/stdout"] = "".join(p for _, p in orders)
    for k, (text, calls) in enumerate(registries):
        out[f"crates/registry_cases/data/t{k:02}"] = text
        out[f"crates/registry_cases/data/o{k:02}"] = "".join(line for line, _ in calls)
    out["crates/registry_cases/stdout"] = "".join(printed for _, calls in registries for _, printed in calls)
    return out


def main():
    wrong = [name for name, text in files().items() if not Path(name).is_file() or Path(name).read_bytes() != text.encode()]
    if "--check" in sys.argv:
        sys.exit(f"not as tests/cases.py has them: {wrong}" if wrong else 0)
    for name in wrong:
        Path(name).write_bytes(files()[name].encode())


if __name__ == "__main__":
    main()
