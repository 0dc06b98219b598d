#!/usr/bin/env python3
"""Writes cases.expected: python3 make_expected.py ../reference/tests/vectors.txt > cases.expected

Neither program is asked. The answers below were worked out by hand from the paper, in the order of src/bin/cases/listed.rs;
those of the published cases are taken from vectors.txt. A buffer that keeps what it must is not mentioned.
"""
import sys

# A limit: the answers of analyse, rate, simulate, write; then of read. A file gives the table's answers, or is refused.
HIGHEST = "255>255/15/1000000"
LIMITS = [
    ("n 0", "refused 3 at 0", "refused 3 at 0"),
    ("n 1", ["period 7/1 exact, low 0, high 0, schedule 1 0", "rate 7/1 exact", "times 0",
             "bytes 01 01 00 00 01 08"], "n 1: 0>0/1/7"),
    # The only loop is at 255, and transition 0, whose rate is asked, is not reached.
    ("n 256", ["period 7/1 exact, low 0, high 0, schedule 1 256*0", "refused 6 at 0", "times 256*0",
               "bytes 80 02 01 ff 01 ff 01 01 08"], "n 256: 255>255/1/7"),
    ("n 257", "refused 3 at 0", "refused 3 at 0"),
    ("m 0", ["refused 6 at 0", "refused 6 at 0", "times 0", "bytes 01 00"], "n 1:"),
    # 1000000/15 in lowest terms is 200000/3; of 2048 equal loops rule 0 is the first.
    ("m 2048", ["period 200000/3 exact, low 0, high 0, schedule 3 256*0", "refused 6 at 0", "times 256*0",
                "bytes 80 02 80 10 2048*ff.01.ff.01.0f.c1.84.3d"], "n 256: 2048*" + HIGHEST),
    ("m 2049", "refused 3 at 1", "refused 3 at 2"),
    # (200 + 1000000)/(1 + 15) is 125025/2. Rule 1 asks X(0) >= X(1) + 2*1000000 - 15*125025 = X(1) + 124625.
    ("every field of rule 1 at a limit",
     ["period 125025/2 exact, low 0 1, high 0 1, schedule 2 124625 0", "rate 125025/2 exact", "times 0 0",
      "bytes 02 02 00 01 01 c9 01 01 00 0f c1 84 3d"], "n 2: 0>1/1/200, 1>0/15/1000000"),
    # Rule 1's fields are 6 to 9, their bytes 7 to 10: rule 0's delay code takes two.
    ("source 2 of 2", "refused 3 at 6", "refused 3 at 7"),
    ("target 2 of 2", "refused 3 at 7", "refused 3 at 8"),
    ("offset 16", "refused 3 at 8", "refused 3 at 9"),
    ("delay 1000001", "refused 3 at 9", "refused 3 at 10"),
]

P1 = "period 7/1 exact, low 0 1, high 0 1, schedule 1 0 3"
P1_BYTES = "bytes 02 02 00 01 00 04 01 00 01 05"
LONGEST = "bytes 80 02 80 10 2048*ff.01.ff.01.0f.c1.84.3d"

# "both": handed in as a table and as a file, with one answer. "table": faulty, or written.
TABLES = [
    ("both", "worked P1", P1),
    ("both", "worked P1, three occurrences", "times 0 3 7 10 14 17"),
    ("both", "worked P2", "period 7/2 exact, low 0 1, high 0 1, schedule 2 0 6"),
    ("both", "worked P3", "period from 3/1 to 1000003/1, low 0 1, high 0 1, schedule 1 0 3"),
    ("both", "worked P4", "period 1000000/1 exact, low 2, high 2, schedule 1 0 0"),
    ("both", "worked P5", "period from 0/1 to 1000000/1, low 0, high 0, schedule 1 0"),
    ("both", "worked P6", "period 0/1 exact, low 0, high 0, schedule 1 0"),
    ("both", "worked P7", "refused 5 at 0"),
    ("both", "worked P8", "refused 6 at 0"),
    ("both", "worked P8, two occurrences", "times 0 0 0 5"),
    ("both", "worked P9", "refused 6 at 0"),
    ("both", "occurrences 0", "refused 9 at 0"),
    ("both", "occurrences 1", "times 0"),
    ("both", "occurrences 1024", "times 0 7..7161"),
    ("both", "occurrences 1025", "refused 9 at 0"),
    # In a ring of 256 delays 1, occurrence i of v is at 256 i + v.
    ("both", "all transitions and occurrences", "times 0 1..262143"),
    ("both", "all transitions and occurrences, times short", "refused 8 at 262144"),
    ("both", "all transitions on the loop",
     "period 256/1 exact, low 0 1..255, high 0 1..255, schedule 1 0 1..255"),
    ("both", "all transitions, schedule short", "refused 8 at 256"),
    ("both", "all transitions, low loop short", "refused 8 at 256"),
    ("both", "all transitions, high loop short", "refused 8 at 256"),
    ("both", "buffers exact", P1),
    ("both", "schedule short", "refused 8 at 2"),
    ("both", "low loop short", "refused 8 at 2"),
    ("both", "high loop short", "refused 8 at 2"),
    ("both", "low loop short of n, not of its rule", "refused 8 at 2"),
    # X(1) >= X(0) + 1.
    ("both", "loops shorter than n", "period 7/1 exact, low 0, high 0, schedule 1 0 1"),
    ("both", "times exact", "times 0 3 7 10 14 17"),
    ("both", "times short", "refused 8 at 6"),
    ("table", "bytes exact", P1_BYTES),
    ("table", "bytes short", "refused 8 at 10"),
    ("table", "longest file exact", LONGEST),
    ("table", "longest file short", "refused 8 at 16388"),
    ("both", "rate of the last transition", "rate 7/1 exact"),
    ("both", "rate of a transition too many", "refused 10 at 256"),
    ("both", "rate, a range", "rate from 3/1 to 1000003/1"),
    # The loop 0 1 takes 1 + 2, the loop 2 3 takes 4 + 6, and what reaches 0 reaches 2 and 4 as well.
    ("both", "rate of a front end", "rate 3/1 exact"),
    ("both", "rate of what it feeds", "rate 10/1 exact"),
    ("both", "rate behind both", "rate 10/1 exact"),
    ("both", "rate before both", "refused 6 at 0"),
    ("both", "rate beside both", "rate from 0/1 to 1000000/1"),
    ("both", "rate behind a slower front end", "rate 10/1 exact"),
    ("both", "rate of a transition without rules", "refused 6 at 0"),
    ("both", "rate, a loop of offset 0 elsewhere", "refused 5 at 1"),
    ("both", "lowest transition on a loop of offset 0", "refused 5 at 2"),
    ("both", "the same by rate", "refused 5 at 2"),
    ("both", "the same by simulation", "refused 5 at 2"),
    ("both", "a bridge between two loops of offset 0", "refused 5 at 1"),
    ("both", "the bridge by simulation", "refused 5 at 1"),
    ("both", "only leads to a loop of offset 0", "refused 5 at 2"),
    ("both", "lowest unknown rule", "refused 7 at 1"),
    # X(1) >= X(0) + 2*3, X(0) >= X(1) + 2*4 - 2*7.
    ("both", "7/2 beside 3/1", "period 7/2 exact, low 1 2, high 1 2, schedule 2 0 6"),
    # Rules 3 and 4 alone, and 0 1, pass through 0 at 10/1; one rule is fewer than two, and 3 comes before 4.
    ("both", "fewest rules, then the first", "period 10/1 exact, low 3, high 3, schedule 1 0 5"),
    ("table", "n before a rule's fields", "refused 3 at 0"),
    ("table", "m before a rule's fields", "refused 3 at 1"),
    ("table", "source before target", "refused 3 at 2"),
    ("table", "target before offset", "refused 3 at 3"),
    ("table", "offset before delay", "refused 3 at 4"),
    ("table", "delay before the next rule", "refused 3 at 5"),
    ("table", "largest n", "refused 3 at 0"),
    ("table", "largest offset", "refused 3 at 4"),
    ("table", "largest delay", "refused 3 at 5"),
    ("both", "largest occurrences", "refused 9 at 0"),
    ("both", "rate of the largest transition", "refused 10 at 1"),
    ("table", "writing 3 before 8", "refused 3 at 3"),
    ("table", "analysis 3 before 8", "refused 3 at 3"),
    ("table", "analysis 3 before 5", "refused 3 at 8"),
    ("table", "analysis 3 before 6", "refused 3 at 4"),
    ("both", "analysis 8 before 5", "refused 8 at 1"),
    ("both", "analysis 8 before 6", "refused 8 at 1"),
    ("table", "rate 3 before 10", "refused 3 at 3"),
    ("table", "rate 3 before 5", "refused 3 at 8"),
    ("table", "rate 3 before 6", "refused 3 at 4"),
    ("both", "rate 10 before 5", "refused 10 at 1"),
    ("both", "rate 10 before 6", "refused 10 at 1"),
    ("table", "simulation 3 before 9", "refused 3 at 3"),
    ("table", "simulation 3 before 7", "refused 3 at 8"),
    ("table", "simulation 3 before 8", "refused 3 at 3"),
    ("table", "simulation 3 before 5", "refused 3 at 8"),
    ("both", "simulation 9 before 7", "refused 9 at 0"),
    ("both", "simulation 9 before 8", "refused 9 at 0"),
    ("both", "simulation 9 before 5", "refused 9 at 0"),
    ("both", "simulation 7 before 8", "refused 7 at 0"),
    ("both", "simulation 7 before 5", "refused 7 at 1"),
    ("both", "simulation 8 before 5", "refused 8 at 2"),
    ("table", "analysis 3 before all", "refused 3 at 8"),
    ("table", "rate 3 before all", "refused 3 at 8"),
    ("table", "simulation 3 before all", "refused 3 at 8"),
    ("both", "simulation 9 before all", "refused 9 at 0"),
    ("both", "simulation 7 before all", "refused 7 at 1"),
]

FILES = """\
worked P10, 80: refused 1 at 1
worked P10, 80 00: refused 2 at 1
worked P10, 80 80 80: refused 2 at 2
worked P10, 00: refused 3 at 0
worked P10, 01 00 00: refused 4 at 2
worked P10, 80 80 00: refused 2 at 2
worked P10, 01 80: refused 1 at 2
no bytes: refused 1 at 0
cut before m: refused 1 at 1
cut inside the third group: refused 1 at 3
cut before the delay: refused 1 at 5
cut inside the delay: refused 1 at 7
a fourth group: refused 2 at 3
third group zero: refused 2 at 3
tail after a rule: refused 4 at 6
one number, 1 before 3: refused 1 at 2
one number, 2 before 3: refused 2 at 2
one number, 2 before 3 by zero: refused 2 at 1
3 in n before 1 in m: refused 3 at 0
3 in n before 2 in m: refused 3 at 0
3 in n before 3 in m: refused 3 at 0
2 in n before 1 in m: refused 2 at 1
2 in n before 2 in m: refused 2 at 1
2 in n before 3 in m: refused 2 at 1
2 before 4: refused 2 at 2
3 before 4: refused 3 at 4
3 in a source before 1 in its target: refused 3 at 2
columns exact: n 2: 0>1/0/3, 1>0/1/?
columns with a place more: n 2: 0>1/0/3, 1>0/1/?
source column short: refused 8 at 2
target column short: refused 8 at 2
offset column short: refused 8 at 2
delay column short: refused 8 at 2
known column short: refused 8 at 2
4 before 8, 6 by analysis: refused 4 at 2
4 before 10, 6 by rate: refused 4 at 2
number, three groups: value 2097151, rest 1
number, highest and a rest: value 256, rest 2
number, above highest: refused 3 at 0
number, lowest: value 5, rest 0
number, below lowest: refused 3 at 0
number, zero: value 0, rest 0
number, no bytes: refused 1 at 0
number, 1 before 3: refused 1 at 1
number, 2 before 3: refused 2 at 1
number, a fourth group: refused 2 at 2
number, last group zero: refused 2 at 2"""


# Two files side by side. 1000000/15 is 66666.66.., 933333/14 is 66666.64..; the file with a blank at offset 2 ends at 500000/1.
BIDS = [
    ("lower end first", "which 0, length 10"),
    ("lower end second, its low end higher", "which 1, length 10"),
    ("equal ends", "which 0, length 10"),
    ("equal ends, the other way", "which 0, length 6"),
    ("equal bytes", "which 0, length 10"),
    ("7/2 and 3/1", "which 1, length 6"),
    ("3/1 and 7/2", "which 0, length 6"),
    ("200000/3 and 933333/14", "which 1, length 8"),
    ("933333/14 and 200000/3", "which 0, length 8"),
    ("two ranges with one low end", "which 1, length 6"),
    ("only the first, the second refused 5", "which 0, length 10"),
    ("only the second, the first refused 6", "which 1, length 10"),
    ("only the second, the first refused 4", "which 1, length 10"),
    ("neither, 5 and 6", "refused 5 at 0"),
    ("neither, 6 and 5", "refused 6 at 0"),
    ("neither, 4 and 5", "refused 4 at 2"),
    ("neither, 5 and 4", "refused 5 at 0"),
    ("neither, 3 and 6", "refused 3 at 0"),
    ("neither, 4 before 5", "refused 4 at 6"),
]

# A file that reading refuses, whatever the call would say.
DAMAGED = ["refused 1 at 7", "refused 2 at 9", "refused 3 at 6", "refused 4 at 6"]


def damaged():
    for answer in DAMAGED:
        for call in ["read", "analyse", "rate", "simulate"]:
            print(f"{answer.split()[1]} before all that refuses {call}: {answer}")


def limits():
    calls = ["analyse", "rate", "simulate", "write"]
    for name, answers, read in LIMITS:
        refused = isinstance(answers, str)
        in_file = [read] * 3 if refused else answers[:3]
        for call, answer in zip(calls, [answers] * 4 if refused else answers):
            print(f"{name}, table, {call}: {answer}")
        for call, answer in zip(["read"] + calls, [read] + in_file):
            print(f"{name}, file, {call}: {answer}")


def tables():
    for kind, name, answer in TABLES:
        print(f"{name}, table: {answer}")
        if kind == "both":
            print(f"{name}, file: {answer}")


def shortened(words):
    """Long lists of equal steps: `0 7..7161`, or `256*0`."""
    values = [int(word) for word in words]
    steps = {b - a for a, b in zip(values, values[1:])}
    if len(values) <= 20 or len(steps) > 1:
        return " ".join(words)
    return f"{len(values)}*{values[0]}" if steps == {0} else f"{values[0]} {values[1]}..{values[-1]}"


def analysis(report):
    if report[0].startswith("refused"):
        return report[0]
    kinds = {line.split()[0]: line.split()[1:] for line in report}
    q, *schedule = kinds["schedule"]
    low, high = shortened(kinds["low"]), shortened(kinds["high"])
    return f"{report[0]}, low {low}, high {high}, schedule {q} {shortened(schedule)}"


def source_says(expected):
    """The source's own answer, as line 1 of the report has it."""
    word, *v = expected.split()
    if word == "refused":
        return "refused {} at {}".format(*v)
    return "period {}/{} exact".format(*v) if word == "period" else "period from {}/{} to {}/{}".format(*v)


def published(text):
    blocks = "\n".join(line for line in text.splitlines() if not line.startswith("#")).strip("\n").split("\n\n")
    for block in blocks:
        pairs = [line.split(" ", 1) for line in block.splitlines()]
        every = lambda key: [value for word, value in pairs if word == key]
        name, report = every("name")[0], every("report")
        assert report[0] == source_says(every("expected")[0]), name
        print(f"{name}, read: {every('table')[0]}")
        print(f"{name}, write: bytes {every('file')[0]}")
        print(f"{name}, table, analyse: {analysis(report)}")
        print(f"{name}, file, analyse: {analysis(report)}")
        print(f"{name}, rate: {report[0].replace('period', 'rate')}")
        if every("row"):
            print(f"{name}, rows: times {shortened(' '.join(every('row')).split())}")
        for time in every("time"):
            print("{}, transition {}, occurrence {}: time {}".format(name, *time.split()))


limits()
tables()
print(FILES)
damaged()
published(open(sys.argv[1]).read())
for name, answer in BIDS:
    print(f"bids, {name}: {answer}")
