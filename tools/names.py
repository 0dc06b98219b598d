#!/usr/bin/env python3
"""Brings the names of this repository's own definitions and lemmas to snake case, once, after the kit's port.py: `first-bytes` and `readOf` become
`first_bytes` and `read_of`. Types and modules keep their capitals. Functions of src/, exported names, strings, inputs and outputs keep their names.
Run at the top of the repository."""
import collections
import glob
import re
import sys

TOKEN = re.compile(r"(?<![\w'-])[A-Za-zμλ_][\w'₀-₉]*(?:-[\w'₀-₉]+)*")
# Names that would fall together with another name, or that are types.
BY_HAND = {
    # a definition that would have a function's name: what that function gives
    "betterLine": "better_line_of",
    "bidLine": "bid_line_of",
    "exactLine": "exact_line_of",
    "exactWords": "exact_words_of",
    "groupLine": "group_line_of",
    "periodLine": "period_line_of",
    "rangeLine": "range_line_of",
    "rangeWords": "range_words_of",
    "rateWords": "rate_words_of",
    "refusedLine": "refused_line_of",
    "refusedWords": "refused_words_of",
    "codeLength": "code_length_of",
    "cutPlace": "cut_place_of",
    "longPlace": "long_place_of",
    "delayIn": "delay_in_of",
    "knownIn": "known_in_of",
    "flatAnalysis": "flat_analysis_of",
    "flatRate": "flat_rate_of",
    "ruleAt": "rule_at_of",
    "ruleBad": "rule_bad_of",
    "ruleFrom": "rule_from_of",
    "rulesFrom": "rules_from_of",
    "columnsOf": "columns_of_table",
    "delayOf": "delay_meant",
    # a lemma that would have a definition's or a function's name
    "file-length": "file_length_lem",
    "put-rule": "put_rule_lem",
    "rule-length": "rule_length_lem",
    "write-all": "write_all_lem",
    "period-rate": "period_rate_lem",
    "range-line": "range_line_lem",
    "refused-line": "refused_line_lem",
    "cut-place": "cut_place_lem",
    "long-place": "long_place_lem",
    "accepted-read": "accepted_read_lem",
    "judged-outcome": "judged_outcome_lem",
    "nothing-met": "nothing_met_lem",
    "num-bad": "num_bad_lem",
    "num-good": "num_good_lem",
    "one-if-zero": "one_if_zero_lem",
    "rule-good": "rule_good_lem",
    # a type
    "Known-to": "KnownTo",
}

# port.py gave a definition of `handed` the name of a function of that crate: in specs/, imports and clauses it is the definition that is meant.
TABLE_OF = re.compile(r"(?<![\w'-])table_of(?![\w'-])")

# What port.py itself has spelled so, in specs/ and src/: edits and documents follow.
PORTED = """
add-a add-at add-done add-r add-times add-wide alike-all alike-spec all-any all-append all-join andThen answerOf any-code at-1 at-8 at-once
at-raw before-above bitOf blank-none bytes-drop bytes-rest bytesOf choiceOf chosen-of chosen-on clear-step code-is code-read codeIn codeOf
cons-same copied-next count-head count-turn counts-all endOf entered-of filled-next filled-none first-to found-here found-none from-low
going-end going-on going-start going-step high-fits high-is high-same hit-other hit-same in-order in-row is-held is-loop known-start
known-step laid-next last-fits leave-spec line-refused low-fits low-ok low-same made-found main-spec more-stays mul-left mul-most mul-next
mul-wide nOf near-by near-none no-name none-here none-left not-last not-three numAt number-cut number-is numberAt numberIn numberOf offsetOf
offsets-are one-at-most order-same pair-same pass-spec pass-up picked-first picked-none place-of places-of plain-walk put-all put-next
put-one put-rest put-spec putOf puts-none puts-then puts-whole range-same range-unique raw-at reach-here read-all read-one read-same
read-short read-spec readOf release-spec roomFor root-below rows-end same-answer same-codes same-length set-here shapeOf shortOf so-far
source-first source-is sourceOf start-spec startOf sum-same tableOf taken-next taken-none target-is targetOf then-next then-same to-below
to-high told-none too-wide total-left turn-spec two-fields v-low value-low value-same waiting-none walk-first walk-loop walk-of walk-split
walked-loop walked-none walking-on walking-start write-again write-spec written-low is-one
""".split()


def snake(name):
    if name in BY_HAND:
        return BY_HAND[name]
    name = re.sub(r"(?<=[a-z0-9])(?=[A-Z])", "_", name.replace("-", "_"))
    return name.lower()


def files(*patterns):
    return sorted(f for p in patterns for f in glob.glob(p, recursive=True) if "/out/" not in f)


def imported(own):
    names = set()
    for f in files("crates/*/specs/**/*.antt", "crates/*/proofs/**/*.antt", "crates/*/src/*.rt"):
        for m in re.finditer(r"use ([\w.]+)\.\{([^}]*)\}", open(f).read()):
            path = m.group(1).split(".")
            if not (path[0] == "Rattle" and path[1] in own):
                names.update(TOKEN.findall(m.group(2)))
    return names


def wanted():
    own = set(l.split(":")[0].split()[0] for l in open("crates.txt") if l.strip() and not l.startswith("#"))
    kit = imported(own)
    found = set()
    for f in files("crates/*/specs/**/*.antt"):
        for line in open(f):
            code = "" if line.lstrip().startswith("--") else line.split(" -- ")[0]
            found.update(TOKEN.findall(code))
    return {n: snake(n) for n in found if n not in kit and ("-" in n or re.match(r"[a-z].*[A-Z]", n))}


def main():
    names = wanted()
    report = "--report" in sys.argv
    places = files("crates/*/specs/**/*.antt", "crates/*/proofs/**/*.antt", "crates/*/src/*.rt", "crates/*/must-fail/*.edit", "tests/definitions/*.edit",
                   "docs/*.md", "docs/changes/*.md", "README.md")
    others = collections.Counter()
    for f in places:
        if f.endswith((".antt", ".rt")):
            others.update(t for t in TOKEN.findall(open(f).read()) if t not in names)
    back = collections.defaultdict(list)
    for old, new in names.items():
        back[new].append(old)
    for new, olds in sorted(back.items()):
        if len(olds) > 1 or new in others:
            print("falls together:", new, olds, others[new])
    if report:
        return
    for f in places:
        text = open(f).read()
        known = names if f.endswith((".antt", ".rt")) else {**names, **{n: snake(n) for n in PORTED}}
        new = TOKEN.sub(lambda m: known.get(m.group(0), m.group(0)), text)
        if f.startswith("crates/handed/") or f == "docs/PROMISES.md":
            new = "".join(TABLE_OF.sub("table_from", line) if f.endswith((".antt", ".md")) and "/proofs/" not in f or re.match(r"ghost use|\s*ensures", line) else line
                          for line in new.splitlines(keepends=True))
        if new != text:
            open(f, "w").write(new)


main()
