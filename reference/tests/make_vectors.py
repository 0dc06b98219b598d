#!/usr/bin/env python3
"""Turns the published cases (JSON) into vectors.txt.

Run: python3 tests/make_vectors.py published.json > tests/vectors.txt

Cases whose rules have a least and a greatest delay need the second edition of
the rule file and are left out; their names are listed at the top.
"""
import json
import sys


def rule(fields):
    source, target, offset, delay = fields
    return f"{source}>{target}/{offset}/{'?' if delay is None else delay}"


def expected(value):
    if "refused" in value:
        return "refused {} {}".format(*value["refused"])
    if "period" in value:
        return "period {} {}".format(*value["period"])
    return "range {} {} {} {}".format(*value["low"], *value["high"])


def case(vector):
    lines = ["name " + vector["name"]]
    lines.append("origin " + vector["source"][:3] + ", " + vector["where"])
    lines.append("names " + " ".join(vector["transitions"]))
    rules = ", ".join(rule(fields) for fields in vector["rules"])
    lines.append(f"table n {vector['n']}: {rules}".rstrip())
    lines.append("file " + vector["file_hex"])
    lines.append("expected " + expected(vector["expected"]))
    derived = vector["derived"]
    lines += ["report " + line for line in derived["report"].splitlines()]
    for row in derived.get("simulation_rows", []):
        lines.append("row " + " ".join(map(str, row)))
    for key, time in vector.get("published_times", {}).items():
        name, occurrence = key.rsplit(",", 1)
        transition = vector["transitions"].index(name)
        lines.append(f"time {transition} {occurrence} {time}")
    return lines


def main():
    vectors = json.load(open(sys.argv[1]))["vectors"]
    ranged = [v["name"] for v in vectors if any(len(r) != 4 for r in v["rules"])]
    print("# Published cases, made by make_vectors.py. A time is: transition,")
    print("# occurrence, time. Left out, for delay ranges: " + ", ".join(ranged))
    for vector in vectors:
        if vector["name"] not in ranged:
            print()
            print("\n".join(case(vector)))


main()
