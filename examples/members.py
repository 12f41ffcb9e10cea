#!/usr/bin/env python3
"""Shows what the members of JSON lines hold, and which can be columns of jlreport as they are.

    members.py < LINES

For each member: in how many lines it is null or missing, and how many values of each kind it has:
text, bool, int, fraction, object, array. An int is a whole number that a column takes, a fraction
has a point or an exponent, and an other int needs more than 64 bits, or is -0. A member of an
inner object has its path, as in user.name. What arrays hold is not looked at.

The last line is a word for jlreport: the first 32 members that have text, bool or int alone.
"""
import argparse
import collections
import json
import re
import sys


class Kind(str):
    """The kind of a number, which is read in its place."""


INT, OTHER_INT, FRACTION = Kind("int"), Kind("other int"), Kind("fraction")
KINDS = {str: "text", bool: "bool", dict: "object", list: "array", type(None): "null"}
NAME = re.compile("[A-Za-z_][A-Za-z0-9_]*")
LINE_BYTES = 2**20 + 1  # A longer line is refused, whatever it holds.


def whole(digits):
    return INT if len(digits) <= 20 and digits != "-0" and -(2**63) <= int(digits) < 2**63 else OTHER_INT


def count(o, path, members):
    """Counts the kinds of the members of an object and of those inside it, as deep as jlreport reads them."""
    for name, value in o.items():
        members[path + (name,)][KINDS.get(type(value), value)] += 1
        if type(value) is dict and len(path) < 126:
            count(value, path + (name,), members)


def members_of(lines):
    """The number of objects and of other lines, and for each member the number of its values of each kind."""
    numbers, members = [0, 0], collections.defaultdict(collections.Counter)
    decode = json.JSONDecoder(parse_int=whole, parse_float=lambda _: FRACTION, parse_constant=int).decode
    for line in lines:
        try:
            o = decode(line.decode()) if len(line) <= LINE_BYTES else None
        except (ValueError, RecursionError):
            o = None
        numbers[not isinstance(o, dict)] += 1
        if isinstance(o, dict):
            count(o, (), members)
    return numbers, members


def shown(path):
    return ".".join(it if NAME.fullmatch(it) else json.dumps(it, ensure_ascii=not it.isprintable()) for it in path)


def main():
    (objects, others), members = members_of(sys.stdin.buffer)
    print(f"{objects} objects, {others} other lines\n")
    order = {path: at for at, path in enumerate(members)}
    paths = sorted(members, key=lambda path: [order[path[:end]] for end in range(1, len(path) + 1)])
    width, columns = max([6, *(len(shown(it)) for it in paths)]), []
    print(f"{'member':{width}}  {'null':>9}  {'missing':>9}  values")
    for path in paths:
        missing, nulls = objects - sum(members[path].values()), members[path].pop("null", 0)
        values = ", ".join(f"{n} {kind}" for kind, n in members[path].most_common())
        print(f"{shown(path):{width}}  {nulls:>9}  {missing:>9}  {values}".rstrip())
        if len(path) == 1 and NAME.fullmatch(path[0]) and [*members[path]] in (["text"], ["bool"], ["int"]):
            columns.append(":".join((*path, *members[path])))
    print(f"\n--columns {','.join(columns[:32])}" if columns else "\nno member can be a column as it is")


if __name__ == "__main__":
    argparse.ArgumentParser(description=__doc__, formatter_class=argparse.RawTextHelpFormatter).parse_args()
    main()
