#!/usr/bin/env python3
"""Adds members to JSON lines, so that they can be columns of jlreport.

Usage: derive.py NAME=EXPRESSION.. < LINES > DERIVED
  NAME        The new member: ASCII letters, digits and _, as in the name of a column
  EXPRESSION  Its value, in Python. The object of the line is o: derive.py 'day=o["time"][:10]'
  -h, --help  Print help

EXPRESSION can use the modules datetime, re and zoneinfo, and scaled(VALUE, PLACES): a number,
or a text that is one, times 10 to the power of PLACES, never rounded. In o a number with a
point or an exponent is the text of it.

New members come after the others; of two with one name the last counts. All else stays as it
is, to the byte, and so does a line that is no object.

Where EXPRESSION needs a member, as o["x"] does, that is missing or null, the new member is
null; where it is null in all lines, standard error says so. ("x" in o) and o.get("x") see a
null. Where EXPRESSION fails in another way, or its value is none that JSON has, the new member
is [], which no column takes, so that jlreport refuses the line.

Exit status:
  0  done
  1  done, and some lines are to be refused: standard error says how many, and why the first
  2  the words are refused
  3  a read or a write failed
  4  memory ran out
"""
import datetime
import json
import re
import sys

try:
    import zoneinfo
except ImportError:  # It came with Python 3.9.
    zoneinfo = None


class Missing(KeyError):
    """A member that an expression needs is missing or null."""


class Object(dict):
    """An object of JSON. By [] it gives no null; `in`, get and items see each."""

    def __getitem__(self, name):
        value = self.get(name)
        if value is None:
            raise Missing(name)
        return value


def scaled(value, places):
    """A number, or a text that is one, times 10 to the power of places: exactly, or not at all."""
    match = re.fullmatch(r"(-?[0-9]+)(?:\.([0-9]+))?", str(value))
    whole, part = match.groups("") if match else ("", "")
    part = part.rstrip("0")
    if not match or len(part) > places:
        raise ValueError(f"{value!r} is no number with at most {places} decimals")
    return int(whole + part.ljust(places, "0"))


LINE_BYTES = 2**20 + 1  # A longer line is refused, whatever it holds.
AT_HAND = {"datetime": datetime, "re": re, "zoneinfo": zoneinfo, "scaled": scaled}
decode = json.JSONDecoder(object_hook=Object, parse_float=str, parse_constant=int).decode  # int refuses NaN.
encode = json.JSONEncoder(allow_nan=False).encode


def end(status, text):
    print(f"derive.py: {text}", file=sys.stderr)
    sys.exit(status)


def maker_of(word):
    """The name of a new member, its name in JSON, and the function that makes its value of an object."""
    name, _, expression = word.partition("=")
    if not re.fullmatch("[A-Za-z_][A-Za-z0-9_]*", name) or not expression.strip():
        end(2, f"{word!r} is not NAME=EXPRESSION; for more, try derive.py -h")
    try:
        compile(expression.strip(), name, "eval")
        return name, f"{encode(name)}: ", eval(f"lambda o: ({expression}\n)", AT_HAND)
    except SyntaxError as fault:
        return end(2, f"{name}: {fault.msg}")


def derived(line, makers, missing, faults):
    """A line with its new members. By the name of a new one, missing has how often it is null for want of a member, and
    the first such member, and faults how often it cannot be made, and the first fault."""
    try:
        o = decode(line.decode()) if len(line) <= LINE_BYTES else None
    except (ValueError, RecursionError):
        return line
    if not isinstance(o, Object):
        return line
    members = []
    for name, front, value_of in makers:
        try:
            members.append(front + encode(value_of(o)))
        except Missing as fault:
            members.append(front + "null")
            missing.setdefault(name, [0, fault.args[0]])[0] += 1
        except Exception as fault:  # Whatever it is, the line is not to count with a wrong value.
            members.append(front + "[]")
            faults.setdefault(name, [0, repr(fault)[:200]])[0] += 1
    at = line.rindex(b"}")
    return b"".join((line[:at], b", " if o else b"", ", ".join(members).encode(), line[at:]))


def main(words):
    if words[:1] in (["-h"], ["--help"]):
        print(__doc__, end="")
        return 0
    makers, objects, missing, faults = [maker_of(word) for word in words or [""]], 0, {}, {}
    getattr(sys, "set_int_max_str_digits", int)(0)  # A number may have any number of digits.
    try:
        with open(0, "rb") as lines, open(1, "wb") as out:
            for line in lines:
                with_members = derived(line, makers, missing, faults)
                objects += with_members is not line
                out.write(with_members)
    except OSError as fault:
        end(3, fault)
    except MemoryError:
        end(4, "out of memory")
    for name, (count, first) in missing.items():
        if count == objects > 1:
            print(f"derive.py: {name}: null in all {count} objects, in the first for want of {first!r}", file=sys.stderr)
    for name, (count, first) in faults.items():
        said = f"{count} lines are to be refused, the first" if count > 1 else "1 line is to be refused,"
        print(f"derive.py: {name}: {said} by {first}", file=sys.stderr)
    return 1 if faults else 0


if __name__ == "__main__":
    sys.exit(main(sys.argv[1:]))
