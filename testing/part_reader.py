"""Parts, one behind the other, read by a plain reference: their contents, or their first fault.

It is written from the definitions in crates/parts/specs and crates/part_lines/specs, and shares no code with the program.
"""
import hashlib
import json
import re

from reference import LINE_BYTES, TYPES, Contents, Group, key_order, lines_of, order, value_text

MOST_SHOWN = 200
HIDDEN = re.compile("[\x7f-\x9f\u202a-\u202e\u2066-\u2069]")


def shortened(text):
    """A text of at most 200 characters, and of a longer one the first 200, and two full stops."""
    return text if len(text) <= MOST_SHOWN else text[:MOST_SHOWN] + ".."


def shown(text):
    """A text as a message shows it: in quotes, and without characters that are not shown or that turn the direction."""
    return HIDDEN.sub(lambda it: f"\\u{ord(it[0]):04x}", value_text(shortened(text)))


class Fault(Exception):
    """The first fault of parts."""

    def __init__(self, part, line, text):
        super().__init__(f"part {part}, line {line}: {text}")


class Reader:
    """Reads parts from the front, line by line, as far as the first fault."""

    def __init__(self, query, data):
        self.query, self.lines = query, lines_of(data)
        self.part, self.line = 1, 0

    def check(self, test, text):
        if not test:
            raise Fault(self.part, self.line, text)

    def value(self, fault="not a value"):
        """The value of the next line, which has one spelling."""
        if self.line == len(self.lines):
            raise Fault(self.part, self.line + 1, "ends too early")
        line = self.lines[self.line]
        self.line += 1
        try:
            value = json.loads(line.decode())
            is_value = value is None or isinstance(value, (bool, int, str))
            is_spelled = is_value and len(line) <= LINE_BYTES and value_text(value).encode() == line
            is_held = type(value) is not int or -(2**127) <= value < 2**127
        except (ValueError, RecursionError):
            is_spelled = is_held = False
        self.check(is_spelled and is_held, fault)
        return value

    def of_type(self, kind):
        value = self.value()
        self.check(type(value) is kind, "unexpected value")
        return value

    def held(self, kind, null=True):
        """A value that a column of this type holds."""
        value = self.value()
        fits = type(value) is TYPES[kind] and (kind != "int" or -(2**63) <= value < 2**63)
        self.check(null if value is None else fits, "unexpected value")
        return value

    def count(self, most=2**64):
        number = self.of_type(int)
        self.check(0 <= number < 2**64, "unexpected value")
        self.check(number <= most, "out of range")
        return number

    def header(self):
        mark = self.value("not a part")
        version = re.fullmatch("jlreport part (0|[1-9][0-9]*)", mark) if isinstance(mark, str) else None
        self.check(version, "not a part")
        self.check(version[1] == "1", f"a part of version {shortened(version[1])}")
        for wanted, fault in zip(self.query.texts(), ("other columns", "another query")):
            text = self.of_type(str)
            self.check(text == wanted, f"{fault}: {shown(text)}")

    def refused(self, lines):
        texts = {"too long", "not JSON", "not an object", *(f"bad value in column {it}" for it in self.query.columns)}
        found, last = [], 0
        for _ in range(self.count(lines)):
            number = self.count(lines)
            self.check(number > last, "out of order")
            self.check(self.of_type(str) in texts, "unexpected value")
            found.append((number, json.loads(self.lines[self.line - 1])))
            last = number
        return found

    def different(self, kind, number):
        values = []
        for _ in range(number):
            value = self.held(kind, null=False)
            self.check(not values or order(values[-1]) < order(value), "out of order")
            values.append(value)
        return set(values)

    def state(self, function, members):
        kind = self.query.columns.get(function.column)
        match function.name:
            case "rows":
                return self.count(members) if function.keeps else None
            case "count":
                return self.count(members)
            case "sum" | "avg":
                total, number = self.of_type(int), self.count(members)
                self.check(-number * 2**63 <= total <= number * (2**63 - 1), "out of range")
                return total, number
            case "min" | "max":
                return self.held(kind)
            case "distinct":
                return self.different(kind, self.count(members))

    def groups(self, left):
        number = self.count()
        self.check(self.query.grouping or number == 1, "out of range")
        groups, last = {}, None
        for _ in range(number):
            key = tuple(self.held(kind) for kind in self.query.kinds())
            self.check(last is None or last < key_order(key), "out of order")
            last, members = key_order(key), self.count(left)
            self.check(members or not self.query.grouping, "out of range")
            left -= members
            groups[key] = Group(members, [self.state(it, members) for it in self.query.functions])
        return groups

    def next_part(self, before):
        """The contents of the next part, behind parts of so many lines."""
        begin = self.line
        self.header()
        lines = self.count()
        self.check(before + lines < 2**63, "too many lines")
        refused = self.refused(lines)
        groups = self.groups(lines - len(refused))
        text = b"".join(it + b"\n" for it in self.lines[begin : self.line])
        self.check(self.of_type(str) == hashlib.sha256(text).hexdigest(), "checksum does not fit")
        return Contents(lines, refused, groups)


def read_parts(query, data):
    """The contents of each of the parts that stand one behind the other; a `Fault` where they are none."""
    reader, found, before = Reader(query, data), [], 0
    if not reader.lines:
        raise Fault(1, 1, "no part")
    while reader.line < len(reader.lines):
        found.append(reader.next_part(before))
        before += found[-1].lines
        reader.part += 1
    return found


def fault_of(query, data):
    """The first fault of parts, and None where they have none."""
    try:
        read_parts(query, data)
    except Fault as fault:
        return str(fault)
    return None
