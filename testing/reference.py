"""A plain reference for parts and joins: what the part, the report and the list of refused lines of an input are.

It is written from docs/LANGUAGE.md and the definitions in crates/semantics/specs, and shares no code with the program. It
knows no SQL: a query is its text beside its grouping columns, set functions and conditions.
"""
import dataclasses
import functools
import hashlib
import json
import math
import re
import typing

LINE_BYTES = 1_048_576
DEPTH = 127
TYPES = {"int": int, "text": str, "bool": bool}


@dataclasses.dataclass(frozen=True)
class Function:
    """A set function: `rows` is COUNT(*), and `distinct` is COUNT(DISTINCT x). FILTER keeps the records of which `keeps` is
    true."""

    name: str
    column: str = ""
    keeps: typing.Callable | None = None


@dataclasses.dataclass(frozen=True)
class Query:
    """A query as it is typed, and what it means. An item shows a column, the set function of a number, or GROUPING of a
    tuple of columns. Rows are kept by `having` and sorted by `key`; both see the values of the set functions."""

    typed: str
    columns: dict
    grouping: tuple = ()
    sets: tuple = ((),)
    functions: tuple = ()
    items: dict = dataclasses.field(default_factory=dict)
    where: typing.Callable = lambda record: True
    having: typing.Callable = lambda cells: True
    key: typing.Callable = lambda cells: ()
    canonical: str = ""

    def texts(self):
        """The texts of the columns and of the query, as parts have them."""
        return ",".join(f"{name}:{kind}" for name, kind in self.columns.items()), self.canonical or self.typed

    def kinds(self):
        return [self.columns[name] for name in self.grouping]


@dataclasses.dataclass
class Group:
    """How many members a group has, and the state of each set function over them."""

    members: int
    states: list


@dataclasses.dataclass
class Contents:
    """What a part says: how many lines there are, the refused ones with their faults, and the groups by their keys."""

    lines: int
    refused: list
    groups: dict


# Values.


def order(value):
    """Where a value stands in the order of all values: false, true, whole numbers, texts by their bytes, NULL."""
    if value is None:
        return 3, 0
    if isinstance(value, bool):
        return 0, value
    return (1, value) if isinstance(value, int) else (2, value.encode())


def key_order(key):
    return [order(value) for value in key]


ESCAPES = {'"': '\\"', "\\": "\\\\", "\b": "\\b", "\f": "\\f", "\n": "\\n", "\r": "\\r", "\t": "\\t"}


def value_text(value):
    """A value as a JSON text, with the shortest escapes."""
    if value is None or isinstance(value, bool):
        return {None: "null", True: "true", False: "false"}[value]
    if isinstance(value, int):
        return str(value)
    return '"' + re.sub(r'["\\\x00-\x1f]', lambda it: ESCAPES.get(it[0], f"\\u{ord(it[0]):04x}"), value) + '"'


def text_of(values):
    return "".join(f"{value_text(it)}\n" for it in values).encode()


# Inputs.


def lines_of(data):
    """The lines of an input: behind the last line feed there is none."""
    *lines, last = data.split(b"\n")
    return [*lines, last] if last else lines


def closed(data):
    """An input with a line feed behind it where it is not empty and lacks one."""
    return data + b"\n" if data and not data.endswith(b"\n") else data


def refuse(text):
    raise ValueError(text)


def fraction(text):
    """A number that is no whole one of 64 bits. A floating-point number has to hold it."""
    return refuse(text) if math.isinf(float(text)) else float(text)


def whole(text):
    is_whole = text != "-0" and len(text) <= 20 and -(2**63) <= int(text) < 2**63
    return int(text) if is_whole else fraction(text)


def members(pairs):
    """An object. Of members of one name the last one counts; half a surrogate pair is a character in none of them."""
    json.dumps(pairs, ensure_ascii=False).encode()
    return dict(pairs)


DECODER = json.JSONDecoder(parse_float=fraction, parse_int=whole, parse_constant=refuse, object_pairs_hook=members)


def depth(text):
    """How many objects and arrays stand in one another in a JSON text."""
    deepest = now = 0
    for it in re.sub(r'"(?:[^"\\]|\\.)*"', "", text):
        now += (it in "[{") - (it in "]}")
        deepest = max(deepest, now)
    return deepest


def json_value(line):
    """The JSON value of a line, by the standard and the limit of depth."""
    text = line.decode()
    read = DECODER.decode(text)
    json.dumps(read, ensure_ascii=False).encode()
    return refuse("too deep") if text.count("[") + text.count("{") > DEPTH and depth(text) > DEPTH else read


def record_of(line, columns):
    """The record that a line is, or the text of its fault."""
    if len(line) > LINE_BYTES:
        return "too long"
    try:
        read = json_value(line)
    except (ValueError, RecursionError):
        return "not JSON"
    if not isinstance(read, dict):
        return "not an object"
    for name, kind in columns.items():
        if read.get(name) is not None and type(read[name]) is not TYPES[kind]:
            return f"bad value in column {name}"
    return {name: read.get(name) for name in columns}


# What parts say.


def state_over(function, records):
    """What is kept for a set function of the members of a group."""
    if function.keeps:
        records = [it for it in records if function.keeps(it)]
    values = [it[function.column] for it in records if function.column and it[function.column] is not None]
    match function.name:
        case "rows":
            return len(records) if function.keeps else None
        case "count":
            return len(values)
        case "sum" | "avg":
            return sum(values), len(values)
        case "min":
            return min(values, key=order, default=None)
        case "max":
            return max(values, key=order, default=None)
        case "distinct":
            return set(values)


def group_of(query, records):
    return Group(len(records), [state_over(it, records) for it in query.functions])


def contents_of(query, data):
    """What the part of an input says."""
    records = [record_of(it, query.columns) for it in lines_of(data)]
    refused = [(number, it) for number, it in enumerate(records, 1) if isinstance(it, str)]
    members = {} if query.grouping else {(): []}
    for record in records:
        if isinstance(record, dict) and query.where(record):
            members.setdefault(tuple(record[name] for name in query.grouping), []).append(record)
    return Contents(len(records), refused, {key: group_of(query, them) for key, them in members.items()})


def joined_state(name, one, other):
    match name:
        case "sum" | "avg":
            return one[0] + other[0], one[1] + other[1]
        case "min" | "max":
            there = [it for it in (one, other) if it is not None]
            return {"min": min, "max": max}[name](there, key=order, default=None)
        case "distinct":
            return one | other
    return None if one is None else one + other


def joined_group(query, one, other):
    states = [joined_state(f.name, a, b) for f, a, b in zip(query.functions, one.states, other.states)]
    return Group(one.members + other.members, states)


def joined(query, all_contents):
    """What is said of some inputs, one behind the other."""
    whole_of = Contents(0, [], {} if query.grouping else {(): group_of(query, [])})
    for it in all_contents:
        whole_of.refused += [(whole_of.lines + number, why) for number, why in it.refused]
        whole_of.lines += it.lines
        for key, group in it.groups.items():
            before = whole_of.groups.get(key)
            whole_of.groups[key] = joined_group(query, before, group) if before else group
    return whole_of


# The text of a part.


def state_values(name, state):
    match name:
        case "sum" | "avg":
            return list(state)
        case "distinct":
            return [len(state), *sorted(state, key=order)]
        case "rows" if state is None:
            return []
    return [state]


def with_checksum(text):
    return text + text_of([hashlib.sha256(text).hexdigest()])


def part_text(query, contents):
    """The part that says this."""
    values = ["jlreport part 1", *query.texts(), contents.lines, len(contents.refused)]
    values += [it for line in contents.refused for it in line]
    values.append(len(contents.groups))
    for key in sorted(contents.groups, key=key_order):
        group = contents.groups[key]
        values += [*key, group.members]
        values += [it for f, state in zip(query.functions, group.states) for it in state_values(f.name, state)]
    return with_checksum(text_of(values))


# Reports.


def rows_of(query, contents, names):
    """The rows of a grouping set: their keys, with NULL for the columns that are not in the set, and their groups."""
    rows = {} if names else {(None,) * len(query.grouping): group_of(query, [])}
    for key, group in contents.groups.items():
        shown = tuple(value if name in names else None for name, value in zip(query.grouping, key))
        rows[shown] = joined_group(query, rows[shown], group) if shown in rows else group
    return [(key, rows[key]) for key in sorted(rows, key=key_order)]


def cell(function, group, state):
    """The value of a set function; an average is its sum and its number."""
    match function.name:
        case "rows":
            return group.members if state is None else state
        case "distinct":
            return len(state)
        case "sum":
            return state[0] if state[1] else None
        case "avg":
            return state if state[1] else None
    return state


def shown_item(query, item, names, key, cells):
    if isinstance(item, int):
        return cells[item]
    if isinstance(item, tuple):
        return functools.reduce(lambda number, name: 2 * number + (name not in names), item, 0)
    return key[query.grouping.index(item)]


def field(value):
    """A value as a field of the report."""
    if isinstance(value, tuple):
        return f"{value[0]}/{value[1]}"
    if not isinstance(value, str):
        return "\\N" if value is None else value_text(value)
    return quoted_field(f"\\{value}" if value.startswith("\\") else value)


def quoted_field(text):
    return '"' + text.replace('"', '""') + '"' if re.search('[,"\r\n]', text) else text


def report_of(query, contents):
    """The report of what is said."""
    rows = []
    for names in query.sets:
        for key, group in rows_of(query, contents, names):
            cells = [cell(f, group, state) for f, state in zip(query.functions, group.states)]
            shown = [field(shown_item(query, it, names, key, cells)) for it in query.items.values()]
            rows.append((cells, shown))
    kept = sorted((it for it in rows if query.having(it[0])), key=lambda it: query.key(it[0]))
    lines = [[*map(quoted_field, query.items)], *(shown for _, shown in kept)]
    return "".join(f"{','.join(it) or chr(34) * 2}\n" for it in lines).encode()


def refusals_of(contents):
    """The list of refused lines."""
    return "".join(f"line {number}: {why}\n" for number, why in contents.refused).encode()
