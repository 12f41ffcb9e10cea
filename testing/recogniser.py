#!/usr/bin/env python3
"""Says of a text whether it is a query, or how and where it goes wrong, by docs/LANGUAGE.md alone.

    testing/recogniser.py QUERY

The grammar, the keywords and the limits are read out of that page; nothing is known of the program. An Earley parser keeps
behind each token all ways in which the tokens so far go on to a query, once without limits and once within them. A token
with which none of the first goes on is unexpected; one with which only ways beyond the limits go on is over a limit. The
first such token from the left is told, once the whole text spells tokens.
"""
import collections
import functools
import pathlib
import re
import sys

PAGE = (pathlib.Path(__file__).resolve().parent.parent / "docs/LANGUAGE.md").read_text(encoding="utf-8")
KEYWORDS = re.findall("[A-Z]+", re.search(r"^- The keywords are (.*)\.$", PAGE, re.MULTILINE)[1])
LIMITS = re.findall(r"(\d[\d,]*) ", re.search(r"^A query has at most:\n\n(- .*\n)+", PAGE, re.MULTILINE)[0])
BYTES, ITEMS, _, COLUMNS, LITERALS, SETS, BRACKETS, _ = (int(it.replace(",", "")) for it in LIMITS)

# How many of a symbol a rule may have; and parts whose first word begins a level, with how many may stand in one another.
COUNTED = {("query", "item"): ITEMS, ("expr", "name"): COLUMNS, ("atom", "literal"): LITERALS}
LEVELS = (("( pred ) | atom", BRACKETS), ("( WHERE pred )", BRACKETS), ("GROUPING SETS (", SETS))

# How a text spells tokens.

TOKEN = re.compile(
    rb"""(?P<word>[A-Za-z_][A-Za-z0-9_]*)|(?P<quoted>"(?:[^"]|"")+"(?!"))|(?P<text>'(?:[^']|'')*'(?!'))"""
    rb"|(?P<number>-?[0-9]+)(?![A-Za-z0-9_])|(?P<sign><>|<=|>=|[(),*=<>])"
)
SPACE = re.compile(rb"[ \t\n\r]*")


def symbols_of(kind, text):
    """The symbols of the grammar that a token may be; a whole number beyond 64 bits is none."""
    if kind == "number":
        digits = text.lstrip("-").lstrip("0") or "0"
        return ("number",) if len(digits) < 20 and int(digits) < 2**63 + text.startswith("-") else ()
    if kind == "word" and text.upper() in KEYWORDS:
        return (text.upper(),)
    if kind in ("word", "quoted"):
        return ("name", "lines") if text in ("lines", '"lines"') else ("name",)
    return (text if kind == "sign" else kind,)


def tokens_of(text):
    """The tokens of a text, each as its symbols and the byte where it begins; at last the byte where none begins."""
    at = SPACE.match(text).end()
    while (match := TOKEN.match(text, at)) and (symbols := symbols_of(match.lastgroup, match[0].decode())):
        yield symbols, at
        at = SPACE.match(text, match.end()).end()
    yield (), at


# The grammar: of each rule its choices, as words.


def choices(words):
    """The choices within the bracket that the words begin with, and the words behind it."""
    depth, begin, found = 0, 1, []
    for at, word in enumerate(words):
        depth += (word[0] in "{[(") - (word[0] in "}])")
        if depth == 0 or (depth == 1 and word == "|"):
            found, begin = [*found, words[begin:at]], at + 1
        if depth == 0:
            return found, words[begin:]


@functools.cache
def steps(words):
    """The symbols that words begin with, each with the words that may follow it; None where they may be over.

    Round brackets are signs of the language, but where they hold several choices together.
    """
    if not words:
        return [(None, ())]
    if words[0] not in ("{", "[", "(") or (words[0] == "(" and len(choices(words)[0]) == 1):
        return [(words[0], words[1:])]
    found, behind = choices(words)
    ways = [it + (words if words[0] == "{" else behind) for it in found] + [behind] * (words[0] != "(")
    return [step for it in ways for step in steps(it)]


def grammar():
    text = " ".join(re.search(r"^    query .*?\n\n", PAGE, re.MULTILINE | re.DOTALL)[0].replace("whole ", "").split())
    for part, limit in LEVELS:
        assert text.count(part) == 1, f"'{part}' does not stand once in the grammar"
        text = text.replace(part, part.replace(" ", f"@{limit} ", 1))
    rules = re.split(r" ?\b([a-z]+) = ", text)[1:]
    return {rule: choices(("(", *right.split(), ")"))[0] for rule, right in zip(rules[::2], rules[1::2])}


GRAMMAR = grammar()


class Place:
    """Behind some tokens: what waits for which symbol, and whether the tokens are a query.

    A way on is a rule, the level where it stands and the one within it, how many counted symbols it has had, the words that
    are left of it, and the place where it began. Without limits all levels and numbers are 0.
    """

    def __init__(self, ways, has_limits):
        self.has_limits, self.waiting, self.is_query = has_limits, collections.defaultdict(list), False
        seen, todo = set(ways), list(ways)
        for rule, level, inner, count, words, begin in todo:
            further = []
            for word, behind in steps(words):
                if word is None:
                    self.is_query |= begin is None
                    further += begin.waiting[rule, level] if begin else []
                    continue
                symbol, _, levels = word.partition("@")
                limit, levels = (COUNTED.get((rule, symbol)), levels) if has_limits else (None, "")
                if count == limit or (levels and inner == int(levels)):
                    continue
                key = (symbol, inner) if symbol in GRAMMAR else symbol
                self.waiting[key].append((rule, level, inner + bool(levels), count + bool(limit), behind, begin))
                further += [(symbol, inner, inner, 0, it, self) for it in GRAMMAR.get(symbol, ())]
            todo += set(further) - seen
            seen.update(further)

    @functools.lru_cache(1000)
    def behind(self, symbols):
        """The place behind one token more, where any way goes on with it."""
        ways = {it for symbol in symbols for it in self.waiting.get(symbol, ())}
        return Place(ways, self.has_limits) if ways else None


BEGINS = [Place({("query", 0, 0, 0, it, None) for it in GRAMMAR["query"]}, has_limits) for has_limits in (False, True)]


def fault_of(query):
    """What is wrong with a text, as the program tells it behind 'query: ', or None."""
    text = query.encode()
    *tokens, (_, end) = tokens_of(text)
    if len(text) > BYTES or end < len(text):
        return "over a limit" if len(text) > BYTES else f"byte {end}: no token"
    free, within = BEGINS
    for symbols, at in tokens:
        free, within = free.behind(symbols), within.behind(symbols)
        if not free or not within:
            return "over a limit" if free else f"byte {at}: unexpected"
    return None if within.is_query else "over a limit" if free.is_query else f"byte {end}: unexpected"


if __name__ == "__main__":
    print(fault_of(sys.argv[1]) or "a query")
