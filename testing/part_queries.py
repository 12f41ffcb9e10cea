"""Queries of which parts are made and joined: every set function with and without FILTER, WHERE, HAVING, ORDER BY, and
grouping sets of every kind. What each means stands beside its text.
"""
from reference import Function, Query

COLUMNS = {"shop": "text", "open": "bool", "cents": "int", "note": "text"}


def above(value, bound):
    return value is not None and value > bound


EVERY_FUNCTION = Query(
    "SELECT open, shop, GROUPING(shop, open) AS g, COUNT(*) AS n, COUNT(note) AS c, COUNT(DISTINCT cents) AS d,"
    " COUNT(DISTINCT note) AS e, COUNT(DISTINCT open) AS f, SUM(cents) AS s, MIN(cents) AS m, MAX(note) AS x,"
    " AVG(cents) AS a, SUM(cents) AS t FROM lines GROUP BY CUBE (open, shop)",
    COLUMNS,
    ("open", "shop"),
    (("open", "shop"), ("open",), ("shop",), ()),
    (
        *(Function("rows"), Function("count", "note"), Function("distinct", "cents"), Function("distinct", "note")),
        *(Function("distinct", "open"), Function("sum", "cents"), Function("min", "cents"), Function("max", "note")),
        Function("avg", "cents"),
    ),
    dict(open="open", shop="shop", g=("shop", "open"), n=0, c=1, d=2, e=3, f=4, s=5, m=6, x=7, a=8, t=5),
)

EVERY_FILTER = Query(
    "SELECT COUNT(*) FILTER (WHERE open) AS n, COUNT(*) AS r, COUNT(note) FILTER (WHERE cents > 0) AS c,"
    " COUNT(DISTINCT note) FILTER (WHERE NOT open) AS d, SUM(cents) FILTER (WHERE note IS NULL) AS s,"
    " MIN(note) FILTER (WHERE cents IN (0, 5)) AS m, MAX(cents) FILTER (WHERE open IS NOT TRUE) AS x,"
    " AVG(cents) FILTER (WHERE shop <> 'a' OR cents BETWEEN -1 AND 5) AS a, note, shop FROM lines"
    " WHERE cents > -9 OR cents IS NULL GROUP BY ROLLUP (shop, note)",
    COLUMNS,
    ("shop", "note"),
    (("shop", "note"), ("shop",), ()),
    (
        Function("rows", keeps=lambda it: it["open"] is True),
        Function("rows"),
        Function("count", "note", lambda it: above(it["cents"], 0)),
        Function("distinct", "note", lambda it: it["open"] is False),
        Function("sum", "cents", lambda it: it["note"] is None),
        Function("min", "note", lambda it: it["cents"] in (0, 5)),
        Function("max", "cents", lambda it: it["open"] is not True),
        Function("avg", "cents", lambda it: it["shop"] not in (None, "a") or it["cents"] in range(-1, 6)),
    ),
    dict(n=0, r=1, c=2, d=3, s=4, m=5, x=6, a=7, note="note", shop="shop"),
    lambda it: it["cents"] is None or it["cents"] > -9,
)

QUERIES = (
    EVERY_FUNCTION,
    EVERY_FILTER,
    Query(
        "SELECT SUM(cents), MIN(shop), COUNT(DISTINCT shop) FROM lines WHERE open IS NOT FALSE",
        COLUMNS,
        functions=(Function("sum", "cents"), Function("min", "shop"), Function("distinct", "shop")),
        items={"SUM(cents)": 0, "MIN(shop)": 1, "COUNT(DISTINCT shop)": 2},
        where=lambda it: it["open"] is not False,
    ),
    Query(
        "select cents, max(shop) as m, note from lines group by cents, note",
        COLUMNS,
        ("cents", "note"),
        (("cents", "note"),),
        (Function("max", "shop"),),
        dict(cents="cents", m=0, note="note"),
        canonical="SELECT cents, MAX(shop) AS m, note FROM lines GROUP BY cents, note",
    ),
    Query("SELECT shop FROM lines GROUP BY shop", COLUMNS, ("shop",), (("shop",),), items=dict(shop="shop")),
    Query(
        "SELECT note, COUNT(cents) AS c FROM lines GROUP BY note HAVING COUNT(*) > 1 ORDER BY SUM(cents) DESC NULLS LAST",
        COLUMNS,
        ("note",),
        (("note",),),
        (Function("count", "cents"), Function("rows"), Function("sum", "cents")),
        dict(note="note", c=0),
        having=lambda cells: cells[1] > 1,
        key=lambda cells: (cells[2] is None, -(cells[2] or 0)),
    ),
    Query(
        "SELECT AVG(cents) AS a FROM lines GROUP BY GROUPING SETS ((), ())",
        COLUMNS,
        sets=((), ()),
        functions=(Function("avg", "cents"),),
        items=dict(a=0),
    ),
    Query(
        "SELECT COUNT(*) AS n, shop FROM lines GROUP BY DISTINCT GROUPING SETS ((shop, open), ROLLUP (open, shop))",
        COLUMNS,
        ("shop", "open"),
        (("shop", "open"), ("open",), ()),
        (Function("rows"),),
        dict(n=0, shop="shop"),
    ),
    Query(
        """SELECT MIN(note) AS "a ""b"" \\\n\x7f😀" FROM lines WHERE note <> 'it''s "\x01\\"' AND open""",
        COLUMNS,
        functions=(Function("min", "note"),),
        items={'a "b" \\\n\x7f😀': 0},
        where=lambda it: it["note"] not in (None, 'it\'s "\x01\\"') and it["open"] is True,
    ),
)

# One of nearly the greatest length, each byte of which is written with six in a part.
LONG = Query(
    f"SELECT COUNT(*) AS n FROM lines WHERE note <> '{chr(1) * 65480}'",
    COLUMNS,
    functions=(Function("rows"),),
    items=dict(n=0),
    where=lambda it: it["note"] not in (None, "\x01" * 65480),
)

# One that is quickly said: its part has behind its header the number of lines and of refused ones, and then 1, the number of
# members, the sum, and how many numbers were added.
SUM = Query(
    "SELECT SUM(cents) AS s FROM lines", {"cents": "int"}, functions=(Function("sum", "cents"),), items={"s": 0}
)
