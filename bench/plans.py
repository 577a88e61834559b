#!/usr/bin/env python3
"""Runs plans and compares what the program writes with what this program computes by itself.

usage: plans.py PROGRAM [--seed N] [--plans N]

Each plan is made by chance with its inputs, some of them broken in one place or another, and run in a folder of its own.
Compared are the status, each line of the report, and each output: as bytes where the query groups, as a bag of lines where it
doesn't. It exits with 1 at the first difference, whose folder it names.
"""
import argparse, os, random, shutil, struct, subprocess, sys, tempfile, tomllib
from collections import Counter

SLOTS = 131072
I64 = (-2**63, 2**63 - 1)


# ---- CSV, as the crate `csv` reads it with its default settings

def records(data):
    if data.startswith(b"\xef\xbb\xbf"):
        data = data[3:]
    out, fields, field, state = [], [], bytearray(), "record"
    for c in data:
        ch = bytes([c])
        if state == "record":
            if ch in (b"\r", b"\n"):
                continue
            state = "start"
        if state == "start":
            if ch == b'"':
                state = "quoted"
                continue
            state = "plain"
        elif state == "quoted":
            if ch == b'"':
                state = "closing"
            else:
                field += ch
            continue
        elif state == "closing":
            if ch == b'"':
                field += ch
                state = "quoted"
                continue
            state = "plain"
        # plain
        if ch == b",":
            fields.append(bytes(field))
            field = bytearray()
            state = "start"
        elif ch in (b"\r", b"\n"):
            fields.append(bytes(field))
            field = bytearray()
            out.append(fields)
            fields = []
            state = "record"
        else:
            field += ch
    if state != "record":
        fields.append(bytes(field))
        out.append(fields)
    return out


def csv_line(fields):
    def cell(f):
        if any(c in f for c in b',"\r\n'):
            return b'"' + f.replace(b'"', b'""') + b'"'
        return f
    if fields == [b""]:
        return b'""\n'
    return b",".join(cell(f) for f in fields) + b"\n"


def int_of(field):
    digits = field[1:] if field[:1] in (b"+", b"-") else field
    if not digits or any(c not in b"0123456789" for c in digits):
        return None
    n = int(field)
    return n if I64[0] <= n <= I64[1] else None


# ---- rows, keys and their order

def encoded(row):
    return 4 + sum(8 if isinstance(v, int) else 4 + len(v) for v in row)


def key_bytes(values):
    out = b""
    for v in values:
        out += b"\x01" + struct.pack(">q", v) if isinstance(v, int) else b"\x02" + struct.pack(">I", len(v)) + v
    return out


def path(key):
    h = 14695981039346656037
    for c in key:
        h = ((h ^ c) * 1099511628211) % 2**64
    return [(h >> (4 * j)) & 15 for j in range(16)], key


def spell(v):
    return str(v).encode() if isinstance(v, int) else v


# ---- plans

class Bad(Exception):
    pass


TOP = ["block_len", "blocks", "writers", "query"]
QUERY = ["page_blocks", "limit", "quota", "output", "left", "right", "on", "group", "agg"]
SIDE = ["file", "columns", "filter"]
AGG = ["op", "column"]
FILTER = ["column", "op", "value"]


def fail(kind, key):
    raise Bad(f"{kind} {key}")


def table(t, key, allowed):
    if not isinstance(t, dict):
        fail("WrongKind", key)
    for k in sorted(t, key=lambda s: s.encode()):
        if k not in allowed:
            fail("UnknownKey", dot(key, k))


def dot(key, k):
    return f"{key}.{k}" if key else str(k)


def is_int(v):
    return isinstance(v, int) and not isinstance(v, bool)


def number(t, key, k, ok):
    if k not in t:
        fail("MissingKey", dot(key, k))
    if not is_int(t[k]):
        fail("WrongKind", dot(key, k))
    if not ok(t[k]):
        fail("Limit", dot(key, k))
    return t[k]


def text(t, key, k):
    if k not in t:
        fail("MissingKey", dot(key, k))
    if not isinstance(t[k], str):
        fail("WrongKind", dot(key, k))
    return t[k]


def listed(t, key, k, low, high):
    if k not in t:
        fail("MissingKey", dot(key, k))
    if not isinstance(t[k], list):
        fail("WrongKind", dot(key, k))
    if not low <= len(t[k]) <= high:
        fail("Limit", dot(key, k))
    return t[k]


def power(low, high):
    return lambda n: low <= n <= high and n & (n - 1) == 0


def read_side(t, k, key):
    if k not in t:
        fail("MissingKey", key)
    s = t[k]
    table(s, key, SIDE)
    out = {"file": text(s, key, "file")}
    if not out["file"]:
        fail("Limit", dot(key, "file"))
    out["columns"] = []
    for i, c in enumerate(listed(s, key, "columns", 1, 64), 1):
        if not isinstance(c, str):
            fail("WrongKind", f"{key}.columns.{i}")
        name, colon, kind = c.rpartition(":")
        if not colon or kind not in ("int", "text"):
            fail("WrongKind", f"{key}.columns.{i}")
        out["columns"].append((name.encode(), kind))
    out["filter"] = []
    if "filter" in s:
        for i, f in enumerate(listed(s, key, "filter", 0, 16), 1):
            at = f"{key}.filter.{i}"
            table(f, at, FILTER)
            column, op = text(f, at, "column"), text(f, at, "op")
            if op not in ("=", "!=", "<", "<=", ">", ">="):
                fail("Limit", f"{at}.op")
            if "value" not in f:
                fail("MissingKey", f"{at}.value")
            if not is_int(f["value"]) and not isinstance(f["value"], str):
                fail("WrongKind", f"{at}.value")
            out["filter"].append((column.encode(), op, f["value"] if is_int(f["value"]) else f["value"].encode()))
    return out


def read_query(q, key):
    if not isinstance(q, dict):
        fail("WrongKind", key)
    allowed = [k for k in QUERY if not (k == "on" and "right" not in q) and not (k == "agg" and "group" not in q)]
    table(q, key, allowed)
    out = {"page_blocks": number(q, key, "page_blocks", power(1, 256)),
           "limit": number(q, key, "limit", lambda n: 0 <= n <= 2**63 - 1),
           "quota": number(q, key, "quota", lambda n: 0 <= n <= 1048576)}
    out["output"] = text(q, key, "output")
    if not out["output"]:
        fail("Limit", dot(key, "output"))
    out["left"] = read_side(q, "left", f"{key}.left")
    out["right"] = read_side(q, "right", f"{key}.right") if "right" in q else None
    out["on"] = []
    if out["right"] is not None:
        for i, p in enumerate(listed(q, key, "on", 1, 8), 1):
            at = f"{key}.on.{i}"
            if not isinstance(p, list):
                fail("WrongKind", at)
            if len(p) != 2:
                fail("Limit", at)
            for j, n in enumerate(p, 1):
                if not isinstance(n, str):
                    fail("WrongKind", f"{at}.{j}")
            out["on"].append(p)
    out["group"] = None
    if "group" in q or out["right"] is None:
        group = listed(q, key, "group", 1, 8)
        for i, g in enumerate(group, 1):
            if not isinstance(g, str):
                fail("WrongKind", f"{key}.group.{i}")
        out["group"] = group
    out["agg"] = []
    if "agg" in q:
        for i, a in enumerate(listed(q, key, "agg", 0, 16), 1):
            at = f"{key}.agg.{i}"
            if not isinstance(a, dict):
                fail("WrongKind", at)
            op = a.get("op")
            table(a, at, AGG if "op" in a and op != "count" else ["op"])
            op = text(a, at, "op")
            if op not in ("count", "sum", "min", "max"):
                fail("Limit", f"{at}.op")
            column = None
            if op != "count":
                column = text(a, at, "column")
            out["agg"].append((op, column))
    names(out, key)
    return out


def names(q, key):
    for side in ("left", "right"):
        if q[side] is None:
            continue
        seen = set()
        for i, (n, _) in enumerate(q[side]["columns"], 1):
            if n in seen:
                fail("Repeated", f"{key}.{side}.columns.{i}")
            seen.add(n)
    left = q["left"]["columns"]
    right = q["right"]["columns"] if q["right"] else []
    at_left = {n: i for i, (n, _) in enumerate(left)}
    at_right = {n: i for i, (n, _) in enumerate(right)}
    on = []
    for i, (a, b) in enumerate(q["on"], 1):
        a, b = a.encode(), b.encode()
        if a not in at_left:
            fail("UnknownColumn", f"{key}.on.{i}.1")
        if b not in at_right:
            fail("UnknownColumn", f"{key}.on.{i}.2")
        if left[at_left[a]][1] != right[at_right[b]][1]:
            fail("KindClash", f"{key}.on.{i}")
        on.append((at_left[a], at_right[b]))
    q["on"] = on
    if q["right"]:
        row = [(b"left." + n, k) for n, k in left] + [(b"right." + n, k) for n, k in right]
    else:
        row = left
    q["row"] = row
    at_row = {n: i for i, (n, _) in enumerate(row)}
    if q["group"] is not None:
        group = []
        for i, g in enumerate(q["group"], 1):
            g = g.encode()
            if g not in at_row:
                fail("UnknownColumn", f"{key}.group.{i}")
            if at_row[g] in group:
                fail("Repeated", f"{key}.group.{i}")
            group.append(at_row[g])
        q["group"] = group
    aggs = []
    for i, (op, column) in enumerate(q["agg"], 1):
        if op == "count":
            aggs.append((op, None))
            continue
        c = column.encode()
        if c not in at_row:
            fail("UnknownColumn", f"{key}.agg.{i}.column")
        if row[at_row[c]][1] != "int":
            fail("KindClash", f"{key}.agg.{i}.column")
        aggs.append((op, at_row[c]))
    q["agg"] = aggs
    for side in ("left", "right"):
        if q[side] is None:
            continue
        at = {n: i for i, (n, _) in enumerate(q[side]["columns"])}
        preds = []
        for i, (c, op, v) in enumerate(q[side]["filter"], 1):
            if c not in at:
                fail("UnknownColumn", f"{key}.{side}.filter.{i}.column")
            kind = q[side]["columns"][at[c]][1]
            if (kind == "int") != is_int(v):
                fail("KindClash", f"{key}.{side}.filter.{i}.value")
            preds.append((at[c], op, v))
        q[side]["filter"] = preds


def fits(v):
    """TOML's integers have 64 bits; Python's reader takes longer ones."""
    if isinstance(v, dict):
        return all(fits(x) for x in v.values())
    if isinstance(v, list):
        return all(fits(x) for x in v)
    return not is_int(v) or I64[0] <= v <= I64[1]


def read_plan(data):
    if len(data) > 1048576:
        fail("Limit", "plan")
    try:
        doc = tomllib.loads(data.decode())
    except (tomllib.TOMLDecodeError, UnicodeDecodeError):
        raise Bad("Syntax")
    if not fits(doc):
        raise Bad("Syntax")
    table(doc, "", TOP)
    block_len = number(doc, "", "block_len", power(64, 65536))
    blocks = number(doc, "", "blocks", lambda n: 1 <= n <= 1048576 and n * block_len <= 2147483648)
    writers = number(doc, "", "writers", lambda n: 0 <= n <= 8)
    queries = [read_query(q, f"query.{i}") for i, q in enumerate(listed(doc, "", "query", 1, 16), 1)]
    files = {q[s]["file"] for q in queries for s in ("left", "right") if q[s]}
    outputs = set()
    for i, q in enumerate(queries, 1):
        if q["output"] in outputs or q["output"] in files:
            fail("SameOutput", f"query.{i}.output")
        outputs.add(q["output"])
    if sum(q["quota"] for q in queries) > SLOTS:
        fail("QuotaSum", "query")
    return {"block_len": block_len, "blocks": blocks, "writers": writers, "queries": queries}


# ---- a query

class Stop(Exception):
    def __init__(self, status, cause):
        self.status, self.cause = status, cause


OPS = {"=": lambda a, b: a == b, "!=": lambda a, b: a != b, "<": lambda a, b: a < b,
       "<=": lambda a, b: a <= b, ">": lambda a, b: a > b, ">=": lambda a, b: a >= b}


def read_rows(data, side, name, weight, page):
    recs = records(data)
    if not recs:
        raise Stop(4, f"header {name}")
    header, places = recs[0], []
    for n, _ in side["columns"]:
        if header.count(n) != 1:
            raise Stop(4, f"header {name}")
        places.append(header.index(n))
    out = []
    for number, rec in enumerate(recs[1:], 1):
        if len(rec) != len(header):
            raise Stop(4, f"csv {name} {number}")
        row = []
        for (n, kind), place in zip(side["columns"], places):
            if kind == "int":
                v = int_of(rec[place])
                if v is None:
                    raise Stop(4, f"field {name} {number} ".encode() + n)
                row.append(v)
            else:
                row.append(rec[place])
        w = weight(encoded(row))
        if w > page:
            raise Stop(5, f"row {name} {number} {w}")
        if all(OPS[op](row[c], v) for c, op, v in side["filter"]):
            out.append(row)
    return out


def need_of(q, page, lefts, rights, rows):
    """The pages that suffice: R bytes of rows that pass, and of joined rows that are grouped, n of them."""
    a = 16 * len(q["agg"])
    both = q["right"] is not None and q["group"] is not None
    weigh = (lambda e: 2 * (e + a)) if both else (lambda e: e + a)
    kept = lefts + rights
    n, r = len(kept), sum(weigh(encoded(row)) for row in kept)
    if both:
        n, r = n + len(rows), r + sum(encoded(row) + a for row in rows)
    return min(-(-2 * r // page) + 600, n + 16)


def answer(q, plan, files):
    page = q["page_blocks"] * plan["block_len"]
    a = 16 * len(q["agg"])
    if q["right"] is None:
        weight = lambda e: e + a
    elif q["group"] is None:
        weight = lambda e: e
    else:
        weight = lambda e: 2 * (e + a)
    rows = read_rows(files[q["left"]["file"]], q["left"], "left", weight, page)
    lefts, rights = rows, []
    if q["right"]:
        rights = read_rows(files[q["right"]["file"]], q["right"], "right", weight, page)
        by = {}
        for r in rights:
            by.setdefault(key_bytes([r[j] for _, j in q["on"]]), []).append(r)
        rows = [l + r for l in rows for r in by.get(key_bytes([l[i] for i, _ in q["on"]]), [])]
    q["need"] = need_of(q, page, lefts, rights, rows)
    if q["group"] is None:
        head = csv_line([n for n, _ in q["row"]])
        return head, [csv_line([spell(v) for v in r]) for r in rows], False
    groups = {}
    for r in rows:
        groups.setdefault(key_bytes([r[g] for g in q["group"]]), []).append(r)
    heads = [q["row"][g][0] for g in q["group"]]
    for op, c in q["agg"]:
        heads.append(b"count" if op == "count" else op.encode() + b"(" + q["row"][c][0] + b")")
    lines = []
    for k in sorted(groups, key=path):
        rs = groups[k]
        cells = [spell(rs[0][g]) for g in q["group"]]
        for op, c in q["agg"]:
            v = len(rs) if op == "count" else {"sum": sum, "min": min, "max": max}[op](r[c] for r in rs)
            cells.append(str(v).encode())
        lines.append(csv_line(cells))
    return csv_line(heads), lines, True


def expected(plan_bytes, files):
    """The status, the report, and for each output its text or bag, or None where it may not be there."""
    try:
        plan = read_plan(plan_bytes)
    except Bad as e:
        return 2, [b"2 plan " + str(e).encode() + b"\n"], {}, []
    room = plan["blocks"] * plan["block_len"]
    lines, outs, first = [], {}, 0
    ends = []
    for q in plan["queries"]:
        page = q["page_blocks"] * plan["block_len"]
        least = page * (40 if q["right"] and q["group"] is not None else 20)
        if q["limit"] < least:
            ends.append(Stop(6, f"reservation query {least} {q['limit']}"))
        elif room < least:
            ends.append(Stop(6, f"reservation root {least} {room}"))
        else:
            room -= least
            ends.append(None)
    for q, end in zip(plan["queries"], ends):
        if end is None:
            for s in ("left", "right"):
                if q[s] and q[s]["file"] not in files:
                    end = end or Stop(3, f"input {s}")
        if end is None:
            try:
                outs[q["output"]] = answer(q, plan, files)
                end = Stop(0, f"lines {len(outs[q['output']][1])}")
            except Stop as s:
                end = s
        if end.status:
            outs[q["output"]] = None
            first = first or end.status
        cause = end.cause if isinstance(end.cause, bytes) else end.cause.encode()
        lines.append(f"query {len(lines) + 1}: {end.status} ".encode() + cause + b"\n")
    return first, lines, outs, plan["queries"]


# ---- plans by chance

NAMES = ["k", "v", "w", "", "left.k", "a b", 'q"q', "x,y", "é", "kk", "k:int"]
TEXTS = [b"", b"a", b"b", b"ab", b"a,b", b'q"q', b"x\ny", b"\r", b"1", b"-1", b"\xff\x00", "é".encode(), b"zzzzzzzz", b" "]


def toml_text(s):
    return '"' + "".join("\\" + c if c in '"\\' else c if c >= " " else f"\\u{ord(c):04x}" for c in s) + '"'


def toml(v):
    if isinstance(v, bool):
        return "true" if v else "false"
    if isinstance(v, int):
        return str(v)
    if isinstance(v, float):
        return repr(v)
    if isinstance(v, str):
        return toml_text(v)
    if isinstance(v, list):
        return "[" + ", ".join(toml(x) for x in v) + "]"
    return "{" + ", ".join(f"{toml_text(k)} = {toml(x)}" for k, x in v.items()) + "}"


def some_int(r):
    return r.choice([0, 1, -1, 5, 7, 10, r.randrange(-20, 20), r.randrange(-1000, 1000), I64[0], I64[1]])


def some_text(r):
    return r.choice(TEXTS) if r.random() < 0.8 else bytes(r.choice(b"abcxyz") for _ in range(r.randrange(0, 40)))


def make_file(r, columns, rows, bad):
    extra = [n for n in ("zz", "note") if r.random() < 0.3]
    order = [n for n, _ in columns] + extra
    r.shuffle(order)
    kinds = dict(columns)
    if bad and r.random() < 0.3:
        alphabet = [b'"', b",", b"\n", b"\r", b"1", b"-", b"a"] + [n.encode() for n, _ in columns]
        head = csv_line([n.encode() for n in order]) if r.random() < 0.7 else b""
        return head + b"".join(r.choice(alphabet) for _ in range(r.randrange(0, 60)))
    head = [n.encode() for n in order]
    if bad and r.random() < 0.2:
        head = r.choice([head + [head[0]], head[1:], []])
    out = csv_line(head) if head else b""
    if r.random() < 0.1:
        out = b"\xef\xbb\xbf" + out
    nl = b"\r\n" if r.random() < 0.2 else b"\n"
    for _ in range(rows):
        cells = []
        for n in order:
            if kinds.get(n) == "int":
                v = some_int(r)
                cells.append(r.choice([str(v), f"+{v}" if v >= 0 else str(v), f"-00{-v}" if v < 0 else f"00{v}"]).encode())
            else:
                cells.append(some_text(r))
        if bad and r.random() < 0.05:
            spoil = r.randrange(4)
            at = r.randrange(len(cells))
            if spoil == 0:
                cells[at] = r.choice([b"", b"+", b"9223372036854775808", b"1.5", b" 1", b"0x1", b"-9223372036854775809"])
            elif spoil == 1:
                cells.append(b"more")
            elif spoil == 2:
                cells = cells[:-1] or [b"x", b"y"]
            else:
                cells[at] = b"x" * r.randrange(0, 400)
        out += csv_line(cells)[:-1] + nl
        if r.random() < 0.05:
            out += nl
    if out and r.random() < 0.2:
        out = out[:-len(nl)]
    return out


def make_side(r, files, bad):
    names = r.sample(NAMES, r.randrange(1, 4))
    columns = [(n, r.choice(["int", "text"])) for n in names]
    name = f"in{len(files)}.csv"
    rows = r.choice([0, 1, 2, 5, 20, 60, 200, 200, 1500])
    if not (bad and r.random() < 0.1):
        files[name] = make_file(r, columns, rows, bad and r.random() < 0.5)
    side = {"file": name, "columns": [f"{n}:{k}" for n, k in columns]}
    if r.random() < 0.4:
        side["filter"] = []
        for _ in range(r.randrange(0, 3)):
            n, k = r.choice(columns)
            v = some_int(r) if k == "int" else r.choice(["", "a", "b", "é", "zz"])
            side["filter"].append({"column": n, "op": r.choice(list(OPS)), "value": v})
    return side, columns


def make_query(r, files, number, block_len, bad):
    left, lc = make_side(r, files, bad)
    page_blocks = r.choice([1, 1, 1, 2, 4])
    q = {"page_blocks": page_blocks, "limit": r.choice([2**31, 2**63 - 1, 20 * page_blocks * block_len, 40 * page_blocks * block_len]),
         "quota": r.choice([SLOTS // 16, 4000]), "output": f"out{number}.csv", "left": left}
    row = lc
    if r.random() < 0.5:
        right, rc = make_side(r, files, bad)
        pairs = [[a, b] for a, k in lc for b, l in rc if k == l]
        if pairs:
            q["right"] = right
            q["on"] = r.sample(pairs, r.randrange(1, min(3, len(pairs)) + 1))
            row = [("left." + n, k) for n, k in lc] + [("right." + n, k) for n, k in rc]
    if "right" not in q or r.random() < 0.6:
        q["group"] = r.sample([n for n, _ in row], r.randrange(1, len(row) + 1))
        ints = [n for n, k in row if k == "int"]
        q["agg"] = []
        for _ in range(r.choice([0, 1, 2, 4, 16])):
            op = r.choice(["count", "sum", "min", "max"]) if ints else "count"
            q["agg"].append({"op": op} if op == "count" else {"op": op, "column": r.choice(ints)})
        if not q["agg"] and r.random() < 0.5:
            del q["agg"]
    return q


def places(t):
    if isinstance(t, dict):
        for k in list(t):
            yield t, k
            yield from places(t[k])
    elif isinstance(t, list):
        for i in range(len(t)):
            yield t, i
            yield from places(t[i])


def spoil(r, doc):
    for _ in range(r.choice([1, 1, 1, 2, 3])):
        at, k = r.choice(list(places(doc)))
        what = r.randrange(7)
        if what == 0:
            del at[k]
        elif what == 1:
            at[k] = r.choice([0, -1, 3, 2**40, "", "x", True, 1.5, [], ["k"], [["k"]], {}, {"op": "count"}, "no:kind", "k:int", "count"])
        elif what == 2 and isinstance(at, dict):
            at[r.choice(["a", "zz", "Query", "right", "on", "agg", "column", "filter", "value"])] = r.choice([1, "k", []])
        elif what == 3 and isinstance(at, list):
            at.append(r.choice([at[k], 1, "k"]))
        elif what == 4 and isinstance(at, dict) and isinstance(at[k], list):
            at[k] = at[k] * r.choice([2, 9, 17])
        elif what == 5 and isinstance(at[k], int):
            at[k] = r.choice([at[k] * 2, at[k] + 1, at[k] - 1, 1048577, 131073])
        elif what == 6 and isinstance(at[k], str):
            at[k] = r.choice(["out0.csv", "in0.csv", at[k] + "x", "k", "left.k"])
    return doc


def make_plan(r):
    files, bad = {}, r.random() < 0.5
    block_len = r.choice([64, 128, 256, 1024, 8192])
    queries = []
    for i in range(r.choice([1, 1, 1, 2, 3])):
        queries.append(make_query(r, files, i, block_len, bad))
    blocks = r.choice([20, 40, 64, 200, 1000, 4096])
    doc = {"block_len": block_len, "blocks": blocks, "writers": r.randrange(0, 9), "query": queries}
    if r.random() < 0.35:
        doc = spoil(r, doc)
    text = "".join(f"{k} = {toml(v)}\n" for k, v in doc.items()).encode()
    if r.random() < 0.02:
        text = text[: r.randrange(len(text))]
    return text, files


# ---- the comparison

def check(program, text, files, folder):
    for n, b in files.items():
        with open(os.path.join(folder, n), "wb") as f:
            f.write(b)
    with open(os.path.join(folder, "plan.toml"), "wb") as f:
        f.write(text)
    ran = subprocess.run([program, "run", "plan.toml"], cwd=folder, stdout=subprocess.PIPE, stderr=subprocess.PIPE, timeout=300)
    status, lines, outs, queries = expected(text, files)
    told = ran.stdout.splitlines(keepends=True)
    for i, q in enumerate(queries):
        # a quota that is smaller than what suffices may be used up
        short = f"query {i + 1}: 7 scratch {q['page_blocks']} ".encode()
        if i < len(told) and told[i].startswith(short) and "need" in q and q["quota"] // q["page_blocks"] < q["need"]:
            lines[i], outs[q["output"]] = told[i], None
    report = b"".join(lines)
    if queries:
        status = next((int(l.split(b": ")[1].split(b" ")[0]) for l in lines if b": 0 " not in l), 0)
    if (ran.returncode, ran.stdout) != (status, report):
        return f"status {ran.returncode} for {status}, report {ran.stdout!r} for {report!r}, {ran.stderr!r}", told
    for name, out in outs.items():
        file = os.path.join(folder, name)
        if out is None:
            if name not in files and os.path.exists(file):
                return f"{name} is there", told
            continue
        head, lines, ordered = out
        with open(file, "rb") as f:
            text = f.read()
        if ordered:
            if text != head + b"".join(lines):
                return f"{name} differs", told
        elif Counter(text.split(b"\n")) != Counter((head + b"".join(lines)).split(b"\n")) or not text.startswith(head):
            return f"{name} differs", told
    left = [n for n in os.listdir(folder) if n not in files and n != "plan.toml" and n not in outs]
    return f"left behind: {left}" if left else None, told


def main():
    args = argparse.ArgumentParser()
    args.add_argument("program")
    args.add_argument("--seed", type=int, default=1)
    args.add_argument("--plans", type=int, default=1000)
    args = args.parse_args()
    program = os.path.abspath(args.program)
    seen = Counter()
    for n in range(args.seed, args.seed + args.plans):
        text, files = make_plan(random.Random(n))
        folder = tempfile.mkdtemp(prefix="plans-")
        why, ran_lines = check(program, text, files, folder)
        if why:
            print(f"plan {n}: {why}\nin {folder}")
            return 1
        for line in ran_lines:
            words = line.split(b": ")[-1].split(b" ")
            seen[b" ".join(words[:2]).decode(errors="replace")] += 1
        shutil.rmtree(folder)
    print(f"{args.plans} plans, from {args.seed} on: no difference")
    for what, many in sorted(seen.items()):
        print(f"{many:7} {what}")
    return 0


if __name__ == "__main__":
    sys.exit(main())
