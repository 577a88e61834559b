#!/usr/bin/env python3
"""Draws a history of a pool: a row for each page and a column for each entry, and under them what is charged, held and in memory.

usage: draw_history.py [--svg FILE] < HISTORY

HISTORY has entries `NUMBER EVENT(ARGUMENTS)`, with as many spaces and lines between them as one likes. Pages and buffers have one block, or as
many as `Create(PAGE,BLOCKS)` and `Alloc(BUFFER,BLOCKS)` say. docs/model/history.txt is one.
"""
import re, sys

# Where a page is after an event that names it. A pinned page has the number of its pins behind its letter, from two on.
PLACES = {"Create": "P", "PinHere": "P", "PinLoad": "L", "ReadOk": "P", "ReadFailed": "E", "ReadStale": "E", "Unpin": "D",
          "StartWrite": "F", "WriteOk": "C", "WriteFailed": "D", "Evict": "E", "Destroy": "", "Extract": ""}
NAMES = {"P": "pinned", "L": "loading", "D": "dirty", "F": "in flight", "C": "clean", "E": "evicted"}
COLOURS = {"P": "#63b3ed", "L": "#bee3f8", "D": "#ed8936", "F": "#fbd38d", "C": "#9ae6b4", "E": "#edf2f7", "": "#ffffff"}
SUMS = [("charged", "PL"), ("held", "PLDF"), ("memory", "PLDFC")]
WIDTH = 22


def read(text):
    """The entries: their numbers, events and arguments."""
    found = re.findall(r"(\d+)\s+([A-Z]\w*)(?:\(([^)]*)\))?", text)
    return [(int(number), event, [int(a) for a in re.findall(r"\d+", arguments)]) for number, event, arguments in found]


def follow(entries):
    """For each entry its number, its event, its page, and where each page is after it; the blocks of each page; the blocks of buffers."""
    places, pins, blocks, buffers, columns = {}, {}, {}, {}, []
    for number, event, arguments in entries:
        page = arguments[0] if arguments else None
        if event == "Create":
            blocks[page] = (arguments + [1])[1]
        if event in PLACES:
            places[page], pins[page] = PLACES[event], 1
        elif event in ("PinAgain", "UnpinOnce"):
            pins[page] += 1 if event == "PinAgain" else -1
        if event == "Alloc":
            buffers[page] = (arguments + [1])[1]
        elif event == "Extract":
            buffers[arguments[1]] = blocks[page]
        elif event == "Free":
            del buffers[page]
        touched = page if event in PLACES or event in ("PinAgain", "UnpinOnce") else None
        columns.append((number, event, touched, dict(places), dict(pins), sum(buffers.values())))
    return columns, blocks


def total(column, blocks, name, places):
    """The blocks that are charged, held or in memory: of a pinned page once for each pin, but in memory once."""
    _, _, _, at, pins, lent = column
    return lent + sum(blocks[p] * (pins[p] if place == "P" and name != "memory" else 1) for p, place in at.items() if place and place in places)


def code(event):
    """An event in two letters: the first two of its capitals, or of its one word."""
    capitals = re.findall(r"[A-Z]", event)
    return ("".join(capitals[:2]) if len(capitals) > 1 else event[:2]).lower()


def letter(column, page):
    place = column[3].get(page, "")
    return place + (str(column[4][page]) if place == "P" and column[4][page] > 1 else "")


def text_of(columns, blocks):
    cells = lambda of: "".join(of(c).rjust(3) for c in columns)
    lines = ["entry  " + cells(lambda c: str(c[0])), "event  " + cells(lambda c: code(c[1]))]
    lines += [f"page {p:<2}" + cells(lambda c: letter(c, p)) for p in sorted(blocks)]
    lines += [name.ljust(7) + cells(lambda c: str(total(c, blocks, name, places))) for name, places in SUMS]
    return "\n".join(line.rstrip() for line in lines) + "\n"


def svg_of(columns, blocks):
    pages, left = sorted(blocks), 74
    height = 62 + WIDTH * (len(pages) + len(SUMS))
    out = [f'<svg xmlns="http://www.w3.org/2000/svg" font-family="monospace" font-size="11" width="{left + WIDTH * len(columns) + 8}" height="{height}">',
           '<rect width="100%" height="100%" fill="#ffffff"/>']
    write = lambda x, y, words: out.append(f'<text x="{x}" y="{y}">{words}</text>')
    for k, name in enumerate(["entry"] + [f"page {p}" for p in pages] + [name for name, _ in SUMS]):
        write(4, 16 + k * WIDTH, name)
    for i, column in enumerate(columns):
        x = left + i * WIDTH
        write(x + 2, 16, column[0])
        for k, page in enumerate(pages):
            place, y = column[3].get(page, ""), 22 + k * WIDTH
            edge = 'stroke="#000000" stroke-width="2"' if page == column[2] else 'stroke="#cbd5e0"'
            out.append(f'<rect x="{x}" y="{y}" width="{WIDTH - 3}" height="{WIDTH - 3}" fill="{COLOURS[place]}" {edge}>'
                       f'<title>{column[0]} {column[1]}: page {page} {NAMES.get(place, "is not there")}</title></rect>')
            write(x + 3, y + 14, letter(column, page))
        for k, (name, places) in enumerate(SUMS):
            write(x + 4, 16 + (1 + len(pages) + k) * WIDTH, total(column, blocks, name, places))
    x = 4
    for place, name in NAMES.items():
        out.append(f'<rect x="{x}" y="{height - 20}" width="12" height="12" fill="{COLOURS[place]}" stroke="#cbd5e0"/>')
        write(x + 16, height - 10, f"{place} {name}")
        x += 100
    return "\n".join(out + ["</svg>", ""])


def main(arguments):
    columns, blocks = follow(read(sys.stdin.read()))
    if arguments[:1] == ["--svg"] and len(arguments) == 2:
        open(arguments[1], "w", encoding="ascii").write(svg_of(columns, blocks))
    elif not arguments:
        sys.stdout.write(text_of(columns, blocks))
    else:
        sys.exit(__doc__)


if __name__ == "__main__":
    main(sys.argv[1:])
