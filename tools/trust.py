#!/usr/bin/env python3
"""What one has to read to believe the contract of the top call: the definitions that it rests on.

usage: trust.py           prints the list, as it stands in docs/TRUST.md
       trust.py --write   puts it into docs/TRUST.md, with the numbers of its first line
       trust.py --check   fails where docs/TRUST.md is older than the specs

A definition is reached if its name occurs in a clause of `spill_top`, or in the definition of a name that is reached. Names are
resolved by the imports of their file, so a bound variable that has the name of a definition counts as that definition: the list may
have some too many, and none too few. Names of std and of the kit's other libraries end the search, and are listed by library.
"""
import collections, glob, os, re, sys

TOP = os.path.join(os.path.dirname(os.path.abspath(__file__)), "..")
CALL, NAME = "crates/spill_top/src/top.rt", "spill_top"
PAGE, BEGIN, END = "docs/TRUST.md", "<!-- from here on: python3 tools/trust.py --write -->\n", "<!-- up to here -->\n"
WORD = re.compile(r"(?<![\w.'-])([A-Za-z_][\w'-]*)(?:\.([A-Za-z_][\w'-]*))?")
HEAD = re.compile(r"(?:(?:abbrev|unfoldable|opaque|pub)\s+)*([A-Za-z_][\w'-]*)\s*:\s")
BLOCK = re.compile(r"(?:pub )?(?:record|data) ([\w'-]+)")

Definition = collections.namedtuple("Definition", "name file first last words")


def words(lines):
    """The names that occur, each with what stands behind its dot."""
    return {m.groups() for line in lines for m in WORD.finditer(re.sub(r"--.*|//.*", "", line))}


def imports(text):
    """What each imported name stands for: a name of a module, or a whole module."""
    out = {}
    for module, names in re.findall(r"(?m)^\s*(?:ghost |pub )?use ([\w.]+)\.\{([^}]*)\}", text):
        for name in filter(None, map(str.strip, names.split(","))):
            out[name.split(" as ")[-1]] = (module, name.split(" as ")[0])
    for module, alias in re.findall(r"(?m)^\s*(?:ghost |pub )?use ([\w.]+) as (\w+)", text):
        out[alias] = (module, None)
    return out


def heads(lines):
    """Where definitions begin, with the names that they define (of `data` those of its constructors too) and the line of their module's head."""
    found, depth, in_data, module = [], 0, False, None
    for at, line in enumerate(lines):
        code = re.sub(r"--.*", "", line).rstrip() + " "
        indent = len(code) - len(code.lstrip())
        code = code.strip() + " "
        if code == " ":
            continue
        if indent > depth:
            if in_data and (m := HEAD.match(code)):
                found[-1][1].append(m[1])
            continue
        if indent < depth:
            module = None
        depth, in_data = indent, code.startswith(("data ", "pub data "))
        if m := BLOCK.match(code) or HEAD.match(code):
            found.append((at, [m[1]], module))
        elif code.startswith("module "):
            depth, module = depth + 2, at
            found.append((at, [], None))
        elif code.startswith(("use ", "pub use ")):
            found.append((at, [], None))
    return found


def specs():
    """Every definition of the repository by its module and name, and the imports of every module."""
    known, used = {}, {}
    for file in sorted(glob.glob("crates/*/specs/**/*.antt", recursive=True)):
        part = file[:-len(".antt")].split("/")
        module = ".".join(["Rattle", part[1], "specs"] + part[3:])
        text = open(file, encoding="utf-8").read()
        lines = text.split("\n")
        used[module] = imports(text)
        found = heads(lines)
        for (at, names, head), (end, _, _) in zip(found, found[1:] + [(len(lines), [], None)]):
            while end > at + 1 and (not lines[end - 1].strip() or lines[end - 1].lstrip().startswith("--")):
                end -= 1
            first = at
            while first > 0 and lines[first - 1].lstrip().startswith("--"):
                first -= 1
            for name in names:
                known[module, name] = Definition(names[0], file, first + 1, end, words(lines[at:end] + ([] if head is None else [lines[head]])))
    return known, used


def contract():
    """The file of the top call, the first and the last line of its contract, and the contract's clauses."""
    text = open(CALL, encoding="utf-8").read()
    start = re.search(r"pub fn " + NAME + r"\b", text).start()
    end = text.index("\n{\n", start)
    clauses = re.split(r"(?m)^(?=    (?:ensures|requires) )", text[start:end])[1:]
    return text, text.count("\n", 0, start) + 1, text.count("\n", 0, end) + 1, clauses


def reach(known, used, clause=None):
    """The definitions that are reached from the contract or from one of its clauses, the types of code, and the names of other libraries."""
    text, _, _, clauses = contract()
    chosen = [c for c in clauses if not clause or c.startswith(f"    ensures {clause} ")]
    todo, seen, types, others = [(words("\n".join(chosen).split("\n")), imports(text), None)], {}, set(), set()
    while todo:
        names, own, here = todo.pop()
        for name, behind in names:
            module, name = (here, name) if (here, name) in known else own.get(name, (None, None))
            name = name or behind
            while (module, name) not in known and name in used.get(module, {}):  # a module may hand on what it imports
                module, name = used[module][name]
            if module is None or name is None:
                continue
            if not os.path.isdir("crates/" + module.split(".")[1]):
                others.add((module, name))
            elif ".declared." in module:
                types.add(module.removesuffix(".TheVariants"))
            elif (module, name) not in known:
                sys.exit(f"{module} has no {name}")
            elif (module, known[module, name].name) not in seen:
                found = known[module, name]
                seen[module, found.name] = found
                todo.append((found.words, used[module], module))
    return seen.values(), types, others


def type_lines(module):
    """The file of a type of code, and its lines."""
    _, crate, _, _, *path, name = module.split(".")
    file = f"crates/{crate}/src/{'/'.join(path)}.rt"
    text = open(file, encoding="utf-8").read()
    found = re.search(r"(?m)^pub(?:\([^)]*\))? (?:struct|enum|trait) " + name + r"\b[^;{]*(?:;|\{(?:.|\n)*?\n\})", text)
    return file, found[0].count("\n") + 1 if found else 0


def count(definitions):
    """How many there are, and their lines."""
    return len(definitions), sum(d.last - d.first + 1 for d in definitions)


def table(*heads):
    """The first lines of a table."""
    return ["", "| " + " | ".join(heads) + " |", "|" + "---|" * len(heads)]


def listing():
    """The list of the page, and how many lines of definitions it has."""
    known, used = specs()
    _, first, last, clauses = contract()
    out = [f"The contract of `{NAME}`: {CALL}, lines {first} to {last}, {len(clauses)} clauses."]
    out += table("clauses", "definitions", "their lines")
    for clause in ["count", "run", "selfcheck", None]:
        number, lines = count(reach(known, used, clause)[0])
        out.append(f"| {f'`{clause}`' if clause else 'all'} | {number} | {lines:,} |")
    seen, types, others = reach(known, used)
    crates, files, kit = (collections.defaultdict(list) for _ in range(3))
    for d in seen:
        crates[d.file.split("/")[1]].append(d)
        files[d.file].append((d.first, d.last, d.name))
    out += table("crate: definitions, lines", "file", "definitions, with their lines")
    for crate in sorted(crates, key=lambda crate: (-count(crates[crate])[1], crate)):
        head = "**{}**: {}, {}".format(crate, *count(crates[crate]))
        for file in sorted(file for file in files if file.split("/")[1] == crate):
            out.append(f"| {head} | {file.split('/', 2)[2]} | {', '.join(f'`{name}` {a}-{b}' for a, b, name in sorted(files[file]))} |")
            head = ""
    found = sorted((*type_lines(module), module.split(".")[-1]) for module in types)
    out += ["", f"### Types of code that they name: {len(found)}, lines {sum(lines for _, lines, _ in found)}"] + table("crate", "types, by file")
    code = collections.defaultdict(lambda: collections.defaultdict(list))
    for file, _, name in found:
        code[file.split("/")[1]][file.split("/", 2)[2]].append(f"`{name}`")
    for crate, files in code.items():
        out.append(f"| {crate} | {'; '.join(f'{file}: ' + ', '.join(names) for file, names in files.items())} |")
    for module, name in others:
        kit[module.split(".")[1]].append(name)
    out += ["", "### Names of the kit's libraries that they use"] + table("library", "names")
    for library in sorted(kit, key=lambda library: (library == "std", library)):
        out.append(f"| {library} | {len(kit[library]) if library == 'std' else ', '.join(f'`{name}`' for name in sorted(kit[library]))} |")
    return "\n".join(out) + "\n", count(seen)[1]


def proofs():
    """The lines of proofs of the crates that the program is made of, in thousands."""
    line = next(line for line in open("crates.txt", encoding="utf-8") if line.startswith(NAME + ":"))
    files = [f for crate in line.replace(":", "").split() for f in glob.glob(f"crates/{crate}/proofs/**/*.antt", recursive=True)]
    return round(sum(open(f, encoding="utf-8").read().count("\n") for f in files) / 1000)


def main(argument):
    os.chdir(TOP)
    text, lines = listing()
    if argument is None:
        sys.stdout.write(text)
        return 0
    page = open(PAGE, encoding="utf-8").read()
    rest = page.split("\n", 1)[1]
    new = rest[:rest.index(BEGIN) + len(BEGIN)] + text + rest[rest.index(END):]
    first = f"# {lines:,} lines to believe, over some {proofs()},000 lines of proof\n"
    if argument == "--write":
        open(PAGE, "w", encoding="utf-8").write(first + new)
        return 0
    if argument != "--check":
        sys.exit(__doc__)
    # How many lines the proofs have may change from day to day.
    if new == rest and page.startswith(f"# {lines:,} lines"):
        return 0
    print(f"{PAGE} is older than the specs: run python3 tools/trust.py --write, and read what changed")
    return 1


if __name__ == "__main__":
    sys.exit(main(sys.argv[1] if len(sys.argv) > 1 else None))
