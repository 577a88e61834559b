#!/usr/bin/env python3
"""Times `run` of the program on plans of one to four queries beside each of these queries alone.

usage: together.py PROGRAM [ROWS] [GROUPS]      (rows of each input, 2,000,000 by default, and their groups, 50,000 by default)

Each query groups a file of its own by a text; the files are made once, in a folder below TMPDIR, which is removed at the end. All
queries fit their memory. In turn, fifteen times each, run: each query alone; W queries in one plan; and, as programs that share nothing, W runs
of one query each, started together. Printed are the least and the middle wall time and processor time, and the wall time as a multiple of that of
the longest of these queries alone. It exits with 1 where a query of a plan has another output than alone.
"""
import hashlib, os, resource, shutil, statistics, subprocess, sys, tempfile, time
import plans, runs

MEMORY, BLOCK_LEN, TIMES, MOST = 32 << 20, 65536, 15, 4


def query(number):
    return {"page_blocks": 1, "limit": MEMORY, "quota": 20000, "output": f"answer{number}.csv", "group": ["value"],
            "agg": [{"op": "count"}, {"op": "sum", "column": "amount"}],
            "left": {"file": f"table{number}.csv", "columns": ["value:text", "amount:int"]}}


def write_plan(name, numbers):
    doc = {"block_len": BLOCK_LEN, "blocks": len(numbers) * MEMORY // BLOCK_LEN, "writers": 0, "query": [query(n) for n in numbers]}
    with open(name, "w", encoding="ascii") as out:
        out.write("".join(f"{key} = {plans.toml(value)}\n" for key, value in doc.items()))


def run(program, names):
    """The wall time and the processor time of runs of these plans that are started together, in seconds."""
    before, start = resource.getrusage(resource.RUSAGE_CHILDREN), time.monotonic()
    started = [subprocess.Popen([program, "run", name], stdout=subprocess.PIPE) for name in names]
    for name, one in zip(names, started):
        said = one.communicate()[0]
        if one.returncode != 0:
            sys.exit(f"{name}: status {one.returncode}: {said.decode()}")
    wall, after = time.monotonic() - start, resource.getrusage(resource.RUSAGE_CHILDREN)
    return wall, after.ru_utime + after.ru_stime - before.ru_utime - before.ru_stime


def digests(numbers):
    return [hashlib.sha256(open(f"answer{n}.csv", "rb").read()).hexdigest() for n in numbers]


def main():
    program = os.path.abspath(sys.argv[1])
    rows = int(sys.argv[2]) if len(sys.argv) > 2 else 2000000
    groups = int(sys.argv[3]) if len(sys.argv) > 3 else 50000
    folder = tempfile.mkdtemp(prefix="together")
    os.chdir(folder)
    try:
        for n in range(MOST):
            runs.make(f"table{n}.csv", "id,value,amount\n", rows, lambda i, x, n=n: f"{i},v{(x + n) % groups},{x // groups % 100}\n")
        plans_of = {f"alone {n}": [n] for n in range(MOST)} | {f"{w} in one plan": list(range(w)) for w in range(1, MOST + 1)}
        for name, numbers in plans_of.items():
            write_plan(name, numbers)
        apart = {f"{w} runs": list(range(w)) for w in range(1, MOST + 1)}
        times, answers = {}, {}
        for _ in range(TIMES):
            for name, numbers in (plans_of | apart).items():
                took = run(program, [f"alone {n}" for n in numbers] if name in apart else [name])
                times.setdefault(name, []).append(took)
                found = digests(numbers)
                if name.startswith("alone"):
                    answers[numbers[0]] = found[0]
                elif found != [answers[n] for n in numbers]:
                    sys.exit(f"{name}: another answer than alone")
        for what, of in (("least", min), ("middle", statistics.median)):
            print(f"{what} of {TIMES}:")
            for name, numbers in (plans_of | apart).items():
                wall, cpu = map(of, zip(*times[name]))
                longest = max(of([wall for wall, _ in times[f"alone {n}"]]) for n in numbers)
                print(f"  {name:14} {wall:6.2f} s  processor {cpu:6.2f} s  {wall / longest:5.2f} of the longest alone")
    finally:
        os.chdir("/")
        shutil.rmtree(folder)


if __name__ == "__main__":
    main()
