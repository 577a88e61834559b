#!/usr/bin/env python3
"""Times `run` of the program on plans that spill, with 0, 1, 2 and 4 writers.

usage: writers.py PROGRAM [SCALE]      (SCALE: a factor for all numbers of rows, 1 by default)

Two plans: a grouping of 6,000,000 rows in 3,000,000 groups in 16 MiB, which writes some 200 MB to scratch, and a join of 4,000,000 orders with
200,000 customers in 16 MiB, grouped in 5. The inputs are made once, in a folder below TMPDIR, which is removed at the end. The plans run in
turn, seven times each. Printed are the least wall time and the least processor time, each also as a multiple of that without writers. Then a
plan of 16 queries that spill runs twenty times with 8 writers. It exits with 1 where an answer has other bytes than without writers.
"""
import hashlib, os, resource, shutil, subprocess, sys, tempfile, time
import plans, runs

TIMES, WRITERS = 7, (0, 1, 2, 4)
QUERIES, OFTEN = 16, 20


def run(program, plan):
    """The wall time and the processor time of a run, in seconds."""
    before, start = resource.getrusage(resource.RUSAGE_CHILDREN), time.monotonic()
    done = subprocess.run([program, "run", plan], capture_output=True, check=False)
    wall, after = time.monotonic() - start, resource.getrusage(resource.RUSAGE_CHILDREN)
    if done.returncode != 0:
        sys.exit(f"{plan}: status {done.returncode}: {done.stdout.decode()}")
    return wall, after.ru_utime + after.ru_stime - before.ru_utime - before.ru_stime


def times_of(program, what):
    for name, (header, rows, line) in what["files"].items():
        runs.make(name, header, rows, line)
    for count in WRITERS:
        with open(f"plan{count}", "w", encoding="ascii") as out:
            out.write(what["plan"].replace("writers = 0", f"writers = {count}"))
    best, answer = {}, None
    for _ in range(TIMES):
        for count in WRITERS:
            took = run(program, f"plan{count}")
            best[count] = tuple(map(min, best.get(count, took), took))
            found = hashlib.sha256(open("answer.csv", "rb").read()).hexdigest()
            answer = answer or found
            if found != answer:
                sys.exit(f"{what['name']}: another answer with {count} writers")
    return best


def query(number):
    return {"page_blocks": 1, "limit": 1 << 17, "quota": 4000, "output": f"answer{number}.csv", "group": ["value"],
            "agg": [{"op": "count"}, {"op": "sum", "column": "amount"}],
            "left": {"file": "many.csv", "columns": ["value:text", "amount:int"],
                     "filter": [{"column": "amount", "op": "!=", "value": number}]}}


def answers_of(program, writers):
    doc = {"block_len": 4096, "blocks": QUERIES * (1 << 17) // 4096, "writers": writers, "query": [query(n) for n in range(QUERIES)]}
    with open("many", "w", encoding="ascii") as out:
        out.write("".join(f"{key} = {plans.toml(value)}\n" for key, value in doc.items()))
    run(program, "many")
    return [hashlib.sha256(open(f"answer{n}.csv", "rb").read()).hexdigest() for n in range(QUERIES)]


def run_many(program, rows):
    runs.make("many.csv", "id,value,amount\n", rows, lambda i, x: f"{i},v{x // 2},{x % 100}\n")
    alone = answers_of(program, 0)
    for _ in range(OFTEN):
        if answers_of(program, 8) != alone:
            sys.exit(f"{QUERIES} queries: another answer with 8 writers")
    print(f"{QUERIES} queries with 8 writers, {OFTEN} times: the same answers")


def main():
    program = os.path.abspath(sys.argv[1])
    of = lambda rows: max(1, int(rows * (float(sys.argv[2]) if len(sys.argv) > 2 else 1)))
    folder = tempfile.mkdtemp(prefix="writers")
    os.chdir(folder)
    try:
        for what in (runs.group(of(6000000), of(3000000), 16 << 20, 65536, 1), runs.join(of(4000000), of(200000), 16 << 20, 65536, 1, 1)):
            print(what["name"])
            best = times_of(program, what)
            for count, (wall, cpu) in best.items():
                print(f"  {count} writers {wall:7.2f} s ({wall / best[0][0]:.2f})  processor {cpu:7.2f} s ({cpu / best[0][1]:.2f})")
        run_many(program, of(60000))
    finally:
        os.chdir("/")
        shutil.rmtree(folder)


if __name__ == "__main__":
    main()
