#!/usr/bin/env python3
"""Times `run` of the program on four plans beside plain programs that keep everything in memory.

usage: runs.py PROGRAM [SCALE]      (SCALE: a factor for all numbers of rows, 1 by default)

The inputs are made once, the same for the same numbers, with their rows in no order, in a folder below TMPDIR, which is removed at the end.
The programs run in turn, one at a time: five times in runs 1 and 3, once in runs 2 and 4. Printed are the least wall time, the least
processor time (user and system) and the peak resident memory of each, the program's times as a multiple of the other's, and whether the
answers are the same lines. `plain` is the program of bench/plain, which cargo builds first.
"""
import array, multiprocessing, os, random, resource, shutil, subprocess, sys, tempfile, threading, time
import count, plans

PLAIN = os.path.join(count.PLAIN, "target", "release", "plain")
SPILL = "spill"


# ---- the inputs

def write_rows(path, header, rows, line):
    """A file of the lines that `line` makes of each number below `rows`, in no order."""
    order = array.array("I", range(rows))
    random.Random(rows).shuffle(order)
    with open(path, "w", encoding="ascii") as out:
        out.write(header)
        for at in range(0, rows, 100000):
            out.write("".join([line(i, x) for i, x in enumerate(order[at:at + 100000], at)]))


def make(path, *what):
    """Makes a file in another process: what a process that is started here is said to have resident begins with what this one has."""
    child = multiprocessing.get_context("fork").Process(target=write_rows, args=(path, *what))
    child.start()
    child.join()
    if child.exitcode != 0:
        sys.exit(f"{path} could not be made")


# ---- the runs

def make_plan(block_len, memory, page_blocks, weight, query):
    """A plan of one query that may reserve the whole pool. Its rows weigh at most `weight` bytes, so the quota suffices."""
    quota = page_blocks * (-(-2 * weight // (page_blocks * block_len)) + 600)
    query = {"page_blocks": page_blocks, "limit": memory, "quota": quota, "output": "answer.csv", **query}
    doc = {"block_len": block_len, "blocks": memory // block_len, "writers": 0, "query": [query]}
    return "".join(f"{key} = {plans.toml(value)}\n" for key, value in doc.items())


def group(rows, groups, memory, block_len, times):
    query = {"group": ["value"], "agg": [{"op": "count"}, {"op": "sum", "column": "amount"}],
             "left": {"file": "table.csv", "columns": ["value:text", "amount:int"]}}
    row = plans.encoded([b"v%d" % groups, 0]) + 32
    awk = "NR > 1 { n[$2]++; s[$2] += $3 } END { for (k in n) printf \"%s,%d,%d\\n\", k, n[k], s[k] }"
    sql = "select value, count(*), sum(amount) from rows group by value"
    return {
        "name": f"group {rows} rows in {groups} groups, {memory >> 20} MiB", "memory": memory, "times": times,
        "files": {"table.csv": ("id,value,amount\n", rows, lambda i, x: f"{i},v{x % groups},{x // groups % 100}\n")},
        "plan": make_plan(block_len, memory, 1, rows * row, query),
        "others": [("plain", PLAIN, [PLAIN, "group", "table.csv"]),
                   ("mawk", "mawk", ["mawk", "-F", ",", awk, "table.csv"]),
                   ("sqlite3", "sqlite3", ["sqlite3", "-csv", ":memory:", ".import --csv table.csv rows", sql])]}


def join(orders, customers, memory, block_len, page_blocks, times):
    query = {"on": [["cust", "id"]], "group": ["right.region"], "agg": [{"op": "count"}, {"op": "sum", "column": "left.amount"}],
             "left": {"file": "orders.csv", "columns": ["cust:int", "amount:int"]},
             "right": {"file": "customers.csv", "columns": ["id:int", "region:text"]}}
    left, right, both = (plans.encoded(row) + 32 for row in ([0, 0], [0, b"R0"], [0, 0, 0, b"R0"]))
    awk = ("FNR == 1 { next } NR == FNR { region[$1] = $2; next } $2 in region { k = region[$2]; n[k]++; s[k] += $3 }"
           " END { for (k in n) printf \"%s,%d,%d\\n\", k, n[k], s[k] }")
    sql = "select region, count(*), sum(amount) from orders join customers on cust = id group by region"
    return {
        "name": f"join {orders} orders with {customers} customers, group in 5, {memory >> 20} MiB", "memory": memory, "times": times,
        "files": {"orders.csv": ("order,cust,amount,note\n", orders, lambda i, x: f"{x},{x % customers},{x % 100},n\n"),
                  "customers.csv": ("id,region,name\n", customers, lambda i, x: f"{x},R{x % 5},name{x}\n")},
        "plan": make_plan(block_len, memory, page_blocks, orders * (2 * left + both) + customers * 2 * right, query),
        "others": [("plain", PLAIN, [PLAIN, "join", "orders.csv", "customers.csv"]),
                   ("mawk", "mawk", ["mawk", "-F", ",", awk, "customers.csv", "orders.csv"]),
                   ("sqlite3", "sqlite3", ["sqlite3", "-csv", ":memory:", ".import --csv orders.csv orders",
                                           ".import --csv customers.csv customers", sql])]}


def runs(scale):
    of = lambda rows: max(1, int(rows * scale))
    return [group(of(1000000), of(50000), 1 << 20, 32768, 5),
            group(of(20000000), of(5000000), 64 << 20, 65536, 1),
            join(of(200000), of(10000), 64 << 20, 65536, 1, 5),
            join(of(4000000), of(200000), 16 << 20, 65536, 1, 1)]


# ---- measuring

def measure(command, folder, out):
    """Wall seconds, processor seconds and the peak resident KiB of a command."""
    started = time.monotonic()
    process = subprocess.Popen(command, cwd=folder, stdout=out, env={**os.environ, "TMPDIR": folder})
    looked, ended = [0], threading.Event()

    def look():
        while not ended.is_set():
            looked[0] = max(looked[0], count.peak_of(process.pid))
            ended.wait(0.005)

    looking = threading.Thread(target=look)
    looking.start()
    _, status, usage = os.wait4(process.pid, 0)
    wall = time.monotonic() - started
    process.returncode = os.waitstatus_to_exitcode(status)
    ended.set()
    looking.join()
    if process.returncode != 0:
        sys.exit(f"{command} ended with {process.returncode}")
    # The system counts from before the command replaced this program, so less than this program has says nothing.
    own = resource.getrusage(resource.RUSAGE_SELF).ru_maxrss
    return wall, usage.ru_utime + usage.ru_stime, usage.ru_maxrss if usage.ru_maxrss > own else looked[0]


def digest(path, headed):
    """What is the same for two answers that have the same lines, in whatever order."""
    command = f"tail -n +{2 if headed else 1} '{path}' | tr -d '\\r' | LC_ALL=C sort -S 64M | sha256sum"
    return subprocess.run(command, shell=True, check=True, stdout=subprocess.PIPE).stdout


def run_all(run, program, folder):
    """Runs the programs in turn, and gives for each what was measured, and its answer's digest."""
    with open(os.path.join(folder, "plan.toml"), "w", encoding="ascii") as out:
        out.write(run["plan"])
    commands = {SPILL: [program, "run", "plan.toml"]}
    for name, needed, command in run["others"]:
        # The other tools keep everything in memory as well, and are timed where that is little.
        if name == "plain" or run["times"] > 1 and shutil.which(needed):
            commands[name] = command
    measured, digests = {name: [] for name in commands}, {}
    for _ in range(run["times"]):
        for name, command in commands.items():
            path = os.path.join(folder, f"{name}.out")
            with open(path, "wb") as out:
                measured[name].append(measure(command, folder, out))
    for name in commands:
        file = "answer.csv" if name == SPILL else f"{name}.out"
        digests[name] = digest(os.path.join(folder, file), name in (SPILL, "plain"))
    least = {name: (min(w for w, _, _ in seen), min(p for _, p, _ in seen), max(m for _, _, m in seen)) for name, seen in measured.items()}
    return least, digests


def report(number, run, least, digests):
    print(f"\n{number}. {run['name']}; load {os.getloadavg()[0]:.1f}")
    print(f"{'':8} {'wall':>10} {'processor':>10} {'peak memory':>12}  wall, processor over it  answer")
    wall, processor, _ = least[SPILL]
    for name in [SPILL] + [name for name, _, _ in run["others"]]:
        if name not in least:
            print(f"{name:8} {'not run' if run['times'] == 1 else 'not installed'}")
            continue
        w, p, m = least[name]
        over = f"{wall / w:10.2f} {processor / p:10.2f}" if name != SPILL else " " * 21
        same = "" if name == SPILL else "the same" if digests[name] == digests[SPILL] else "ANOTHER ONE"
        peak = f"{m / 1024:8.1f} MiB" if m else f"{'not seen':>12}"
        print(f"{name:8} {w:8.3f} s {p:8.3f} s {peak}  {over}    {same}")
    print(f"beyond the pool: {least[SPILL][2] / 1024 - run['memory'] / 2**20:.1f} MiB", flush=True)


def main():
    if not 2 <= len(sys.argv) <= 3:
        sys.exit(__doc__.split("\n\n")[1])
    program = os.path.abspath(sys.argv[1])
    scale = float(sys.argv[2]) if len(sys.argv) > 2 else 1.0
    count.build_plain()
    for number, run in enumerate(runs(scale), 1):
        with tempfile.TemporaryDirectory(prefix="runs-") as folder:
            for name, what in run["files"].items():
                make(os.path.join(folder, name), *what)
            report(number, run, *run_all(run, program, folder))
    return 0


if __name__ == "__main__":
    sys.exit(main())
