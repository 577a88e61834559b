#!/usr/bin/env python3
"""Times the count of a column beside other tools on the same file, in one run.

usage: count.py [RECORDS] [VALUES]      (default: 60000 20000)

The file is made anew, the same for the same numbers. Each tool that is installed runs three times,
in turn with the others; the least time and the greatest resident memory of each are printed, and
our time as a multiple of its. The answers are compared: each tool must count each value as often
as we do. `plain` is the program of bench/plain, which cargo builds first.
"""
import os
import shutil
import subprocess
import sys
import tempfile
import time

TOP = os.path.dirname(os.path.dirname(os.path.abspath(__file__)))
BINARY = os.path.join(TOP, "crates", "spill_main", "out", "spill_main")
PLAIN = os.path.join(TOP, "bench", "plain")
RUNS = 3


def tools(table):
    """Each tool's name, the program that must be installed for it, and its command."""
    awk = "NR > 1 { counts[$2]++ } END { for (value in counts) print value \",\" counts[value] }"
    query = "select value, count(*) from rows group by value"
    return [
        ("spill", BINARY, [BINARY, "count", table, "value"]),
        ("cut|sort|uniq", "sort", f"tail -n +2 {table} | cut -d, -f2 | LC_ALL=C sort -S 8M | uniq -c"),
        ("mawk", "mawk", ["mawk", "-F", ",", awk, table]),
        ("sqlite3", "sqlite3", ["sqlite3", "-csv", ":memory:", f".import --csv {table} rows", query]),
        ("mlr", "mlr", ["mlr", "--csv", "count-distinct", "-f", "value", table]),
        ("plain", "cargo", [os.path.join(PLAIN, "target", "release", "plain"), "count", table]),
    ]


def build_plain():
    build = ["cargo", "build", "--release", "--offline", "--quiet"]
    if subprocess.run(build, cwd=PLAIN).returncode != 0:
        sys.exit("bench/plain could not be built")


def make(path, records, values):
    """A file with the header `id,value` and values that repeat in a scattered order."""
    with open(path, "w", encoding="ascii") as out:
        out.write("id,value\n")
        state = 1
        for number in range(records):
            state = (state * 6364136223846793005 + 1442695040888963407) % 2**64
            out.write(f"{number},v{(state >> 33) % values}\n")


def processes_under(pid):
    """The process and all that it started, as far as they still run."""
    yield pid
    try:
        children = open(f"/proc/{pid}/task/{pid}/children").read().split()
    except OSError:
        return
    for child in children:
        yield from processes_under(int(child))


def peak_of(pid):
    """The greatest resident KiB of a process so far."""
    try:
        for line in open(f"/proc/{pid}/status"):
            if line.startswith("VmHWM:"):
                return int(line.split()[1])
    except OSError:
        pass
    return 0


def run(command, out):
    """Seconds, and the peaks of all processes of a command together in KiB, looked at each millisecond."""
    peaks = {}
    started = time.monotonic()
    process = subprocess.Popen(command, stdout=out, shell=isinstance(command, str))
    while process.poll() is None:
        for pid in processes_under(process.pid):
            peaks[pid] = max(peak_of(pid), peaks.get(pid, 0))
        time.sleep(0.001)
    seconds = time.monotonic() - started
    if process.returncode != 0:
        sys.exit(f"{command} ended with {process.returncode}")
    return seconds, sum(peaks.values())


def counts_of(path, name):
    """The values of an answer with their counts; some tools begin with a header."""
    lines = open(path, encoding="ascii").read().splitlines()
    if name == "cut|sort|uniq":
        return {value: int(count) for count, value in (line.split() for line in lines)}
    if lines[0] == "value,count":
        lines = lines[1:]
    return {value: int(count) for value, count in (line.rsplit(",", 1) for line in lines)}


def main():
    records = int(sys.argv[1]) if len(sys.argv) > 1 else 60000
    values = int(sys.argv[2]) if len(sys.argv) > 2 else 20000
    if not os.path.exists(BINARY):
        sys.exit("build the program first: ./spill")
    with tempfile.TemporaryDirectory() as folder:
        table = os.path.join(folder, "table.csv")
        make(table, records, values)
        known = tools(table)
        there = {name: command for name, needed, command in known if shutil.which(needed)}
        if "plain" in there:
            build_plain()
        answers = {name: os.path.join(folder, name.replace("|", "_")) for name in there}
        least, memory = {}, {}
        for _ in range(RUNS):
            for name, command in there.items():
                with open(answers[name], "wb") as out:
                    seconds, kib = run(command, out)
                least[name] = min(seconds, least.get(name, seconds))
                memory[name] = max(kib, memory.get(name, 0))
        ours = counts_of(answers["spill"], "spill")
        print(f"{records} records, {len(ours)} values, {os.path.getsize(table)} bytes")
        print(f"{'tool':14} {'least time':>10}  {'peak memory':>13}  our time is  answer")
        for name, _, _ in known:
            if name not in there:
                print(f"{name}: not installed")
                continue
            same = "the same" if counts_of(answers[name], name) == ours else "ANOTHER ONE"
            ratio = least["spill"] / least[name]
            print(f"{name:14} {least[name]:8.3f} s  {memory[name]:9} KiB  {ratio:5.2f} times  {same}")


if __name__ == "__main__":
    main()
