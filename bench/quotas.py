#!/usr/bin/env python3
"""Looks for the least quota with which a plan ends with its answer, and how far it is below the one that is promised to suffice.

usage: quotas.py PROGRAM [--seed N] [--plans N]

Each plan is one query over small pages and little memory, so that it spills. It is run with the quota that is promised to suffice, and must
end with 0; then the least quota is searched by halves. Printed are the plans that came nearest. It exits with 1 at the first that
ends otherwise.
"""
import argparse, os, random, subprocess, sys, tempfile
import plans


def make(r):
    """A plan without its quota, and its files. Rows are of one length, so that few or many stand in a page."""
    kind = r.choice(["group", "join", "both"])
    n, keys = r.choice([1, 5, 17, 20, 40, 100, 300]), r.choice([1, 3, 20, 1000])
    long = r.choice([0, 8, 16, 24, 40])
    row = lambda: f"{r.randrange(keys):0{max(long, 4)}d},{r.randrange(100)}\n"
    files = {"l.csv": b"k,x\n" + "".join(row() for _ in range(n)).encode()}
    q = {"page_blocks": r.choice([1, 1, 2]), "limit": 0, "quota": 0, "output": "out.csv",
         "left": {"file": "l.csv", "columns": ["k:text", "x:int"]}}
    if kind != "group":
        files["r.csv"] = b"k,y\n" + "".join(row() for _ in range(r.choice([1, 10, 50]))).encode()
        q["right"] = {"file": "r.csv", "columns": ["k:text", "y:int"]}
        q["on"] = [["k", "k"]]
    if kind != "join":
        q["group"] = ["k", "x"] if kind == "group" else ["left.k", "left.x"]
        q["agg"] = [{"op": "count"}] * r.choice([0, 1])
        if not q["agg"]:
            del q["agg"]
    block_len = r.choice([128, 256])
    q["limit"] = q["page_blocks"] * block_len * (40 if kind == "both" else 20)
    blocks = q["page_blocks"] * (40 if kind == "both" else 20)
    return {"block_len": block_len, "blocks": blocks, "writers": 0, "query": [q]}, files


def status(program, folder, doc, pages):
    doc["query"][0]["quota"] = pages * doc["query"][0]["page_blocks"]
    text = "".join(f"{k} = {plans.toml(v)}\n" for k, v in doc.items()).encode()
    with open(os.path.join(folder, "plan.toml"), "wb") as f:
        f.write(text)
    ran = subprocess.run([program, "run", "plan.toml"], cwd=folder, stdout=subprocess.PIPE, stderr=subprocess.PIPE, timeout=600)
    return ran.returncode, ran.stdout, text


def search(program, doc, files):
    """The pages that suffice, and the fewest with which it ends with 0; or why it does otherwise."""
    with tempfile.TemporaryDirectory(prefix="quotas-") as folder:
        for name, data in files.items():
            with open(os.path.join(folder, name), "wb") as f:
                f.write(data)
        text = status(program, folder, doc, 0)[2]
        need = plans.expected(text, files)[3][0].get("need")
        if need is None:
            return None
        code, told, _ = status(program, folder, doc, need)
        if code == 5:
            return None
        if code != 0:
            raise SystemExit(f"{need} pages don't suffice: {told!r}\n{text.decode()}")
        low, high = -1, need
        while high - low > 1:
            mid = (low + high) // 2
            code, told, _ = status(program, folder, doc, mid)
            if code not in (0, 7):
                raise SystemExit(f"status {code} with {mid} pages: {told!r}\n{text.decode()}")
            low, high = (low, mid) if code == 0 else (mid, high)
        return need, high


def main():
    args = argparse.ArgumentParser()
    args.add_argument("program")
    args.add_argument("--seed", type=int, default=1)
    args.add_argument("--plans", type=int, default=100)
    args = args.parse_args()
    program, found = os.path.abspath(args.program), []
    for n in range(args.seed, args.seed + args.plans):
        doc, files = make(random.Random(n))
        pages = search(program, doc, files)
        if pages:
            q = doc["query"][0]
            kind = "group" if "right" not in q else "both" if "group" in q else "join"
            found.append((pages[0] - pages[1], n, kind, *pages))
    print(f"{len(found)} plans, from {args.seed} on: the quota that is promised suffices for each")
    for gap, n, kind, need, least in sorted(found)[:8]:
        print(f"plan {n}, {kind}: {need} pages suffice, {least} do, with {max(least - 1, 0)} it ends with 7")
    return 0


if __name__ == "__main__":
    sys.exit(main())
