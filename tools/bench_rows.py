#!/usr/bin/env python3
"""What a statement costs as a table grows: rows are put, a tenth of them goes, and a tenth is looked up by key, over real files.

The disk is formatted here and not by `ids init`, whose log would be too short: 64 log files of 1024 blocks. Each part is a run of its own,
in transactions of 100 statements; from its time that of a run over the same disk with an empty script, which opens it and ends, is taken away (the shortest of three).
Then what a row costs a small table, while another has thousands of pages with room: tables whose numbers are so many greater.
Needs the built program crates/ids/out/ids.
Usage: tools/bench_rows.py [ROWS [FOLDER]]   (10^3, 10^4, .. up to ROWS, 100000 by default; a folder on the file system that is to be used)"""
import os, random, shutil, subprocess, sys, tempfile, time

from blank_disk import Layout, write_blank_disk

program = os.path.join(os.path.dirname(os.path.abspath(__file__)), "..", "crates", "ids", "out", "ids")
most = int(sys.argv[1]) if len(sys.argv) > 1 else 100000
base = sys.argv[2] if len(sys.argv) > 2 else "/tmp"
LAYOUT = Layout(logs=64, log_size=1024, data=8192, root=3 + 64 + 64 * 1024)


def run(folder, statements):
    """The seconds of a run of these statements, in transactions of 100."""
    lines = []
    for at in range(0, len(statements), 100):
        lines += ["BEGIN", *statements[at:at + 100], "COMMIT"]
    text = "\n".join(lines)
    start = time.perf_counter()
    ended = subprocess.run([program, "run"], input=text, text=True, capture_output=True, cwd=folder)
    taken = time.perf_counter() - start
    if ended.returncode != 0 or "error" in ended.stdout or "rows 0" in ended.stdout:
        raise SystemExit(f"status {ended.returncode}: {ended.stdout[-200:]}")
    return taken


def measure(rows):
    folder = tempfile.mkdtemp(prefix="ids-rows-", dir=base)
    try:
        write_blank_disk(folder, LAYOUT)
        run(folder, ["CREATE TABLE t (k INTEGER, v INTEGER)"])
        random.seed(rows)
        keys = random.sample(range(10 * rows), rows)
        gone, looked = keys[: rows // 10], keys[rows // 10 : rows // 5]
        parts = {
            "INSERT": [f"INSERT INTO t VALUES ({key}, {key % 1000})" for key in keys],
            "DELETE": [f"DELETE FROM t WHERE k = {key}" for key in gone],
            "SELECT": [f"SELECT * FROM t WHERE k = {key}" for key in looked],
            "INSERT again": [f"INSERT INTO t VALUES ({key}, 0)" for key in gone],
        }
        costs = []
        for name, statements in parts.items():
            opening = min(run(folder, []) for _ in range(3))
            costs.append(f"{name} {(run(folder, statements) - opening) / len(statements) * 1e6:.1f}")
        print(f"{rows} rows: microseconds a statement: {', '.join(costs)}; opening at the end {run(folder, []) * 1e3:.1f} ms", flush=True)
    finally:
        shutil.rmtree(folder)


def measure_beside(rows):
    """Rows are put into small tables, while the first table has some thousand pages that are half full."""
    folder = tempfile.mkdtemp(prefix="ids-rows-", dir=base)
    try:
        write_blank_disk(folder, LAYOUT)
        run(folder, ["CREATE TABLE t0 (k INTEGER, c CHAR(796))"] + [f"CREATE TABLE t{n} (k INTEGER, v INTEGER)" for n in range(1, 130)])
        run(folder, [f"INSERT INTO t0 VALUES ({key}, 'x')" for key in range(12000)])
        run(folder, [f"DELETE FROM t0 WHERE k = {key}" for key in range(0, 12000, 2)])
        costs = []
        for n in (1, 2, 62, 63, 64, 126, 128):
            opening = min(run(folder, []) for _ in range(3))
            taken = run(folder, [f"INSERT INTO t{n} VALUES ({key}, 0)" for key in range(rows)]) - opening
            costs.append(f"+{n} {taken / rows * 1e6:.1f}")
        print(f"{rows} rows beside 6000 pages with room: microseconds an INSERT: {', '.join(costs)}", flush=True)
    finally:
        shutil.rmtree(folder)


rows = 1000
while rows <= most:
    measure(rows)
    rows *= 10
measure_beside(5000)
