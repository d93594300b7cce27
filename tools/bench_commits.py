#!/usr/bin/env python3
"""Commits a second of one session over real files, beside the rate of raw fdatasync on the same file system, and the time to
open a full log beside the time of `cat` over its bytes.

A commit costs two syncs: its block's body, then the block's gate. Needs the built program crates/ids/out/ids.
Usage: tools/bench_commits.py [FOLDER]   (a folder on the file system that is to be measured; the current one by default)"""
import os, shutil, subprocess, sys, tempfile, time

program = os.path.join(os.path.dirname(os.path.abspath(__file__)), "..", "crates", "ids", "out", "ids")
base = sys.argv[1] if len(sys.argv) > 1 else "."


def raw_rate(folder, seconds=2.0):
    """Writes of one block, each brought to the medium, in a file that does not grow."""
    file = os.open(os.path.join(folder, "raw"), os.O_RDWR | os.O_CREAT)
    os.write(file, bytes(2048 * 512))
    os.fsync(file)
    count, start = 0, time.perf_counter()
    while time.perf_counter() - start < seconds:
        os.pwrite(file, bytes(2048), 2048 * (count % 512))
        os.fdatasync(file)
        count += 1
    rate = count / (time.perf_counter() - start)
    os.close(file)
    return rate


def timed(words, folder, text):
    start = time.perf_counter()
    ended = subprocess.run([program, *words], input=text, text=True, capture_output=True, cwd=folder)
    if ended.returncode != 0:
        raise SystemExit(f"{words}: status {ended.returncode}: {ended.stdout[-200:]}")
    return time.perf_counter() - start


def least(action, times=15):
    return min(action() for _ in range(times))


def cat(folder):
    start = time.perf_counter()
    subprocess.run(["cat", "root.chk"], cwd=folder, stdout=subprocess.DEVNULL, check=True)
    return time.perf_counter() - start


top = tempfile.mkdtemp(prefix="ids-bench-", dir=base)
try:
    raw = raw_rate(top)
    commits, total = 0, 0.0
    for n in range(5):
        folder = os.path.join(top, str(n))
        os.mkdir(folder)
        timed(["init"], folder, "")
        start = timed(["run"], folder, "")
        inserts = [f"INSERT INTO t VALUES ({k}, 'row {k}')" for k in range(240)]
        total += timed(["run"], folder, "\n".join(["CREATE TABLE t (k INTEGER, c CHAR(20))"] + inserts)) - start
        commits += 241
    rate = commits / total
    print(f"raw fdatasync {raw:.0f} a second; {commits} commits at {rate:.0f} a second: ratio {rate / raw:.2f}")
    opening = least(lambda: timed(["run"], folder, ""))
    empty = os.path.join(top, "empty")
    os.mkdir(empty)
    timed(["init"], empty, "")
    nothing = least(lambda: timed(["run"], empty, ""))
    print(f"opening: full log {opening * 1000:.2f} ms, empty log {nothing * 1000:.2f} ms, "
          f"cat of root.chk {least(lambda: cat(folder)) * 1000:.2f} ms (each with the start of its process)")
finally:
    shutil.rmtree(top)
