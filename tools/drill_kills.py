#!/usr/bin/env python3
"""Kills `ids run` over real files at random moments, and checks what the next run finds.

Each round formats a new folder, starts a script of commits (single INSERTs, and transactions of three), kills the process with
SIGKILL after a random time, and reads by key what is there with a second run. It counts a round as good where every commit
whose reply was read is there, each transaction is there whole or not at all, and what is there is a front of the script.
A kill leaves what the process gave to the system; a loss of power is what the memory disk's tests try.

Needs the built program crates/ids/out/ids. Usage: tools/drill_kills.py [ROUNDS [SEED]]"""
import os, random, re, shutil, subprocess, sys, tempfile, time

program = os.path.join(os.path.dirname(os.path.abspath(__file__)), "..", "crates", "ids", "out", "ids")
rounds = int(sys.argv[1]) if len(sys.argv) > 1 else 300
seed = int(sys.argv[2]) if len(sys.argv) > 2 else 1
draw = random.Random(seed)


def script():
    """The statements, and for each commit the number of its statement and its keys."""
    lines, commits, key = ["CREATE TABLE t (k INTEGER, c CHAR(20))"], [], 0
    while len(commits) < 120:
        if draw.random() < 0.5:
            lines.append(f"INSERT INTO t VALUES ({key}, 'row {key}')")
            commits.append((len(lines), [key]))
            key += 1
        else:
            lines.append("BEGIN")
            lines += [f"INSERT INTO t VALUES ({k}, 'row {k}')" for k in range(key, key + 3)]
            lines.append("COMMIT")
            commits.append((len(lines), list(range(key, key + 3))))
            key += 3
    return lines, commits, key


def run(folder, lines):
    return subprocess.run([program, "run"], input="\n".join(lines), text=True, capture_output=True, cwd=folder)


def found(folder, keys):
    """The keys that a run finds, None where the table is not there."""
    ended = run(folder, [f"SELECT * FROM t WHERE k = {k}" for k in range(keys)])
    if ended.returncode != 0:
        raise SystemExit(f"the second run ended with status {ended.returncode}: {ended.stdout[-200:]}")
    if "error no table" in ended.stdout:
        return None
    return {int(m.group(1)) for m in re.finditer(r"^1\.\d+ (\d+)\|row \1\|$", ended.stdout, re.M)}


def judge(text, commits, there):
    """What is wrong with the keys that are there, None where nothing is."""
    told = {int(m.group(1)) for m in re.finditer(r"^1\.(\d+) (?:rows 1|committed)\n", text, re.M)}
    if there is None:
        return "the table is gone" if "1.1 created\n" in text else None
    open_end = False
    for number, keys in commits:
        some = [k in there for k in keys]
        if any(some) and not all(some):
            return f"the transaction of statement {number} is there in part"
        if number in told and not all(some):
            return f"the commit of statement {number} was told and is gone"
        if open_end and any(some):
            return f"statement {number} is there, and one before it is not"
        open_end = open_end or not any(some)
    return None


wrong = early = late = 0
shortest = 0.25  # seconds: of the runs that were not killed, so that most are
counts = []
for n in range(rounds):
    folder = tempfile.mkdtemp(prefix="ids-drill-")
    try:
        subprocess.run([program, "init"], cwd=folder, check=True)
        lines, commits, keys = script()
        with tempfile.TemporaryFile("w+") as source:
            source.write("\n".join(lines))
            source.seek(0)
            process = subprocess.Popen([program, "run"], stdin=source, stdout=subprocess.PIPE, cwd=folder)
            started = time.monotonic()
            try:
                text, _ = process.communicate(timeout=draw.uniform(0.0, shortest))
                late += 1
                shortest = min(shortest, time.monotonic() - started)
            except subprocess.TimeoutExpired:
                process.kill()
                text, _ = process.communicate()
        text = text.decode()
        there = found(folder, keys)
        early += there is None
        counts.append(len(re.findall(r"^1\.\d+ (?:rows 1|committed)$", text, re.M)))
        what = judge(text, commits, there)
        if what:
            wrong += 1
            print(f"round {n}: {what}")
    finally:
        shutil.rmtree(folder)
print(f"{rounds} rounds, {wrong} wrong; {early} were killed before the table was there, {late} ended first; "
      f"{min(counts)} to {max(counts)} replies read")
sys.exit(1 if wrong else 0)
