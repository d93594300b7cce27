#!/usr/bin/env python3
"""Runs the gate, `rt ci` with the words given, and writes what it cost into docs/COSTS.md: processor seconds of the proofs, the tests' proofs and the
must-fail edits of each crate.

The gate's output has no times, and it works at several crates side by side. So its provers are looked at as they run, five times a second: each says
by its command line whose crate it proves, and whether with the tests; one that tries an edit runs in a folder of its own. Processor seconds are about
the same on a busy machine, the time of the whole run is not. A crate that the gate did not prove in this run, since it keeps what passed, has the row
that it had. The gate's output is passed on, and its status is the status.
Usage: tools/gate_costs.py [--anew] [NAME..]     (the words of `rt ci`, at the top of the repository; --anew proves and tries all, for a whole table)"""
import collections, datetime, os, re, subprocess, sys, threading, time

TOP = os.path.abspath(os.path.join(os.path.dirname(os.path.abspath(__file__)), ".."))
TABLE = os.path.join(TOP, "docs", "COSTS.md")
TICKS = os.sysconf("SC_CLK_TCK")
KINDS = ("proofs", "tests", "edits")
HEAD = "| Crate | Functions | Their proofs, s | Tests | Their proofs, s | Edits | Their tries, s | All, s | Measured |\n|---|--:|--:|--:|--:|--:|--:|--:|---|\n"

ABOVE = """# Costs

What each crate costs the gate, in processor seconds: the proofs of its functions, the proofs of the crate with its tests, and the tries of its must-fail edits.
`tools/gate_costs.py --anew` runs the gate and makes this table; without `--anew` it renews what the gate does in that run, since the gate keeps what passed.

"""


def all_processes():
    """Of each process of the machine: its number and start, its parent, and its processor ticks."""
    for name in os.listdir("/proc"):
        if name.isdigit():
            try:
                with open(f"/proc/{name}/stat") as file:
                    fields = file.read().rpartition(")")[2].split()
            except OSError:
                continue  # it has ended
            yield int(name), int(fields[19]), int(fields[1]), int(fields[11]) + int(fields[12])


def job_of(number):
    """Whose crate a prover proves and what of it, None of another process."""
    try:
        with open(f"/proc/{number}/cmdline") as file:
            words = file.read().split("\0")
        folder = os.readlink(f"/proc/{number}/cwd")
    except OSError:
        return None
    if os.path.basename(words[0]) != "rattle" or "--crate-name" not in words:
        return None
    kind = "edits" if "/rt-edit" in folder else "tests" if "--test" in words else "proofs"
    return words[words.index("--crate-name") + 1], kind


class Watch:
    """The processor ticks of a process's descendants, as they were when each was seen last."""

    def __init__(self, top):
        self.top, self.ticks, self.jobs = top, {}, {}

    def look(self):
        seen = list(all_processes())
        below, found = {self.top}, True
        while found:
            found = {number for number, _, parent, _ in seen if parent in below} - below
            below |= found
        for number, start, _, ticks in seen:
            if number in below:
                key = number, start
                self.ticks[key] = ticks
                # A process that was just made still has its parent's command line.
                if self.jobs.get(key) is None:
                    self.jobs[key] = job_of(number)

    def seconds(self):
        """By crate and kind, and of all other processes by (None, None)."""
        sums = collections.Counter()
        for key, ticks in self.ticks.items():
            sums[self.jobs.get(key) or (None, None)] += ticks / TICKS
        return sums


def counts_in(lines):
    """How many functions, tests and edits the gate's output tells of each crate."""
    counts, crate = collections.Counter(), None
    for line in lines:
        if found := re.match(r"== (\w+)(: its tests)?$", line):
            crate = found.groups()
        elif crate and (found := re.match(r"logic=proved (?:tests=(\d+) )?functions=(\d+)", line)):
            name, with_tests = crate
            counts[name, "tests" if with_tests else "proofs"] = int(found.group(1) or 0) if with_tests else int(found.group(2))
        elif found := re.match(r"rt: must-fail (\w+)/", line):
            counts[found.group(1), "edits"] += 1
    return counts


def run_gate(words):
    """The gate's status, its lines, its seconds, and what was seen of it."""
    began = time.monotonic()
    gate = subprocess.Popen(["rt", "ci", *words], cwd=TOP, stdout=subprocess.PIPE, stderr=subprocess.STDOUT, text=True, errors="replace")
    watch, lines = Watch(gate.pid), []

    def pass_on():
        for line in gate.stdout:
            lines.append(line.rstrip("\n"))
            print(lines[-1], flush=True)

    reader = threading.Thread(target=pass_on)
    reader.start()
    while gate.poll() is None:
        watch.look()
        time.sleep(0.2)
    reader.join()
    return gate.returncode, lines, time.monotonic() - began, watch.seconds()


def rows_of_file():
    """Of each crate the cells that the table has: a count and seconds of each kind, and a day."""
    if not os.path.exists(TABLE):
        return {}
    with open(TABLE) as file:
        rows = [[cell.strip() for cell in line.strip("|\n ").split("|")] for line in file if line.startswith("| `")]
    return {cells[0].strip("`"): cells[1:7] + cells[8:] for cells in rows}


def renewed(old, name, counts, seconds, day):
    """The cells of a crate: what this run did not do stays as it was."""
    cells = [] if old is None else list(old)
    cells += [""] * (7 - len(cells))
    for n, kind in enumerate(KINDS):
        if seconds[name, kind]:
            cells[2 * n:2 * n + 2] = [str(counts[name, kind]), f"{seconds[name, kind]:.0f}"]
            cells[6] = day
    return cells


def row(name, cells):
    whole = sum(int(cell or 0) for cell in cells[1:6:2])
    return f"| `{name}` | {' | '.join(cells[:6])} | {whole} | {cells[6]} |\n"


def crates():
    with open(os.path.join(TOP, "crates.txt")) as file:
        return sorted(line.split(":")[0].split()[0] for line in file if line.strip() and not line.startswith("#"))


def write_table(words, counts, wall, seconds):
    day = datetime.date.today().isoformat()
    rows = rows_of_file()
    for name in {name for name, _ in seconds if name}:
        rows[name] = renewed(rows.get(name), name, counts, seconds, day)
    spent = {kind: sum(part for (_, of), part in seconds.items() if of == kind) for kind in (*KINDS, None)}
    with open(TABLE, "w") as file:
        file.write(ABOVE + HEAD)
        file.writelines(row(name, rows[name]) for name in crates() if name in rows)
        file.write(f"\nThe last run, `{' '.join(['rt ci', *words])}` on {day}, took {wall / 60:.0f} minutes on {os.cpu_count()} processors: {spent['proofs']:.0f} processor seconds "
                   f"for proofs,\n{spent['tests']:.0f} for those of the tests, {spent['edits']:.0f} for must-fail edits, and {spent[None]:.0f} to run tests and programs, to link, and for `rt` itself.\n")


def main(words):
    if "-h" in words or "--help" in words:
        print(__doc__)
        return 2
    status, lines, wall, seconds = run_gate(words)
    if any(name for name, _ in seconds):
        write_table(words, counts_in(lines), wall, seconds)
        print(f"written: {os.path.relpath(TABLE)}")
    else:
        print("nothing was proved in this run: docs/COSTS.md stays as it was")
    return status


if __name__ == "__main__":
    sys.exit(main(sys.argv[1:]))
