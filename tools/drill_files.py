#!/usr/bin/env python3
"""Drills of `ids` over real files in temporary folders: closed descriptors, two runs at once, kills, streams that do not block, signals, flipped
bits, a full file system, backups. Each drill prints one line, and the status is 1 where one failed:

    ok    NAME          all is as it must be
    FAIL  NAME: what    something is not
    known NAME: what    something is lost that no part of `ids` promises to tell so far: the constants below say what is promised
    skip  NAME: why     the machine lacks what it needs: root, to mount a small tmpfs; a C compiler, for a handler of a signal

What is looked at throughout: a reply that was read (of an INSERT outside a transaction) is an acknowledged commit, and the next run must find it.

Flipped bits: each bit in turn of what is not the value of a row (values are not checked), and some of the bits that are unused. A run must name the
damage, status 9, and leave the files alone, or find every row. Status 8 is right where no identity or checkpoint page is left by FORMATS.md.
Usage: tools/drill_files.py BINARY [WORD]     (BINARY: crates/ids/out/ids, as `rt run` in crates/ids leaves it; WORD: only the drills whose names have it)"""
import contextlib, fcntl, itertools, os, random, re, shutil, signal, struct, subprocess, sys, tempfile, time

from blank_disk import Layout, PAGE, chunk_files, write_blank_disk

# A block of the log whose gate is open, that has its number, and whose body is none is damage, and not the end of the log.
BROKEN_BLOCK_IS_DAMAGE = True
# So is a block whose gate is not open, or that has another number. (The last one looks as if it had not been written yet.)
MISSING_BLOCK_IS_DAMAGE = False
# A bit that makes of a record another good one is told, as of a COMMIT a ROLLBACK, or of a slot another one.
OTHER_RECORD_IS_DAMAGE = False

PROGRAM = os.path.abspath(sys.argv[1]) if len(sys.argv) > 1 else ""
WAIT = 60  # seconds after which a run that has not ended is a fault
TABLE = "CREATE TABLE t (k INTEGER, c CHAR(20))\n"
IN_USE = "ids: 3 disk fault\n"
draw = random.Random(7)
begun = []  # the runs that a drill began: it may fail before they end


class Skipped(Exception):
    pass


class Wrong(Exception):
    pass


def expect(holds, what):
    if not holds:
        raise Wrong(what)


def inserts(keys):
    return "".join(f"INSERT INTO t VALUES ({key}, 'row {key}')\n" for key in keys)


def ids(folder, *words, text="", **how):
    """The status and the text of a run."""
    ended = subprocess.run([PROGRAM, *words], input=text, text=True, stdout=subprocess.PIPE, stderr=subprocess.PIPE, cwd=folder, timeout=WAIT, **how)
    expect(ended.stderr == "", f"standard error has {ended.stderr[:80]!r}")
    return ended.returncode, ended.stdout


@contextlib.contextmanager
def new_folder():
    folder = tempfile.mkdtemp(prefix="ids-drill-")
    try:
        yield folder
    finally:
        shutil.rmtree(folder)


@contextlib.contextmanager
def new_disk(keys=()):
    """A folder with a formatted disk that has the table t with these keys."""
    with new_folder() as folder:
        expect(ids(folder, "init") == (0, ""), "init does not work")
        status, text = ids(folder, "run", text=TABLE + inserts(keys))
        expect(status == 0 and len(acknowledged(text)) == len(keys), f"the first run ends with status {status}")
        yield folder


def acknowledged(text):
    """The numbers of the statements that changed a row, as the replies say."""
    return [int(number) for number in re.findall(r"^1\.(\d+) rows 1$", text, re.M)]


def rows(folder, keys):
    """The status of a run that looks for these keys, and those that it finds."""
    status, text = ids(folder, "run", text="".join(f"SELECT * FROM t WHERE k = {key}\n" for key in keys))
    return status, {int(key) for key in re.findall(r"^1\.\d+ (\d+)\|row \1\|$", text, re.M)}


def spans(numbers):
    """Numbers as text: 0-3, 7."""
    text = []
    for _, group in itertools.groupby(enumerate(sorted(set(numbers))), lambda pair: pair[1] - pair[0]):
        run = [number for _, number in group]
        text.append(str(run[0]) if len(run) == 1 else f"{run[0]}-{run[-1]}")
    return ", ".join(text)


def expect_rows(folder, keys, there, why):
    got = rows(folder, keys)
    gone, more = spans(set(there) - got[1]), spans(got[1] - set(there))
    expect(got == (0, set(there)), f"{why}: status {got[0]}, gone: {gone or 'no key'}, too many: {more or 'none'}")


# Closed descriptors

def run_closed(folder, word, closed, text):
    """The status of a run with these standard descriptors closed, and what it wrote to those that are open."""
    shut = " ".join(f"{n}{'<' if n == 0 else '>'}&-" for n in closed)
    ended = subprocess.run(["sh", "-c", f'exec "$0" "$1" {shut}', PROGRAM, word], input=text.encode(), capture_output=True, cwd=folder, timeout=WAIT)
    return ended.returncode, ended.stdout.decode()


def closed_word(closed):
    with new_disk([1]) as folder:
        before = chunk_files(folder)
        status, _ = run_closed(folder, "sprint", closed, "")
        expect(status == 1, f"a word that is no command: status {status}")
        expect(chunk_files(folder) == before, "a word that is no command: files changed")


def closed_init(closed):
    with new_folder() as folder:
        status, _ = run_closed(folder, "init", closed, "")
        expect(status == 0, f"init: status {status}")
        expect(ids(folder, "run", text=TABLE + inserts([1]))[0] == 0, "init: the disk does not open")
        before = chunk_files(folder)
        status, _ = run_closed(folder, "init", closed, "")
        expect(status == 10, f"init again: status {status}")
        expect(chunk_files(folder) == before, "init again: files changed")
        expect_rows(folder, [1], [1], "init again")


def closed_run(closed):
    with new_disk([1, 2]) as folder:
        before = chunk_files(folder)
        status, text = run_closed(folder, "run", closed, inserts([3, 4]))
        want = {6} if 0 in closed else {5} if 1 in closed else {0}
        expect(status in (want | {5} if 1 in closed else want), f"run: status {status}")
        if 0 in closed:
            expect(chunk_files(folder) == before, "run: no script was read, and files changed")
        status, there = rows(folder, [1, 2, 3, 4])
        expect(status == 0 and {1, 2} <= there, f"run: the next one ends with status {status} and finds {sorted(there)}")
        expect(there in ({1, 2}, {1, 2, 3}, {1, 2, 3, 4}), f"run: the next one finds {sorted(there)}, no front of the script")
        expect(len(acknowledged(text)) <= len(there) - 2, "run: a commit that was acknowledged is gone")


def closed_descriptors(closed):
    for drill in (closed_word, closed_init, closed_run):
        drill(closed)


# Two runs at once

def begin(folder, word, stdin, stdout=subprocess.PIPE, **how):
    """A run that goes on while the drill does."""
    begun.append(subprocess.Popen([PROGRAM, word], stdin=stdin, stdout=stdout, cwd=folder, **how))
    return begun[-1]


def end_all():
    for run in begun:
        if run.poll() is None:
            run.kill()
            run.wait()
    begun.clear()


def start(folder, text):
    """A run that has its script in a file, so that it need not be fed."""
    with tempfile.TemporaryFile("w+") as script:
        script.write(text)
        script.seek(0)
        return begin(folder, "run", script)


def end(run):
    text, _ = run.communicate(timeout=WAIT)
    return run.returncode, text.decode()


def at_once(folder, one, other):
    """Two runs that begin within some milliseconds of each other: status and text of each."""
    first = start(folder, one)
    time.sleep(draw.uniform(0.0, 0.012))
    second = start(folder, other)
    return end(first), end(second)


def kept_by(ended, keys):
    """The keys that a writer must leave behind: those acknowledged. One that finds the disk in use says so, and leaves none."""
    status, text = ended
    expect(status in (0, 3), f"status {status}")
    if status == 3:
        expect(text == IN_USE, f"the refused run printed {text[:60]!r}")
        return []
    told = acknowledged(text)
    expect(len(told) == len(keys), f"status 0 with {len(told)} of {len(keys)} replies")
    return keys


def two_writers():
    refused = 0
    for _ in range(20):
        with new_disk([0]) as folder:
            mine, theirs = list(range(1, 41)), list(range(41, 81))
            draw.shuffle(mine)
            ended = at_once(folder, inserts(mine), inserts(theirs))
            refused += [status for status, _ in ended].count(3)
            expect(ended[0][0] == 0 or ended[1][0] == 0, "both runs are refused")
            expect_rows(folder, range(81), [0] + kept_by(ended[0], mine) + kept_by(ended[1], theirs), "after both")
    return f"20 trials, {refused} refused"


def writer_and_reader():
    refused = 0
    for trial in range(15):
        with new_disk([0]) as folder:
            keys = list(range(1, 41))
            look = "".join(f"SELECT * FROM t WHERE k = {key}\n" for key in range(41))
            texts = [inserts(keys), look]
            ended = at_once(folder, *(texts if trial % 2 == 0 else texts[::-1]))
            wrote, read = ended if trial % 2 == 0 else ended[::-1]
            kept = kept_by(wrote, keys)
            expect(read[0] in (0, 3), f"the reader ends with status {read[0]}")
            seen = [int(key) for key in re.findall(r"^1\.\d+ (\d+)\|row \1\|$", read[1], re.M)]
            expect(read == (3, IN_USE) or seen in ([0], [0] + keys), f"the reader sees {len(seen)} rows of {len(keys) + 1}")
            expect_rows(folder, range(41), [0] + kept, "after both")
            refused += (wrote[0] == 3) + (read[0] == 3)
    return f"15 trials, {refused} refused"


def two_inits():
    for _ in range(10):
        with new_folder() as folder:
            runs = [begin(folder, "init", subprocess.DEVNULL) for _ in range(2)]
            statuses = sorted(end(run)[0] for run in runs)
            expect(statuses in ([0, 3], [0, 10]), f"statuses {statuses}")
            expect(ids(folder, "run", text=TABLE)[0] == 0, "the disk does not open")


def is_locked(path):
    """Whether a process holds a lock on the file, as the system's list says."""
    number = os.stat(path).st_ino
    with open("/proc/locks") as locks:
        return any(re.search(rf":{number} ", line) for line in locks)


def waiting_run(folder):
    """A run that has the disk and waits for its script."""
    run = begin(folder, "run", subprocess.PIPE)
    until = time.monotonic() + 10
    while not is_locked(os.path.join(folder, "root.chk")):
        expect(time.monotonic() < until, "a run that waits for its script holds no lock")
        time.sleep(0.002)
    return run


def disk_in_use():
    if not os.path.exists("/proc/locks"):
        raise Skipped("no /proc/locks")
    with new_disk([1]) as folder:
        first, before = waiting_run(folder), chunk_files(folder)
        for words, text in ((["run"], inserts([5])), (["run"], ""), (["init"], "")):
            got = ids(folder, *words, text=text)
            expect(got == (3, IN_USE), f"{words[0]}: status {got[0]} {got[1]!r}")
            expect(chunk_files(folder) == before, f"{words[0]}: files changed")
        text, _ = first.communicate(inserts([2, 3]).encode(), timeout=WAIT)
        expect((first.returncode, text) == (0, b"1.1 rows 1\n1.2 rows 1\n"), f"the first run ends with status {first.returncode}")
        expect_rows(folder, [1, 2, 3, 5], [1, 2, 3], "after all")


# Kills

def killed_in_work():
    counts = []
    for _ in range(10):
        with new_disk([0]) as folder:
            run, wanted, told = start(folder, inserts(range(1, 201))), draw.randrange(1, 100), 0
            for _ in range(wanted):
                told += run.stdout.readline().endswith(b" rows 1\n")
            run.kill()
            told += len(acknowledged(end(run)[1]))
            status, there = rows(folder, range(201))
            expect(status == 0, f"the next run ends with status {status}")
            expect(there == set(range(len(there))), f"{len(there)} keys, which are no front of the script")
            expect(len(there) > told, f"{told} commits were told, {len(there) - 1} are there")
            counts.append(told)
    return f"{min(counts)} to {max(counts)} commits told"


def killed_while_it_waits():
    if not os.path.exists("/proc/locks"):
        raise Skipped("no /proc/locks")
    with new_disk([1]) as folder:
        run, before = waiting_run(folder), chunk_files(folder)
        run.kill()
        run.communicate(timeout=WAIT)
        expect(chunk_files(folder) == before, "files changed")
        expect(ids(folder, "run", text=inserts([2])) == (0, "1.1 rows 1\n"), "the next run does not work")
        expect_rows(folder, [1, 2], [1, 2], "after the next run")


# Streams and signals

def set_nonblocking(file):
    fcntl.fcntl(file, fcntl.F_SETFL, fcntl.fcntl(file, fcntl.F_GETFL) | os.O_NONBLOCK)


LONG = "CREATE TABLE w (k INTEGER, c CHAR(700))\nINSERT INTO w VALUES (1, '" + "x" * 700 + "')\n" + "SELECT * FROM w WHERE k = 1\n" * 300


def fed_slowly(folder, text, parts, between, **how):
    """A run over streams that do not block: its script comes in parts, and its replies are read late; between parts something is done to it."""
    script, feed = os.pipe()
    replies, output = os.pipe()
    set_nonblocking(script)
    set_nonblocking(output)
    run = begin(folder, "run", script, output, **how)
    os.close(script)
    os.close(output)
    size = -(-len(text) // parts)
    for at in range(0, len(text), size):
        os.write(feed, text[at:at + size].encode())
        time.sleep(0.03)
        between(run)
    os.close(feed)
    for _ in range(5):
        time.sleep(0.03)
        between(run)
    with open(replies, "rb") as file:
        got = file.read()
    return run.wait(timeout=WAIT), got.decode()


def expect_long(got, text):
    expect(got[0] == 0, f"status {got[0]}, {len(got[1])} bytes of replies")
    expect(got[1] == text, f"{len(got[1])} bytes of replies in place of {len(text)}")


def streams_that_do_not_block():
    with new_disk() as folder, new_disk() as other:
        text = ids(other, "run", text=LONG)[1]
        expect(len(text) > 200000, "the long script has short replies")
        expect_long(fed_slowly(folder, LONG, 6, lambda run: None), text)
    return f"{len(text)} bytes of replies"


def stop_and_go_on(run):
    run.send_signal(signal.SIGSTOP)
    time.sleep(0.01)
    run.send_signal(signal.SIGCONT)


def stopped_and_continued():
    with new_disk() as folder, new_disk() as other:
        expect_long(fed_slowly(folder, LONG, 6, stop_and_go_on), ids(other, "run", text=LONG)[1])
    for _ in range(5):
        with new_disk([0]) as folder:
            run = start(folder, inserts(range(1, 101)))
            while run.poll() is None:
                stop_and_go_on(run)
                time.sleep(0.002)
            status, text = end(run)
            expect(status == 0 and len(acknowledged(text)) == 100, f"status {status}, {len(acknowledged(text))} of 100 replies")
            expect_rows(folder, range(101), range(101), "after the run")


HANDLER = """#include <signal.h>
static void nothing(int number) { (void)number; }
__attribute__((constructor)) static void install(void) {
    struct sigaction action = {0};
    action.sa_handler = nothing;
    sigaction(SIGUSR1, &action, 0);
}
"""


def has_handler(run):
    """Whether the process handles SIGUSR1 by now, or has ended."""
    with open(f"/proc/{run.pid}/status") as file:
        found = re.search(r"^SigCgt:\s*([0-9a-f]+)", file.read(), re.M)
    return run.poll() is not None or not found or bool(int(found.group(1), 16) >> (signal.SIGUSR1 - 1) & 1)


def signals_with_a_handler():
    if not shutil.which("cc"):
        raise Skipped("no C compiler")
    with new_disk() as folder, new_disk() as other, new_folder() as room:
        with open(os.path.join(room, "handler.c"), "w") as file:
            file.write(HANDLER)
        library = os.path.join(room, "handler.so")
        built = subprocess.run(["cc", "-shared", "-fPIC", "-o", library, os.path.join(room, "handler.c")], capture_output=True)
        if built.returncode != 0:
            raise Skipped("the C compiler makes no library")
        environment = {**os.environ, "LD_PRELOAD": library}

        def send(run):
            while not has_handler(run):
                time.sleep(0.002)
            for _ in range(5):
                run.send_signal(signal.SIGUSR1)
                time.sleep(0.001)
        expect_long(fed_slowly(folder, LONG, 6, send, env=environment), ids(other, "run", text=LONG)[1])


# Flipped bits

BLOCKS = ("the last block", "a block in the middle", "the first block")
GATE = PAGE - 1


class Image:
    """A disk with commits in several blocks of its log, as bytes."""

    def __init__(self, folder):
        self.keys = list(range(1, 13))
        for keys in (self.keys[:6], self.keys[6:]):
            expect(ids(folder, "run", text=inserts(keys))[0] == 0, "a run does not work")
        self.folder, self.path = folder, os.path.join(folder, "root.chk")
        with open(self.path, "rb") as file:
            self.root = file.read()
        place = lambda block: Layout().log_page(block) * PAGE
        blocks = list(itertools.takewhile(lambda block: self.root[place(block) + GATE] == 0xA5, range(1, 257)))
        expect(len(blocks) >= 13, f"the log has {len(blocks)} blocks")
        self.starts = {"the identity page": 0, "the checkpoint page": PAGE, **{name: place(blocks[n]) for name, n in zip(BLOCKS, (-1, 6, 0))}}

    def records(self, name):
        """Of each record of a block: its place in the block, its length and its kind."""
        start = self.starts[name]
        count, at = struct.unpack_from(">H", self.root, start + 10)[0], 12
        for _ in range(count):
            length, kind = struct.unpack_from(">HB", self.root, start + at)
            yield at, length, kind
            at += length

    def outcome(self, at, bit, none_left):
        """What is wrong where this bit is flipped, None where nothing is. With `none_left` the disk is then not formatted."""
        changed = bytearray(self.root)
        changed[at] ^= 1 << bit
        with open(self.path, "wb") as file:
            file.write(changed)
        status, there = rows(self.folder, self.keys)
        with open(self.path, "rb") as file:
            same = file.read() == bytes(changed)
        if status == (8 if none_left else 9):
            return None if same else f"status {status} and files changed"
        if status != 0 or none_left:
            return f"status {status}"
        lost = len(set(self.keys) - there)
        return f"{lost} of {len(self.keys)} rows gone in silence" if lost else None


def flip_each(image, places, none_left=()):
    """Each of these places, a page with a byte of it and a bit, is flipped in turn. Where a byte of `none_left` is, nothing formatted is left."""
    wrong = {}
    for name, at, bit in places:
        what = image.outcome(image.starts[name] + at, bit, at in none_left)
        if what:
            wrong.setdefault((name, what), []).append(at)
    told = [f"{name}: {what} at bytes {spans(at)} ({len(at)} bits)" for (name, what), at in wrong.items()]
    expect(not wrong, "; ".join(told) + f"; {len(places)} bits were tried")
    return f"{len(places)} bits"


def bits(name, numbers):
    return [(name, at, bit) for at in numbers for bit in range(8)]


def unused(name, first):
    """Some bits of what stands behind the fields of a page."""
    return [(name, draw.randrange(first, GATE), draw.randrange(8)) for _ in range(24)]


def other_records(image, name):
    """The bits of a block that make other good records: those of row ids, and the lowest one of COMMIT, ROLLBACK, HINSERT and HDELETE."""
    for at, _, kind in image.records(name):
        if kind in (2, 3, 4, 5):
            yield name, at + 2, 0
        if kind in (4, 5, 6):
            yield from bits(name, range(at + 15, at + 19))


def body_bits(image, name):
    """All other bits of a block's body, but for the values of rows."""
    fields, end = list(range(8, 12)), 12
    for at, length, kind in image.records(name):
        fields += range(at, at + 21 if kind in (4, 5, 6) else at + length)
        end = at + length
    others = set(other_records(image, name))
    return [place for place in bits(name, fields) if place not in others] + unused(name, end)


def flipped_body(name):
    with new_disk() as folder:
        image = Image(folder)
        return flip_each(image, body_bits(image, name))


def flipped_number_or_gate():
    with new_disk() as folder:
        return flip_each(Image(folder), [place for name in BLOCKS for place in bits(name, [*range(8), GATE])])


def flipped_to_another_record():
    with new_disk() as folder:
        image = Image(folder)
        return flip_each(image, [place for name in BLOCKS for place in other_records(image, name)])


def flipped_page(name, fields, none_left):
    with new_disk() as folder:
        return flip_each(Image(folder), bits(name, [*range(fields), GATE]) + unused(name, fields), none_left)


# A full file system, and backups

@contextlib.contextmanager
def small_file_system(size):
    if os.geteuid() != 0 or not shutil.which("mount"):
        raise Skipped("no root, or no mount")
    folder = tempfile.mkdtemp(prefix="ids-drill-")
    try:
        if subprocess.run(["mount", "-t", "tmpfs", "-o", f"size={size}", "tmpfs", folder], capture_output=True).returncode != 0:
            raise Skipped("mount does not work here")
        try:
            yield folder
        finally:
            subprocess.run(["umount", folder], check=True)
    finally:
        os.rmdir(folder)


def make_larger(folder):
    subprocess.run(["mount", "-o", "remount,size=16m", folder], check=True, capture_output=True)


def full_at_init():
    with small_file_system("500k") as folder:
        got = ids(folder, "init")
        expect(got == (3, IN_USE), f"init: status {got[0]} {got[1]!r}")
        got = ids(folder, "run", text=TABLE)
        expect(got[0] in (3, 8), f"run: status {got[0]} {got[1]!r}")
        make_larger(folder)
        expect(ids(folder, "init") == (0, ""), "init does not work once there is room")
        expect(ids(folder, "run", text=TABLE) == (0, "1.1 created\n"), "run does not work once there is room")


def fill_but(folder, left):
    """Fills a file system, but for so many bytes."""
    with open(os.path.join(folder, "ballast"), "wb", buffering=0) as file:
        with contextlib.suppress(OSError):
            for _ in range(4096):
                file.write(bytes(4096))
        file.truncate(file.tell() - left)


def full_at_run():
    with small_file_system("4m") as folder:
        write_blank_disk(folder)
        expect(ids(folder, "run", text=TABLE)[0] == 0, "the first run does not work")
        fill_but(folder, 10 * 4096)
        status, text = ids(folder, "run", text=inserts(range(200)))
        expect(status == 3 and text.endswith(IN_USE), f"run: status {status} {text[-40:]!r}")
        make_larger(folder)
        told = len(acknowledged(text))
        status, there = rows(folder, range(200))
        expect(status == 0 and there == set(range(len(there))) and 0 < told <= len(there) <= told + 1,
               f"the next run: status {status}, {told} commits were told, {len(there)} are there")
        expect(ids(folder, "run", text=inserts([1000]))[0] == 0, "a run does not work once there is room")
    return f"{told} commits told before it was full"


def backup():
    with new_disk(range(20)) as folder, new_folder() as copy:
        for name in os.listdir(folder):
            shutil.copy(os.path.join(folder, name), copy)
        expect_rows(copy, range(20), range(20), "the copy")
        before = chunk_files(folder)
        expect(ids(copy, "run", text="DELETE FROM t WHERE k = 3\n" + inserts([20])) == (0, "1.1 rows 1\n1.2 rows 1\n"), "the copy can not be used")
        expect_rows(copy, range(21), set(range(21)) - {3}, "the copy that was changed")
        expect(chunk_files(folder) == before, "a run over the copy changed the files of the other folder")
        expect_rows(folder, range(21), range(20), "the other folder")


def closed_drills():
    for closed in itertools.chain.from_iterable(itertools.combinations(range(3), n) for n in (1, 2, 3)):
        yield f"descriptors {' '.join(map(str, closed))} closed", lambda closed=closed: closed_descriptors(closed), True


# Of each drill: its name, what it does, and whether what it looks at is promised.
DRILLS = [
    *closed_drills(),
    ("two writers at once", two_writers, True),
    ("a writer and a reader at once", writer_and_reader, True),
    ("two inits at once", two_inits, True),
    ("a disk in use", disk_in_use, True),
    ("killed in its work", killed_in_work, True),
    ("killed while it waits for its script", killed_while_it_waits, True),
    ("streams that do not block", streams_that_do_not_block, True),
    ("stopped and continued", stopped_and_continued, True),
    ("signals with a handler", signals_with_a_handler, True),
    *((f"a bit flipped in the body of {name}", lambda name=name: flipped_body(name), BROKEN_BLOCK_IS_DAMAGE) for name in BLOCKS),
    ("a bit flipped in the number or the gate of a block", flipped_number_or_gate, MISSING_BLOCK_IS_DAMAGE),
    ("a bit flipped that makes another good record", flipped_to_another_record, OTHER_RECORD_IS_DAMAGE),
    ("a bit flipped in the identity page", lambda: flipped_page("the identity page", 30, (0, 1, 2, 3, GATE)), True),
    ("a bit flipped in the checkpoint page", lambda: flipped_page("the checkpoint page", 19, (GATE,)), True),
    ("a full file system at init", full_at_init, True),
    ("a full file system at run", full_at_run, True),
    ("a backup in another folder", backup, True),
]


def main():
    if not PROGRAM or not os.access(PROGRAM, os.X_OK):
        print(__doc__)
        return 2
    failed = 0
    for name, drill, is_promised in DRILLS:
        if len(sys.argv) > 2 and sys.argv[2] not in name:
            continue
        try:
            said = drill()
            print(f"ok    {name}" + (f" ({said})" if said else ""), flush=True)
        except Skipped as why:
            print(f"skip  {name}: {why}", flush=True)
        except (Wrong, OSError, subprocess.SubprocessError) as what:
            failed += is_promised
            print(f"{'FAIL ' if is_promised else 'known'} {name}: {what}", flush=True)
        finally:
            end_all()
    return 1 if failed else 0


if __name__ == "__main__":
    sys.exit(main())
