#!/usr/bin/env python3
"""Runs `ids` over folders that are no good disk, and checks the status and that nothing was written where nothing may be.

Needs the built program crates/ids/out/ids. The full file system wants root (a small tmpfs is mounted); it is skipped without.
Usage: tools/bad_folders.py"""
import hashlib, os, shutil, subprocess, sys, tempfile

program = os.path.abspath(os.path.join(os.path.dirname(os.path.abspath(__file__)), "..", "crates", "ids", "out", "ids"))
SCRIPT = "CREATE TABLE t (k INTEGER)\nINSERT INTO t VALUES (1)"
failures = 0


def ids(folder, *words, text=SCRIPT):
    ended = subprocess.run([program, *words], input=text, text=True, capture_output=True, cwd=folder)
    if ended.stderr:
        print(f"  standard error: {ended.stderr}")
    return ended.returncode, ended.stdout


def content(folder):
    sums = {}
    for name in sorted(os.listdir(folder)):
        with open(os.path.join(folder, name), "rb") as file:
            sums[name] = hashlib.sha256(file.read()).hexdigest()
    return sums


def expect(name, folder, words, status, line, unchanged=True):
    global failures
    before = content(folder)
    got = ids(folder, *words)
    same = content(folder) == before
    good = got == (status, line) and (same or not unchanged)
    failures += not good
    print(f"{'ok   ' if good else 'WRONG'} {name}: {' '.join(words)}: status {got[0]} {got[1]!r}{'' if same else ', files changed'}")


def formatted():
    folder = tempfile.mkdtemp(prefix="ids-bad-")
    assert ids(folder, "init") == (0, ""), "init"
    return folder


def put(folder, name, at, data):
    with open(os.path.join(folder, name), "r+b") as file:
        file.seek(at)
        file.write(data)


folder = tempfile.mkdtemp(prefix="ids-bad-")
expect("no chunk files", folder, ["run"], 8, "ids: 8 not formatted\n")
with open(os.path.join(folder, "root.chk"), "wb") as file:
    file.write(bytes(323 * 2048))
expect("zeros", folder, ["run"], 8, "ids: 8 not formatted\n")
with open(os.path.join(folder, "root.chk"), "wb") as file:
    file.write(b"a foreign file\n" * 1000)
expect("a foreign file", folder, ["run"], 8, "ids: 8 not formatted\n")
shutil.rmtree(folder)

folder = formatted()
expect("formatted twice", folder, ["init"], 10, "ids: 10 already formatted\n")
for name in ("root.chk", "data1.chk"):
    with open(os.path.join(folder, name), "ab") as file:
        file.write(b"odd")
expect("odd lengths", folder, ["run"], 0, "1.1 created\n1.2 rows 1\n", unchanged=False)
put(folder, "root.chk", 4, (2).to_bytes(2, "big"))
expect("a format that is unknown", folder, ["run"], 9, "ids: 9 damaged identity\n")
put(folder, "root.chk", 4, (1).to_bytes(2, "big"))
put(folder, "root.chk", 10, (1000).to_bytes(4, "big"))
expect("a number out of its range", folder, ["run"], 9, "ids: 9 damaged identity\n")
put(folder, "root.chk", 10, (4).to_bytes(4, "big"))
os.truncate(os.path.join(folder, "root.chk"), 300 * 2048)
expect("a root that is too short", folder, ["run"], 9, "ids: 9 damaged identity\n")
shutil.rmtree(folder)

folder = formatted()
put(folder, "root.chk", 2048 + 100, b"\1")
expect("a checkpoint page that is none", folder, ["run"], 9, "ids: 9 damaged checkpoint 1\n")
shutil.rmtree(folder)

if os.geteuid() == 0:
    if shutil.which("setpriv"):
        folder = formatted()
        os.chmod(folder, 0o755)
        for name in os.listdir(folder):
            os.chmod(os.path.join(folder, name), 0o444)
        program_copy = shutil.copy(program, "/tmp/ids-bad-program")
        os.chmod(program_copy, 0o755)
        before = content(folder)
        ended = subprocess.run(["setpriv", "--reuid=65534", "--clear-groups", program_copy, "run"], input=SCRIPT, text=True, capture_output=True, cwd=folder)
        good = (ended.returncode, ended.stdout) == (3, "ids: 3 disk fault\n") and content(folder) == before
        failures += not good
        print(f"{'ok   ' if good else 'WRONG'} files that may only be read: status {ended.returncode} {ended.stdout!r}")
        os.remove(program_copy)
        shutil.rmtree(folder)
    folder = tempfile.mkdtemp(prefix="ids-bad-")
    if subprocess.run(["mount", "-t", "tmpfs", "-o", "size=500k", "tmpfs", folder], capture_output=True).returncode == 0:
        got = ids(folder, "init")
        good = got == (3, "ids: 3 disk fault\n")
        failures += not good
        print(f"{'ok   ' if good else 'WRONG'} a full file system: init: status {got[0]} {got[1]!r}")
        subprocess.run(["umount", folder], check=True)
    else:
        print("skipped: a full file system (no mount here)")
    os.rmdir(folder)
else:
    print("skipped without root: files that may only be read, a full file system")
print(f"{failures} wrong")
sys.exit(1 if failures else 0)
