#!/usr/bin/env python3
"""Writes the files of a blank disk, as docs/FORMATS.md says and from that page alone: `root.chk`, and `data1.chk` for each chunk of data.

A blank disk has no table: an identity page, checkpoint page 1, quiet, whose log begins with block 1, and zeros. `ids init` makes the same bytes,
which `--check BINARY` tries: it runs `BINARY init` in an empty folder and compares every file.
Usage: tools/blank_disk.py FOLDER             (writes over what stands there)
       tools/blank_disk.py --check BINARY     (writes nothing that stays)"""
import os, struct, subprocess, sys, tempfile
from typing import NamedTuple

PAGE = 2048
OPEN_GATE = b"\xa5"


class Layout(NamedTuple):
    """The numbers of the identity page, in their order there; by default those of `ids init`."""
    phys: int = 64
    logs: int = 4
    log_size: int = 64
    chunks: int = 1
    data: int = 1024
    root: int = 323

    def log_page(self, block):
        """The page of the root where the block with this number stands."""
        return 3 + self.phys + (block - 1) % (self.logs * self.log_size)


def gated(fields):
    """A page with these fields, zeros behind them, and an open gate."""
    return fields + bytes(PAGE - 1 - len(fields)) + OPEN_GATE


def identity_page(layout):
    return gated(b"IDSR" + struct.pack(">H6I", 1, *layout))


def checkpoint_page(number, block):
    """A quiet checkpoint page: the log's tail begins with the first record of this block."""
    return gated(struct.pack(">QBQH", number, 0, block, 0))


def write_blank_disk(folder, layout=Layout()):
    with open(os.path.join(folder, "root.chk"), "wb") as file:
        file.write(identity_page(layout) + checkpoint_page(1, 1))
        file.truncate(layout.root * PAGE)
    for chunk in range(1, layout.chunks + 1):
        with open(os.path.join(folder, f"data{chunk}.chk"), "wb") as file:
            file.truncate(layout.data * PAGE)


def chunk_files(folder):
    """The bytes of each chunk file of a folder, by name."""
    content = {}
    for name in os.listdir(folder):
        if name.endswith(".chk"):
            with open(os.path.join(folder, name), "rb") as file:
                content[name] = file.read()
    return content


def first_difference(ours, theirs):
    """What differs between the files of two folders, None where nothing does."""
    if sorted(ours) != sorted(theirs):
        return f"files {' '.join(sorted(ours))} here, {' '.join(sorted(theirs))} of the program"
    for name in sorted(ours):
        if len(ours[name]) != len(theirs[name]):
            return f"{name} has {len(ours[name])} bytes here, {len(theirs[name])} of the program"
        for at, (one, other) in enumerate(zip(ours[name], theirs[name])):
            if one != other:
                return f"byte {at} of {name} is {one:02x} here, {other:02x} of the program"
    return None


def check(program):
    with tempfile.TemporaryDirectory(prefix="ids-blank-") as ours, tempfile.TemporaryDirectory(prefix="ids-blank-") as theirs:
        write_blank_disk(ours)
        ended = subprocess.run([os.path.abspath(program), "init"], cwd=theirs, capture_output=True, text=True)
        if ended.returncode != 0:
            return f"init ended with status {ended.returncode}: {ended.stdout}"
        return first_difference(chunk_files(ours), chunk_files(theirs))


def main(words):
    if len(words) == 2 and words[0] == "--check":
        what = check(words[1])
        print(f"DIFFERENT: {what}" if what else "the same bytes as `ids init` writes: root.chk, data1.chk")
        return 1 if what else 0
    if len(words) != 1 or words[0].startswith("-"):
        print(__doc__)
        return 2
    os.makedirs(words[0], exist_ok=True)
    write_blank_disk(words[0])
    layout = Layout()
    print(f"{words[0]}: root.chk of {layout.root} pages, data1.chk of {layout.data} pages")
    return 0


if __name__ == "__main__":
    sys.exit(main(sys.argv[1:]))
