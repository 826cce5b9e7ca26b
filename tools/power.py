"""Loses the power in runs on real file systems: `tools/relmove --power ext4 xfs btrfs btrfs:notreelog`.

A file system is made in a file, which a loop device shows. What comes after the colon are options to mount it. A copy of
that file has what a loss of power leaves there: what the file system has written so far. A run of each list of
tools/calls.py is held before each call that changes something, and the file is copied then, and after the end, unless the
file system wrote nothing since the copy before. A file system also writes by itself, now and then: so in further runs it
writes all that it has before one call, which is each one in turn. Of these runs one in `--one-of` is made.

Each copy is mounted twice. Each file has to be whole in it. `--resume` ends the run in one of the two, and `--undo` in the
other, to exactly the files before the moves or after them, as the stage of the journal says. Without a journal the files
have to be these already, but for what `--resume` removes.

Before that the script says what a file system keeps of renames, if only one directory is synced before the power is lost.

Only root can do this, and the programs that make the file systems are needed: Debian's packages e2fsprogs, xfsprogs and
btrfs-progs.
"""

import contextlib
import os
import shutil
import subprocess

from calls import LISTS, Caller, lost_texts, tree_with
from common import told
from journals import BACK, stage_of
from trees import Fault, difference, move_words, run, tree_of, write_site

# How to make a file system, and the options by which it doesn't write by itself while a run is held.
KINDS = {
    "ext4": (["mkfs.ext4", "-q", "-F"], ["commit=900"]),
    "xfs": (["mkfs.xfs", "-q", "-f"], []),
    "btrfs": (["mkfs.btrfs", "-q", "-f"], ["commit=900"]),
}
# How many bytes each has: XFS is never smaller.
SIZE = 320 << 20


class Disk:
    """A file system in a file."""

    def __init__(self, folder, kind):
        self.folder, self.kind = folder, kind
        self.top = folder / "mounted" / "R"
        name, _, options = kind.partition(":")
        make, self.options = KINDS[name][0], [*KINDS[name][1], *filter(None, [options])]
        self.top.parent.mkdir(parents=True)
        with open(folder / "blank", "wb") as file:
            file.truncate(SIZE)
        command(*make, folder / "blank")

    @contextlib.contextmanager
    def mounted(self, name):
        """Mounts a file of this name."""
        command("mount", "-o", ",".join(["loop", *self.options]), self.folder / name, self.top.parent)
        try:
            yield
        finally:
            command("umount", self.top.parent)

    def copy(self, name, new):
        """Copies a file of this name."""
        command("cp", "--sparse=always", self.folder / name, self.folder / new)

    def remove(self, name):
        """Removes a file of this name."""
        os.remove(self.folder / name)


def command(*words):
    """Does a command."""
    subprocess.run([str(it) for it in words], check=True, stdin=subprocess.DEVNULL, capture_output=True)


# What is said of a file system: two renames, each from a path to another one, the directory that is synced after them, and
# the path that is there after a loss of power only if this is so.
ORDERS = {
    "of two renames the second alone may be kept": ([("a/x", "a/1"), ("c/y", "c/2")], "c", "a/x"),
    "a file may keep both names": ([("a/x", "c/1")], "c", "a/x"),
}


def is_found(disk, renames, directory, path):
    """Whether a path is there after a loss of power, if a directory was synced after renames."""
    disk.copy("blank", "disk")
    with disk.mounted("disk"):
        write_site(disk.top, {"a/x": b"xx", "c/y": b"yy"})
        command("sync", "-f", disk.top)
        for old, new in renames:
            os.rename(disk.top / old, disk.top / new)
        file = os.open(disk.top / directory, os.O_RDONLY)
        os.fsync(file)
        os.close(file)
        disk.copy("disk", "copy")
    with disk.mounted("copy"):
        return (disk.top / path).exists()


class Losing:
    """A list of moves on a disk, and runs of it that lose the power."""

    def __init__(self, program, caller, disk, case):
        self.program, self.caller, self.disk, self.case = program, caller, disk, case
        self.words = move_words(disk.top, case.moves)
        disk.copy("blank", "begin")
        with disk.mounted("begin"):
            self.after = tree_with(disk.top, case.after)
            self.before = tree_with(disk.top, case.before)
        disk.copy("begin", "disk")
        with disk.mounted("disk"):
            self.number = caller.count(self.words)
            self.faults_of_whole = difference(tree_of(disk.top), self.after)

    def run(self, writes_at, copies):
        """Makes a run in which the file system writes all before the call of a number. Adds the number of the call before
        which each copy was made, or of the one after the end."""
        self.disk.copy("begin", "disk")
        with self.disk.mounted("disk"):
            started, number, written = self.caller.start(self.words, "held-before", "1.."), 1, None
            while started.is_held():
                if number == writes_at:
                    command("sync", "-f", self.disk.top)
                written = self.copy_new(number, written, copies)
                number += 1
                started.go_on()
            ended = started.end()
            self.copy_new(number, written, copies)
        if ended.status != 0 or number != self.number + 1:
            yield f"a run ended otherwise: {told(ended)}"

    def copy_new(self, number, written, copies):
        """Copies the disk, unless it was written at this time at last. Gives the time at which it was."""
        latest = os.stat(self.disk.folder / "disk").st_mtime_ns
        if latest != written:
            self.disk.copy("disk", f"copy {number}")
            copies.append(number)
        return latest

    def judge(self, number, word):
        """The faults of what is on the disk after the power was lost before the call of a number."""
        self.disk.copy(f"copy {number}", "judged")
        with self.disk.mounted("judged"):
            yield from lost_texts(tree_of(self.disk.top), self.case)
            yield from self.faults_of_end(stage_of(self.disk.top), word)

    def faults_of_end(self, stage, word):
        """The faults of the end of a run, by this word. Its journal says a stage, if there is one."""
        top = str(self.disk.top)
        if stage == "cleaning" and word == "--undo":
            if run(self.program, word, top).status != 2:
                yield "--undo that is too late isn't refused"
            word = "--resume"
        done = run(self.program, word if stage else "--resume", top)
        if done.status != (0 if stage else 2):
            yield f"{word} from {stage}: {told(done)}"
        tree, back = tree_of(top), word == "--undo" or stage in BACK
        wanted = [self.before if back else self.after] if stage else [self.before, self.after]
        if tree not in wanted:
            yield f"ANOTHER TREE after {word} from {stage}: {difference(tree, wanted[0])}"


def report_power(options, program, folder, counts, faults):
    """Loses the power in runs of each list on each file system."""
    caller = Caller(program, folder)
    for kind in options.power:
        disk = Disk(folder / kind, kind)
        for what, order in ORDERS.items():
            counts[f"{kind}: {what}"] += is_found(disk, *order)
        for name, case in LISTS.items():
            disk = Disk(folder / f"{kind} {name}", kind)
            losing = Losing(program, caller, disk, case)
            counts[f"{kind}: calls"] += losing.number
            what = f"{kind}, {name}"
            faults += [Fault("ANOTHER TREE", what, it, case.moves) for it in losing.faults_of_whole]
            for writes_at in range(losing.number + 1):
                if writes_at == 0 or writes_at % options.one_of == options.seed % options.one_of:
                    lose_power(losing, writes_at, kind, what, counts, faults)
            shutil.rmtree(disk.folder)


def lose_power(losing, writes_at, kind, what, counts, faults):
    """Loses the power in a run, at each moment at which something new is on the disk."""
    copies = []
    counts[f"{kind}: runs"] += 1
    faults += [Fault("ENDED", what, it, losing.case.moves) for it in losing.run(writes_at, copies)]
    for number in copies:
        counts[f"{kind}: losses of power"] += 1
        for word in ("--resume", "--undo"):
            where = f"{what}, before call {number}, all written before call {writes_at}, ended by {word}"
            faults += [Fault(kind, where, it, losing.case.moves) for it in losing.judge(number, word)]
        losing.disk.remove(f"copy {number}")
