"""Copies of a folder with a run that stopped, which have its journal, byte for byte."""

import io
import itertools
import subprocess
import tarfile

from calls import as_bytes
from common import told
from hostile.bench import MOVE, PAIR, LeftOut, begin_pair, ends_whole, mounted
from hostile.runs import first_placing
from hostile.stopped import ENDS, begin_stopped, faults_of_end
from journals import made_at
from trees import JOURNAL, RUN_DIRECTORY, difference, tree_of, write_site

# How many new files may be made to get one with an inode that was another file's.
MOST_FILES = 1000


def journals_made_anew_are_refused(at):
    """2: A journal in a new file with the bytes, the owner and the inode of the one that the run wrote is refused."""
    first = first_placing(at)
    for word in ("--resume", "--undo"):
        begin_pair(at)()
        at.call(*MOVE, way="killed-after", at=first)
        make_anew(at.top / JOURNAL)
        before = at.all()
        yield from at.refused(at.call(word, "R"), before, word)
        done = at.call(word, "--trust-journal", "--write", "R")
        if done.status != 0:
            yield f"{word}, trusted: {told(done)}"
        yield from ends_whole(at, f"{word}, trusted")


def make_anew(path):
    """Removes a file, and makes one with its bytes and its inode."""
    text, inode, others = path.read_bytes(), path.stat().st_ino, []
    path.unlink()
    while not path.exists() and len(others) < MOST_FILES:
        made = path.with_name(f"made-{len(others)}")
        made.touch(0o600)
        if made.stat().st_ino == inode:
            made.rename(path)
            path.write_bytes(text)
        else:
            others.append(made)
    for other in others:
        other.unlink()
    if not path.exists():
        raise LeftOut("no new file gets the inode of one that was removed")


def unpacked_journals_are_refused(at):
    """2: An archive of a folder with a run that stopped, unpacked on a fresh disk to the same inodes, is refused."""
    first = first_placing(at)
    place = at.folder / "mounted"
    for word in ("--resume", "--undo"):
        with mounted(place, "-t", "tmpfs", "tmpfs"):
            reach(place, 3)
            write_site(place / "R", as_bytes(PAIR))
            at.caller.run(["--write", str(place / "R"), *MOVE[2:]], "killed-after", first)
            archive, inodes = packed(place)
        with mounted(place, "-t", "tmpfs", "tmpfs"):
            unpack(place, archive, inodes)
            before = tree_of(place)
            done = at.caller.run([word, str(place / "R")])
            if done.status != 2:
                yield f"{word}: not refused: {told(done)}"
            yield from (f"{word}: {it}" for it in difference(tree_of(place), before))


# What a journal knows by its inode, and what of it is in ROOT.
KNOWN = ("R", f"R/{RUN_DIRECTORY}", f"R/{JOURNAL}")


def packed(place):
    """An archive of the root on a disk, and the inodes that its journal has."""
    if not made_at(place / "R" / JOURNAL):
        raise LeftOut("a tmpfs doesn't know when a file was made")
    archive = io.BytesIO()
    with tarfile.open(fileobj=archive, mode="w") as tar:
        tar.add(place / "R", "R")
    return archive, {name: (place / name).stat().st_ino for name in KNOWN if (place / name).exists()}


def unpack(place, archive, inodes):
    """Unpacks an archive on a fresh disk. What the journal knows gets the inodes that it had."""
    archive.seek(0)
    with tarfile.open(fileobj=archive) as tar:
        for name in sorted(inodes, key=inodes.get):
            reach(place, inodes[name])
            tar.extract(name, place)
            if (place / name).stat().st_ino != inodes[name]:
                raise LeftOut(f"{name} doesn't get its inode on a fresh tmpfs")
        for member in tar:
            if member.name not in inodes:
                tar.extract(member, place)


def reach(place, inode):
    """Makes files on a disk until the next one gets this inode."""
    for number in itertools.count():
        made = place / f"{inode}-{number}"
        made.touch()
        if made.stat().st_ino + 1 >= inode:
            return


def linked_journals_are_named(at):
    """2: A journal with a second name, as `cp -al` gives it, is refused and told as such, and --trust-journal ends the run."""
    for word, wanted in ENDS:
        begin_stopped(at)
        subprocess.run(["cp", "-al", str(at.top), str(at.case / "linked")], check=True)
        before, done = at.all(), at.call(word, "R")
        yield from at.refused(done, before, word)
        if "another name" not in told(done):
            yield f"{word}: it isn't told as such: {told(done)}"
        yield from faults_of_end(at, f"{word}, trusted", word, wanted, "--trust-journal", "--write")
