"""Journals of relmove: how far a run is by its journal, and journals that the scripts write.

A journal is believed only in the folder in which its run began, and only if its last line has the digest of the text
above it. It says which file it is, whose that is and when it was made. So a journal that a script writes or copies is
sealed for its folder.
"""

import ctypes
import hashlib
import os
import struct

from trees import JOURNAL, RUN_DIRECTORY, write_tree

HEAD = "relmove journal 3"
# The words of a journal's first lines, but for the stage, which follows them.
ORIGIN = ("root", "file", "run", "owner", "time")
# The stages of a journal from which a run goes back.
BACK = ("writing", "unplacing", "unmaking", "unstaging", "erasing")
# The stages in which new texts are written or removed, so that not all of them are whole.
TORN = ("writing", "erasing")


def stage_in(text):
    """The stage that the text of a journal has."""
    return next((it.removeprefix(b"stage\t").decode() for it in text.split(b"\n") if it.startswith(b"stage\t")), None)


def stage_of(top):
    """The stage of the journal, if there is one."""
    try:
        with open(f"{top}/{JOURNAL}", "rb") as journal:
            return stage_in(journal.read())
    except FileNotFoundError:
        return None


def stage_at(tree):
    """The stage that the journal in a tree has."""
    return stage_in(tree[JOURNAL][1]) if JOURNAL in tree else None


def escaped(path):
    """A path, as a journal has it."""
    return path.replace("\\", "\\\\").replace("\t", "\\t").replace("\n", "\\n")


def line(word, *fields):
    """A line of a journal, whose fields are paths and numbers."""
    return "\t".join([word, *(escaped(str(it)) for it in fields)])


def digest_of(content):
    """The length and the digest of bytes, as a journal has them."""
    return len(content), hashlib.sha256(content).hexdigest()


def end_of(text):
    """The last line of a journal, whose other lines are this text."""
    return os.fsencode(line("end", *digest_of(text)) + "\n")


# Where the kernel's `struct statx` says which fields it has, and where it has the time at which a file was made.
STATX_SIZE, STATX_MASK, STATX_MADE = 256, 0, 80
# Of statx: a path from the current directory, whose last link isn't followed, and the field that is asked for.
FROM_HERE, NO_FOLLOW, MADE = -100, 0x100, 0x800
LIBC = ctypes.CDLL(None, use_errno=True)


def made_at(path):
    """When a file was made, in nanoseconds since 1970, or 0 if the system doesn't know that."""
    found = ctypes.create_string_buffer(STATX_SIZE)
    if LIBC.statx(FROM_HERE, os.fsencode(path), NO_FOLLOW, MADE, found):
        raise OSError(ctypes.get_errno(), "statx", str(path))
    seconds, nanoseconds = struct.unpack_from("=qI", found, STATX_MADE)
    return seconds * 10**9 + nanoseconds if struct.unpack_from("=I", found, STATX_MASK)[0] & MADE else 0


def inode_at(path):
    """The inode of what is at a path, or 0 if nothing is there."""
    return os.lstat(path).st_ino if os.path.lexists(path) else 0


def origin_of(top):
    """What the journal in a folder has to say of where it is."""
    path = f"{top}/{JOURNAL}"
    inodes = os.stat(top).st_ino, inode_at(path), inode_at(f"{top}/{RUN_DIRECTORY}")
    return dict(zip(ORIGIN, (*inodes, os.lstat(path).st_uid, made_at(path))))


def write_journal(top, stage, lines, user=0, **others):
    """Writes the journal of a stage into a folder, as a file of this user, sealed for this folder, or with other numbers in
    the place of those that it has to have."""
    path = f"{top}/{JOURNAL}"
    with open(path, "wb") as journal:
        journal.write(os.fsencode("\n".join([HEAD, *ORIGIN, line("stage", stage), *lines, "end"]) + "\n"))
    os.chown(path, user, user)
    seal(top, **others)


def seal(top, **others):
    """Makes the journal in a folder that was copied one of this folder, or one with other numbers."""
    path, origin = f"{top}/{JOURNAL}", {**origin_of(top), **others}
    with open(path, "rb") as journal:
        lines = journal.read().split(b"\n")[:-2]
    lines[1:1 + len(ORIGIN)] = [line(word, origin[word]).encode() for word in ORIGIN]
    text = b"".join(it + b"\n" for it in lines)
    with open(path, "wb") as journal:
        journal.write(text + end_of(text))


def write_sealed(top, tree):
    """Writes a tree, which may have a journal, into a new folder. Gives the tree with the journal of this folder."""
    write_tree(top, tree)
    if JOURNAL not in tree:
        return tree
    seal(top)
    with open(f"{top}/{JOURNAL}", "rb") as journal:
        return {**tree, JOURNAL: (tree[JOURNAL][0], journal.read())}
