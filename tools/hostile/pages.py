"""Pages: who may read them, and what a user writes into them while a run works."""

import itertools
import os
import stat
import struct

from common import told
from hostile.bench import MOVE, NOBODY, PAIR, PAIR_MOVED, LeftOut, begin_pair, need_root
from journals import stage_of
from trees import RUN_FILES, is_between

def owners_keep_their_bytes(at):
    """5: No file of root with a set-user-ID or set-group-ID bit ever has another user's bytes."""
    need_root()

    def begin():
        at.begin(PAIR)
        for name in PAIR:
            os.chown(at.top / name, NOBODY, NOBODY)
            os.chmod(at.top / name, 0o6755)

    for number, call in at.holds(begin, *MOVE):
        yield from (f"held after call {number}: {it}" for it in set_bits(at))
        call.end()
    yield from set_bits(at)


def set_bits(at):
    """The files below the root with a bit that gives rights of another owner than NOBODY."""
    for path in at.tree():
        found = os.lstat(at.top / path)
        if found.st_mode & stat.S_ISUID and found.st_uid != NOBODY or found.st_mode & stat.S_ISGID and found.st_gid != NOBODY:
            if stat.S_ISREG(found.st_mode):
                yield f"{path} has mode {found.st_mode:o}, of user {found.st_uid} and group {found.st_gid}"


def private_pages_stay_private(at):
    """5: Of a page that only its owner may read nobody else may read a copy, at no moment."""
    def begin():
        at.begin(PAIR)
        for name in PAIR:
            os.chmod(at.top / name, 0o600)

    for way in ("held-after", "held-before"):
        for number, call in at.holds(begin, *MOVE, way=way, umask=0):
            for path, (mode, content) in at.tree().items():
                if content is not None and path not in RUN_FILES and mode & 0o077:
                    yield f"{way}, call {number}: {path} has mode {mode:o}"
            call.end()


def modes_stay(at):
    """5: A page that is rewritten has its mode, under each umask."""
    for mode, umask in itertools.product((0o600, 0o644, 0o640, 0o444, 0o755), (0, 0o022, 0o077)):
        at.begin(PAIR)
        for name in PAIR:
            os.chmod(at.top / name, mode)
        done = at.call(*MOVE, umask=umask)
        found = {path: stat.S_IMODE(it[0]) for path, it in at.tree().items() if it[1] is not None}
        if done.status != 0 or found != {path: mode for path in PAIR_MOVED}:
            yield f"mode {mode:o}, umask {umask:o}: {found}, {told(done)}"


# The attribute that has a file's access control list.
LIST = "system.posix_acl_access"
# A list by which the owner and NOBODY may read and write, and others may do nothing: its version, and the kind, the rights
# and the user of each entry.
NO_USER = 0xffffffff
ENTRIES = [(0x01, 6, NO_USER), (0x02, 6, NOBODY), (0x04, 0, NO_USER), (0x10, 6, NO_USER), (0x20, 0, NO_USER)]
LISTED = struct.pack("<I", 2) + b"".join(struct.pack("<HHI", *it) for it in ENTRIES)


def access_lists_go_with_a_new_text(at):
    """5: A page that is rewritten has no access control list, and a file that only moves keeps its own. Their modes stay."""
    at.begin({**PAIR, "n.txt": "a note\n"})
    try:
        for name in ("b.md", "n.txt"):
            os.setxattr(at.top / name, LIST, LISTED)
    except OSError as why:
        raise LeftOut(f"a file can't have an access control list: {why.strerror}") from why
    modes = {stat.S_IMODE((at.top / name).stat().st_mode) for name in ("b.md", "n.txt")}
    done = at.call(*MOVE, "n.txt", "x/n.txt")
    found = {name: LIST in os.listxattr(at.top / name) for name in ("b.md", "x/n.txt")}
    if done.status != 0 or found != {"b.md": False, "x/n.txt": True}:
        yield f"which has a list: {found}, {told(done)}"
    yield from (f"{name} has another mode than {modes}" for name in found
                if {stat.S_IMODE((at.top / name).stat().st_mode)} != modes)


def edits_after_a_kill_stay(at):
    """6: What a user writes into a page after a kill is in a file after the end, and its name is printed if it is another."""
    for word in ("--undo", "--resume"):
        for number in at.kills(begin_pair(at), *MOVE):
            edits = edit_all(at)
            is_too_late = stage_of(at.top) == "cleaning"
            done = at.call("--resume" if is_too_late else word, "R")
            what = f"{word}, killed after call {number}"
            yield from (f"{what}: {it}" for it in lost_edits(at, edits, done))
            if not at.ended():
                yield f"{what}: the run has no end: {told(done)}"
            yield from (f"{what}, ended: {it}" for it in lost_edits(at, edits, done, is_named=False))


def edit_all(at):
    """Adds a line to each page below the root, also to an old text at its staging name. Gives the new bytes of each."""
    edits = {}
    for path, text in at.texts().items():
        if path not in RUN_FILES and (not is_between(path) or text in PAIR.values()):
            edits[path] = f"{text}edited at {path}\n"
            (at.top / path).write_text(edits[path])
    return edits


def lost_edits(at, edits, done, is_named=True):
    """The edits that are in no file, or in one with a name that isn't printed."""
    texts = at.texts()
    for path, text in edits.items():
        found = [it for it in texts if texts[it] == text]
        if not found:
            yield f"the edit of {path} is lost: {told(done)}"
        elif is_named and not any(it in {*PAIR, *PAIR_MOVED} or it.encode() in (done.stdout or b"") + done.stderr for it in found):
            yield f"the edit of {path} is at {found}, which isn't printed: {told(done)}"


def edits_while_it_works_stay(at):
    """7: What a user writes into a page while a run works is in a file after it."""
    for replaces, way in itertools.product((False, True), ("held-after", "held-before")):
        for number, call in at.holds(begin_pair(at), *MOVE, way=way):
            edits = edit_plain(at, replaces)
            ended = call.end()
            what = f"{way} call {number}{', replaced' * replaces}"
            yield from (f"{what}: {it}" for it in lost_edits(at, edits, ended))
            if not at.ended():
                yield f"{what}: the run has no end"
            yield from (f"{what}, ended: {it}" for it in lost_edits(at, edits, ended, is_named=False))


def edit_plain(at, replaces):
    """Edits each page at a plain path, in its place or by another file."""
    edits = {}
    for path, text in at.texts().items():
        if not is_between(path) and path not in RUN_FILES:
            edits[path] = f"{text}edited at {path}\n"
            where = at.case / "edited" if replaces else at.top / path
            where.write_text(edits[path])
            if replaces:
                os.rename(where, at.top / path)
    return edits
