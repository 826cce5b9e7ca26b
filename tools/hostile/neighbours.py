"""Runs and files of another user in ROOT, above it and below it."""

import itertools
import os
import stat

from common import told
from hostile.bench import AS_NOBODY, AS_OTHER, MOVE, NOBODY, OTHER, PAIR, PAIR_MOVED, ends_with, give, has_only, need_root
from hostile.runs import first_placing
from hostile.stopped import begin_stopped, other, write_stopped
from hostile.users import FOREIGN, SECRET, done_by_other, plain
from trees import JOURNAL, NEW_JOURNAL, RUN_DIRECTORY, difference

# The calls that end a run, and the options with which root may end one of another user.
ENDS = ("--resume", "--undo")
TRUSTED = ["--trust-journal", "--write"]


def begin_others_run(at, first):
    """Begins a case with a run of the other user that was killed after its first call that places a file."""
    at.begin(PAIR, owner=OTHER)
    at.call(*MOVE, way="killed-after", at=first, **AS_OTHER)


def begin_planted(at, _):
    """Begins a case with a journal that the other user wrote by hand, which asks for a file that only NOBODY can read."""
    begin_stopped(at, owner=OTHER)
    (at.top / RUN_DIRECTORY / "1").unlink()
    (at.top / "private").mkdir(0o700)
    (at.top / "private/key.txt").write_text(SECRET)
    give(at.top / "private", NOBODY)
    write_stopped(at, "staging", OTHER, **other("staged", 0, "private/key.txt", ".relmove-run/1"))


RUNS_OF_OTHERS = {"a run of theirs": begin_others_run, "a journal by hand": begin_planted}
# The owner and the mode of a root in which two users may write.
SHARED = [(NOBODY, 0o777), (0, 0o1777)]


def share(at, owner, mode):
    """Gives the root, without what is in it, to an owner, with this mode."""
    os.chown(at.top, owner, owner)
    os.chmod(at.top, mode)


def runs_of_others_are_refused(at):
    """18: A run of another user is refused to all but that user and root, which is told whose it is, and needs --trust-journal."""
    need_root()
    first = first_placing(at)
    for (what, begin), (owner, mode), word in itertools.product(RUNS_OF_OTHERS.items(), SHARED, ENDS):
        what = f"{word}, {what}, in a root of mode {mode:o}"
        begin(at, first)
        (at.top / NEW_JOURNAL).write_text("relmove j")
        share(at, owner, mode)
        before = at.all()
        for options, how in (([], AS_NOBODY), (TRUSTED, AS_NOBODY), ([], {})):
            done, who = at.call(word, *options, "R", **how), f"{what}, as {how.get('user', 0)} {' '.join(options)}"
            yield from at.refused(done, before, who)
            if str(OTHER) not in told(done) and (not how or can_read(at.top / JOURNAL)):
                yield f"{who}: it doesn't say whose it is: {told(done)}"
        yield from at.refused(at.call(*MOVE, **AS_NOBODY), before, f"{what}: a run")
        done = at.call(word, TRUSTED[0], "R")
        yield from (f"{what}, as root, to look at: {it}" for it in difference(at.all(), before))
        done = at.call(word, *TRUSTED, "R")
        if done.status != 0 or at.left():
            yield f"{what}, as root: {told(done)}, and {at.left()} is left"


def can_read(path):
    """Whether everybody may read a file."""
    return path.stat().st_mode & stat.S_IROTH


def runs_are_ended_by_their_users(at):
    """18: A run that stopped in a root of another user is ended by the user who made it."""
    need_root()
    first = first_placing(at)
    for (owner, mode), word in itertools.product(SHARED, ENDS):
        begin_others_run(at, first)
        share(at, owner, mode)
        done, what = at.call(word, "R", **AS_OTHER), f"{word}, in a root of mode {mode:o}"
        if done.status != 0:
            yield f"{what}: {told(done)}"
        yield from (f"{what}: {it}" for it in ends_with(at, PAIR, PAIR_MOVED))


def journals_of_others_near_are_passed_over(at):
    """18: A file `.relmove` of another user above ROOT or below it stops no run. The run names it, as its dry run does."""
    need_root()
    for path in ("../.relmove", "d/.relmove"):
        statuses = []
        for words, wanted in ((MOVE[1:], PAIR), (MOVE, PAIR_MOVED)):
            at.begin({**PAIR, "d/c.md": "c\n"}, owner=NOBODY)
            os.chmod(at.case, 0o1777)
            os.chmod(at.top / "d", 0o777)
            if not done_by_other(put_text, at.top / path):
                yield f"the other user can't make {path}"
            done = at.call(*words, **AS_NOBODY)
            statuses.append(done.status)
            if path not in told(done) or str(OTHER) not in told(done):
                yield f"{' '.join(words)}: it doesn't name {path}, and whose that is: {told(done)}"
            yield from (f"{' '.join(words)}: {it}: {told(done)}" for it in has_only(plain(at), wanted))
        if statuses[0] != statuses[1]:
            yield f"{path}: the dry run has the status {statuses[0]}, and the run {statuses[1]}"


def put_text(path):
    """Writes a text of one's own at a path."""
    return path.write_text(FOREIGN)


STICKY = {"d/a.txt": "a text\n", "p.md": "[a](d/a.txt)\n"}
STICKY_MOVED = {"d/b.txt": "a text\n", "p.md": "[a](d/b.txt)\n"}
STICKY_MOVE = ["--write", "R", "d/a.txt", "d/b.txt"]


def begin_sticky(at, owner):
    """Begins a case with a root of mode 1777, and a directory of the other user in it, with a file of this owner."""
    at.begin(STICKY, owner=NOBODY)
    share(at, 0, 0o1777)
    os.chown(at.top / "d", OTHER, OTHER)
    os.chmod(at.top / "d", 0o777)
    os.chown(at.top / "d/a.txt", owner, owner)


def sticky_roots_are_no_trap(at):
    """18: Where names of others can't be changed in ROOT itself, the dry run and the run agree, and a run that stops ends."""
    need_root()
    for owner in (NOBODY, OTHER):
        begin_sticky(at, owner)
        dry, done = at.call(*STICKY_MOVE[1:], **AS_NOBODY), at.call(*STICKY_MOVE, **AS_NOBODY)
        if dry.status != done.status:
            yield f"of {owner}: the dry run has the status {dry.status}, and the run {told(done)}"
        for word in ENDS:
            for number in at.kills(lambda: begin_sticky(at, owner), *STICKY_MOVE, **AS_NOBODY):
                done, what = at.call(word, "R", **AS_NOBODY), f"{word}, of {owner}, killed after call {number}"
                at.ended(**AS_NOBODY)
                faults = ends_with(at, STICKY, STICKY_MOVED)
                yield from (f"{what}: {it}: {told(done)}" for it in faults)
