"""What another user puts at the names of a run's own, in a root in which everybody may write."""

import contextlib
import itertools
import os
import time

from common import told
from hostile.bench import AS_NOBODY, MOVE, NOBODY, OTHER, PAIR, PAIR_MOVED, ends_with, has_only, need_root
from hostile.users import FOREIGN, TURNS, Beside, done_by_other, plain
from trees import JOURNAL, NEW_JOURNAL, RUN_DIRECTORY

# How many seconds the other user waits at most before a race.
LONGEST_WAIT = 0.03


def begin_shared(at):
    """Begins a case with a root in which everybody may write."""
    at.begin(PAIR, owner=NOBODY)
    os.chmod(at.top, 0o777)


def put_file(own):
    own.write_text(FOREIGN)


def put_directory(own):
    own.mkdir()
    own.chmod(0o777)


def put_full_directory(own):
    put_directory(own)
    for number in range(1, 9):
        put_file(own / str(number))


def put_link(own):
    put_full_directory(own.parent / "theirs")
    own.symlink_to("theirs")


def exchange(top, put):
    """Takes the run's directory away, if it is there, and puts something in its place."""
    with contextlib.suppress(FileNotFoundError):
        os.rename(top / RUN_DIRECTORY, top / "away")
    put(top / RUN_DIRECTORY)
    return True


def rename_over(top, _):
    """Renames files over all that has a name of a run's own, but for the journals, which anybody can remove there."""
    listed = [it for it in os.listdir(top) if it.startswith(JOURNAL) and it not in (JOURNAL, NEW_JOURNAL)]
    for name in [*listed, *(f"{RUN_DIRECTORY}/{it}" for it in range(1, 9))]:
        (top / "mine").write_text(FOREIGN)
        with contextlib.suppress(OSError):
            os.rename(top / "mine", top / name)
    return True


def exchange_later(top, put, seconds):
    """Exchanges the run's directory so many seconds after it came."""
    if not os.path.lexists(top / RUN_DIRECTORY):
        return False
    time.sleep(seconds)
    return exchange(top, put)


# What the other user does to the names of a run's own, what they put there, and where the run is held: after a call, or
# before one, where the run has asked for all that the call needs.
AFTER, BEFORE = "held-after", "held-before"
ATTACKS = [
    (rename_over, None, AFTER),
    (exchange, put_file, AFTER),
    (exchange, os.mkfifo, AFTER),
    (exchange, put_directory, BEFORE),
    (exchange, put_full_directory, AFTER),
    (exchange, put_full_directory, BEFORE),
    (exchange, put_link, AFTER),
    (exchange, put_link, BEFORE),
]


def foreign_files_are_not_placed(at):
    """18: Whatever another user puts at a run's own names, a run that places a foreign file says so, and one that stops ends."""
    need_root()
    for act, put, way in ATTACKS:
        for number, call in at.holds(lambda: begin_shared(at), *MOVE, way=way, **AS_NOBODY):
            done_by_other(act, at.top, put)
            what = f"{(put or act).__name__}, {way} call {number}"
            yield from (f"{what}: {it}" for it in faults_of_attack(at, call.end()))


def foreign_files_do_not_race_in(at):
    """18: The same while the run works and isn't held."""
    need_root()
    for turn, put in zip(range(TURNS), itertools.cycle((put_file, put_directory, put_full_directory, put_link))):
        begin_shared(at)
        with Beside(exchange_later, at.top, put, turn / TURNS * LONGEST_WAIT):
            done = at.call(*MOVE, **AS_NOBODY)
        yield from (f"turn {turn}: {it}" for it in faults_of_attack(at, done))


def faults_of_attack(at, ended):
    """The faults of a run in which another user did something to its own names, and of its end after that user has gone."""
    texts = plain(at)
    is_foreign = FOREIGN in texts.values()
    if ended.status in (0, 2):
        yield from (f"status {ended.status}, and {it}" for it in has_only(texts, {0: PAIR_MOVED, 2: PAIR}[ended.status]))
    elif ended.status not in (1, 3) or JOURNAL not in told(ended):
        yield f"it doesn't say what it did: {told(ended)}"
    remove_foreign(at)
    if ended.status == 1:
        # It ended, and what is left in its directory is where the other user put that.
        yield from (f"{it!r} is lost: {at.texts()}" for it in lost_pages(at.texts() if is_foreign else plain(at)))
        return
    at.ended(**AS_NOBODY)
    yield from (f"{it}: {told(ended)}" for it in ends_with(at, PAIR, PAIR_MOVED))


def lost_pages(texts):
    """The pages that none of these files has as they were before the moves or as they are after them."""
    found = texts.values()
    return [old for old, new in zip(PAIR.values(), PAIR_MOVED.values()) if old not in found and new not in found]


def remove_foreign(at):
    """Removes all that the other user has below the root, and puts the run's directory back in its place. What the run
    moved into the other user's directory goes with it."""
    away = at.top / "away"
    for path in sorted(at.top.rglob("*"), key=lambda it: len(it.parts), reverse=True):
        if path.lstat().st_uid == OTHER:
            path.rmdir() if is_directory(path) else path.unlink()
        elif path.parent.lstat().st_uid == OTHER:
            path.rename(away / path.name)
    if away.exists():
        away.rename(at.top / RUN_DIRECTORY)


def is_directory(path):
    """Whether a directory is at a path, and no symbolic link to one."""
    return path.is_dir() and not path.is_symlink()
