"""A run that stopped, written by hand, and its journal."""

import itertools
import os

from common import told
from hostile.bench import BESIDE, ends_with, give
from journals import digest_of, line, write_journal
from trees import RUN_DIRECTORY

# A run that stopped by hand: its files before the moves, where it stopped, and after the moves.
OLD_PAGE, NEW_PAGE, NOTE = "[n](note.txt)\n", "[n](x/note.txt)\n", "a note\n"
STOPPED_BEFORE = {"a.md": OLD_PAGE, "note.txt": NOTE}
STOPPED = {".relmove-run/1": NOTE, ".relmove-run/2": OLD_PAGE, ".relmove-run/3": NEW_PAGE}
STOPPED_AFTER = {"a.md": NEW_PAGE, "x/note.txt": NOTE}
# The calls that end it, and the files afterwards.
ENDS = (("--resume", STOPPED_AFTER), ("--undo", STOPPED_BEFORE))
# The lines of its journal, in parts.
PARTS = {
    "text": [line("text", ".relmove-run/3", *digest_of(NEW_PAGE.encode()))],
    "staged": [line("staged", "note.txt", ".relmove-run/1"), line("staged", "a.md", ".relmove-run/2")],
    "made": [line("made", "x")],
    "placed": [line("placed", ".relmove-run/1", "x/note.txt"), line("placed", ".relmove-run/3", "a.md")],
    "removed": [line("removed", ".relmove-run/2", *digest_of(OLD_PAGE.encode()))],
    "emptied": [],
}


def begin_stopped(at, stage="placing", owner=0, **parts):
    """Begins a case with a run of a user that stopped, where parts of the journal are others."""
    at.begin(STOPPED, {**BESIDE, "out/secret": "a secret\n"})
    os.chmod(at.top / RUN_DIRECTORY, 0o700)
    (at.top / "x").mkdir()
    (at.top / ".git/hooks").mkdir(parents=True)
    (at.top / "esc").symlink_to("../out")
    give(at.top, owner)
    write_stopped(at, stage, owner, **parts)


def write_stopped(at, stage="placing", owner=0, origin=None, **parts):
    """Writes the journal of this run, as a file of this user, and maybe with other numbers of where it is."""
    write_journal(at.top, stage, itertools.chain(*{**PARTS, **parts}.values()), owner, **(origin or {}))


def faults_of_end(at, what, word, wanted, *options):
    """The faults of a call that has to end this run, with these files afterwards and nothing of the run's own."""
    done = at.call(word, *options, "R")
    if done.status != 0:
        yield f"{what}: {told(done)}"
    (at.top / "esc").unlink()
    yield from (f"{what}: {it}" for it in ends_with(at, wanted))


def more(part, *lines):
    """A part of the journal with more lines."""
    return {part: [*PARTS[part], *lines]}


def other(part, number, *fields):
    """A part of the journal with another line in the place of one."""
    return {part: [*PARTS[part][:number], line(part, *fields), *PARTS[part][number + 1:]]}
