"""Makes each call that changes something fail in turn: `tools/relmove --calls`. Holds and kills runs at such calls.

A list of moves has the files before the moves and after them, written by hand. Each call of its run fails in each of
six ways, and each of these runs is made twice: one is ended by `--resume`, and the other by `--undo`, or by `--resume`
too where that is too late. Each file has to be whole when the run stops. After the end the folder is, to the byte, the
one before the moves or the one after them, as the status of the run says.
"""

import collections
import itertools
import os
import select
import signal
import subprocess
import tempfile
import time

from common import build_library, told
from journals import stage_of
from sites import taken
from trees import JOURNAL, LONGEST, Done, Fault, difference, move_words, tree_of, without_left, write_site

# In what way a call fails, and whether those after it fail too.
WAYS = [
    ("undone", False), ("undone", True), ("done", False), ("done", True), ("killed-before", False), ("killed-after", False),
]

# Moves, and the texts of the files before them and after them.
List = collections.namedtuple("List", "moves before after")

LISTS = {
    "a file": List(
        {"d/a.md": "x/y/a.md"},
        {"d/a.md": "[b](../b.md)\n", "b.md": "[a](d/a.md)\n"},
        {"x/y/a.md": "[b](../../b.md)\n", "b.md": "[a](x/y/a.md)\n"},
    ),
    "a swap": List(
        {"a.md": "b.md", "b.md": "a.md"},
        {"a.md": "one [b](b.md)\n", "b.md": "two [a](a.md)\n"},
        {"b.md": "one [b](a.md)\n", "a.md": "two [a](b.md)\n"},
    ),
    "a directory": List(
        {"d": "e/d"},
        {"d/a.md": "[b](../b.md)\n", "d/note.txt": "a note\n", "b.md": "[a](d/a.md)\n"},
        {"e/d/a.md": "[b](../../b.md)\n", "e/d/note.txt": "a note\n", "b.md": "[a](e/d/a.md)\n"},
    ),
    "a file into a directory that moves": List(
        {"d": "e", "a.md": "e/a.md"},
        {"a.md": "[n](d/n.md)\n", "d/n.md": "[a](../a.md)\n"},
        {"e/a.md": "[n](n.md)\n", "e/n.md": "[a](a.md)\n"},
    ),
    "a file out of a directory that moves": List(
        {"d": "e", "d/a.md": "a.md"},
        {"d/a.md": "[n](n.md)\n", "d/n.md": "[a](a.md)\n"},
        {"a.md": "[n](e/n.md)\n", "e/n.md": "[a](../a.md)\n"},
    ),
    "a chain": List(
        {"a.md": "b.md", "b.md": "c.md", "c.md": "d.md"},
        {"a.md": "one [b](b.md)\n", "b.md": "two [c](c.md)\n", "c.md": "three [a](a.md)\n"},
        {"b.md": "one [b](c.md)\n", "c.md": "two [c](d.md)\n", "d.md": "three [a](b.md)\n"},
    ),
    "a file to which no page leads": List(
        {"note.txt": "x/note.txt"},
        {"note.txt": "a note\n", "a.md": "[b](b.md)\n", "b.md": "a page\n"},
        {"x/note.txt": "a note\n", "a.md": "[b](b.md)\n", "b.md": "a page\n"},
    ),
}


class Caller:
    """Starts the program with tools/calls.c before it."""

    def __init__(self, program, folder):
        self.program, self.library = program, build_library(folder, "calls")

    def start(self, words, way=None, at="", held_at=None, **how):
        """Starts the program. In this way a call becomes of it, at these numbers."""
        asked = {"CALLS_WAY": way, "CALLS_AT": str(at), "CALLS_HELD_AT": held_at}
        environment = {"LD_PRELOAD": self.library, **{name: it for name, it in asked.items() if it}}
        return Started([self.program, *words], environment, how)

    def run(self, words, way=None, at="", **how):
        """A call of the program from its start to its end."""
        return self.start(words, way, at, **how).end()

    def count(self, words, **how):
        """How many calls change something."""
        return len(self.run(words, **how).calls)


class Started:
    """A call of the program that was started."""

    def __init__(self, words, environment, how):
        self.out, self.errors, self.told = (tempfile.TemporaryFile() for _ in range(3))
        environment["CALLS_TELLS"] = str(self.told.fileno())
        self.process = subprocess.Popen(
            words, env=environment, pass_fds=[self.told.fileno()], stdin=subprocess.DEVNULL, stdout=self.out,
            stderr=self.errors, **how,
        )

    def is_held(self):
        """Waits until the program is held or ends. Gives whether it is held."""
        latest = time.monotonic() + LONGEST
        while time.monotonic() < latest:
            found = os.waitid(os.P_PID, self.process.pid, os.WSTOPPED | os.WEXITED | os.WNOHANG | os.WNOWAIT)
            if found:
                return found.si_code == os.CLD_STOPPED
            time.sleep(0.0005)
        return False

    def go_on(self):
        """Lets the program go on."""
        os.kill(self.process.pid, signal.SIGCONT)

    def ends(self):
        """Whether the program comes to its end."""
        process = os.pidfd_open(self.process.pid)
        try:
            return bool(select.select([process], [], [], LONGEST)[0])
        finally:
            os.close(process)

    def end(self):
        """Lets the program go on to its end. Kills it if it doesn't come there."""
        self.go_on()
        is_late = not self.ends()
        if is_late:
            self.process.kill()
        status = self.process.wait()
        return Ended(None if is_late else status, *(read_whole(it) for it in (self.out, self.errors, self.told)))


class Ended(Done):
    """How a call ended, and the calls of the system that it made."""

    def __new__(cls, status, stdout, stderr, told):
        ended = super().__new__(cls, status, stdout, stderr)
        lines = [os.fsdecode(it).split("\t") for it in told.split(b"\0")[:-1]]
        ended.calls = [it for it in lines if not it[0].startswith("?")]
        ended.lines = lines
        return ended


def read_whole(file):
    """All that is in a temporary file, which goes."""
    with file:
        file.seek(0)
        return file.read()


def as_bytes(texts):
    """The bytes of texts, by path."""
    return {path: text.encode() for path, text in texts.items()}


def tree_with(top, texts):
    """The tree of files with these texts, which are written into a new folder."""
    write_site(top, as_bytes(texts))
    return tree_of(top)


def lost_texts(tree, case):
    """The files of a list that are whole nowhere in a tree, with their old text or their new one."""
    found = {content for _, content in tree.values()}
    for path, text in case.before.items():
        if not found & {text.encode(), case.after[taken(path, case.moves)].encode()}:
            yield f"LOST: {path}"


class Failing:
    """A list of moves in a folder, and runs of it that fail."""

    def __init__(self, caller, top, case):
        self.caller, self.top, self.case = caller, top, case
        self.words = move_words(top, case.moves)
        self.after = tree_with(top, case.after)
        self.before = tree_with(top, case.before)
        self.number = caller.count(self.words)
        self.faults_of_whole = difference(tree_of(top), self.after)

    def judge(self, number, way, and_on, word):
        """The faults of a run of which a call fails, and of its end."""
        tree_with(self.top, self.case.before)
        ended = self.caller.run(self.words, way, f"{number}.." if and_on else number)
        tree = tree_of(self.top)
        yield from lost_texts(tree, self.case)
        yield from self.faults_of_status(ended, tree, way, and_on)
        yield from self.faults_of_end(ended, word)

    def faults_of_status(self, ended, tree, way, and_on):
        """The faults of what a run says and leaves."""
        if ended.status == 2 and and_on:
            # it couldn't remove its directory, or the journal that it didn't put in its place
            tree = without_left(tree)
        if ended.status == 1 and b"this directory stays" in ended.stdout:
            # it couldn't remove a directory that it emptied
            yield from difference(without_empty(tree), without_empty(self.after))
            return
        allowed = {0: self.after, 2: self.before}.get(ended.status)
        if allowed:
            yield from (f"status {ended.status}, and {it}" for it in difference(tree, allowed))
        elif ended.status == 3:
            yield from faults_of_words(ended, tree)
        elif not (ended.status == -signal.SIGKILL and way.startswith("killed")):
            yield f"status {ended.status}"

    def faults_of_end(self, ended, word):
        """The faults of the end of a run, by this word."""
        had_journal = stage_of(self.top) is not None
        done = self.caller.run([word, str(self.top)])
        if done.status == 2 and stage_of(self.top) == "cleaning" and word == "--undo":
            done = self.caller.run(["--resume", str(self.top)])
        if done.status != 0 and had_journal:
            yield f"{word} doesn't end it: {told(done)}"
        tree = tree_of(self.top)
        wanted = {0: [self.after], 1: [self.after], 2: [self.before]}.get(ended.status, [self.before, self.after])
        if ended.status == 1:
            tree, wanted = without_empty(tree), [without_empty(it) for it in wanted]
        if tree not in wanted:
            yield f"ANOTHER TREE after {word}: {difference(tree, wanted[0])}"


def without_empty(tree):
    """A tree without the directories in which nothing is."""
    files = [path for path, (_, content) in tree.items() if content is not None]
    return {path: it for path, it in tree.items() if it[1] is not None or any(file.startswith(f"{path}/") for file in files)}


def faults_of_words(ended, tree):
    """Where what a run prints that stopped isn't so."""
    said = ended.stderr.decode(errors="replace")
    if JOURNAL not in tree and "has the old paths" in said:
        yield f"it names a journal that isn't there: {said!r}"


def report_calls(options, program, folder, counts, faults):
    """Makes each call of each list fail. Of all runs, one in `--one-of` is made, from the one that the seed says."""
    caller = Caller(program, folder)
    for name, case in LISTS.items():
        failing = Failing(caller, folder / "R", case)
        counts["lists"] += 1
        counts["calls"] += failing.number
        faults += [Fault("ANOTHER TREE", name, it, case.moves) for it in failing.faults_of_whole]
        runs = itertools.product(range(1, failing.number + 1), WAYS, ("--resume", "--undo"))
        for number, (way, and_on), word in itertools.islice(runs, options.seed % options.one_of, None, options.one_of):
            counts["runs"] += 1
            what = f"{name}, call {number}{' and all after it' * and_on}, ended by {word}"
            faults += [Fault(way, what, it, case.moves) for it in failing.judge(number, way, and_on, word)]
