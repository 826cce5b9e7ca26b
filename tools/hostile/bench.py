"""Folders of cases, and calls of the program in them, which may be held, killed or made by another user."""

import contextlib
import itertools
import os
import shutil
import signal
import socket
import subprocess

from calls import Caller, as_bytes
from common import told
from trees import JOURNAL, difference, is_own, tree_of, write_site


def as_user(user):
    """How a call is made by a user of this number, in the group of the same number alone."""
    return {"user": user, "group": user, "extra_groups": []}


# A user who owns nothing, and one who may own a root beside others.
NOBODY, OTHER = 65534, 65533
AS_NOBODY, AS_OTHER = as_user(NOBODY), as_user(OTHER)

# Two pages that link to each other.
PAIR = {"a.md": "[b](b.md)\n", "b.md": "[a](a.md)\n"}
# The pages after `a.md` is moved to `x/a.md`.
PAIR_MOVED = {"x/a.md": "[b](../b.md)\n", "b.md": "[a](x/a.md)\n"}
MOVE = ["--write", "R", "a.md", "x/a.md"]


class LeftOut(Exception):
    """A row can't be tried here, and why."""


class Bench:
    """Folders of cases, and calls of the program in them."""

    def __init__(self, program, folder):
        os.chmod(folder, 0o755)
        self.folder = folder
        self.case, self.top = folder / "case", folder / "case/R"
        copied = shutil.copy(program, folder / "relmove")
        os.chmod(copied, 0o755)
        self.caller = Caller(copied, folder)

    def begin(self, files, beside=None, owner=0):
        """Begins a case: the texts of the files below the root and beside it, and who owns what is below the root."""
        shutil.rmtree(self.case, ignore_errors=True)
        write_site(self.case, as_bytes(beside or {}))
        write_site(self.top, as_bytes(files))
        give(self.top, owner)

    def call(self, *words, **how):
        """A call of the program. `R` is the root's path."""
        return self.caller.run(self.words(words), **how)

    def words(self, words):
        """The words of a call."""
        return [str(self.top) if it == "R" else it for it in words]

    def all(self):
        """All that is in the folder of the case."""
        return tree_of(self.case)

    def tree(self):
        """All that is below the root."""
        return tree_of(self.top)

    def beside(self):
        """All that is in the folder of the case, but for what is below the root."""
        return {path: it for path, it in self.all().items() if not path.startswith("R/")}

    def texts(self):
        """The texts of the files below the root."""
        return {path: content.decode() for path, (_, content) in self.tree().items() if content is not None}

    def refused(self, done, before, what):
        """The faults of a call that has to be refused and to change nothing."""
        if done.status != 2:
            yield f"{what}: not refused: {told(done)}"
        yield from (f"{what}: {it}" for it in difference(self.all(), before))

    def holds(self, begin, *words, way="held-after", **how):
        """Makes a call anew for each of its calls that change something, and holds it there: the number of that call,
        and the call that is held."""
        for number in itertools.count(1):
            begin()
            call = self.caller.start(self.words(words), way, number, **how)
            if not call.is_held():
                call.end()
                return
            yield number, call

    def steps(self, *words, first=1, way="held-after", **how):
        """Makes a call that is held at each of its calls that change something, from this number on. Gives the call each
        time that it is held."""
        call = self.caller.start(self.words(words), way, f"{first}..", **how)
        while call.is_held():
            yield call
            call.go_on()

    def kills(self, begin, *words, **how):
        """Makes a call anew for each of its calls that change something, and kills it there: the number of that call,
        after the kill."""
        for number in itertools.count(1):
            begin()
            if self.call(*words, way="killed-after", at=number, **how).status != -signal.SIGKILL:
                return
            yield number

    def left(self):
        """The paths below the root with a name that only a run gives."""
        return [path for path in self.tree() if is_own(path)]

    def ended(self, **how):
        """Ends a run that may have stopped. Gives whether no journal is left."""
        for word in ("--undo", "--resume"):
            if self.left():
                self.call(word, "R", **how)
        return not os.path.lexists(self.top / JOURNAL)


def give(top, owner):
    """Gives a folder and all that is in it to a user."""
    for above, folders, names in os.walk(top):
        for path in [above, *(f"{above}/{name}" for name in [*folders, *names])]:
            os.lchown(path, owner, owner)


def need_root():
    """Leaves a row out if the script isn't root's."""
    if os.getuid() != 0:
        raise LeftOut("it needs root")


def need_tool(name):
    """Leaves a row out if a tool isn't there."""
    if not shutil.which(name):
        raise LeftOut(f"{name} isn't there")


@contextlib.contextmanager
def mounted(place, *words):
    """Mounts something at a place. Leaves the row out if that fails."""
    need_root()
    os.makedirs(place, exist_ok=True)
    done = subprocess.run(["mount", *words, str(place)], capture_output=True, check=False)
    if done.returncode:
        raise LeftOut(f"mount {' '.join(words)} fails: {done.stderr.decode().strip()}")
    try:
        yield
    finally:
        subprocess.run(["umount", str(place)], check=True)


def has_only(texts, *wanted):
    """A fault unless the texts are those of one of these folders."""
    if texts not in wanted:
        yield f"the folder has {texts}, not {' or '.join(map(str, wanted))}"


def ends_with(at, *wanted):
    """A fault unless the texts are those of one of these folders, and one for each path that only a run gives."""
    return [*has_only(at.texts(), *wanted), *(f"{it} is left" for it in at.left())]


def begin_pair(at):
    """A case with two pages."""
    return lambda: at.begin(PAIR, BESIDE)


def ends_whole(at, what):
    """The faults of a run that may have stopped: it has to end with the pages before or after the moves."""
    if not at.ended():
        yield f"{what}: the run has no end: {told(at.call('--resume', 'R'))}"
    yield from (f"{what}: {it}" for it in ends_with(at, PAIR, PAIR_MOVED))


def make_socket(path):
    """Makes a socket at a path."""
    with socket.socket(socket.AF_UNIX) as made, contextlib.chdir(path.parent):
        made.bind(path.name)


def link_outside(path):
    """Makes a hard link to the file `o` beside the root."""
    above = next(it for it in path.parents if it.name == "R")
    path.hardlink_to(above.parent / "o")


# What a stranger can put at a path. Beside the root are the file `o` and the directory `out`.
STRANGERS = {
    "a symbolic link to a file": lambda path: path.symlink_to("../o"),
    "a symbolic link to nothing": lambda path: path.symlink_to("../none"),
    "a symbolic link to a directory": lambda path: path.symlink_to("../out"),
    "a hard link": link_outside,
    "a FIFO": os.mkfifo,
    "a socket": make_socket,
    "a directory": lambda path: path.mkdir(),
    "another text": lambda path: path.write_text("my own notes\n"),
}
BESIDE = {"o": "outside\n", "out/o": "outside too\n"}
