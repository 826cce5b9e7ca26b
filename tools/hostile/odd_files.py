"""What can't be read, removed or made: odd files, directories of others, and a mask that takes all rights."""

import itertools
import os
import stat

from common import told
from hostile.bench import AS_NOBODY, MOVE, NOBODY, PAIR, PAIR_MOVED, ends_with, has_only, make_socket, need_root
from trees import JOURNAL

def emptied_directories_may_stay(at):
    """9: A directory that can't be removed stays, a line names it, and the run ends."""
    need_root()
    at.begin({"p/d/a.md": "a\n", "b.md": "b\n"}, owner=NOBODY)
    os.chmod(at.top / "p", 0o555)
    done = at.call("--write", "R", "p/d/a.md", "x.md", **AS_NOBODY)
    if done.status not in (0, 1):
        yield told(done)
    if "p/d" not in (done.stderr + done.stdout).decode().replace("p/d/a.md", ""):
        yield f"it isn't named: {told(done)}"
    if os.path.lexists(at.top / JOURNAL):
        yield "the journal stays"
    yield from has_only(at.texts(), {"x.md": "a\n", "b.md": "b\n"})
    done = at.call("--check", "R", **AS_NOBODY)
    if done.status != 0:
        yield f"--check afterwards: {told(done)}"


def make_deep(top):
    """Makes a page at a path that is too long to be opened."""
    folder = os.open(top, os.O_RDONLY)
    for _ in range(20):
        os.mkdir("deep" + "n" * 246, dir_fd=folder)
        below = os.open("deep" + "n" * 246, os.O_RDONLY, dir_fd=folder)
        os.close(folder)
        folder = below
    os.close(os.open("deep.md", os.O_CREAT | os.O_WRONLY, dir_fd=folder))
    os.close(folder)


def make_unreadable(top):
    """Makes a page that only root may read."""
    need_root()
    (top / "odd.md").write_text("[a](a.md)\n")
    os.chmod(top / "odd.md", 0o600)


# What no page is, and its name.
ODD = {
    "a FIFO": (lambda top: os.mkfifo(top / "odd.md"), "odd.md"),
    "a socket": (lambda top: make_socket(top / "odd.md"), "odd.md"),
    "a page that can't be read": (make_unreadable, "odd.md"),
    "a symbolic link whose text isn't UTF-8": (lambda top: os.symlink(b"\xff", os.fsencode(top / "odd")), "odd"),
    "a symbolic link to a FIFO": (lambda top: (os.mkfifo(top / "odd-fifo.md"), os.symlink("odd-fifo.md", top / "odd.md")), "odd"),
    "a path that is too long": (make_deep, "deepnnn"),
}


def odd_files_are_passed_over(at):
    """11: What can't be read is named and passed over, and each call ends."""
    calls = [["--check", "R"], ["R", "a.md", "x/a.md"], MOVE]
    for (what, (make, name)), words in itertools.product(ODD.items(), calls):
        at.begin(PAIR, owner=NOBODY if os.getuid() == 0 else os.getuid())
        make(at.top)
        done = at.call(*words, **(AS_NOBODY if os.getuid() == 0 else {}))
        said = (done.stdout + done.stderr).decode(errors="replace")
        if done.status not in (0, 1):
            yield f"{what}, {words[0]}: {told(done)}"
        if name not in said:
            yield f"{what}, {words[0]}: it isn't named: {told(done)}"
        wanted = PAIR_MOVED if words == MOVE else PAIR
        found = {path: (at.top / path).read_text() for path in wanted if (at.top / path).is_file()}
        yield from (f"{what}, {words[0]}: {it}" for it in has_only(found, wanted))


def devices_are_passed_over(at):
    """11: A device with the name of a page is named, and isn't opened."""
    need_root()
    at.begin(PAIR)
    os.mknod(at.top / "null.md", 0o644 | stat.S_IFCHR, os.makedev(1, 3))
    done = at.call(*MOVE)
    if done.status not in (0, 1) or "null.md" not in told(done):
        yield told(done)
    yield from ("it is opened" for it in done.lines if it[0] == "?open" and it[1].endswith("null.md"))


# A move for which two directories are made, and the files afterwards.
DEEP = ["--write", "R", "a.md", "x/y/a.md"]
DEEP_MOVED = {"x/y/a.md": "[b](../../b.md)\n", "b.md": "[a](x/y/a.md)\n"}


def masks_do_not_matter(at):
    """Small: Under each umask the owner can read the journal, end the run, and use the directories that it made."""
    need_root()
    for umask, word in itertools.product((0o777, 0o177), ("--undo", "--resume")):
        for number in at.kills(lambda: at.begin(PAIR, owner=NOBODY), *DEEP, umask=umask, **AS_NOBODY):
            done, what = at.call(word, "R", umask=umask, **AS_NOBODY), f"umask {umask:o}, {word}, killed after call {number}"
            at.ended(umask=umask, **AS_NOBODY)
            yield from (f"{what}: {it}: {told(done)}" for it in ends_with(at, PAIR, DEEP_MOVED))
        yield from (f"umask {umask:o}: {it}" for it in has_only(at.texts(), DEEP_MOVED))
        modes = {path: stat.S_IMODE(mode) for path, (mode, content) in at.tree().items() if content is None}
        yield from (f"umask {umask:o}: {path} has mode {mode:o}" for path, mode in modes.items() if mode & 0o700 != 0o700)
