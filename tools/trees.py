"""What tools/relmove and its modules share: folders on the disk, and calls of the program relmove in them."""

import collections
import itertools
import os
import posixpath
import shutil
import stat
import subprocess

JOURNAL, NEW_JOURNAL, SPARE = ".relmove", ".relmove-journal", ".relmove-spare"
# The file by whose owner a call knows who calls.
CALLER = ".relmove-caller"
# The directory of the run's own, and the file there of who ends a run.
RUN_DIRECTORY, END = ".relmove-run", ".relmove-run/end"
# The files of the run's own that have no text of a page: the journal, the next one, one that keeps room for it, and those two.
RUN_FILES = (JOURNAL, NEW_JOURNAL, SPARE, CALLER, END)
# How many seconds a call may take.
LONGEST = 20

# How a call ended, and what it printed. Its status is `None` if it didn't end.
Done = collections.namedtuple("Done", "status stdout stderr")
# What is wrong: of which kind, where, what it is, and the moves of the call.
Fault = collections.namedtuple("Fault", "kind what detail moves")


def write_site(top, files):
    """Writes a site into a new folder."""
    shutil.rmtree(top, ignore_errors=True)
    for folder in sorted({posixpath.dirname(path) for path in files} | {""}):
        os.makedirs(f"{top}/{folder}", exist_ok=True)
    for path, content in files.items():
        with open(f"{top}/{path}", "wb") as file:
            file.write(content)


def tree_of(top):
    """All that is below a folder: each path with its mode, and with its bytes, if it is a file. A symbolic link has the
    path to which it leads, and what is none of these has no bytes."""
    tree, waiting = {}, [""]
    while waiting:
        above = waiting.pop()
        with os.scandir(f"{top}/{above}") as entries:
            for entry in entries:
                path = f"{above}/{entry.name}" if above else entry.name
                mode, content = entry.stat(follow_symlinks=False).st_mode, b""
                if stat.S_ISDIR(mode):
                    waiting.append(path)
                    content = None
                elif stat.S_ISREG(mode):
                    with open(entry.path, "rb") as file:
                        content = file.read()
                elif stat.S_ISLNK(mode):
                    content = os.fsencode(os.readlink(entry.path))
                tree[path] = mode, content
    return tree


def write_tree(top, tree):
    """Writes a tree of files and directories into a new folder."""
    shutil.rmtree(top, ignore_errors=True)
    os.mkdir(top)
    for path, (mode, content) in sorted(tree.items()):
        if content is None:
            os.mkdir(f"{top}/{path}")
        else:
            with open(f"{top}/{path}", "wb") as file:
                file.write(content)
        os.chmod(f"{top}/{path}", stat.S_IMODE(mode))


def difference(found, wanted):
    """What differs between two trees: the first paths."""
    paths = sorted(path for path in found.keys() | wanted.keys() if found.get(path) != wanted.get(path))
    return [f"{len(paths)} paths differ: {paths[:6]}"] if paths else []


def run(program, *words, **how):
    """A call of the program."""
    try:
        ran = subprocess.run(
            [program, *words], stdin=subprocess.DEVNULL, capture_output=True, check=False, timeout=LONGEST, **how
        )
    except subprocess.TimeoutExpired as late:
        return Done(None, late.stdout or b"", late.stderr or b"")
    return Done(ran.returncode, ran.stdout, ran.stderr)


def move_words(top, moves, *options):
    """The arguments that move files below a folder."""
    return ["--write", "--quiet-mentions", *options, "--", str(top), *itertools.chain(*moves.items())]


def is_between(path):
    """Whether a path is a staging name, or below one."""
    return path.startswith(f"{RUN_DIRECTORY}/") and path != END


def is_own(path):
    """Whether a path has a name that only a run gives."""
    return any(it.startswith(".relmove") for it in path.split("/"))


def without_left(tree):
    """A tree without what a run leaves that can remove nothing: its files that aren't texts of pages, and its directory."""
    return {path: it for path, it in tree.items() if path not in RUN_FILES and path != RUN_DIRECTORY}
