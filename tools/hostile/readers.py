"""What another user reads of files that only their owner may read."""

import contextlib
import os
import stat

from common import told
from hostile.bench import AS_NOBODY, MOVE, NOBODY, OTHER, ends_with, need_root
from hostile.users import SECRET, TURNS, Beside, done_by_other
from trees import RUN_DIRECTORY

# A directory that only its owner may search, with files that everybody may read, and moves in it.
PRIVATE = {"a.md": "[key](private/key.txt)\n", "private/key.txt": SECRET, "private/p.md": f"[a](../a.md) {SECRET}"}
PRIVATE_MOVE = ["--write", "R", "a.md", "n/a.md", "private/key.txt", "private/k/key.txt"]


def begin_private(at):
    """Begins a case with a directory that only its owner may search, and files in it that everybody may read."""
    at.begin(PRIVATE, owner=NOBODY)
    os.chmod(at.top / "private", 0o700)


def reads_secret(top, paths):
    """Whether the secret is in one of these files below a folder, or in one that its directory lists."""
    listed = (os.path.join(above, name) for above, _, names in os.walk(top) for name in names)
    return any(has_secret(path) for path in [*(f"{top}/{it}" for it in paths), *listed])


def has_secret(path):
    """Whether the secret can be read in a file."""
    try:
        with open(path, encoding="utf-8") as file:
            return SECRET in file.read()
    except OSError:
        return False


def staged_files_stay_private(at):
    """18: What a run takes out of a directory that only its owner may search nobody else can read, at no moment."""
    need_root()
    begin_private(at)
    for number, call in enumerate(at.steps(*PRIVATE_MOVE, umask=0, **AS_NOBODY), 1):
        tree = at.tree()
        if done_by_other(reads_secret, at.top, [path for path in tree if stat.S_ISREG(tree[path][0])]):
            yield f"held after call {number}: the other user reads it"
        if stat.S_IMODE(tree.get(RUN_DIRECTORY, (0, None))[0]) & 0o077:
            yield f"held after call {number}: {RUN_DIRECTORY} has mode {tree[RUN_DIRECTORY][0]:o}"
    if call.end().status != 0 or "private/k/key.txt" not in at.texts():
        yield f"the run doesn't end: {at.texts()}"
    for turn in range(TURNS):
        begin_private(at)
        with Beside(reads_secret, at.top, [f"{RUN_DIRECTORY}/{it}" for it in range(1, 8)]) as beside:
            done = at.call(*PRIVATE_MOVE, **AS_NOBODY)
        if done.status != 0 or beside.is_done:
            yield f"turn {turn}: {'the other user reads it' if beside.is_done else told(done)}"


# A page that only its owner may read, in a folder of others, and the folder after the moves.
OPEN = {"a.md": "[v](v.md)\n", "v.md": f"[a](a.md) {SECRET}", "z.md": "the last page\n"}
OPEN_MOVED = {"x/a.md": "[v](../v.md)\n", "v.md": f"[a](x/a.md) {SECRET}", "z.md": "the last page\n"}


def begin_open(at):
    """Begins a case with a page that only its owner may read, in a root in which everybody may write."""
    at.begin(OPEN, owner=NOBODY)
    os.chmod(at.top, 0o777)
    os.chmod(at.top / "v.md", 0o600)


def put_page(top):
    """Takes the page away, if it is there, and puts an empty one in its place that everybody may read and write."""
    with contextlib.suppress(FileNotFoundError):
        os.rename(top / "v.md", top / "theirs.md")
    (top / "v.md").touch()
    (top / "v.md").chmod(0o666)
    return True


def exposed(at):
    """The files with the secret that others than their owner may read or write."""
    return [f"{path} has mode {mode:o}" for path, (mode, content) in at.tree().items()
            if content and SECRET.encode() in content and mode & 0o077]


def private_texts_stay_in_private_files(at):
    """18: If another user exchanges a page of mode 0600 for one of mode 0666, the owner's text never comes into such a file."""
    need_root()
    begin_open(at)
    call = at.caller.start(at.words(MOVE), held_at=str(at.top / "z.md"), **AS_NOBODY)
    if not call.is_held():
        yield "it doesn't read z.md"
    done_by_other(put_page, at.top)
    ended = call.end()
    if ended.status != 2 or b"v.md" not in ended.stderr:
        yield f"exchanged before the run began: {told(ended)}"
    yield from faults_of_page(at, ended, "exchanged before the run began")
    begin_open(at)
    for number in range(1, at.caller.count(at.words(MOVE), **AS_NOBODY) + 1):
        begin_open(at)
        what = f"exchanged before call {number}"
        for later, call in enumerate(at.steps(*MOVE, first=number, way="held-before", **AS_NOBODY)):
            if not later:
                done_by_other(put_page, at.top)
            yield from (f"{what}, {later} calls later: {it}" for it in exposed(at))
        yield from faults_of_page(at, call.end(), what)


def faults_of_page(at, ended, what):
    """The faults of a run in which a page was exchanged, and of its end after the other user has gone."""
    yield from (f"{what}, at its end: {it}" for it in exposed(at))
    if ended.status not in (0, 1, 2, 3):
        yield f"{what}: {told(ended)}"
    page, away = at.top / "v.md", at.top / "theirs.md"
    if page.exists() and page.stat().st_uid == OTHER:
        page.unlink()
    if away.exists():
        away.rename(page)
    at.ended(**AS_NOBODY)
    yield from (f"{what}, ended: {it}" for it in [*ends_with(at, OPEN, OPEN_MOVED), *exposed(at)])
