"""What other programs do to paths while a run works."""

import os

from common import told
from hostile.bench import BESIDE, MOVE, PAIR, begin_pair, ends_whole
from journals import stage_of
from trees import difference

# Directories that another program exchanges for a symbolic link: a move, and the directory.
EXCHANGED = {
    "above NEW": (["a.md", "e/a.md"], "e"),
    "above NEW, deeper": (["a.md", "e/f/g/a.md"], "e/f"),
    "above OLD": (["e/f/c.md", "c.md"], "e/f"),
    "above a page that changes": (["a.md", "x/a.md"], "e/f"),
}
EXCHANGE = {"a.md": "[c](e/f/c.md)\n", "e/f/c.md": "[a](../../a.md)\n"}


def directories_stay_directories(at):
    """12: If a directory becomes a symbolic link while a run works, nothing changes where the link leads."""
    for what, (moves, exchanged) in EXCHANGED.items():
        def begin():
            at.begin(EXCHANGE, {**BESIDE, "out/c.md": "outside\n", "out/a.md": "outside too\n"})
        for number, call in at.holds(begin, "--write", "R", *moves):
            begun = at.beside()
            yield from exchange(at, call, exchanged, begun, f"{what}, held after call {number}")


def exchange(at, call, exchanged, begun, what):
    """Exchanges a directory while a run is held, and puts it back after the run stopped."""
    directory = at.top / exchanged
    is_there = directory.is_dir()
    if is_there:
        os.rename(directory, at.case / "away")
        directory.symlink_to("../../out" if "/" in exchanged else "../out")
    call.end()
    yield from (f"{what}: {it}" for it in difference(without(at.beside(), "away"), begun))
    for word in ("--undo", "--resume") if is_there else ():
        at.call(word, "R")
        yield from (f"{what}, {word}: {it}" for it in difference(without(at.beside(), "away"), begun))
    if is_there:
        directory.unlink()
        os.rename(at.case / "away", directory)
    if not at.ended():
        yield f"{what}: the run has no end"
    yield from whole(at, EXCHANGE, what)


def without(tree, top):
    """A tree without what is at a path or below it."""
    return {path: it for path, it in tree.items() if path != top and not path.startswith(f"{top}/")}


def whole(at, files, what):
    """The faults of a folder in which the number of files is another, or something of the run's own is left."""
    if len(at.texts()) != len(files) or at.left():
        yield f"{what}: the folder has {at.texts()}, and {at.left()} is left"


# Moves out of a directory into two that are made, and what may become a FIFO while they are made.
MAKING = ["--write", "R", "d/c.md", "x/y/c.md"]
MAKING_TEXTS = {"a.md": "[c](d/c.md)\n", "d/c.md": "[a](../a.md)\n"}
DIRECTORIES = ("x", "x/y", "d")


def fifos_let_no_call_wait(at):
    """12: A FIFO that comes to where a directory is, or is to be, makes no call wait, and after it has gone the run ends."""
    for path in DIRECTORIES:
        for number, call in at.holds(lambda: at.begin(MAKING_TEXTS), *MAKING):
            what = f"{path}, held after call {number}"
            is_put = put_fifo(at, path)
            yield from (f"{what}: {it}" for it in late("the run", call.end()))
            for word in ("--resume", "--undo") if is_put else ():
                yield from (f"{what}: {it}" for it in late(word, at.call(word, "R")))
            if is_put:
                take_fifo(at, path)
            at.ended()
            yield from whole(at, MAKING_TEXTS, what)


def put_fifo(at, path):
    """Puts a FIFO at a path, and takes away what is there. Gives whether it is there."""
    place = at.top / path
    if not place.parent.is_dir():
        return False
    if os.path.lexists(place):
        os.rename(place, at.case / "away")
    os.mkfifo(place)
    return True


def take_fifo(at, path):
    """Removes the FIFO, if it is still there, and puts back what was there."""
    place = at.top / path
    if place.is_fifo():
        place.unlink()
    if os.path.lexists(at.case / "away"):
        os.rename(at.case / "away", place)


def late(what, done):
    """A fault if a call didn't end."""
    return [f"{what} doesn't end"] if done.status is None else []


def strangers_at_new_stay(at):
    """13: A file that comes to NEW while a run works, but not right before its rename, stays."""
    for number, call in at.holds(begin_pair(at), *MOVE):
        yield from come_to(at, call, "x/a.md", f"x/a.md, held after call {number}")
    for number, call in at.holds(begin_pair(at), *MOVE):
        yield from come_to(at, call, "b.md", f"b.md, held after call {number}")


def come_to(at, call, path, what):
    """Puts a file at a path, if nothing is there, while a run is held."""
    place, text = at.top / path, "a stranger\n"
    is_put = not os.path.lexists(place)
    if is_put:
        place.parent.mkdir(exist_ok=True)
        place.write_text(text)
    ended = call.end()
    if is_put and (not place.is_file() or place.read_text() != text):
        yield f"{what}: it is replaced: {told(ended)}"
    elif is_put:
        place.unlink()
    yield from ends_whole(at, what)


def strangers_at_old_stay(at):
    """13: A file that comes to OLD before --undo stays, and the run can be ended after it has gone."""
    for number in at.kills(begin_pair(at), *MOVE):
        place = next((at.top / it for it in PAIR if not os.path.lexists(at.top / it)), None)
        if place and stage_of(at.top) not in (None, "cleaning"):
            place.write_text("a stranger\n")
            done, what = at.call("--undo", "R"), f"{place.name}, killed after call {number}"
            if not place.is_file() or place.read_text() != "a stranger\n":
                yield f"{what}: it is replaced: {told(done)}"
                continue
            place.unlink()
            yield from ends_whole(at, what)
