"""Disks: a loss of power, a full disk, and another device below the root."""

import contextlib
import itertools
import os
import subprocess

from calls import as_bytes
from common import told
from hostile.bench import MOVE, PAIR, PAIR_MOVED, has_only, mounted, need_root, need_tool
from journals import stage_of
from trees import tree_of, write_site

# The files before moves, what moves, and the files afterwards.
PAIR_MOVES = PAIR, MOVE[2:], PAIR_MOVED

# The same for a file that leaves a directory for another one.
LEAVING_MOVES = {"img/x.png": "x\n", "y.md": "y\n"}, ["img/x.png", "pic/x.png"], {"pic/x.png": "x\n", "y.md": "y\n"}


def power_may_go(at):
    """8: After a loss of power on btrfs, at each call and after the end, --resume and --undo end the run."""
    need_tool("mkfs.btrfs")
    yield from lose_power(at, ["mkfs.btrfs", "-q"], "btrfs", PAIR_MOVES)


def power_may_go_from_a_directory(at):
    """8: The same on btrfs, where a file leaves a directory that isn't ROOT: it keeps no second name."""
    need_tool("mkfs.btrfs")
    yield from lose_power(at, ["mkfs.btrfs", "-q"], "btrfs", LEAVING_MOVES)


def power_may_go_on_ext4(at):
    """8: The same on ext4."""
    need_tool("mkfs.ext4")
    yield from lose_power(at, ["mkfs.ext4", "-q"], "ext4", PAIR_MOVES)


def lose_power(at, make, kind, moves):
    """Copies the image of a file system while a run in it is held at each of its calls, and ends the run in each copy."""
    need_root()
    image, place = at.folder / "image", at.folder / "mounted"
    top, copies = place / "R", []
    with open(image, "wb") as file:
        file.truncate(128 << 20)
    subprocess.run([*make, str(image)], check=True, capture_output=True)
    files, moved = moves[:2]
    words = ["--write", str(top), *moved]
    with mounted(place, "-o", "loop", "-t", kind, str(image)):
        write_site(top, as_bytes(files))
        os.sync()
        call = at.caller.start(words, "held-after", "1..")
        while call.is_held():
            copies.append(copy_image(image, f"call {len(copies) + 1}"))
            call.go_on()
        ended = call.end()
        copies.append(copy_image(image, "the end"))
    if ended.status != 0:
        yield told(ended)
    for copy, what in copies:
        yield from (f"power lost after {what}: {it}" for it in ends_after_loss(at, copy, kind, moves))
        os.unlink(copy)
    image.unlink()


def copy_image(image, what):
    """A copy of an image as the device has it now, and when that was."""
    copy = f"{image}-{what.replace(' ', '-')}"
    subprocess.run(["cp", "--sparse=always", "--reflink=auto", str(image), copy], check=True)
    return copy, what


def ends_after_loss(at, copy, kind, moves):
    """The faults of the ends of a run in a copy of an image."""
    for word in ("--resume", "--undo"):
        tried = f"{copy}-{word}"
        subprocess.run(["cp", "--sparse=always", "--reflink=auto", copy, tried], check=True)
        place = at.folder / "mounted"
        with mounted(place, "-o", "loop", "-t", kind, tried):
            top = place / "R"
            done = at.caller.run([word, str(top)])
            if stage_of(top) == "cleaning" and word == "--undo":
                done = at.caller.run(["--resume", str(top)])
            texts = {path: content.decode(errors="replace") for path, (_, content) in tree_of(top).items() if content is not None}
            yield from (f"{word}: {it}; {told(done)}" for it in has_only(texts, moves[0], moves[2]))
        os.unlink(tried)


def undo_needs_no_room(at):
    """Small: --undo ends a run on a disk that is full."""
    place = at.folder / "mounted"
    for number in itertools.count(1):
        with mounted(place, "-t", "tmpfs", "-o", "size=256k", "tmpfs"):
            write_site(place / "R", as_bytes(PAIR))
            ended = at.caller.run(["--write", str(place / "R"), *MOVE[2:]], "killed-after", number)
            if ended.status == 0:
                return
            fill(place / "filler")
            stage = stage_of(place / "R")
            done = at.caller.run(["--undo", str(place / "R")])
            texts = {path: content.decode() for path, (_, content) in tree_of(place / "R").items() if content is not None}
            if stage not in (None, "cleaning"):
                yield from (f"killed after call {number}, {stage}: {it}; {told(done)}" for it in has_only(texts, PAIR))


def fill(path):
    """Fills a disk to its last byte."""
    with open(path, "wb", buffering=0) as file, contextlib.suppress(OSError):
        for size in itertools.chain([1 << 12] * 4096, [1] * 4096):
            while file.write(b"\0" * size) == size:
                pass


# Moves that another device below the root refuses: from it, to it, of it, and of a file to which a page there leads.
ACROSS = [["m/n.md", "n.md"], ["a.md", "m/a.md"], ["a.md", "m/d/x/a.md"], ["m", "k"], ["b.md", "x/b.md"]]


def other_devices_are_found(at):
    """Small: A move from or to another device below ROOT, or of a page there, is refused, in the dry run too."""
    for moves, options in itertools.product(ACROSS, ([], ["--write"])):
        at.begin(PAIR)
        with mounted(at.top / "m", "-t", "tmpfs", "tmpfs"):
            write_site(at.top / "m/d", {})
            (at.top / "m/n.md").write_text("n\n")
            (at.top / "m/p.md").write_text("[b](../b.md)\n")
            before = at.all()
            yield from at.refused(at.call(*options, "R", *moves), before, " ".join([*options, *moves]))
    at.begin(PAIR)
    with mounted(at.top / "m", "-t", "tmpfs", "tmpfs"):
        (at.top / "m/n.md").write_text("n\n")
        done = at.call(*MOVE)
        if done.status != 0:
            yield f"a move that has nothing to do with it: {told(done)}"
