"""Paths of a call: what can't be made, what isn't read, an empty root, and links that climb out."""

import itertools
import os
import pathlib

from common import told
from hostile.bench import AS_NOBODY, NOBODY, PAIR, need_root
from hostile.stopped import STOPPED_BEFORE, begin_stopped, faults_of_end, other
from journals import line

LONG = "n" * 256


def names_are_asked_for(at):
    """4: A new path that can't be made is refused, in the dry run too."""
    files = {**PAIR, "d/e.md": "e\n"}
    news = [f"{LONG}/a.md", f"{LONG}.md", f"x/{LONG}/a.md", f"d/{LONG}", "é" * 128 + "/a.md", "x/" + "/".join(["n" * 250] * 17)]
    for new, options in itertools.product(news, ([], ["--write"])):
        at.begin(files)
        before = at.all()
        done = at.call(*options, "--any-name", "R", "a.md", new)
        yield from at.refused(done, before, f"{' '.join(options)} {new[:20]}.., {len(new.encode())} bytes")
    at.begin(files)
    done = at.call("--write", "--any-name", "R", "a.md", f"{LONG[1:]}/{LONG[1:]}")
    if done.status != 0:
        yield f"names of 255 bytes: {told(done)}"


def longest_paths_are_asked_for(at):
    """4: A new path that fits is moved to, or refused, also if the path of its new text wouldn't fit."""
    need = 4095 - len(str(at.top)) - 1
    for spare, options in itertools.product(range(-2, 16), ([], ["--write"])):
        names, left = [], need - spare - len("/a.md")
        while left > 250:
            names.append("n" * 200)
            left -= 201
        new = "/".join([*names, "m" * left, "a.md"])
        at.begin(PAIR)
        before = at.tree()
        done = at.call(*options, "R", "a.md", new)
        if done.status not in (0, 2) or (done.status == 2 or not options) and at.tree() != before:
            yield f"{' '.join(options)} {spare} bytes below the most: {told(done)[:300]}"


def directories_are_searched(at):
    """4: A new path below a directory that its user can't search is refused, in the dry run too."""
    need_root()
    for new, options in itertools.product(("d/a.md", "d/e/a.md"), ([], ["--write"])):
        at.begin({**PAIR, "d/n.txt": "note\n"}, owner=NOBODY)
        os.chmod(at.top / "d", 0o600)
        before = at.all()
        yield from at.refused(at.call(*options, "R", "a.md", new, **AS_NOBODY), before, f"{' '.join(options)} {new}")


def undo_tolerates_what_was_not_made(at):
    """4: --undo ends a run whose new directory can't have been made."""
    for placed in (f"{LONG}/note.txt", f"y/{LONG}/note.txt"):
        above = [str(it) for it in reversed(pathlib.PurePath(placed).parents)][1:]
        parts = {"made": [line("made", it) for it in above], **other("placed", 0, ".relmove-run/1", placed)}
        begin_stopped(at, "making", **parts)
        (at.top / "x").rmdir()
        yield from faults_of_end(at, f"{placed[:9]}..", "--undo", STOPPED_BEFORE)


def empty_root_is_wrong(at):
    """16: An empty ROOT is a wrong call."""
    for words in (["--resume", ""], ["--undo", ""], ["--check", ""], ["", "a.md", "x.md"], ["--write", "", "a.md", "x.md"]):
        begin_stopped(at)
        before = at.all()
        done = at.call(*words, cwd=at.top)
        yield from at.refused(done, before, " ".join(words))
        if b"usage" not in done.stderr:
            yield f"{words}: no usage: {told(done)}"


def unread_directories_keep_their_names(at):
    """17: A new path at or below where a directory goes that isn't read is refused."""
    files = {".git/config": "config\n", "d/.cache/c": "c\n", **PAIR}
    cases = [
        [".git", "git2", "a.md", "git2/config"], [".git", "git2", "a.md", "git2/x/y.md"], ["a.md", "git2/n.md", ".git", "git2"],
        [".git", "x/git", "a.md", "x/git/hooks/a.md"],
    ]
    for moves, options in itertools.product(cases, ([], ["--write"])):
        at.begin(files)
        before = at.all()
        yield from at.refused(at.call(*options, "--any-name", "R", *moves), before, f"{' '.join([*options, *moves])}")
    at.begin(files)
    done = at.call("--write", "R", ".git", "git2", "a.md", "x/a.md")
    if done.status != 0:
        yield f".git moves alone: {told(done)}"


def climbing_links_are_not_asked_for(at):
    """Small: What a link that climbs out of ROOT leads to isn't asked for on the disk."""
    links = "[o](../climbed/o.md) [b](../../climbed)\n[c](../R/climbed.md)\n"
    for words in (["--check", "R"], ["R", "c.md", "d/c.md"], ["--write", "R", "c.md", "d/c.md"]):
        at.begin({**PAIR, "c.md": links}, {"climbed/o.md": "o\n"})
        asked = ["\t".join(it) for it in at.call(*words).lines if any("climbed" in part for part in it)]
        if asked:
            yield f"{words[0]}: {asked}"
