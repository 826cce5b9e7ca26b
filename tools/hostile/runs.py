"""Two runs at once, in one folder and in a folder in it."""

import itertools
import os
import pathlib

from common import told
from hostile.bench import BESIDE, MOVE, PAIR, PAIR_MOVED, begin_pair, has_only
from trees import JOURNAL, difference

# What another process may call while a run is at work.
OTHERS = [["--undo", "R"], ["--resume", "R"], ["--write", "R", "b.md", "y.md"], ["--write", "R", "a.md", "z.md"]]


def others_refused(at, what):
    """The faults of other calls while a run is held: each has to be refused and to change nothing."""
    before = at.all()
    for words in OTHERS:
        yield from at.refused(at.call(*words), before, f"{' '.join(words)}, {what}")


def runs_exclude_each_other(at):
    """3: While a run is held, each other run is refused and changes nothing, and then the run ends as if alone."""
    for number, call in at.holds(begin_pair(at), *MOVE):
        yield from others_refused(at, f"held after call {number}")
        ended = call.end()
        if ended.status != 0:
            yield f"held after call {number}: the run ends with {told(ended)}"
        at.ended()
        yield from has_only(at.texts(), PAIR_MOVED)


def runs_exclude_ends(at):
    """3: While --undo or --resume is held, each other run is refused and changes nothing."""
    first = first_placing(at)

    def begin():
        at.begin(PAIR, BESIDE)
        at.call(*MOVE, way="killed-after", at=first)

    for word, wanted in (("--undo", PAIR), ("--resume", PAIR_MOVED)):
        for number, call in at.holds(begin, word, "R"):
            yield from others_refused(at, f"{word} held after call {number}")
            ended = call.end()
            if ended.status != 0:
                yield f"{word} held after call {number} ends with {told(ended)}"
            yield from has_only(at.texts(), wanted)


def first_placing(at):
    """The number of the first call of a run that renames something to a plain path."""
    at.begin(PAIR, BESIDE)
    calls = at.call(*MOVE).calls
    at.begin(PAIR, BESIDE)
    return next(number for number, it in enumerate(calls, 1) if it[0] == "rename" and ".relmove" not in it[2])


def lock_is_before_reading(at):
    """3: A run that reads the tree excludes others already."""
    at.begin(PAIR, BESIDE)
    call = at.caller.start(at.words(MOVE), held_at=str(at.top / "b.md"))
    if not call.is_held():
        yield f"it doesn't read b.md: {told(call.end())}"
        return
    before = at.all()
    yield from at.refused(at.call("--write", "R", "b.md", "y.md"), before, "a run while another one reads")
    ended = call.end()
    if ended.status != 0:
        yield f"the run ends with {told(ended)}"
    yield from has_only(at.texts(), PAIR_MOVED)


def readers_are_told(at):
    """3: A dry run and --check say that a run is at work."""
    for words in (["R", "b.md", "y.md"], ["--check", "R"]):
        for number, call in at.holds(begin_pair(at), *MOVE):
            before, done = at.all(), at.call(*words)
            if not done.stderr.strip():
                yield f"{words[0]}, held after call {number}: it says nothing: {told(done)}"
            yield from difference(at.all(), before)
            call.end()


# The pages of a folder in a folder.
NESTED = {"a.md": "[c](docs/c.md)\n", "docs/c.md": "[a](../a.md) [d](d.md)\n", "docs/d.md": "[c](c.md)\n"}
OUTER, INNER = ["--write", "R", "a.md", "x/a.md"], ["--write", "R/docs", "c.md", "e/c.md"]


def nested_words(at, words):
    """The words of a call in the folder or in the folder in it."""
    return [it.replace("R", str(at.top), 1) if it.startswith("R") else it for it in words]


def nested_journals_refuse(at):
    """14: A journal below ROOT, or in a directory above it, refuses the run."""
    for one, other_run in ((OUTER, INNER), (INNER, OUTER)):
        for number in at.kills(lambda: at.begin(NESTED), *nested_words(at, one)):
            if os.path.lexists(pathlib.Path(nested_words(at, one)[1]) / JOURNAL):
                before, done = at.all(), at.caller.run(nested_words(at, other_run))
                yield from at.refused(done, before, f"{other_run[1]}, while {one[1]} was killed after call {number}")


def nested_runs_exclude_each_other(at):
    """14: Of two runs at once in nested folders at least one goes back, and no link is lost."""
    for one, other_run in ((OUTER, INNER), (INNER, OUTER)):
        for number, later in itertools.product(range(1, 9), range(1, 9)):
            at.begin(NESTED)
            first = at.caller.start(nested_words(at, one), "held-after", number)
            first.is_held()
            second = at.caller.start(nested_words(at, other_run), "held-after", later)
            second.is_held()
            ends = [first.end(), second.end()]
            what = f"{one[1]} held after call {number}, {other_run[1]} after {later}"
            if all(it.status in (0, 1) for it in ends):
                yield f"{what}: both are done"
            if any(it.status not in (0, 1, 2) for it in ends):
                yield f"{what}: {[told(it) for it in ends]}"
            yield from (f"{what}: {it}" for it in nested_faults(at))


def nested_faults(at):
    """The faults of the folder after two runs: it is as before, or as after one of them."""
    outer = {"x/a.md": "[c](../docs/c.md)\n", "docs/c.md": "[a](../x/a.md) [d](d.md)\n", "docs/d.md": "[c](c.md)\n"}
    inner = {**NESTED, "docs/e/c.md": "[a](../a.md) [d](../d.md)\n", "docs/d.md": "[c](e/c.md)\n"}
    del inner["docs/c.md"]
    yield from has_only(at.texts(), NESTED, outer, inner)
