"""The names of the run's own files, and what strangers have there."""

import itertools
import os

from common import told
from hostile.bench import BESIDE, MOVE, PAIR, PAIR_MOVED, STRANGERS, begin_pair, ends_whole, ends_with
from journals import HEAD, ORIGIN, end_of, line
from trees import CALLER, END, JOURNAL, NEW_JOURNAL, RUN_DIRECTORY, SPARE, difference

# A call of each kind that has to find none of a run's own files, or to end a run.
CALLS = [MOVE, MOVE[1:], ["--resume", "R"], ["--undo", "R"]]


def run_files_are_new(at):
    """1: What a run of this program can't have left at one of its own names in ROOT refuses each call."""
    names = (NEW_JOURNAL, JOURNAL, SPARE, CALLER, RUN_DIRECTORY)
    for name, (what, put), words in itertools.product(names, STRANGERS.items(), CALLS):
        if (name, what) == (RUN_DIRECTORY, "a directory"):
            continue  # a run that was killed may have left it
        at.begin(PAIR, BESIDE)
        put(at.top / name)
        before, done = at.all(), at.call(*words)
        yield from at.refused(done, before, f"{what} at {name}, {words[0]}")
        if name != JOURNAL and words[0].startswith("--") and name not in told(done):
            yield f"{what} at {name}, {words[0]}: it isn't named: {told(done)}"


def staging_names_are_new(at):
    """1: What is in a directory `.relmove-run` without a journal refuses each call, and stays."""
    for (what, put), name, words in itertools.product(STRANGERS.items(), ("1", "end", "x"), CALLS):
        at.begin(PAIR, BESIDE)
        (at.top / RUN_DIRECTORY).mkdir()
        put(at.top / RUN_DIRECTORY / name)
        before, done = at.all(), at.call(*words)
        yield from at.refused(done, before, f"{what} at {name}, {words[0]}")
        if RUN_DIRECTORY not in told(done):
            yield f"{what} at {name}, {words[0]}: it isn't named: {told(done)}"


def reserved_names_are_new(at):
    """1: What is at a staging name that a plan gives stays."""
    for what, put in STRANGERS.items():
        at.begin({**PAIR, "d/c.md": "[a](../a.md)\n"}, BESIDE)
        for path in (*(f".relmove-{it}" for it in range(1, 9)), "d/.relmove-1", "d/.relmove-2"):
            put(at.top / path)
        before, done = at.all(), at.call("--write", "R", "a.md", "x/a.md")
        if done.status == 2:
            yield from difference(at.all(), before)
            continue
        after = {f"R/{path}": text for path, text in {**PAIR_MOVED, "d/c.md": "[a](../x/a.md)\n"}.items()}
        yield from own_names_stay(at, what, done, before, after)


def own_names_stay(at, what, done, before, after):
    """The faults of a run that passes over strangers."""
    if done.status != 0:
        yield f"{what}: {told(done)}"
    tree = at.all()
    changed = {path for path in before.keys() | tree.keys() if before.get(path) != tree.get(path)}
    yield from (f"{what}: {it} is changed" for it in changed - {"R/a.md", "R/x", *after})
    yield from (f"{what}: {it} isn't right" for it in after if tree.get(it, (0, b""))[1] != after[it].encode())


def left_files_are_removed(at):
    """1: What a kill left before there was a journal, whole or in part, refuses a run, and --resume and --undo remove it."""
    lines = "\n".join([HEAD, *(line(it, 1) for it in ORIGIN), line("stage", "writing"), ""])
    text = lines + end_of(lines.encode()).decode()
    names = (NEW_JOURNAL, SPARE, CALLER, None)
    for word, name, part in itertools.product(("--resume", "--undo"), names, (0.0, 0.1, 0.5, 1.0)):
        at.begin(PAIR)
        (at.top / RUN_DIRECTORY).mkdir()
        if name:
            (at.top / name).write_text(text[:int(part * len(text))])
        before, what = at.all(), f"{word}, {name or RUN_DIRECTORY}"
        yield from at.refused(at.call(*MOVE), before, f"{what}: a run")
        done = at.call(word, "R")
        if done.status != 2:
            yield f"{what}: {told(done)}"
        yield from (f"{what}: {it}" for it in ends_with(at, PAIR))


# Names of the run's own to which strangers come together.
COMING = [[JOURNAL], [NEW_JOURNAL], [SPARE], [CALLER], [RUN_DIRECTORY], [END], [f".relmove-run/{it}" for it in range(1, 8)]]


def strangers_stay(at):
    """3: A file that comes to one of the run's own names while it works stays, with its bytes."""
    for names in COMING:
        for number, call in at.holds(begin_pair(at), *MOVE):
            what = f"{names[0]}, held after call {number}"
            put = put_strangers(at, names)
            call.end()
            yield from (f"{what}: {it} is gone or has other bytes" for it in put if not is_stranger(at, it))
            for name in (it for it in put if is_stranger(at, it)):
                (at.top / name).unlink()
            yield from ends_whole(at, what)


def put_strangers(at, names):
    """Puts files at those of these names that are free."""
    free = [it for it in names if (at.top / it).parent.is_dir() and not os.path.lexists(at.top / it)]
    for name in free:
        (at.top / name).write_text(f"a stranger at {name}\n")
    return free


def is_stranger(at, name):
    """Whether a stranger's file is at a name, as it was put."""
    path = at.top / name
    return path.is_file() and path.read_text() == f"a stranger at {name}\n"


def reserved_names_do_not_move(at):
    """10: The run's own names are refused as OLD."""
    olds = (NEW_JOURNAL, ".relmove-1", "d/.relmove-2", ".relmove-x", "d/.relmove-run")
    for old, options in itertools.product(olds, ([], ["--write"])):
        at.begin({**PAIR, "d/c.md": "c\n", old: "a file of a user\n"})
        before = at.all()
        yield from at.refused(at.call(*options, "R", old, "y.md"), before, f"{' '.join(options)} {old}")


def left_names_are_mentioned(at):
    """Small: Names of a run's own that lie about without a journal are mentioned."""
    for words in (["--check", "R"], ["R", "a.md", "x/a.md"], MOVE):
        for name in (".relmove-7", "d/.relmove-3", "d/.relmove-run"):
            at.begin({**PAIR, "d/c.md": "c\n", name: "left\n"})
            done = at.call(*words)
            if name not in told(done):
                yield f"{words[0]} doesn't mention {name}: {told(done)}"
