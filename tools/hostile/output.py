"""What is printed: no control character, and nothing that isn't so."""

import itertools
import json
import os
import re

from common import told
from hostile.bench import MOVE, begin_pair
from hostile.stopped import begin_stopped
from trees import JOURNAL

CONTROL = re.compile("[\0-\x08\x0b-\x1f\x7f-\x9f\u200e\u200f\u2028\u2029\u202a-\u202e\u2066-\u2069]")
FORGED = "everything is as before"
ODD_NAME = f"o\x1b[31m\x07\u009b\u202e\r\n{FORGED}\n"


def control_characters_are_escaped(at):
    """15: Control characters in names and targets are written as \\u{1b} in all output but JSON."""
    files = {f"{ODD_NAME}.md": "[x](<gone\x1b\x07\u009b\u202e.md>)\n", "a.md": "<base href='/'>\n", "b.md": "b\n"}
    files[f"{ODD_NAME}base.md"] = "<base href='/'>\n"
    calls = {
        "--check": ["--check", "R"],
        "a dry run": ["--any-name", "R", f"{ODD_NAME}.md", f"n/{ODD_NAME}2.md"],
        "a run": ["--any-name", "--write", "R", f"{ODD_NAME}.md", f"n/{ODD_NAME}2.md"],
        "nothing there": ["R", f"{ODD_NAME}3.md", "c.md"],
        "a name that isn't plain": ["R", "b.md", f"{ODD_NAME}.md"],
        "a path that is taken": ["--any-name", "R", "b.md", f"{ODD_NAME}.md"],
        "the same new path": ["--any-name", "R", "a.md", f"{ODD_NAME}4", "b.md", f"{ODD_NAME}4"],
        "a root that isn't there": ["--check", f"/{ODD_NAME}"],
        "--resume": ["--resume", f"/{ODD_NAME}"],
        "a wrong option": [f"--{ODD_NAME}", "R"],
    }
    for what, words in calls.items():
        at.begin(files)
        os.symlink("b.md", at.top / f"{ODD_NAME}link")
        (at.top / f"{ODD_NAME}latin.md").write_bytes(b"\xff")
        done = at.call(*words)
        yield from faults_of_output(what, done)
    yield from json_is_json(at, files)


def faults_of_output(what, done):
    """The faults of an output that has to have no control character, and those of the odd name escaped."""
    said = (done.stdout + done.stderr).decode(errors="replace")
    found = {it for it in CONTROL.findall(said)}
    if found:
        yield f"{what}: {sorted(found)} in {said[:200]!r}"
    if FORGED in said.split("\n"):
        yield f"{what}: a line is forged"
    if "\\u{1b}" not in said:
        yield f"{what}: no \\u{{1b}} in {said[:200]!r}"


def json_is_json(at, files):
    """The faults of JSON, which has the names as they are."""
    at.begin(files)
    done = at.call("--check", "--json", "R")
    rows = [json.loads(it) for it in done.stdout.decode().split("\n")[:-1]]
    if f"{ODD_NAME}.md" not in [it["page"] for it in rows]:
        yield f"--json: {rows}"


def stopped_output_is_escaped(at):
    """15: What is printed of a run that stopped has no control character either."""
    files = {"b.md": "[x](<o.md>)\n", f"{ODD_NAME}.md": "[b](b.md)\n"}
    words = ["--any-name", "--write", "R", f"{ODD_NAME}.md", f"n/{ODD_NAME}2.md"]
    at.begin(files)
    for number in range(1, at.caller.count(at.words(words)) + 1):
        at.begin(files)
        for done in (at.call(*words, way="undone", at=f"{number}.."), at.call("--undo", "R")):
            said = (done.stdout + done.stderr).decode(errors="replace")
            if CONTROL.search(said):
                yield f"call {number} and all after it fail: {said[:300]!r}"


def words_are_true(at):
    """Small: A call that stops says nothing of a journal that isn't there, nor that no file is lost where one is."""
    for way, and_on in itertools.product(("undone", "done"), ("", "..")):
        begin_pair(at)()
        for number in range(1, at.caller.count(at.words(MOVE)) + 1):
            begin_pair(at)()
            done = at.call(*MOVE, way=way, at=f"{number}{and_on}")
            if done.status == 3 and not os.path.lexists(at.top / JOURNAL) and b"has the old paths" in done.stderr:
                yield f"{way} {number}{and_on}: {told(done)}"
    begin_stopped(at)
    (at.top / ".relmove-run/1").unlink()
    for word in ("--resume", "--undo"):
        done = at.call(word, "R")
        if b"lost no file" in done.stderr + done.stdout or done.status == 0:
            yield f"{word}, a file is gone: {told(done)}"
