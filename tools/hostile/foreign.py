"""Journals that no run of this program wrote in their folder."""

import itertools
import os
import re
import shutil

from common import told
from hostile.stopped import ENDS, PARTS, begin_stopped, faults_of_end, more, other, write_stopped
from journals import digest_of, end_of, line, origin_of
from trees import END, JOURNAL, NEW_JOURNAL, RUN_DIRECTORY, difference, without_left


def own_journal_is_believed(at):
    """2: A journal that a run of this program can have written, for this folder, is believed."""
    for word, wanted in ENDS:
        begin_stopped(at)
        yield from faults_of_end(at, word, word, wanted)


SECRET = digest_of(b"a secret\n")
# Journals that are sealed for their folder, and that no run of this program can have written.
FOREIGN = {
    "a plain file is removed": more("removed", line("removed", "b.md", *SECRET)),
    "a staging name is removed that nothing was staged to": more("removed", line("removed", ".relmove-run/9", *SECRET)),
    "a new text is removed": {**other("placed", 1, ".relmove-run/2", "a.md"), **other("removed", 0, ".relmove-run/3", *SECRET)},
    "a text is removed, and no new one comes": {"text": [], "placed": PARTS["placed"][:1]},
    "a file is staged to a plain path": other("staged", 0, "note.txt", "y.txt"),
    "a file is staged below a directory": other("staged", 0, "note.txt", "x/.relmove-run/1"),
    "a file is staged below a staging name": other("staged", 0, "note.txt", ".relmove-run/2/1"),
    "a file is staged out of the run's directory": other("staged", 0, "note.txt", ".relmove-run/../1"),
    "a file is staged to a name without a number": other("staged", 0, "note.txt", ".relmove-run/x"),
    "a file is staged to the file of who ends the run": other("staged", 0, "note.txt", END),
    "a file is staged to the run's directory": other("staged", 0, "note.txt", RUN_DIRECTORY),
    "a file is staged to a name of version 2": other("staged", 0, "note.txt", ".relmove-1"),
    "a file is staged to the journal": other("staged", 0, "note.txt", JOURNAL),
    "two files are staged to one name": other("staged", 1, "a.md", ".relmove-run/1"),
    "a file is staged twice": more("staged", line("staged", "note.txt", ".relmove-run/7")),
    "a new text is staged": more("staged", line("staged", ".relmove-run/3", ".relmove-run/7")),
    "what is staged is neither placed nor removed": more("staged", line("staged", "b.md", ".relmove-run/7")),
    "a plain file is placed": other("placed", 0, "note.txt", "x/note.txt"),
    "a name is placed that nothing was staged to": more("placed", line("placed", ".relmove-run/7", "y.txt")),
    "two files are placed at one path": other("placed", 0, ".relmove-run/1", "a.md"),
    "a file is placed below .git": other("placed", 0, ".relmove-run/1", ".git/hooks/post-checkout"),
    "a file is placed above the root": other("placed", 0, ".relmove-run/1", "../note.txt"),
    "a file is placed at an absolute path": other("placed", 0, ".relmove-run/1", "/nowhere/hostile.txt"),
    "a file is placed at the journal": other("placed", 0, ".relmove-run/1", NEW_JOURNAL),
    "a file is placed in the run's directory": other("placed", 0, ".relmove-run/1", ".relmove-run/9"),
    "a directory is made below .git": more("made", line("made", ".git/y")),
    "a directory is made above the root": more("made", line("made", "../y")),
    "a directory is made at the run's": more("made", line("made", RUN_DIRECTORY)),
    "a directory is made at a staging name": more("made", line("made", ".relmove-run/9")),
    "a directory is made below .git in one that moves": more("made", line("made", ".relmove-run/1/.git/y")),
    "a directory below .git is emptied": more("emptied", line("emptied", ".git/hooks")),
    "a directory above the root is emptied": more("emptied", line("emptied", "../out")),
    "the run's directory is emptied": more("emptied", line("emptied", RUN_DIRECTORY)),
    "a new text has a plain path": other("text", 0, "a.md", *digest_of(b"")),
    "a new text is below a directory": other("text", 0, "x/.relmove-run/3", *digest_of(b"")),
    "a new text has no number": other("text", 0, ".relmove-run/y", *digest_of(b"")),
    "a new text has no length": {"text": [line("text", ".relmove-run/3", SECRET[1])]},
    "a new text has no digest": {"text": [line("text", ".relmove-run/3", 1, "0" * 63)]},
    "a path has a raw tab": {"placed": ["placed\t.relmove-run/1\tx/no\tte.txt", PARTS["placed"][1]]},
    "a path has a NUL": other("placed", 0, ".relmove-run/1", "x/note\0.txt"),
    "a path has an unknown escape": {"placed": ["placed\t.relmove-run/1\tx/\\q.txt", PARTS["placed"][1]]},
    "a path ends in a backslash": {"placed": ["placed\t.relmove-run/1\tx/note\\", PARTS["placed"][1]]},
    "a path isn't UTF-8": other("placed", 0, ".relmove-run/1", "x/\udcff.txt"),
    "a path has an empty name": other("placed", 0, ".relmove-run/1", "x//note.txt"),
    "a path has a name of one dot": other("placed", 0, ".relmove-run/1", "x/./note.txt"),
    "a path is empty": other("placed", 0, ".relmove-run/1", ""),
    "a word is unknown": {"emptied": [line("apart", "note.txt", ".relmove-run/1")]},
    "a stage is unknown": {"stage": "returning"},
    "a number of its origin is too large": {"origin": {"time": 1 << 64}},
    "a number of its origin is none": {"origin": {"owner": "root"}},
}

# Options with which a journal is believed only in its folder, and with which it is trusted in any.
TRUSTS = ([], ["--trust-journal", "--write"])
STAGES = ("writing", "staging", "making", "placing", "cleaning", "unplacing", "unmaking", "unstaging", "erasing")
# Journals that a run may have written, if a directory was where the symbolic link `esc` is now.
THROUGH = {
    "a file is staged": other("staged", 0, "esc/secret", ".relmove-run/1"),
    "a file is placed": other("placed", 0, ".relmove-run/1", "esc/note.txt"),
    "a directory is made": more("made", line("made", "esc/y")),
    "a directory is emptied": more("emptied", line("emptied", "esc/empty")),
}


def links_are_not_followed(at):
    """2: A journal with a symbolic link on the way of a step changes nothing where the link leads."""
    for (what, parts), stage, word, trust in itertools.product(THROUGH.items(), STAGES, ("--resume", "--undo"), TRUSTS):
        begin_stopped(at, stage, **parts)
        (at.case / "out/empty").mkdir()
        before = at.beside()
        done = at.call(word, *trust, "R")
        faults = difference(at.beside(), before)
        yield from (f"{word}, {what}, {stage}: {it}: {told(done)}" for it in faults)


def own_directory_is_no_link(at):
    """2: If `.relmove-run` is a symbolic link, nothing changes where it leads, whichever inode the journal says."""
    for stage, word, trust, follows in itertools.product(STAGES, ("--resume", "--undo"), TRUSTS, (False, True)):
        begin_stopped(at, stage)
        os.rename(at.top / RUN_DIRECTORY, at.case / "out/run")
        (at.top / RUN_DIRECTORY).symlink_to("../out/run")
        write_stopped(at, stage, origin={"run": os.stat(at.top / RUN_DIRECTORY, follow_symlinks=follows).st_ino})
        before = at.beside()
        done = at.call(word, *trust, "R")
        faults = difference(at.beside(), before)
        yield from (f"{' '.join([word, *trust])}, {stage}: {it}: {told(done)}" for it in faults)


def origins_are_asked_for(at):
    """2: A journal that says another root, another file of its own, another owner or another time is refused."""
    for name, word in itertools.product(("root", "file", "owner", "time"), ("--resume", "--undo")):
        begin_stopped(at)
        write_stopped(at, origin={name: origin_of(at.top)[name] + 1})
        before = at.all()
        yield from at.refused(at.call(word, "R"), before, f"{word}, another {name}")


def exchanged_directories_stop(at):
    """2: If another directory is at `.relmove-run`, a call stops and says so. When the run's is back, the call ends the run."""
    for word, wanted in ENDS:
        begin_stopped(at)
        own = at.case / "own"
        os.rename(at.top / RUN_DIRECTORY, own)
        shutil.copytree(own, at.top / RUN_DIRECTORY)
        before, done = without_left(at.tree()), at.call(word, "R")
        yield from (f"{word}: {it}" for it in difference(without_left(at.tree()), before))
        if done.status != 3 or RUN_DIRECTORY not in told(done):
            yield f"{word}: {told(done)}"
        shutil.rmtree(at.top / RUN_DIRECTORY)
        os.rename(own, at.top / RUN_DIRECTORY)
        yield from faults_of_end(at, f"{word}, with its own directory", word, wanted)


def foreign_journals_are_refused(at):
    """2: A journal that no run of this program can have written changes nothing."""
    for (what, parts), word in itertools.product(FOREIGN.items(), ("--resume", "--undo")):
        begin_stopped(at, **parts)
        (at.top / "b.md").write_text("b\n")
        before = at.all()
        yield from at.refused(at.call(word, "R"), before, f"{word}, {what}")


def changed_journals_are_refused(at):
    """2: A journal with another byte, without its end, or with more after it, changes nothing."""
    begin_stopped(at)
    text = (at.top / JOURNAL).read_bytes()
    *lines, _, _ = text.split(b"\n")
    texts = {
        "version 1": b"relmove journal 1\nstage\tcleaning\nremoved\tesc/secret\nend\n",
        "version 2": with_end([b"relmove journal 2", *lines[1:3], *lines[6:]]),
        "another length": text.replace(b"\nend\t", b"\nend\t1"),
        "another digest": text[:-2] + (b"0\n" if text[-2:] != b"0\n" else b"1\n"),
        "no end": b"\n".join([*lines, b""]),
        "no owner": with_end([*lines[:4], *lines[5:]]),
        "a line is there twice": with_end([*lines[:3], *lines[2:]]),
        "two lines are exchanged": with_end([lines[0], lines[2], lines[1], *lines[3:]]),
        "a number begins with a zero": with_end([it.replace(b"owner\t", b"owner\t0") for it in lines]),
        "more after the end": text + b"made\ty\n",
        "nothing": b"",
        "a byte of a path is another": text.replace(b"x/note.txt", b"x/nose.txt"),
        "a NUL after the end": text + b"\0",
        "carriage returns": text.replace(b"\n", b"\r\n"),
    }
    cuts = {f"cut off at byte {at_byte}": text[:at_byte] for at_byte in range(0, len(text), 29)}
    for (what, changed), word in itertools.product({**texts, **cuts}.items(), ("--resume", "--undo")):
        begin_stopped(at)
        (at.top / JOURNAL).write_bytes(changed)
        before, done = at.all(), at.call(word, "R")
        yield from at.refused(done, before, f"{word}, {what}")
        if what.startswith("version") and "older" not in told(done):
            yield f"{word}, {what}: it isn't told as one of an older version: {told(done)}"


def with_end(lines):
    """A journal of these lines, with their digest at its end."""
    text = b"".join(it + b"\n" for it in lines)
    return text + end_of(text)


def copied_journals_are_refused(at):
    """2: A journal of another folder, or that is another file, is refused; --trust-journal says what it would do."""
    copies = {"the folder is a copy": copy_folder, "the journal is a copy": copy_journal}
    for (word, wanted), (what, copy) in itertools.product(ENDS, copies.items()):
        begin_stopped(at)
        copy(at)
        before = at.all()
        yield from at.refused(at.call(word, "R"), before, f"{word}, {what}")
        done = at.call(word, "--trust-journal", "R")
        yield from (f"{word} --trust-journal: {it}" for it in difference(at.all(), before))
        yield from (f"{word} --trust-journal doesn't name {it}: {told(done)}" for it in (".relmove-run/1", "note.txt")
                    if it not in told(done))
        yield from faults_of_end(at, f"{word}, {what}, trusted", word, wanted, *TRUSTS[1])


def copy_folder(at):
    """Puts a copy of the root in its place."""
    os.rename(at.top, at.case / "old")
    shutil.copytree(at.case / "old", at.top, symlinks=True)
    shutil.rmtree(at.case / "old")


def copy_journal(at):
    """Puts a copy of the journal in its place."""
    text = (at.top / JOURNAL).read_bytes()
    (at.top / "journal").write_bytes(text)
    os.rename(at.top / "journal", at.top / JOURNAL)


def trust_is_not_blind(at):
    """2: --trust-journal --write doesn't do what no run of this program can have written."""
    for (what, parts), word in itertools.product(FOREIGN.items(), ("--resume", "--undo")):
        begin_stopped(at, **parts)
        (at.top / "b.md").write_text("b\n")
        before = at.all()
        yield from at.refused(at.call(word, "--trust-journal", "--write", "R"), before, f"{word}, {what}")


def journal_has_its_time(at):
    """2: The message for a folder that has a journal says when the run was, and warns of a folder from elsewhere."""
    said = set()
    for seconds in (1_000_000_000, 1_200_000_000):
        begin_stopped(at)
        os.utime(at.top / JOURNAL, (seconds, seconds))
        done = at.call("--write", "R", "b.md", "c.md")
        said.add(done.stderr)
        if not re.search("elsewhere|someone|somebody|stranger|came with|copied|copy|cloned|another folder", told(done)):
            yield f"it doesn't warn: {told(done)}"
    if len(said) < 2:
        yield f"it doesn't say when: {said}"
