"""Processes that work in one folder at once: `tools/relmove --together N`.

Six calls begin together, N times: four that move files, some of them the same, one `--resume` and one `--undo`. Each
file says its own name, and each link says the name of the file to which it leads. So the script knows of each link
where it has to lead, wherever page and file are then. Each call has to be done or refused, each file has to be there
once, and no link may lead elsewhere. What the calls that are done have moved is at its new path.
"""

import collections
import itertools
import posixpath
import random
import re

from calls import Caller, as_bytes
from common import told
from trees import Fault, is_own, tree_of, write_site

# How many calls move files at once, and how many pages there are in each of these directories.
MOVERS = 4
PAGES = 12
FOLDERS = ("", "d/", "d/e/", "f/")
LINK = re.compile(r"\[(\w+)\]\(([^)]*)\)")


def names_of(folder):
    """The names of the pages of a directory."""
    return [f"{folder.replace('/', '')}p{number}" for number in range(PAGES)]


def paths():
    """The path of each page, by its name."""
    return {name: f"{folder}{name}.md" for folder in FOLDERS for name in names_of(folder)}


def site(rng):
    """The texts of a site whose pages have random links to one another."""
    places, texts = paths(), {}
    for name, path in places.items():
        targets = rng.sample(sorted(places), 5)
        links = (f"[{it}]({posixpath.relpath(places[it], posixpath.dirname(path) or '.')})" for it in targets)
        texts[path] = "\n".join([f"page {name}", *links, ""])
    return texts


def random_moves(rng):
    """Moves of some pages, or a swap, or a directory that moves."""
    places = paths()
    one, other = rng.sample(sorted(places), 2)
    kinds = [
        {places[one]: f"new/{one}.md"},
        {places[one]: places[other], places[other]: places[one]},
        {places[one]: f"f/{one}-moved.md", places[other]: f"d/e/{other}-moved.md"},
        {"d/e": "g"},
    ]
    return rng.choice(kinds)


def faults_of_texts(texts):
    """The faults of the pages of a site: each has to be there once, with its links."""
    names = collections.Counter(text.split("\n")[0].removeprefix("page ") for text in texts.values())
    yield from (f"{name} is there {names[name]} times" for name in names.keys() | paths().keys() if names[name] != 1)
    for path, text in texts.items():
        for name, target in LINK.findall(text):
            place = posixpath.normpath(posixpath.join(posixpath.dirname(path), target))
            if not texts.get(place, "").startswith(f"page {name}\n"):
                yield f"LOST: the link of {path} to {name} leads to {place}"


def faults_of_calls(calls, texts):
    """The faults of how the calls ended, and of where what they moved is."""
    for moves, done in calls:
        if done.status not in (0, 2):
            yield f"{moves or 'an end'} ends with {told(done)}"
    moved = [moves for moves, done in calls if moves and done.status == 0]
    for new in moved[0].values() if len(moved) == 1 else ():
        if not any(it == new or it.startswith(f"{new}/") for it in texts):
            yield f"{new} isn't there"


def round_of(caller, top, rng):
    """One round: the faults of six calls that begin together, and how they ended."""
    write_site(top, as_bytes(site(rng)))
    moves = [random_moves(rng) for _ in range(MOVERS)]
    words = [["--write", "--quiet-mentions", "--", str(top), *itertools.chain(*it.items())] for it in moves]
    started = [caller.start(it) for it in [*words, ["--resume", str(top)], ["--undo", str(top)]]]
    calls = list(zip([*moves, None, None], [it.end() for it in started]))
    tree = tree_of(top)
    left = [it for it in tree if is_own(it)]
    texts = {path: content.decode() for path, (_, content) in tree.items() if content is not None and path not in left}
    faults = [*(f"{it} is left" for it in left), *faults_of_texts(texts), *faults_of_calls(calls, texts)]
    return faults, [done.status for moves, done in calls if moves]


def report_together(options, program, folder, counts, faults):
    """Lets six processes work at once in one folder, again and again."""
    caller = Caller(program, folder)
    for number in range(options.together):
        found, statuses = round_of(caller, folder / "R", random.Random(f"{options.seed} together {number}"))
        faults += [Fault("TOGETHER", f"round {number}", it, {}) for it in found]
        counts["rounds"] += 1
        counts["runs that are done"] += statuses.count(0)
        counts["runs that are refused"] += statuses.count(2)
    if not counts["runs that are done"]:
        faults.append(Fault("TOGETHER", "all rounds", "no run is done", {}))
