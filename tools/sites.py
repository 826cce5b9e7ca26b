"""What tools/moves and tools/relmove share: sites whose files move, and a reader of links that isn't this library's."""

import bisect
import collections
import ctypes
import ctypes.util
import functools
import html
import html.entities
import html.parser
import os
import re
import sys
import urllib.parse

from common import Tags, labels_of, real_pages

# The URL of the site, deep enough that no link climbs to its top.
SITE = "http://site.example" + "".join(f"/above{number}" for number in range(24))
TOP = urllib.parse.urlsplit(SITE).path
PATH_AND_TAIL = re.compile(r"([^?#]*)(.*)", re.S)
ENDS = "".join(map(chr, range(33)))

# What Python's reader of URLs reads otherwise than the URL standard in the text before the query and the fragment, each
# with what puts it right.
CORRECTED = {
    "tabs and line ends are nothing": lambda path: re.sub(r"[\t\r\n]", "", path),
    "a backslash is a slash": lambda path: path.replace("\\", "/"),
    "%2e is a dot in a name of dots": lambda path: re.sub(
        r"(?i)(?<![^/])(?:\.|%2e){1,2}(?![^/])", lambda it: re.sub("(?i)%2e", ".", it[0]), path
    ),
    "a semicolon belongs to its name": lambda path: path.replace(";", "%3B"),
}

# A start tag by CommonMark, section 6.6.
START_TAG = re.compile(
    r"""<[A-Za-z][A-Za-z0-9-]*(?:\s+[A-Za-z_:][\w.:-]*(?:\s*=\s*(?:[^\s"'=<>`]+|'[^']*'|"[^"]*"))?)*\s*/?>""", re.ASCII
)

# What is known to set a link at fault, as README.md of target_paths says. By the standards `a//../b` is `a/b`, since `..`
# takes back the empty name. This library, and Python's reader too, take two slashes for one.
EMPTY_NAME = "an empty name before `..`"

# What random names are made of, and names that may be misread.
LETTERS = "abcxyzABC0159.-_~"
PUNCTUATION = "!\"#$%&'()*+,-.:;<=>?@[\\]^_`{|}~ "
CONTROLS = "".join(map(chr, [*range(1, 32), 127]))
PAST_ASCII = "éßÜ日本\u00a0\u0085\u2028\ufeff\u0301😀\U0010ffff"
NAMES = """a b.md c.md img d e.md index.md x.png %2e %2e%2e a%20b %25 %zz &amp; &copy; &#65; &T {{x}} {% ${x} a:b C: http: -
--- *** ___ ~~~ ``` # a#b a?b ... .git a;b ;x ..;x $x [x] [a](b) <b> <!--a a|b (a (a) a) 'a "a \\ a\\b \\# é 日 a&b=c + * 1. main p""".split()
AWKWARD = ["my files", "100%", "a#b", "what?", "(a", "b) c", "a&amp;b", "R&D", "C:", "x:y", "é", "日本", "a\\b", "%41", "{{a}}", "'q\"", "-"]

# What no plain name has, but for dots and spaces at its end.
NOT_PLAIN = re.compile(r"""[\0-\x1f\x7f"*<>?|:\\]""")

# A link: where it leads by the standard, and without empty names, and whether its path ends in a slash.
Link = collections.namedtuple("Link", "place plain_place ends_in_slash")


# Python ends an attribute at all that Unicode takes for a space, and browsers at a space of ASCII.
for name in ("attrfind_tolerant", "locatestarttagend_tolerant"):
    pattern = getattr(html.parser, name)
    setattr(html.parser, name, re.compile(pattern.pattern, pattern.flags & ~re.UNICODE | re.ASCII))


# A character reference, with the byte after it if that is `=`. Before `=`, a letter or a digit, a name in an attribute has
# to end in a semicolon. Not each version of Python knows this.
REFERENCE = re.compile(r"&(?:#[0-9]+|#[xX][0-9a-fA-F]+|[a-zA-Z][a-zA-Z0-9]*)[;=]?")


def unescaped(value):
    """The value of an attribute, with the characters of its references."""
    return REFERENCE.sub(lambda it: html.unescape(it[0]) if it[0][1] == "#" or it[0][1:] in html.entities.html5 else it[0], value)


html.parser.unescape = unescaped


class PageTags(Tags):
    """The values of `href` and `src`, the empty ones too; the numbers of those in tags that CommonMark doesn't know; and
    whether a `<base href>` is among the tags."""

    def __init__(self):
        super().__init__()
        self.unknown, self.has_base = set(), False

    def handle_starttag(self, tag, attrs):
        first = dict(reversed(attrs))
        if tag == "base" and first.get("href") is not None:
            self.has_base = True
        else:
            values = [first[it] for it in ("href", "src") if first.get(it) is not None]
            if not START_TAG.fullmatch(self.get_starttag_text()):
                self.unknown.update(range(len(self.values), len(self.values) + len(values)))
            self.values += values


@functools.cache
def library():
    """The library of `cmark`, and the C library."""
    name = ctypes.util.find_library("cmark")
    if not name:
        sys.exit("the library of cmark is needed: apt-get install libcmark0.30.2")
    cmark, libc = ctypes.CDLL(name), ctypes.CDLL(None)
    cmark.cmark_markdown_to_html.restype = ctypes.c_void_p
    cmark.cmark_markdown_to_html.argtypes = [ctypes.c_char_p, ctypes.c_size_t, ctypes.c_int]
    libc.free.argtypes = [ctypes.c_void_p]
    return cmark, libc


def html_by_cmark(pages, _folder):
    """What `cmark` renders for pages, with their HTML."""
    cmark, libc = library()
    unsafe = 1 << 17
    for page in pages:
        text = page.encode()
        rendered = cmark.cmark_markdown_to_html(text, len(text), unsafe)
        yield ctypes.string_at(rendered).decode()
        libc.free(rendered)


def label_links(text):
    """For each label of a page a link with that name, which shows, before the page, where the label's definition leads."""
    return "".join(f"[{label}]\n\n" for label in labels_of(text))


def url_of(path):
    """The URL of a file of the site."""
    return f"{SITE}/{urllib.parse.quote(path)}"


def corrected(path):
    """The text before the tail of a URL, as Python reads it right."""
    for change in CORRECTED.values():
        path = change(path)
    return path


def link_of(value, url):
    """Where a value leads from the page at a URL. `None` if the value isn't a relative path."""
    path, tail = PATH_AND_TAIL.fullmatch(value.lstrip(ENDS)).groups()
    path = corrected(path if tail else path.rstrip(ENDS))
    try:
        parts = urllib.parse.urlsplit(path)
    except ValueError:
        return None
    if not path or parts.scheme or parts.netloc or path.startswith("/"):
        return None
    resolved = urllib.parse.urlsplit(urllib.parse.urljoin(url, path)).path
    return Link(decoded(by_standard(path, url)), decoded(resolved), resolved.endswith("/"))


def decoded(path):
    """The place of a path of a URL."""
    return urllib.parse.unquote(path, "utf-8", "surrogateescape").rstrip("/")


def by_standard(path, url):
    """The path of a URL as the URL standard reads it, which keeps empty names, and then without them."""
    names = urllib.parse.urlsplit(url).path.split("/")[:-1]
    for name in path.split("/"):
        if name == "..":
            del names[-1:]
        elif name != ".":
            names.append(name)
    return "/" + "/".join(it for it in names if it)


def taken(place, moves):
    """Where the moves take a path of the site: the nearest move counts."""
    above = place
    while above:
        if above in moves:
            return moves[above] + place[len(above):]
        above = above.rpartition("/")[0]
    return place


def moved_place(place, moves):
    """Where the moves take a place, in the site or not."""
    if not place.startswith(f"{TOP}/"):
        return place
    return f"{TOP}/{taken(place[len(TOP) + 1:], moves)}"


def faults_of(moves, link, still, now, is_changed, why):
    """The faults of a link. It is given as it was, with its old text in the page's new place, and as it is now; then
    whether its text is changed, and why it is reported."""
    faults = faults_of_place("place", moves, link, still, now, is_changed, why)
    if faults and not faults_of_place("plain_place", moves, link, still, now, is_changed, why):
        return [EMPTY_NAME]
    return faults


def faults_of_place(place, moves, link, still, now, is_changed, why):
    """The same, by one of the places of a link."""
    after = moved_place(getattr(link, place), moves)
    stays = still is not None and getattr(still, place) == after
    leads = now is not None and getattr(now, place) == after
    if why:
        in_vain = stays and not why.startswith("unknown")
        return ["CHANGED IN VAIN"] * is_changed + ["REPORTED IN VAIN"] * in_vain
    return [] if leads and not (is_changed and stays) else ["CHANGED IN VAIN" if leads else "LOST"]


class Site:
    """The paths of files and of directories, in order, and the directories to which files move."""

    def __init__(self, files, goals=()):
        self.files = set(files)
        self.directories = {above for file in files for above in all_above(file)}
        self.entries = self.files | self.directories
        self.order = sorted(self.entries)
        self.goals = sorted(goals or self.directories)

    def below(self, top):
        """A path, and all below it."""
        start = bisect.bisect_left(self.order, f"{top}/")
        end = bisect.bisect_left(self.order, f"{top}0")
        return [top, *self.order[start:end]]

    def near(self, pages, links):
        """The pages, the directories to which files move, and what is there of what links lead to."""
        linked = {link.place[len(TOP) + 1:] for link in links if link}
        return sorted({*pages, *self.goals, *(linked & self.entries)})

    def fits(self, moves):
        """Whether no two files or directories are at one place after the moves, and none is below a file."""
        old = {it for top in moves for it in self.below(top)}
        new = {it: taken(it, moves) for it in old}
        places = set(new.values())
        files = {new[it] for it in old if it in self.files}
        left = self.entries - old if len(old) * 4 > len(self.entries) else None
        def stays(path):
            return path in left if left is not None else path in self.entries and path not in old
        if len(places) < len(old) or any(map(stays, places)):
            return False
        return not any(above in files or above in self.files and stays(above) for it in places for above in all_above(it))


def all_above(path):
    """The directories above a path, but for the root."""
    while path := path.rpartition("/")[0]:
        yield path


def random_name(rng, is_awkward):
    if not is_awkward:
        return rng.choice(AWKWARD) if rng.random() < 0.5 else rng.choice(["new", "old", "guide", "a.md", "b"])
    while True:
        kind = rng.random()
        if kind < 0.4:
            name = rng.choice(NAMES)
        else:
            sets = [LETTERS, LETTERS, PUNCTUATION, PUNCTUATION, CONTROLS if kind < 0.6 else LETTERS, PAST_ASCII]
            name = "".join(rng.choice(rng.choice(sets)) for _ in range(rng.randrange(1, 6)))
        if name not in (".", ".."):
            return name


def random_moves(rng, site, candidates, count, is_awkward=False):
    """Some moves that fit."""
    moves = {}
    for _ in range(count * 2):
        old = rng.choice(candidates)
        if len(moves) >= count or old in moves:
            continue
        more = {old: new_path(rng, site, old, is_awkward)}
        kind = rng.random()
        other = rng.choice(candidates)
        if kind < 0.3 and other not in moves and other != old:
            # Two change places, or one takes the place of another, which moves on.
            more = {old: other, other: old if kind < 0.15 else new_path(rng, site, other, is_awkward)}
        if all(old != new for old, new in more.items()) and site.fits({**moves, **more}):
            moves.update(more)
    return moves


def new_path(rng, site, old, is_awkward):
    """A path to which a file or directory may move."""
    above, _, name = old.rpartition("/")
    if rng.random() < 0.7:
        name = random_name(rng, is_awkward)
    kind = rng.random()
    if kind < 0.3:
        names = [above]
    elif kind < 0.75 and site.goals:
        names = [rng.choice(site.goals)]
    else:
        names = [random_name(rng, is_awkward) for _ in range(rng.randrange(3))]
    if rng.random() < 0.4:
        names.append(random_name(rng, is_awkward))
    return "/".join(it for it in [*names, name] if it)


def is_utf8(text):
    try:
        return bool(text.encode())
    except UnicodeEncodeError:
        return False


def real_site(folders, *left_out):
    """One site of folders: the texts of its distinct pages that have none of these texts, by path, and all its paths."""
    folders = [os.path.realpath(it) for it in folders]
    top = len(os.path.commonpath(folders).rstrip("/")) + 1
    files = [f"{above}/{name}"[top:] for folder in folders for above, _, names in os.walk(folder) for name in names]
    texts = {path[top:]: text for text, path in real_pages(folders, *left_out).items()}
    return texts, Site([it for it in files if is_utf8(it)], {above for path in texts for above in all_above(path)})
