"""What the scripts of this folder share."""

import html.parser
import itertools
import pathlib
import re
import shutil
import signal
import subprocess
import sys
import tempfile

ROOT = pathlib.Path(__file__).resolve().parent.parent
CRATES = ROOT / "crates"
COUNTS = ROOT / "tools/counts.txt"

# The pages of the top and of docs/, and those of the crates.
PAGES = ["README.md", *(str(it.relative_to(ROOT)) for part in ("docs", "crates/*") for it in sorted(ROOT.glob(f"{part}/*.md")))]

COMMENT_OR_STRING = re.compile(r"//[^\n]*|\"(?:\\.|[^\"\\])*\"|'(?:\\.|[^'\\])'")
# A place of a page of Markdown where a definition may begin.
LABEL = re.compile(r"\[((?:[^\[\]\\]|\\.)+)\]:", re.S)
# What stands for a target in a marked page.
WORD = re.compile(r"zq(\d+)qz")
# A fenced block, and a line of docs.
BLOCK = re.compile(r"^ {0,3}(`{3,}|~{3,})(.*)\n((?:.*\n)*?) {0,3}\1 *$", re.M)
DOC = re.compile(r"\s*//[/!] ?(.*)$")
QUOTED = re.compile(r"\"(?:\\.|[^\"\\])*\"|'(?:\\.|[^'\\])'")


def leave(number, _frame):
    """Ends the script as an error would, so that its temporary folders go too."""
    sys.exit(128 + number)


signal.signal(signal.SIGTERM, leave)


class Tally:
    """Counts what passed, and says what failed."""

    def __init__(self, script):
        self.script = script
        self.passed = self.failed = 0

    def add(self, what, faults=()):
        """Counts one more, which failed where it has faults."""
        faults = list(faults)
        self.passed += not faults
        self.failed += bool(faults)
        for fault in faults:
            print(f"{self.script}: {what}: {fault}")

    def compare(self, counted):
        """Compares counts, by kind and crate, with those of tools/counts.txt."""
        stored = stored_counts()
        for kind, crates in counted.items():
            wanted = {row: kinds[kind] for row, kinds in stored.items() if kinds.get(kind)}
            for row in sorted(wanted.keys() | {it for it in crates if crates[it]}):
                found, want = crates.get(row, 0), wanted.get(row, 0)
                self.add(f"{row}: {kind}", [] if found == want else [f"{found}, and tools/counts.txt says {want}"])

    def end(self):
        """Prints the count as the last line, and gives the script's status: to pass nothing is to fail."""
        print(f"{self.passed} passed, {self.failed} failed")
        return 1 if self.failed or not self.passed else 0


def ran(words, folder=ROOT):
    """A command that was run in a folder, without input, and all that it printed in `stdout`. Where the
    script has to end, the command is told so, and waited for."""
    streams = {"stdin": subprocess.DEVNULL, "stdout": subprocess.PIPE, "stderr": subprocess.STDOUT}
    with subprocess.Popen(words, cwd=folder, text=True, errors="replace", **streams) as process:
        try:
            said, _ = process.communicate()
        except BaseException:
            process.terminate()
            raise
    return subprocess.CompletedProcess(words, process.returncode, said)


def crates():
    """Each crate's libraries, by crates.txt."""
    listed = {}
    for line in (ROOT / "crates.txt").read_text().split("\n"):
        names, colon, libraries = line.partition("#")[0].partition(":")
        if colon:
            listed[names.split()[0]] = libraries.split()
    return listed


def stored_counts():
    """The numbers of tools/counts.txt, by row and kind."""
    rows = [line.split() for line in COUNTS.read_text().split("\n") if re.match(r"\w[\w ]*$", line)]
    head, *rows = rows
    return {row[0]: dict(zip(head[1:], map(int, row[1:]))) for row in rows}


def write_counts(counted):
    """Writes counts, by kind and crate, into tools/counts.txt."""
    lines = COUNTS.read_text().split("\n")
    head = next(it for it in lines if re.match(r"\w[\w ]*$", it))
    kinds, stored = head.split()[1:], stored_counts()
    rows = [it for it in [*crates(), "pages"] if any(counted[kind].get(it) for kind in counted) or it in stored]
    table = [head]
    for row in rows:
        numbers = {**stored.get(row, {}), **{kind: counted[kind].get(row, 0) for kind in counted}}
        table.append(row.ljust(26) + "".join(f"{numbers.get(kind, 0)}".rjust(10) for kind in kinds))
    at = lines.index(head)
    after = next(i for i, it in enumerate(lines) if i > at and not re.match(r"\w[\w ]*$", it))
    COUNTS.write_text("\n".join([*lines[:at], *table, *lines[after:]]))


def exceptions(kind):
    """What tools/counts.txt leaves out, each with why: its lines `no KIND: WHAT: WHY`."""
    return dict(re.findall(rf"^no {kind}: (\S+): (.+)$", COUNTS.read_text(), re.M))


def blocks_of(text):
    """The fenced blocks of code in a text: where each begins, what its fence says, and the code."""
    return [(it.start(), it[2].strip(), it[3]) for it in BLOCK.finditer(text)]


def docs_of(path):
    """The docs of a source file: each with the number of its first line."""
    docs, last = [], None
    for number, line in enumerate(path.read_text().split("\n"), 1):
        if doc := DOC.match(line):
            if last != number - 1:
                docs.append((number, []))
            docs[-1][1].append(f"{doc[1]}\n")
            last = number
    return [(first, "".join(lines)) for first, lines in docs]


def source_folder(crate):
    return CRATES / crate / "src"


def static_libraries():
    """The crates that C calls, by crates.txt. No other crate can call them."""
    return re.findall(r"^(\w+) staticlib\b", (ROOT / "crates.txt").read_text(), re.M)


def is_library(crate):
    """Whether other crates can call a crate: it is no program and no static library, and has more than tests."""
    is_called = crate not in static_libraries() and not crate.endswith("_tests")
    return is_called and (source_folder(crate) / "lib.rt").is_file()


def is_program(crate):
    return (source_folder(crate) / "main.rt").is_file()


def has_tests(crate):
    return (source_folder(crate) / "tests.rt").is_file()


def sources_of(crate):
    """The source files of a crate without its tests."""
    src = source_folder(crate)
    return [it for it in sorted(src.rglob("*.rt")) if "tests" not in it.with_suffix("").relative_to(src).parts]


def copy_crates(folder, names, *left_out):
    """Copies crates into a folder, without what has these names."""
    for name in names:
        shutil.copytree(CRATES / name, folder / "crates" / name, ignore=shutil.ignore_patterns(*left_out))
    shutil.copy(ROOT / "HANDLES", folder)


def program_of(crate, suffix=""):
    """The program that `rt ci` or `rt run` leaves of a crate; `_tests` are its tests, and `.by-rattle`
    is what Rattle's own compiler builds."""
    return CRATES / crate / "out" / f"{crate}{suffix}"


def blank(found):
    return " " * len(found[0])


def without_comments(code):
    """Code with spaces in the place of its comments."""
    return COMMENT_OR_STRING.sub(lambda found: blank(found) if found[0][0] == "/" else found[0], code)


def masked(code):
    """Code with spaces in the place of what is quoted, in which brackets can be matched."""
    return QUOTED.sub(blank, code)


def closing(mask, at):
    """The place after the bracket that closes the one here, in code where nothing is quoted."""
    depth = 0
    while True:
        depth += (mask[at] in "{([") - (mask[at] in "})]")
        at += 1
        if depth == 0:
            return at


def built(folder, name, source, libraries, script):
    """A program of these libraries of the repository, proved in this folder over a copy of their sources."""
    ours = [it for it in crates() if it in below(libraries)]
    copy_crates(folder, ours, "out", "must-fail")
    crate = folder / "crates" / name
    (crate / "src").mkdir(parents=True)
    (crate / "src/main.rt").write_text(source)
    lines = [f"{it}: {' '.join(crates()[it])}\n" for it in ours]
    (folder / "crates.txt").write_text("".join([*lines, f"{name}: {' '.join(libraries)}\n"]))
    print(f"{script}: rt run proves a copy of {', '.join(ours)}, which may take minutes", file=sys.stderr, flush=True)
    done = ran(["rt", "run"], crate)
    if done.returncode != 0:
        sys.exit(f"{script}: rt run in {crate}:\n{done.stdout}")
    return str(crate / "out" / name)


def below(libraries):
    """These libraries and all that they use."""
    found = set()
    for library in libraries:
        found |= {library, *below(crates().get(library, []))}
    return found


def is_template(text):
    """Whether a destination may be one that a template fills in."""
    return text.startswith(("{{", "{%", "${"))


def marked(page, targets):
    """A page whose targets are words, each with its number."""
    pieces, end = [], 0
    for number, (_, start, after) in enumerate(targets):
        pieces += [page[end:start], b"zq%dqz" % number]
        end = after
    return b"".join(pieces + [page[end:]])


def labels_of(page):
    """The labels of what may be a definition in a page, without containers' marks."""
    labels = (re.sub(r"\n[ \t>]*", " ", it.replace("\r", "\n")) for it in LABEL.findall(page))
    return list(dict.fromkeys(it for it in labels if not it.startswith("^")))


def real_pages(folders, *left_out):
    """The distinct pages below folders that are UTF-8 and have none of these texts, with their names."""
    pages = {}
    for path in sorted(it for folder in folders for it in pathlib.Path(folder).rglob("*.md") if it.is_file()):
        try:
            page = path.read_bytes().decode()
        except UnicodeDecodeError:
            continue
        if not any(it in page for it in left_out):
            pages.setdefault(page, str(path))
    return pages


class Tags(html.parser.HTMLParser):
    """The values of `href` and `src` in the start tags of HTML."""

    CDATA_CONTENT_ELEMENTS = ("script", "style", "textarea", "title")

    def __init__(self):
        super().__init__()
        self.values = []

    def parse_comment(self, start, _report=1):
        """The end of a comment, as browsers find it."""
        end = re.compile(r"<!--(?:-?>|.*?--!?>|.*)", re.S).match(self.rawdata, start)
        return end.end()

    def parse_marked_section(self, start, _report=1):
        """The same of what browsers read as a comment."""
        return self.parse_bogus_comment(start)

    def handle_starttag(self, tag, attrs):
        self.values += linked(tag, attrs)


def linked(tag, attributes):
    """The values of the first `href` and the first `src` among the attributes of a start tag."""
    first = dict(reversed(attributes))
    if tag == "base" and first.get("href") is not None:
        return []
    return [first[it] for it in ("href", "src") if first.get(it)]


class Run:
    """What a program did while requests for memory were refused."""

    def __init__(self, refuser, words, refuse="", marked=False, stdout=subprocess.PIPE, **streams):
        with tempfile.TemporaryFile() as trace:
            environment = {"LD_PRELOAD": refuser, "REFUSE": refuse, "REFUSE_TELLS": str(trace.fileno())}
            if marked:
                environment["REFUSE_MARKED"] = "yes"
            streams = {**(streams or {"stdin": subprocess.DEVNULL}), "stdout": stdout, "stderr": subprocess.PIPE}
            ran = subprocess.run(
                words, env=environment, pass_fds=[trace.fileno()], timeout=60, check=False, **streams,
            )
            trace.seek(0)
            # `.24` for 24 bytes that were granted, `x24` where they were refused, then `=1` or `!0`
            # for a call that answered, or that was refused memory, and the blocks that it holds
            self.trace = trace.read().decode()
        self.status, self.stdout, self.stderr = ran.returncode, ran.stdout, ran.stderr

    def is_like(self, pattern):
        return self.status == 0 and re.fullmatch(pattern, self.trace)


def count_instructions(words, counts, text=""):
    """How many instructions a program executes on an input. callgrind writes into the file `counts` where they are."""
    words = [shutil.which("valgrind") or "valgrind", "--tool=callgrind", f"--callgrind-out-file={counts}", *words]
    # In no environment: the loader's count depends on how long it is.
    counting = subprocess.run(words, input=text.encode(), capture_output=True, env={}, check=False)
    found = re.search(rb"Collected : (\d+)", counting.stderr)
    if counting.returncode != 0 or not found:
        sys.exit(f"{words}: {counting.stderr.decode(errors='replace')}")
    return int(found[1])


def build_library(folder, name):
    """The library of tools/NAME.c, to be preloaded."""
    if not shutil.which("cc"):
        sys.exit(f"cc, which compiles tools/{name}.c, isn't there: install Debian's package gcc or clang")
    library = f"{folder}/{name}.so"
    words = ["cc", "-O1", "-Wall", "-Wextra", "-Werror", "-shared", "-fPIC", "-ffreestanding", "-nostdlib"]
    subprocess.run([*words, "-o", library, ROOT / f"tools/{name}.c"], check=True)
    return library


def each_refusal(number):
    """Each request up to this number, and whether all after it are refused too."""
    return itertools.product(range(1, number + 1), [False, True])


def named(n, and_on):
    """How the refuser is told of a refusal."""
    return f"{n}.." if and_on else f"{n}"


def told(ran):
    """A program's status and last words."""
    words = (ran.stdout or b"") + ran.stderr
    return f"status {ran.status}, {words.decode(errors='replace').strip()[-300:]!r}"
