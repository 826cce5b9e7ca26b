#!/usr/bin/env python3
"""Makes the table of the crate character_names, from the table of HTML's names in Python's module `html.entities`.

    tools/names.py    writes it into crates/character_names/src/table.rt

tools/counts compares that file with what this script makes.
"""

import html.entities
import itertools
import sys

sys.dont_write_bytecode = True
from common import CRATES

TABLE = CRATES / "character_names/src/table.rt"
HEAD = """\
//! The names of HTML's character references, in the order of their bytes, and what they stand for. `tools/names.py`
//! makes this file.

"""
ESCAPED = {"\0": "\\0", "\t": "\\t", "\n": "\\n", "'": "\\'", "\\": "\\\\"}


def literal(character):
    """A character as a literal, which is readable if it is ASCII."""
    shown = character if "!" <= character <= "~" else f"\\u{{{ord(character):X}}}"
    return f"'{ESCAPED.get(character, shown)}'"


def constant(comment, head, lines, end):
    """A constant of some lines."""
    return f"// {comment}\n#[rattlefmt::skip]\npub(crate) static {head} = " + "\n".join(lines) + f"{end};\n"


def table():
    """The text of the file."""
    names = sorted(html.entities.html5)
    bounds = [0, *itertools.accumulate(map(len, names))]
    pairs = [html.entities.html5[it].ljust(2, "\0") for it in names]
    texts = "\\\n    ".join("".join(names[i:i + 8]) for i in range(0, len(names), 8))
    numbers = [f"    {', '.join(map(str, bounds[i:i + 16]))}," for i in range(0, len(bounds), 16)]
    rows = [f"    {', '.join(f'({literal(it[0])}, {literal(it[1])})' for it in pairs[i:i + 4])}," for i in range(0, len(pairs), 4)]
    parts = [
        constant("The names, one after another.", "NAMES: &[u8]", ['b"\\', f"    {texts}"], '"'),
        constant("Where each name begins, and at last where the last name ends.", f"BOUNDS: [u16; {len(bounds)}]", ["[", *numbers], "\n]"),
        constant("The one or two characters of each name: NUL is none.", f"CHARACTERS: [(char, char); {len(pairs)}]", ["[", *rows], "\n]"),
    ]
    return HEAD + "\n".join(parts)


if __name__ == "__main__":
    TABLE.write_text(table())
