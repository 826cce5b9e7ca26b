"""The options of the program relmove, as its own help has them."""

import re

from common import CRATES

REPORT = CRATES / "relmove_report/src/report.rt"
ARGUMENTS = CRATES / "relmove_arguments/src/arguments.rt"
PROGRAM = CRATES / "relmove_lib/src/program.rt"

OPTION = re.compile(r"--[a-z-]+")
# The first line of an option in the help: the option, the word after it, and what it does.
LISTED = re.compile(r"  (--[a-z-]*)(?: ([A-Z]+))? *(.*)")

# What the help only has in its usage.
IN_THE_USAGE = {"--help": "print the help", "--version": "print the version"}


def constant(path, name):
    """The text of a constant of a source file."""
    return re.search(rf'^(?:pub )?const {name}: &str =\s+"([^"]*)";$', path.read_text(), re.M)[1]


def usages():
    """The lines of the usage, each a form of the call."""
    lines = constant(REPORT, "USAGE").removeprefix("usage: ").split("\n")
    return [it.strip() for it in lines if it]


def paragraphs():
    """The paragraphs of the help after its usage, but for the list of options."""
    return [it.strip() for it in constant(REPORT, "HELP").split("\n\n") if not it.startswith("  ")]


def option_lines():
    """The lines of the help that list the options."""
    return [it for it in constant(REPORT, "HELP").split("\n") if it.startswith("  ")]


def options():
    """Each option with what it does, in the order of the help."""
    found = {}
    for line in option_lines():
        if first := LISTED.fullmatch(line):
            name = first[1]
            found[name] = first[3]
        else:
            found[name] = f"{found[name]} {line.strip()}".strip()
    return {**found, **IN_THE_USAGE}


def with_value():
    """The options with a word after them, each with what the help calls this word."""
    listed = (LISTED.fullmatch(line) for line in option_lines())
    return {it[1]: it[2] for it in listed if it and it[2]}


def together():
    """Which options a call may have together: a set for each form of the call."""
    return [set(OPTION.findall(form)) for usage in usages() for form in usage.split(" | ")]


def repeated():
    """The options that a call may have more than once."""
    return set(re.findall(r"\[(--[a-z-]+)[^]]*\]\.\.\.", constant(REPORT, "USAGE")))


def apart(option):
    """The options that no form of the call has together with this one, and itself if a call has it once."""
    beside = {it for form in together() if option in form for it in form}
    return [it for it in options() if it == option and it not in repeated() or it != "--" and it not in beside]


def accepted():
    """The options that the program accepts."""
    return set(OPTION.findall(re.search(r"const OPTIONS: [^=]*= \[([^]]*)\]", ARGUMENTS.read_text())[1]))


def faults_of_options(page):
    """Where the first block after the heading `Options` of a page isn't the usage and the options of the help, or where
    these aren't the options that the program accepts."""
    shown = re.search(r"^## Options\n\n```text\n(.*?)^```$", page.read_text(), re.M | re.S)
    listed = constant(REPORT, "USAGE") + "\n" + "\n".join(option_lines()) + "\n"
    if not shown or shown[1] != listed:
        yield f"its options aren't those of {REPORT.name}"
    for named in (set().union(*together()), options().keys() - {"--"}):
        if wrong := named ^ accepted():
            yield f"the help and {ARGUMENTS.name} differ in {', '.join(sorted(wrong))}"
