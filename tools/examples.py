"""Finds the examples of a page, and runs them with a program that has sgrun's command line.

An example is an indented block: a script, an empty line, and what the program prints. A first line
`$ sgrun ..` has the options, and is no line of the script. Without it an example is for a base disk. If a
base disk does not know a verb, a tool or a kind of the script, it is for an extended disk. The prose above
can say the exit status, and from which line on: "The status is 6, from line 4". The examples of a page run
one after another in a folder of their own, so that one finds the file of another."""

import itertools
import re
import subprocess
import tempfile

# How a script begins, and how a reply does.
OPTIONS = r"\$ sgrun\b"
SCRIPT = rf"{OPTIONS}|(?:raw|fill|show|fault|attention|nexus|grow) \S|\d+ sg_\w"
REPLY = r"line \d+: "
# These pages have prose between a script and what it prints. docs/check has functions for them.
WITH_PROSE_BETWEEN = ("README.md", "docs/PROFILE.md")


def numbered_blocks(text):
    """The indented blocks of a text, without their indentation, each after the number of its first line."""
    for found in re.finditer(r"(?m)(?:^ {4}.*\n|^\n(?= {4}))+", text):
        block = re.sub(r"(?m)^ {4}", "", found[0])
        empty = len(block) - len(block.lstrip("\n"))
        yield text.count("\n", 0, found.start()) + empty + 1, block[empty:]


def examples_in(text):
    """The examples of a page: the number of the first line, the script, and what it prints. The form of
    one of the two is enough, so a slip in the other does not hide an example."""
    for line, block in numbered_blocks(text):
        script, _, printed = block.rpartition("\n\n")
        if script and (re.match(SCRIPT, script) or re.match(REPLY, printed)):
            yield line, script + "\n", printed


def faults_of_form(page, text):
    """The blocks that would be examples with a script above, or with an empty line. SCRIPT has examples,
    and each answer that it shows is in one."""
    found = {line for line, *_ in examples_in(text)}
    is_script_page = page == "docs/SCRIPT.md"
    if is_script_page and not found:
        yield "there is no example"
    for line, block in numbered_blocks(text):
        is_text = block.startswith("line 1: ") or is_script_page and block.startswith("  ")
        if is_text and page not in WITH_PROSE_BETWEEN:
            yield f"line {line}: there is no script in the block of this text"
        has_both = re.match(SCRIPT, block) and re.search(rf"(?m)^{REPLY}", block)
        if line not in found and (has_both or re.match(OPTIONS, block)):
            yield f"line {line}: there is no empty line between this script and what it prints"


def faults_of_examples(text, program):
    """What the program prints otherwise than a page says."""
    with tempfile.TemporaryDirectory() as folder:
        for line, script, printed in examples_in(text):
            options, lines = parts(program, script, printed)
            done = run(program, options, lines, folder)
            pairs = itertools.zip_longest(printed.split("\n"), done.stdout.split("\n"))
            numbered = enumerate(pairs, line + script.count("\n") + 1)
            differ = ((number, found) for number, (said, found) in numbered if said != found)
            for number, found in itertools.islice(differ, 1):
                yield f"line {number}: sgrun {' '.join(options)} prints {found or 'no more'}"
            status = re.search(r"The status is (\d+)(?:, from line (\d+))?", prose_above(text, line))
            if status and done.returncode != int(status[1]):
                yield f"line {line}: the status of this script is {done.returncode}"
            if status and status[2] and first_failed(program, options, lines) != int(status[2]):
                yield f"line {line}: line {status[2]} of this script is not the first with a status"


def parts(program, script, printed):
    """The options of an example, and the lines of its script."""
    first, _, lines = script.partition("\n")
    if re.match(OPTIONS, first):
        return first.split()[2:], lines
    return ["--profile", profile_of(program, script, printed)], script


def profile_of(program, script, printed):
    """The profile of an example's disk. A page can show that a base disk refuses a word."""
    done = run(program, ["--profile", "base"], script)
    refused = re.findall(rf"(?m)^{REPLY}(?:unknown verb|unknown tool|kind)$", done.stdout)
    return "base" if set(refused) <= set(printed.split("\n")) else "extended"


def run(program, options, script, folder=None):
    return subprocess.run([program, *options], input=script, stdout=subprocess.PIPE,
                          stderr=subprocess.STDOUT, cwd=folder, text=True)


def prose_above(text, line):
    """The prose between a line and the heading or the indented block above it, as one line."""
    above = "\n".join(text.split("\n")[:line - 1])
    return " ".join(re.split(r"(?m)^(?:#| {4}).*$", above)[-1].split())


def first_failed(program, options, script):
    """The number of the script's first line whose status is not 0, or None. Each run has a folder of its
    own, so that no disk in a file is the disk of an earlier run."""
    lines = script.splitlines(keepends=True)
    for count in range(1, len(lines) + 1):
        with tempfile.TemporaryDirectory() as folder:
            if run(program, options, "".join(lines[:count]), folder).returncode:
                return count
    return None
