"""Compares what the tables of docs/SCRIPT.md list with the definitions and with the manual pages.

They list the tools and their options, the kinds of `show`, the codes of `attention` and the options of sgrun.
Here each row of a table is a fact, as a sentence, and so is each row of a definition. The CDBs that the page
shows have to be those that the model in rows/make sends. With a program, each tool and each kind has to be
known to the disks that the page names, and to no other. No option's example may be a fault of its line."""

import itertools
import re
from pathlib import Path

import examples
from tools import plan  # of the model, in rows/make

# A heading, the name of a tool above its table, or a table.
PART = (r"(?m)^#+ (?:`(?P<tool>sg_\w+)`$|.*)|^`(?P<label>sg_\w+)`:$"
        r"|^(?P<names>\|.*)\n\|[-|]+\n(?P<rows>(?:\|.*\n)*)")
# What a row says, by the names of its table's first two columns.
FACTS = {
    ("Tool", "Command"): "{disk} has the tool {word}",
    ("Option", "Text"): "{tool} has the option {option}",
    ("Option", "Service action"): "{tool} has the option {option}",
    ("Option", "Means"): "sgrun has the option {option}",
    ("KIND", "The bytes are those of"): "{disk} has the kind {word}",
    ("KIND", "More on an extended disk"): "an extended disk has more of the kind {word}",
    ("CODE", "Its name in SPC-4"): "attention has the code {word}",
}
DISKS = {"base": "a base disk", "extended": "an extended disk"}
# What a disk replies to a tool or to a kind that it does not know.
UNKNOWN = ("unknown tool", "kind")


def cells(row):
    return re.split(r" *\| *", row)[1:-1]


def tables_in(page):
    """The tables of a page: the tool that each is about, or None, the paragraph above, the names of the
    columns, and the rows."""
    tool = None
    for found in re.finditer(PART, page):
        if not found["names"]:
            tool = found["tool"] or found["label"]
            continue
        above = " ".join(page[:found.start()].rstrip().rpartition("\n\n")[2].split())
        yield tool, above, cells(found["names"]), [cells(row) for row in found["rows"].splitlines()]


def option(names, has_text):
    """An option as `-p, --page TEXT`, of its letter, if it has one, and its long name."""
    marked = [f"-{it}" for it in names[:-1]] + [f"--{names[-1]}"]
    return ", ".join(marked) + (" TEXT" if has_text else "")


def facts_of_page(page):
    for tool, above, columns, rows in tables_in(page):
        fact = FACTS.get(tuple(columns[:2]))
        disk = DISKS["extended" if "of the extended profile has" in above else "base"]
        for first, second, *_ in rows if fact else []:
            words = re.findall(r"`-*([^ `]+)( ?)[^`]*`", first) or [(first, "")]
            has_text = columns[1] == "Text" and second or words[-1][1]
            names = [word for word, _ in words]
            yield fact.format(tool=tool, disk=disk, word=names[0], option=option(names, has_text))


def facts_of_definitions():
    names, kinds = {}, {}
    for profile, tool, name in found_in("sg_tools/specs/ToolNames", r'= (\w+) (\w+) \(codes "(\w+)"\)'):
        names[tool] = name
        yield f"{DISKS[profile]} has the tool {name}"
    for tool, rows in found_in("sg_tools/specs/Options", r"^options_of (\w+) =(.*\n(?: .*\n)*)"):
        for sort, words in re.findall(r'(flag|text)((?: "\S+")+)', rows):
            words = re.findall(r'"(\S+)"', words)
            yield f"{names[tool]} has the option {option(words, sort == 'text')}"
    for profile, name, kind in found_in("sg_tools/specs/ShowKinds", r'kind (\w+) \(codes "(\w+)"\) (\w+)'):
        kinds[kind] = name
        yield f"{DISKS[profile.lower()]} has the kind {name}"
    for kind in found_in("sg_tools/specs/ShowKinds", r"^shown_in Extended ([A-Z]\w+) ="):
        yield f"an extended disk has more of the kind {kinds[kind]}"
    for code in found_in("sg_run/specs/HappeningVerbs", r'word \(codes "(\w+/\w+)"\)'):
        yield f"attention has the code {code}"
    for name in found_in("sgrun/specs/Options", r'text_option \(codes "(\S+)"\)'):
        yield f"sgrun has the option {option([name], True)}"


def found_in(name, pattern):
    """What a pattern finds in a file of definitions, without its comments."""
    text = Path(f"crates/{name}.antt").read_text("utf-8")
    return re.findall(f"(?m){pattern}", re.sub(r" *--.*", "", text))


def facts_of_manual_pages():
    for file in Path("man").glob("sgrun*.1"):
        tool = file.stem.removeprefix("sgrun-")
        for *names, text in re.findall(r"(?m)^\.It Fl (?:(\w) , )?-(\S+)( Ar)?", file.read_text("utf-8")):
            yield f"{tool} has the option {option(list(filter(None, names)), text)}"


def differences(page, other, where):
    yield from (f"not in {where}: {it}" for it in sorted(page - other))
    yield from (f"only in {where}: {it}" for it in sorted(other - page))


def faults_of_facts(facts):
    yield from differences(facts, set(facts_of_definitions()), "the definitions")
    options = {it for it in facts if " has the option " in it}
    yield from differences(options, set(facts_of_manual_pages()), "the manual pages")


def words_of(facts, disk, sort):
    """The tools, or the kinds, that the page says a disk has."""
    return sorted(it.split()[-1] for it in facts if it.startswith(f"{disk} has the {sort} "))


def faults_of_cdbs(page, facts):
    """A line has words of a script, two blanks, and the CDB. Each tool has such a line."""
    blocks = [block for _, block in examples.numbered_blocks(page)
              if re.match(r"\d+ sg_.* {2}[0-9a-f]{2} ", block)]
    missing = {tool for disk in DISKS.values() for tool in words_of(facts, disk, "tool")}
    for line in "".join(blocks).splitlines():
        words, _, cdb = line.rpartition("  ")
        tool = words.split()[1:]
        missing -= set(tool[:1])
        if plan(tool, "extended").cdb.hex(" ") != cdb:
            yield f"the model sends another CDB: {line}"
    yield from (f"there is no CDB of {tool}" for tool in sorted(missing))


def replies(program, profile, lines):
    """Each line of a script with what a disk replies, but without the number of the line."""
    printed = examples.run(program, ["--profile", profile], "".join(f"{it}\n" for it in lines)).stdout
    return itertools.zip_longest(lines, re.findall(r"(?m)^line \d+: (.*)$", printed), fillvalue="nothing")


def faults_of_words(facts, program):
    """Each disk knows its tools and kinds, and a base disk does not know what only an extended disk has."""
    for profile, disk in DISKS.items():
        for other in DISKS:
            lines = [f"0 {it}" for it in words_of(facts, disk, "tool")]
            lines += [f"show {it} -" for it in words_of(facts, disk, "kind")]
            is_known = profile == "base" or other == "extended"
            for line, reply in replies(program, other, lines):
                if reply == "nothing" or (reply not in UNKNOWN) != is_known:
                    yield f"{DISKS[other]} replies to {line}: {reply}"


def examples_of_options(page):
    """The example of each option: the tool, the option's cell, and the line."""
    for tool, _, columns, rows in tables_in(page):
        yield from ((tool, row[0], row[-1].strip("`")) for row in rows if tool and columns[-1] == "Example")


def gives(line, cell):
    """Whether a line has the option of a cell, by its long name or by its letter, alone or after others."""
    short, long = (re.findall(rf"`{dash}(\w[\w-]*)", cell) for dash in ("-", "--"))
    pattern = "|".join([rf"-\w*{it}" for it in short] + [rf"--{it}(?:=|$)" for it in long])
    return any(re.match(pattern, word) for word in line.split()[2:])


def faults_of_option_examples(page, facts, program):
    shown = list(examples_of_options(page))
    for tool, cell, line in shown:
        if not line.startswith(f"0 {tool} ") or not gives(line, cell):
            yield f"this is no example of {cell} of {tool}: {line}"
    for profile, disk in DISKS.items() if program else []:
        tools = words_of(facts, disk, "tool")
        for line, reply in replies(program, profile, [line for tool, _, line in shown if tool in tools]):
            if not reply[0].isupper():
                yield f"{disk} replies to {line}: {reply}"


def faults_of_tables(page, program):
    """What the tables of the page list otherwise, or with a program what it does not know."""
    facts = set(facts_of_page(page))
    yield from faults_of_facts(facts)
    yield from faults_of_cdbs(page, facts)
    yield from faults_of_option_examples(page, facts, program)
    if program:
        yield from faults_of_words(facts, program)
