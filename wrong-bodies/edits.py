"""Wrong bodies, as the scripts of this folder read them. A wrong body is a list of changes of a crate's
source. Each change is a line `old: TEXT` and a line `new: TEXT`. Each old text is in its file just once.

`wrong-bodies/CRATE/SOURCE.edits` has the wrong bodies of the crate's file src/SOURCE.rt. Its first line
is `file: src/SOURCE.rt`. Each wrong body has a line `## NAME`, and its changes below it. A body that
changes several files stands with its first change, and names another file in a line `file: PATH`
before the changes of that file. `crates/CRATE/must-fail/NAME.edit` has the same lines of one body, as
`rt must-fail` reads them."""

import glob
import os
from collections import namedtuple

# The text of a file that a wrong body takes away, and what it puts there.
Change = namedtuple("Change", "file old new")

# A wrong body: its crate, its name and its changes.
Body = namedtuple("Body", "crate name changes")


class Fault(Exception):
    """Why a wrong body can't be read or applied."""


def lines_of(file):
    with open(file, encoding="utf-8") as it:
        return it.read().split("\n")


def changes_of(lines, path=""):
    """The changes that lines name, in their order, of a file that they name or that was named before."""
    old, changes = "", []
    for line in lines:
        if line.startswith("file: "):
            path = line[len("file: "):].strip()
        elif line.startswith("old: "):
            old = line[len("old: "):]
        elif line.startswith("new:"):
            if not path or not old:
                raise Fault(f"there is no {'text' if path else 'file'} before a 'new:'")
            changes.append(Change(path, old, line[len("new:"):].removeprefix(" ")))
            old = ""
        elif line:
            raise Fault(f"a line is none of 'file:', 'old:' and 'new:': {line[:80]}")
    if not changes or old:
        raise Fault("it has no pair of 'old:' and 'new:'" if not changes else "an 'old:' has no 'new:'")
    return tuple(changes)


def body_of(crate, name, lines, source=""):
    try:
        return Body(crate, name, changes_of(lines, source))
    except Fault as why:
        raise Fault(f"{name}: {why}") from None


def text_of(changes):
    """The lines of changes, as `rt must-fail` reads them."""
    lines = []
    for at, it in enumerate(changes):
        if at == 0 or it.file != changes[at - 1].file:
            lines.append(f"file: {it.file}")
        lines += [f"old: {it.old}", f"new: {it.new}" if it.new else "new:"]
    return "\n".join(lines) + "\n"


def source_of(file, root):
    """The crate's file whose wrong bodies a file has, by its name."""
    inner = os.path.relpath(file, f"{root}/wrong-bodies").split("/", 1)[1]
    return f"src/{inner.removesuffix('.edits')}.rt"


def read(file, root):
    """The wrong bodies of a file, in their order."""
    crate = os.path.relpath(file, f"{root}/wrong-bodies").split("/")[0]
    first, *lines = lines_of(file)
    source = source_of(file, root)
    if first != f"file: {source}":
        raise Fault(f"its first line is not 'file: {source}'")
    heads = [at for at, line in enumerate(lines) if line.startswith("## ")]
    if any(lines[:heads[0] if heads else None]):
        raise Fault("there are changes before the first name")
    bodies = []
    for head, end in zip(heads, [*heads[1:], None]):
        bodies.append(body_of(crate, lines[head][len("## "):], lines[head + 1:end], source))
        if bodies[-1].changes[0].file != source:
            raise Fault(f"{bodies[-1].name}: its first change is of {bodies[-1].changes[0].file}")
    return bodies


def files_of(root, crate):
    """The files of a crate's wrong bodies."""
    return sorted(glob.glob(f"{root}/wrong-bodies/{crate}/**/*.edits", recursive=True))


def bodies_of(root, crate):
    """The wrong bodies of a crate in this folder."""
    return [body for file in files_of(root, crate) for body in read(file, root)]


def must_fail(root, crate):
    """The wrong bodies of a crate that `rt ci` tries."""
    return [body_of(crate, os.path.basename(it).removesuffix(".edit"), lines_of(it))
            for it in sorted(glob.glob(f"{root}/crates/{crate}/must-fail/*.edit"))]


def crates(root):
    """The crates that have wrong bodies in this folder."""
    return sorted({os.path.relpath(it, f"{root}/wrong-bodies").split("/")[0]
                   for it in glob.glob(f"{root}/wrong-bodies/*/**/*.edits", recursive=True)})


def apply(changes, texts, folder):
    """Puts changes into texts by file, which are read below a folder where they are not there yet."""
    for change in changes:
        if change.file not in texts:
            try:
                with open(f"{folder}/{change.file}", encoding="utf-8") as it:
                    texts[change.file] = it.read()
            except OSError:
                raise Fault(f"there is no file {change.file}") from None
        found = texts[change.file].count(change.old)
        if found != 1:
            raise Fault(f"an 'old:' text is in {change.file} {found} times: {change.old[:80]}")
        texts[change.file] = texts[change.file].replace(change.old, change.new)
    return texts
