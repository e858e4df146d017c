"""Finds the wrong bodies of a crate that the prover can judge in one check, and those of `run --few`."""

import os
import re
import sys
from collections import namedtuple

import edits

sys.path.insert(0, os.path.join(os.path.dirname(os.path.realpath(__file__)), "../tools"))
from functions import functions_in, functions_of

# A function of a crate: its file, what is said of it there, and its body.
Place = namedtuple("Place", "file function text")

# `run --few` makes so many checks of a crate. Of a program or a library for C it makes one.
CHECKS = 2


def places_of(folder):
    """The functions of a crate that have a body."""
    found = []
    for at, _, names in sorted(os.walk(f"{folder}/src")):
        for name in sorted(names):
            if name.endswith(".rt"):
                with open(f"{at}/{name}", encoding="utf-8") as it:
                    text = it.read()
                file = os.path.relpath(f"{at}/{name}", folder)
                found += [Place(file, it, text[it.body:it.end]) for it in functions_of(text) if it.body]
    return found


def place_of(changes, places, folder):
    """Returns the one function whose body changes change, or None if they change anything more."""
    found = set()
    for file, old, _ in changes:
        if not file.startswith("src/"):
            return None
        with open(f"{folder}/{file}", encoding="utf-8") as it:
            where = it.read().find(old)
        within = [it for it in places if it.file == file
                  and it.function.body <= where and where + len(old) <= it.function.end]
        if len(within) != 1:
            return None
        found.add(within[0])
    return found.pop() if len(found) == 1 else None


# A call, or a function that is passed on: a dot or the type or module before its name, and its name.
CALL = re.compile(r"(\.|\b[A-Za-z_]\w*(?:::<[^;(]*?>)?::)?\b([a-z_]\w*)\b"
                  r"(?=\s*(?:::<[^;(]*>)?\(|\s*[,)])")


def is_called(before, place, other):
    """Returns whether a call, by the text before its name, may lead to another function of that name."""
    owner, of = re.sub(r"::.*", "", before), other.function.type
    if before == ".":
        return bool(of)
    if owner[:1].isupper():
        return of == owner or owner == "Self" and of == place.function.type
    return not of


def called_by(place, named):
    """The functions of its crate that a function calls, or may call where their names are alike."""
    return {other for before, name in CALL.findall(place.text) for other in named.get(name, ())
            if is_called(before, place, other)}


def reached_from(places):
    """For each function those that it calls, and those that these call, and so on."""
    named = {}
    for it in places:
        named.setdefault(it.function.name, []).append(it)
    calls = {it: called_by(it, named) for it in places}
    reached = {}
    for it in places:
        found, left = set(), [it]
        while left:
            for other in calls[left.pop()]:
                if other not in found:
                    found.add(other)
                    left.append(other)
        reached[it] = found
    return reached


def first(root):
    """The wrong bodies that `run` tries before all others, as pairs of a crate and a name."""
    lines = edits.lines_of(f"{root}/wrong-bodies/first")
    return [tuple(line.split()) for line in lines if line and not line.startswith("#")]


def ranks(root, crate):
    """Returns the ranks of the names that come before others. A name in the file `first` has rank 0. A
    name in docs/PROMISES.md has rank 1."""
    with open(f"{root}/docs/PROMISES.md", encoding="utf-8") as it:
        found = dict.fromkeys(re.findall(r"[a-z0-9]+(?:-[a-z0-9]+)+", it.read()), 1)
    return {**found, **{name: 0 for of, name in first(root) if of == crate}}


def collisions_of(of, places):
    """Returns for each name the names that one check can't judge beside it. Both change the same
    function, or the calls of one function lead to the other."""
    reached = reached_from(places)
    return {one: {other for other in of if of[one] == of[other]
                  or of[one] in reached[of[other]] or of[other] in reached[of[one]]} for one in of}


def together(bodies, folder, rank):
    """Puts wrong bodies into groups. One check judges each body of a group by itself. The first groups
    are as large as possible, and prefer bodies of a lower rank. Returns the groups, as pairs of a wrong
    body and its place, and the wrong bodies that change more than one function."""
    places = places_of(folder)
    body_of = {it.name: it for it in sorted(bodies, key=lambda it: it.name)}
    of = {name: place_of(it.changes, places, folder) for name, it in body_of.items()}
    alone = [body_of[name] for name, place in of.items() if not place]
    of = {name: place for name, place in of.items() if place}
    collisions = collisions_of(of, places)

    def next_of(fitting):
        """A name of the lowest rank, which keeps out the fewest others of this rank."""
        ranked = {name: rank.get(name, 2) for name in fitting}
        lowest = min(ranked.values())
        rivals = {name for name in fitting if ranked[name] == lowest}
        return min(sorted(rivals), key=lambda name: len(collisions[name] & rivals))

    groups, left = [], set(of)
    while left:
        group, fitting = [], left
        while fitting:
            name = next_of(fitting)
            group.append((body_of[name], of[name]))
            fitting = fitting - collisions[name]
        groups.append(group)
        left = left - {it.name for it, _ in group}
    return groups, alone


def links(folder):
    """Returns whether a crate is linked with all crates below it: a program, or a library for C."""
    with open(f"{folder}/../../crates.txt", encoding="utf-8") as it:
        is_static = re.search(rf"(?m)^{os.path.basename(folder)} staticlib:", it.read())
    return bool(is_static) or os.path.exists(f"{folder}/src/main.rt")


def first_groups(root, crate):
    """The groups of a crate's wrong bodies that `run --few` tries."""
    folder = f"{root}/crates/{crate}"
    groups, _ = together(edits.bodies_of(root, crate), folder, ranks(root, crate))
    return groups[:1 if links(folder) else CHECKS]
