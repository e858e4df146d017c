#!/usr/bin/env python3
"""Reads the proved table of commands in crates/sg_wire/specs, for scripts that generate code from it.
`rows()` returns its rows in their order, and
  tools/layout_table.py
prints a line for each: name, profile, operation code, service actions, length, fields, then the free bits
that are used and those that are ignored. Layout.antt, FreeBits.antt and ReservationAction.antt say which
bits a field has. docs/PROFILE.md has the names of the standards."""

import re
import sys
from pathlib import Path
from typing import Any, Dict, List, NamedTuple, Optional, Tuple

TOP = Path(__file__).resolve().parent.parent
SPECS = TOP / "crates/sg_wire/specs"

# First and last byte, high and low bit: from bit `high` of the first byte to bit `low` of the last one, the
# most significant bit first.
Place = Tuple[int, int, int, int]
# Names of fields in the standards, such as `TRANSFER LENGTH`, by their places.
Labels = Dict[Place, str]

# What the standards call the free bits of a definition in FreeBits.antt, written as fields in PROFILE. Any
# definition may have a GROUP NUMBER, too, and fields of the command. Obsolete bits have the names of SBC-2.
FREE_LABELS = {
    "cache_bits": "1:10 DPO, 1:08 FUA, 1:02 FUA_NV",
    "dpo_fua_bits": "1:10 DPO, 1:08 FUA",
    "dpo_bit": "1:10 DPO",
    "immed_bit": "1:02 IMMED",
    "immed_bits": "1:02 IMMED, 1:04 SYNC_NV",
    "start_bits": "1:01 IMMED, 4:04 NO_FLUSH",
    "diagnostic_bits": "1:10 PF, 1:02 DEVOFFL, 1:01 UNITOFFL",
    "format_bits": "1:08 CMPLST",
    "sanitize_bits": "1:80 IMMED, 1:20 AUSE",
    "log_bits": "2:C0 PC",
}

# The names of fields with long labels. Any other one has its label in lower case.
SHORT_NAMES = {
    "LOGICAL BLOCK ADDRESS": "lba", "STARTING LOGICAL BLOCK ADDRESS": "lba",
    "TRANSFER LENGTH": "blocks", "VERIFICATION LENGTH": "blocks", "PREFETCH LENGTH": "blocks",
    "NUMBER OF LOGICAL BLOCKS": "blocks",
}

# Functions and methods have these fields first, in this order.
FIRST = ("service_action", "lba", "blocks")


def name_of(label: str) -> str:
    """A label or a title of a standard as a name: `READ(10)` as `read10`."""
    name = re.sub(r"\W+", "_", re.sub(r"\((\d+)\)", r"\1", label.lower()))
    return SHORT_NAMES.get(label) or name.strip("_")


def family_of(title: str) -> str:
    """A title without the length of a CDB or a service action: `READ`, `SANITIZE`."""
    return re.split(r"[(,]", title)[0]


class Field(NamedTuple):
    """A field of a CDB: what the standard calls it, and its place."""
    label: str
    first: int
    last: int
    high: int
    low: int

    @property
    def name(self) -> str:
        return name_of(self.label)

    @property
    def width(self) -> int:
        """How many bits it has."""
        return (self.last - self.first) * 8 + self.high + 1 - self.low


class Row(NamedTuple):
    """A command. Three texts are of PROFILE: its title, such as `READ(10)`, its section, such as
    `SBC-3, 5.11`, and what its data-out is, such as `its list` or `none`."""
    title: str
    section: str
    data_out: str
    profile: str
    opcode: int
    # The service action, or the names and numbers of all of them. Then SERVICE ACTION is the first field.
    # Some of them may be of an extended disk only, though the operation code is of both.
    action: Optional[int]
    actions: Dict[str, int]
    of_extended: List[str]
    fields: List[Field]
    # Free bits: the disk knows the used ones, and does not look at the ignored ones. A service action may
    # ignore more fields, which are here by its name.
    used: List[Field]
    ignored: List[Field]
    ignored_by: Dict[str, List[Field]]

    @property
    def name(self) -> str:
        return name_of(self.title)

    @property
    def length(self) -> int:
        """The length of its CDB, by the group code (SPC-4, 4.2.5.1), as `length_of` of the table has it."""
        return {0: 6, 4: 16, 5: 12}.get(self.opcode // 32, 10)

    @property
    def family(self) -> str:
        return family_of(self.title)

    @property
    def has_data_out(self) -> bool:
        return self.data_out != "none"

    @property
    def headline(self) -> str:
        """The first sentences of its documentation."""
        action = "" if self.action is None else f", service action {self.action:02X}h"
        only = " Only an extended disk has it." if self.profile == "extended" else ""
        return f"{self.title}, operation code {self.opcode:02X}h{action} ({self.section}).{only}"


def in_order(fields: List[Field]) -> List[Field]:
    """Fields in the order of the arguments of a function."""
    return sorted(fields, key=lambda it: FIRST.index(it.name) if it.name in FIRST else len(FIRST))


# ---- Definitions


class Symbol(NamedTuple):
    """An expression whose value does not matter: a name, and what it is applied to."""
    name: str
    arguments: List[Any]


class Definitions:
    """The definitions of some files: for each name its equations, each with patterns and a text."""

    def __init__(self, *modules: str) -> None:
        self.equations: Dict[str, List[Tuple[str, str]]] = {}
        for module in modules:
            text = re.sub(r"--.*", "", (SPECS / f"{module}.antt").read_text(encoding="utf-8"))
            for name, patterns, body in re.findall(r"(?m)^(\w+)((?: [^=\n]*?)?) =(.*(?:\n[ \t}].*)*)", text):
                self.equations.setdefault(name, []).append((patterns.strip(), body))

    def value(self, name: str, arguments: List[Any]) -> Any:
        """The value of a name applied to arguments. It is a symbol if the name is defined elsewhere, or by
        cases of which the argument is none."""
        found = self.equations.get(name, [])
        if len(found) > 1:
            of_case = [it for it in found if arguments == [Symbol(it[0], [])]]
            return Parser(self, of_case[0][1], {}).whole() if of_case else Symbol(name, arguments)
        if not found or re.search(r"[λ→]|\blet\b|&&|==", found[0][1]):
            return Symbol(name, arguments)
        parameters = found[0][0].split()
        if len(parameters) != len(arguments):
            return Symbol(name, arguments)
        value = Parser(self, found[0][1], dict(zip(parameters, arguments))).whole()
        if isinstance(value, dict) and "used" in value:
            value["definition"] = name
        return value


TOKEN = re.compile(r"\s*(?:(0x[0-9A-Fa-f]+|\d+)|([A-Za-z_][\w.]*)|(\[\]|\+\+|[∷(){}=;,]))")


class Parser:
    """Evaluates the text of an expression: applications, lists, records and cases."""

    def __init__(self, definitions: Definitions, text: str, names: Dict[str, Any]) -> None:
        self.definitions, self.names, self.at = definitions, names, 0
        self.tokens = [it.group().strip() for it in TOKEN.finditer(text)]
        if re.sub(r"\s", "", text) != "".join(self.tokens):
            raise ValueError(f"an unknown form of expression: {text}")

    def peek(self) -> str:
        return self.tokens[self.at] if self.at < len(self.tokens) else ""

    def take(self) -> str:
        self.at += 1
        return self.tokens[self.at - 1]

    def whole(self) -> Any:
        value = self.expression()
        if self.at != len(self.tokens):
            raise ValueError(f"left over: {self.tokens[self.at:]}")
        return value

    def expression(self) -> Any:
        value = self.application()
        if self.peek() == "∷":
            self.take()
            return [value, *self.expression()]
        if self.peek() == "++":
            self.take()
            return [*value, *self.expression()]
        return value

    def application(self) -> Any:
        if self.peek() == "record":
            return self.record()
        if self.peek() == "if":
            return self.case()
        head, arguments = self.peek(), []
        value = self.atom(is_head=True)
        while self.peek() in ("(", "[]") or re.match(r"(?!(?:then|else)\b)[\w.]", self.peek()):
            arguments.append(self.atom())
        if not re.match(r"[A-Za-z_]", head) or (head in self.names and not arguments):
            return value
        return self.definitions.value(head, arguments)

    def atom(self, is_head: bool = False) -> Any:
        token = self.take()
        if token == "(":
            value = self.expression()
            self.take()
            return value
        if token == "[]":
            return []
        if token[0].isdigit():
            return int(token, 0)
        if token in self.names:
            return self.names[token]
        return Symbol(token, []) if is_head else self.definitions.value(token, [])

    def case(self) -> List[Any]:
        """`if TEST then LIST else LIST`. If the test has no value, it is what both lists have."""
        self.take()
        test = self.expression()
        lists: Dict[str, List[Any]] = {}
        for name in "true", "false":  # after `then` and after `else`
            self.take()
            lists[name] = self.expression()
        return lists.get(test.name, [it for it in lists["true"] if it in lists["false"]])

    def record(self) -> Dict[str, Any]:
        self.take()
        value: Dict[str, Any] = dict(self.atom()) if self.peek() != "{" else {}
        self.take()
        while self.peek() != "}":
            name, _ = self.take(), self.take()
            value[name] = self.expression()
            if self.peek() == ";":
                self.take()
        self.take()
        return value


# ---- The names of the standards


def profile_page() -> str:
    return (TOP / "docs/PROFILE.md").read_text(encoding="utf-8")


def titles() -> Dict[Tuple[int, Optional[int]], Tuple[str, str, str]]:
    """The titles of commands, their sections and disks, by operation code and service action."""
    found: Dict[Tuple[int, Optional[int]], Tuple[str, str, str]] = {}
    table = re.findall(r"(?m)^\| (\w\w)h(?:, actions? (\w\w)h(?: to (\w\w)h)?)? \| ([^|]+) \| \d+ \| "
                       r"([^|]+) \| (both|extended) \|", profile_page())
    for opcode, first, last, title, section, disks in table:
        for action in range(int(first, 16), int(last or first, 16) + 1) if first else [None]:
            found[int(opcode, 16), action] = title, section, disks
    return found


def labels_of(text: str) -> Labels:
    """The labels of fields as PROFILE writes them: `1:08 DBD` has bit 3 of byte 1, `4-5 ..` two bytes."""
    found = {}
    for first, last, mask, label in re.findall(
            r"(?<![\w:])(\d+)(?:-(\d+))?(?::(\w\w))? ([A-Z][A-Z0-9_ -]*[A-Z0-9])", text):
        bits = int(mask or "FF", 16)
        low = (bits & -bits).bit_length() - 1
        found[int(first), int(last or first), bits.bit_length() - 1, low] = label
    return found


def column(first: str, name: str) -> Dict[str, str]:
    """The cells of a table in PROFILE below the heading `name`, by the titles of commands below `first`."""
    heading, table = re.findall(rf"(?ms)^(\| {first} \|[^\n]* {name} \|[^\n]*)\n[^\n]*\n(.*?)\n\n",
                                profile_page())[0]
    found = {}
    for line in table.split("\n"):
        cells = dict(zip(heading.strip("| ").split(" | "), line.strip("| ").split(" | ")))
        for title in cells[first].split(", "):
            found[re.sub(" (with|otherwise).*", "", title)] = cells[name]
    return found


def labels() -> Dict[str, Labels]:
    """The labels of the fields of each command, by its title, or by its family."""
    found = {title: labels_of(text) for title, text in column("Command", "Fields").items()}
    for title in "READ(6)", "WRITE(6)":
        found[title][1, 3, 4, 0] = "LOGICAL BLOCK ADDRESS"
    found["MODE SENSE(10)"].update(found["MODE SENSE(6)"])
    return found


# ---- Rows


def places_of(place: Symbol) -> List[Place]:
    """The places of a value of the type Place."""
    numbers = place.arguments
    if place.name == "bit":
        return [(numbers[0], numbers[0], numbers[1], numbers[1])]
    if place.name == "bits":
        return [(numbers[0], numbers[0], numbers[1], numbers[2])]
    if place.name == "bytes":
        return [(numbers[0], numbers[1], 7, 0)]
    if place.name == "short_extent":
        return [(1, 3, 4, 0), (4, 4, 7, 0)]
    raise ValueError(f"an unknown place, {place.name}")


def fields_at(places: List[Symbol], names: Labels) -> List[Field]:
    """The fields in some places. One place may be two fields of the standard."""
    fields = []
    for first, last, high, low in (it for place in places for it in places_of(place)):
        found = [Field(label, *it) for it, label in names.items()
                 if it[:2] == (first, last) and high >= it[2] and it[3] >= low]
        if sum(it.width for it in found) != Field("", first, last, high, low).width:
            raise ValueError(f"no label for bits {high} to {low} of bytes {first} to {last} in {names}")
        fields += found
    return fields


def free_fields(free: Dict[str, Any], part: str, here: Labels) -> List[Field]:
    """The fields of the used or of the ignored free bits. A field of the command may be one."""
    places = free[part]
    group = {it: "GROUP NUMBER" for place in places for it in places_of(place) if it[2:] == (4, 0)}
    return fields_at(places, {**here, **labels_of(FREE_LABELS.get(free["definition"], "")), **group})


def actions_of(definitions: Definitions, action: Symbol) -> Tuple[Optional[int], Dict[str, int]]:
    """The service action, or the variants of all of them, such as `ReadKeys`, with their numbers."""
    if action.name == "none":
        return None, {}
    (number,) = action.arguments
    if isinstance(number, int):
        return number, {}
    # `in_code c.action`
    return None, {variant: int(body, 0) for variant, body in definitions.equations[number.name]}


def in_capitals(variant: str) -> str:
    """A variant as a name: `ReadKeys` is `READ_KEYS`."""
    return re.sub(r"(?<!^)(?=[A-Z])", "_", variant).upper()


def rows() -> List[Row]:
    """The rows of the table, in its order."""
    definitions = Definitions("Layout", "CdbFields", "FreeBits", "ReservationAction")
    named, labelled, data_out, found = titles(), labels(), column("Commands", "Data-out"), []
    for _, body in definitions.equations["layout"]:
        command = {"c": Symbol("c", [])}
        value = Parser(definitions, body, command).whole()
        opcode, free = value["opcode"], value["free"]
        action, variants = actions_of(definitions, value["action"])
        actions = {in_capitals(it): number for it, number in variants.items()}
        numbers: List[Optional[int]] = [*actions.values()]
        codes = [(opcode, it) for it in numbers or [action]]
        if any(it not in named for it in codes):
            raise ValueError(f"docs/PROFILE.md lacks a command with operation code {opcode:02X}h")
        in_profile = [named.pop(it) for it in codes]
        title, section, _ = in_profile[0]
        of_extended = [it for it, (_, _, disks) in zip(actions, in_profile) if disks == "extended"]
        family = family_of(title)
        here = labelled[title if title in labelled else family]
        fields = fields_at([it["place"] for it in value["fields"]], here)
        if actions:
            fields.insert(0, Field("SERVICE ACTION", 1, 1, 4, 0))
        ignored = free_fields(free, "ignored", here)
        ignored_by: Dict[str, List[Field]] = {}
        for variant in variants:
            of_action = Parser(definitions, body, {**command, "c.action": Symbol(variant, [])}).whole()
            more = [it for it in free_fields(of_action["free"], "ignored", here) if it not in ignored]
            if more:
                ignored_by[in_capitals(variant)] = more
        found.append(Row(title, section, data_out[family], value["profile"].name.lower(), opcode, action,
                         actions, of_extended, fields, free_fields(free, "used", here), ignored, ignored_by))
    if named:
        raise ValueError(f"docs/PROFILE.md has commands that the table lacks: {named}")
    return found


def printed(fields: List[Field]) -> str:
    texts = (f"{it.name} ({it.label}) {it.first}:{it.high}-{it.last}:{it.low}" for it in fields)
    return ", ".join(texts) or "none"


def main() -> int:
    for row in rows():
        actions = [row.action] if row.action is not None else row.actions.values()
        codes = "/".join([f"{row.opcode:02X}h", *(f"{it:02X}h" for it in actions)])
        by_action = "".join(f", by {it}: {printed(fields)}" for it, fields in row.ignored_by.items())
        print(f"{row.name} {row.profile} {codes} {row.length}: {printed(row.fields)}; {printed(row.used)}; "
              f"{printed(row.ignored)}{by_action}; {row.title} ({row.section}), data-out: {row.data_out}")
    return 0


if __name__ == "__main__":
    sys.exit(main())
