"""Scripts: lines, their faults, what each prints, and the exit status (docs/SCRIPT.md).

Two modules decode answers and read the words of tools. This module uses these parts of them:

    texts.OF_PROFILE           for each profile the kinds of answers of `show`: "inq", "vpd", .. "sense"
    texts.show(kind, data, profile)
                               the lines of an answer: a list of str, with their leading blanks and
                               without LF. For "sense" it is [sense.line(data)].
    tools.plan(words, profile) words after the initiator, as ["sg_inq", "-l", "5"], to a Plan:
        .fault                 None, or the text of the fault: "unknown tool", "usage", "exclusive"
                               or "number". Then the other three do not matter.
        .cdb, .data_out        bytes
        .show                  a function from data-in and a profile to a list of lines, as texts.show returns

Both may use `words.number`, `words.hex_bytes` and `words.hex_lines`.
"""

import re
from dataclasses import dataclass, field

import sense
import texts
import tools
from attentions import CONDITIONS
from device import CHECK_CONDITION, GOOD, INITIATORS, RESERVATION_CONFLICT, Device
from faults import BUSY, MOST_FAULTS, NO_REPLY, STATUSES, TASK_SET_FULL, Fault as ArmedFault
from words import hex_bytes, hex_lines, number

LONGEST_LINE = 4096
MOST_WORDS = 64
MOST_BLOCKS = 2**40
CODES = {sense.code_text(code): code for code in CONDITIONS}  # as transcripts print them
BAD_BYTE = re.compile(rb"[^\t -~]")  # no tab and no printable ASCII
STATUS_OF_A_FAULT = 1
STATUS_NAMES = {
    GOOD: "GOOD",
    CHECK_CONDITION: "CHECK CONDITION",
    RESERVATION_CONFLICT: "RESERVATION CONFLICT",
    BUSY: "BUSY",
    TASK_SET_FULL: "TASK SET FULL",
    NO_REPLY: "NO REPLY",
}
EXIT_STATUSES = {RESERVATION_CONFLICT: 24, BUSY: 26, TASK_SET_FULL: 27, NO_REPLY: 33}


class Fault(Exception):
    """A line that is not executed, with the text that is printed instead."""


@dataclass
class Run:
    """A disk under a script, with what it has printed, and its exit status so far."""

    device: Device
    printed: list = field(default_factory=list)
    status: int = 0

    def line(self, count, line):
        try:
            lines, status = self._executed(line)
        except Fault as fault:
            lines, status = [str(fault)], STATUS_OF_A_FAULT
        if lines:
            self.printed += [f"line {count}: {lines[0]}", *lines[1:]]
        self.status = self.status or status

    def _executed(self, line):
        """Returns the text of the line and its status, by the first row that applies in SCRIPT,
        "Lines"."""
        if len(line) > LONGEST_LINE:
            raise Fault("too long")
        line = line.removesuffix(b"\r")
        found = line.decode("latin-1").replace("\t", " ").split(" ")
        found = [word for word in found if word]
        if not found or found[0].startswith("#"):
            return [], 0
        if BAD_BYTE.search(line):
            raise Fault("bad byte")
        if len(found) > MOST_WORDS:
            raise Fault("too many words")
        verb, *operands = found
        if verb in VERBS[self.device.profile]:
            return VERBS[self.device.profile][verb](self.device, operands)
        initiator = initiator_in(verb, self.device.profile)
        if initiator is None:
            raise Fault("unknown verb")
        return tool(self.device, initiator, operands)


def run(script, capacity, pool, profile="base"):
    """All that a new disk prints of the script, with a last line of the exit status."""
    running = Run(Device(capacity, pool, profile))
    lines = script.split(b"\n")
    if not lines[-1]:
        lines.pop()  # the last line ended with LF
    for count, line in enumerate(lines, 1):
        running.line(count, line)
    return "".join(text + "\n" for text in [*running.printed, f"status {running.status}"])


# ------------------------------------------------------------------------------------------- verbs


def raw(device, operands):
    """raw I CDB [DATA]"""
    if len(operands) not in (2, 3):
        raise Fault("usage")
    initiator = initiator_of(device, operands[0])
    sent = [hex_bytes(word) for word in operands[1:]]
    if None in sent:
        raise Fault("hex")
    cdb, data_out = (sent + [b""])[:2]
    return replied(device.execute(initiator, cdb, data_out), hex_lines)


def fill(device, operands):
    """fill I LBA COUNT BYTE: a WRITE(16) of equal bytes (SBC-3, 5.35)"""
    if len(operands) != 4:
        raise Fault("usage")
    initiator = initiator_of(device, operands[0])
    most = (2**64 - 1, 256, 255)
    numbers = [number(word, 0, limit) for word, limit in zip(operands[1:], most)]
    if None in numbers:
        raise Fault("number")
    address, count, byte = numbers
    cdb = b"\x8a\0" + address.to_bytes(8, "big") + count.to_bytes(4, "big") + b"\0\0"
    return replied(device.execute(initiator, cdb, bytes([byte]) * (512 * count)), hex_lines)


def show(device, operands):
    """show KIND HEX"""
    if len(operands) != 2:
        raise Fault("usage")
    kind, word = operands
    if kind not in texts.OF_PROFILE[device.profile]:
        raise Fault("kind")
    data = hex_bytes(word)
    if data is None:
        raise Fault("hex")
    return ["SHOWN", *texts.show(kind, data, device.profile)], 0


def power(device, operands):
    """power: a power cycle"""
    if operands:
        raise Fault("usage")
    device.power_cycle()
    return ["POWER"], 0


# These are of an extended disk. Each other form of them is a fault of usage.


def reset(device, operands):
    """reset, or reset target"""
    if operands not in ([], ["target"]):
        raise Fault("usage")
    if operands:
        device.target_reset()
        return ["TARGET RESET"], 0
    device.logical_unit_reset()
    return ["RESET"], 0


def nexus(device, operands):
    """nexus I: initiator I loses its I_T nexus"""
    initiators = [initiator_in(word, device.profile) for word in operands]
    if len(initiators) != 1 or None in initiators:
        raise Fault("usage")
    device.nexus_loss(*initiators)
    return ["NEXUS LOSS"], 0


def grow(device, operands):
    """grow N: the disk has N blocks"""
    blocks = [number(word, 1, MOST_BLOCKS) for word in operands]
    if len(blocks) != 1 or None in blocks:
        raise Fault("usage")
    device.grow(*blocks)
    return ["GROW"], 0


def attention(device, operands):
    """attention CODE [I]...: a condition is established for each initiator, or for those named"""
    code, *words = operands or [""]
    initiators = [initiator_in(word, device.profile) for word in words]
    if code not in CODES or None in initiators:
        raise Fault("usage")
    device.raise_attention(initiators or device.initiators, CODES[code])
    return ["ATTENTION"], 0


def heal(device, operands):
    """heal [N]: all armed faults are taken away, or the one with a number"""
    numbers = [number(word, 0, MOST_FAULTS - 1) for word in operands]
    if len(numbers) > 1 or None in numbers:
        raise Fault("usage")
    for slot in numbers or range(MOST_FAULTS):
        device.faults.slots[slot] = None
    return ["HEAL"], 0


def fault(device, operands):
    """fault PLACE WHAT [OPTION]..: a fault is armed"""
    place, what, *words = (operands + ["", ""])[:max(2, len(operands))]
    armed = ArmedFault(place, what)
    if what in ("deferred", "first") and words:
        value = words.pop(0)
        armed.value = number(value, 0, 2**32 - 1) if what == "first" else sense_code(value)
    elif sense_code(what):
        armed.what, armed.value = "code", sense_code(what)
    if armed.what not in WHAT_AT.get(place, ()):
        raise Fault("usage")
    if armed.what not in STATUSES and armed.value is None:
        raise Fault("usage")
    fault_options(armed, words)
    device.faults.arm(armed)
    return ["FAULT"], 0


def faults(device, operands):
    """faults: the armed faults in the words that arm them, and what is left for each initiator whose
    commands a fault has counted"""
    if operands:
        raise Fault("usage")
    lines = ["FAULTS"]
    for slot, armed in enumerate(device.faults.slots):
        if armed:
            lines.append(f"  {slot}: {fault_text(armed)}")
            for initiator, left in sorted(armed.left.items()):
                if left != [armed.skip, armed.times]:
                    lines.append(f"    to {initiator}:{counts_text(*left) or ' skip 0'}")
    return lines, 0


def fault_text(armed):
    text = f"{armed.place} " + ("" if armed.what == "code" else armed.what)
    if armed.what == "first":
        text += f" {armed.value}"
    elif armed.what not in STATUSES:
        key, code = armed.value
        text = f"{text.rstrip()} {key:X}/{code >> 8:02X}/{code & 0xFF:02X}"
    if armed.code is not None:
        text += f" code {armed.code:02X}h"
    if armed.blocks:
        text += " blocks {} {}".format(*armed.blocks)
    if armed.healed:
        text += " healed"
    text += counts_text(armed.skip, armed.times)
    if len(armed.initiators) < len(INITIATORS["extended"]):
        text += "".join(f" to {initiator}" for initiator in sorted(armed.initiators))
    return text


def counts_text(skip, times):
    return (f" skip {skip}" if skip else "") + ("" if times is None else f" times {times}")


def fault_options(armed, words):
    given = []
    while words:
        option = words.pop(0)
        operands = [words.pop(0) for _ in range(OPERANDS.get(option, 0)) if words]
        if option not in OPERANDS or len(operands) != OPERANDS[option]:
            raise Fault("usage")
        if option in given and option != "to":
            raise Fault("usage")
        value = OPTION_VALUES[option](*operands)
        if value is None:
            raise Fault("usage")
        if option == "to":
            armed.initiators = value | (armed.initiators if option in given else set())
        else:
            setattr(armed, option, value)
        given.append(option)
    if armed.healed and not armed.blocks:
        raise Fault("usage")


def sense_code(word):
    """KEY/ASC/ASCQ as a key, and a code with its qualifier; None if it is none"""
    found = SENSE_CODE.fullmatch(word)
    return found and (int(found[1], 16), int(found[2] + found[3], 16))


def extent(address, count):
    numbers = number(address, 0, 2**64 - 1), number(count, 1, 2**32 - 1)
    return None if None in numbers else numbers


def named(word):
    """`to I`, with the set of initiator I"""
    initiator = initiator_in(word, "extended")
    return None if initiator is None else {initiator}


SENSE_CODE = re.compile("([0-9abdefABDEF])/([0-9a-fA-F]{2})/([0-9a-fA-F]{2})")  # Ch is no sense key
OPERATION_CODE = re.compile("([0-9a-fA-F]{2})h")
WHAT_AT = {
    "arrival": ("busy", "full", "conflict", "silent", "code", "deferred"),
    "medium": ("code", "first"),
    "after": ("silent", "code", "first"),
}
OPERANDS = {"to": 1, "code": 1, "blocks": 2, "healed": 0, "skip": 1, "times": 1}
OPTION_VALUES = {
    "to": named,
    "code": lambda word: int(word[:2], 16) if OPERATION_CODE.fullmatch(word) else None,
    "blocks": extent,
    "healed": lambda: True,
    "skip": lambda word: number(word, 0, 2**16 - 1),
    "times": lambda word: number(word, 1, 2**16 - 1),
}


def tool(device, initiator, operands):
    """I TOOL OPTIONS"""
    plan = tools.plan(operands, device.profile)
    if plan.fault:
        raise Fault(plan.fault)
    reply = device.execute(initiator, plan.cdb, plan.data_out)
    return replied(reply, lambda data: plan.show(data, device.profile))


OF_BOTH = {"raw": raw, "fill": fill, "show": show, "power": power}
OF_EXTENDED = {"reset": reset, "nexus": nexus, "grow": grow, "attention": attention,
               "fault": fault, "faults": faults, "heal": heal}
VERBS = {"base": OF_BOTH, "extended": OF_BOTH | OF_EXTENDED}


def initiator_in(word, profile):
    """The initiator that a word names, or None. On a base disk it is one digit."""
    if profile == "base" and len(word) != 1:
        return None
    return number(word, 0, INITIATORS[profile][-1])


def initiator_of(device, word):
    initiator = initiator_in(word, device.profile)
    if initiator is None:
        raise Fault("initiator")
    return initiator


# ----------------------------------------------------------------------------------------- replies


def replied(reply, shown):
    """The lines of a reply and its status (docs/SCRIPT.md, "Replies", "Exit status")."""
    lines = [STATUS_NAMES[reply.status]]
    if reply.status == GOOD:
        return lines + shown(reply.data_in), 0
    if reply.status in EXIT_STATUSES:
        return lines, EXIT_STATUSES[reply.status]
    return [*lines, sense.line(reply.sense)], status_of(sense.read(reply.sense))


def status_of(found):
    """The exit statuses of sg3_utils(8). None of them is for sense data that can't be read."""
    if found is None:
        return 99
    of_codes = {
        sense.INVALID_COMMAND_OPERATION_CODE: 9,
        sense.LOGICAL_BLOCK_ADDRESS_OUT_OF_RANGE: 22,
    }
    of_keys = {
        sense.RECOVERED_ERROR: 21,
        sense.MISCOMPARE: 14,
        sense.NOT_READY: 2,
        sense.MEDIUM_ERROR: 3,
        sense.HARDWARE_ERROR: 3,
        sense.UNIT_ATTENTION: 6,
        sense.DATA_PROTECT: 7,
        sense.ABORTED_COMMAND: 11,
    }
    if found.key == sense.ILLEGAL_REQUEST:
        return of_codes.get(found.code, 5)
    return of_keys.get(found.key, 99)
