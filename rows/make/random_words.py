"""Random lines of `show`, near to real answers, and random words of tools and of faults, near to
valid ones."""

from attentions import CONDITIONS, RESETS
from reservations import INITIATORS
from sense import code_text
from texts import OF_PROFILE
from tools import TOOLS_OF

# An answer of each kind, and of each page that has a text.
ANSWERS = [
    ("inq", "000006022400000053474d4f44454c205448494e204449534b2020202020202030313030abcdef0102"),
    ("vpd", "00000005008083b0b2"),
    ("vpd", "0080000a304100420a2e7e7f8020"),
    ("vpd", "0083001e0201000441422043010300083000000000000001611400046e61612e"),
    ("vpd", "00b0003c0108000800004000000020000000100000400000000001000000002080000004000000000000"
            "ffff0000000000000000000000000000000000000000"),
    ("vpd", "00b2000805e7020001030000"),
    ("vpd", "00b10014000102030405060708090a0b0c0d0e0f10111213"),
    ("modes6", "2100100800001000000002008a0a0400080000000000000059010002aabb9c0208ff"),
    ("modes10", "0038009001000010000000020000000000000000000010008812040000000000000000000000000000"
                "0000008108c00b00000000050001020102"),
    ("lba", "0000003400000000000000000000000000000001000000000000000000000001fffffffe010000000000"
            "0000ffffffff0000000202000000"),
    ("keys", "000000020000001800000000000000a1ffffffffffffffff0000000000000000"),
    ("resv", "000000010000001000000000000000a10000000000050000"),
    ("caps", "00080181ea010000"),
    ("full", "000000070000003400000000000000a100000000010500000000000100000018060000003000000000"
             "00010000000000000000000000000000000000000000b2"),
    ("sense", "f00005000010000a00000000240000c00002"),
    ("sense", "72052100000000140206000080000600000a80000000000200000001"),
]

# Answers of the kinds that only an extended disk has, and of the texts that have more there.
EXTENDED_ANSWERS = [
    ("inq", "000006025b00000253474d4f44454c205448494e204449534b20202020202020303130300000000000000000"
            "00000000000000000000000000000000000000a0046004c00000000000000000000001020304"),
    ("vpd", "0086000c4abf0d11110f010ea0fc0000"),
    ("vpd", "008700083fff00000a018300"),
    ("vpd", "008800240000000100000000000000080102030400000000000000020000000400000001000000040a0b0c0d"),
    ("vpd", "00b100061c200a940200"),
    ("modes10", "00320010000000009c0a08000000000000000000dc02001c0000000000000000000000008801000000000010"
                "0102000000000000"),
    ("sense", "f1000500000010000000000024000000c00002"),
    ("sense", "73031100000000140302000505020020000a8000000000000012d687"),
    ("luns", "000000180000000000000000000000000001000000000000c101000000000000"),
    ("opcodes", "000000241200000000000006a300000c0003000c000a00000000000a0000001e8900000000000010"),
    ("opcode", "0083000612010000ff00000a000000000005ffffffff"),
    ("tmf", "d805000c0100a403000000000000006400000002"),
    ("log", "00000004000c2f30"),
    ("log", "40ff0008000000ff0c002f00"),
    ("log", "af00000b00000303000bff0001020203"),
    ("log", "8c000018000103080000000301000000000203080000000102000000"),
    ("readcap10", "00000fff00000200"),
    ("readcap16", "00000000ffffffff000010000f23e10500000000000000000000000000000000"),
    ("defects10", "0018000800000001fffffffe"),
    ("defects12", "001d0002000000100000000100000002000000030000000400"),
]
ANSWERS_OF = {"base": ANSWERS, "extended": ANSWERS + EXTENDED_ANSWERS}

TEXTS = ["0", "1", "2", "5", "8", "10", "24", "40", "63", "255", "256", "4095", "65535",
         "18446744073709551615", "0x10", "0XfF", "1Fh", "a1", "0xA1", "sn", "di", "bl", "lbpv",
         "sv", "SN", "10,0", "8,255", "0,1", "1,1,1", "0,16", "1,,2", "", "-", "zz", "-1", "=3"]

# What a fault does at each place. CODE is a sense code.
OUTCOMES = {
    "arrival": ("busy", "full", "conflict", "silent", "CODE", "deferred CODE"),
    "medium": (*6 * ("CODE",), "first 0", "first 1", "first 2", "first 4294967295"),
    "after": ("silent", "CODE", "CODE", "first 0", "first 7", "first 40", "first 4294967295"),
}
SENSE_CODES = ("3/11/00", "3/0C/00", "4/44/00", "1/17/01", "2/04/01", "b/08/01", "6/29/00",
               "0/00/00", "5/20/00", "5/21/00", "F/ff/fF", "D/3f/0E", "C/11/00")
OPERATION_CODES = ("00h", "28h", "28h", "2Ah", "8ah", "8Ah", "88h", "41h", "93h", "42h", "9Eh",
                   "5eh", "5Fh", "12h", "03h", "1ah", "15h", "C1h", "3fh", "3Fh", "A8h", "aah",
                   "2Eh", "8eh", "34h", "91h", "A0h", "a3h", "4dh", "B7h", "1Dh", "2fh", "AFh",
                   "8Fh", "89h", "89h", "83h", "83h", "84h")
WRONG_WORDS = ("busy", "once", "to", "64", "code", "28", "blocks", "0", "healed", "times", "65536",
               "-1", "first", "deferred", "3/11", "medium", "BUSY", "0x")


def show_line(random, profile):
    """An answer with some bytes changed, cut or longer, now and then as another kind."""
    kind, text = random.choice(ANSWERS_OF[profile])
    data = bytearray.fromhex(text)
    for _ in range(random.choice((0, 0, 1, 1, 2, 3))):
        place = random.choice((random.randrange(len(data)), random.randrange(min(len(data), 8))))
        data[place] = random.choice((0, 1, data[place] ^ 1 << random.randrange(8),
                                     random.randrange(256)))
    if random.random() < 0.4:
        del data[random.randrange(len(data) + 1):]
    elif random.random() < 0.2:
        data += random.randbytes(random.randrange(20))
    if random.random() < 0.1:
        kind = random.choice(sorted(OF_PROFILE[profile]))
    return f"show {kind} {data.hex() or '-'}"


def attention_words(random, initiator):
    """A condition, of a reset half the time, for some initiators or for each, rarely misspelled. A line has
    room for 62 initiators."""
    code = code_text(random.choice(random.choice((RESETS, CONDITIONS))))
    if random.random() < 0.05:
        code = random.choice((code.lower(), code[:-1], code.replace("/", ""), "29h/01h", "00h/00h"))
    others = random.choices(INITIATORS["extended"], k=random.choice((1, 2, 2, 3, 5, 8, 61, 62)))
    others = " ".join(in_any_form(random, it) for it in others)
    return random.choice((code, f"{code} {initiator}", f"{code} {initiator} {others}"))


def fault_words(random, address, count):
    """A fault that meets a few commands, now and then with a word too many or too few.

    Its blocks are at the address that `address` returns, and `count` returns small numbers.
    """
    place = random.choice(("arrival", "medium", "medium", "medium", "after"))
    outcome = random.choice(OUTCOMES[place]).replace("CODE", random.choice(SENSE_CODES))
    options = list(fault_options(random, place, address, count))
    random.shuffle(options)
    words = " ".join([place, outcome, *options]).split()
    if random.random() < 0.06:
        index = random.randrange(len(words))
        words[index:index + random.randrange(2)] = random.choice(([], [random.choice(WRONG_WORDS)]))
    return " ".join(words)


def fault_options(random, place, address, count):
    """A random choice of the options. Most faults are soon used up."""
    on_blocks = random.random() < (0.3 if place == "arrival" else 0.6)
    if on_blocks:
        yield f"blocks {in_any_form(random, address())} {in_any_form(random, count() or 1)}"
    if random.random() < (0.6 if on_blocks else 0.02):
        yield "healed"
    for _ in range(random.choice((0, 0, 1, 1, 1, 2))):
        yield f"to {in_any_form(random, random.choice((0, 0, 1, 1, 2, 8, 63)))}"
    if random.random() < 0.2:
        yield f"code {random.choice(OPERATION_CODES)}"
    if random.random() < 0.3:
        yield f"skip {in_any_form(random, count())}"
    if random.random() < 0.9:
        yield f"times {in_any_form(random, random.choice((1, 1, 1, 2, 2, 3)))}"


def in_any_form(random, value):
    """A number as a script may write it."""
    return random.choice((f"{value}", f"{value}", f"{value:#x}", f"{value:X}h"))


def tool_line(random, initiator, profile):
    """A tool with some of its options in a random form, now and then with a word of no option."""
    name = random.choice(sorted(TOOLS_OF[profile]))
    options = TOOLS_OF[profile][name].options
    words = [word for option in random.sample(options, random.randrange(max(1, min(len(options), 5))))
             for word in forms_of(random, option)]
    if random.random() < 0.1:
        words.insert(random.randrange(len(words) + 1),
                     random.choice(("-h", "--", "-", "x", "-H", "-dH", "-kr", "--le", "-l5")))
    return " ".join([str(initiator), name, *words])


def forms_of(random, option):
    """The words of an option: short or long, with its text attached or after it."""
    text = random.choice(TEXTS)
    short = option.short and random.random() < 0.6
    named = f"-{option.short}" if short else f"--{option.long}"
    if option.reads is None:
        return [named + ("=" + text if random.random() < 0.02 else "")]
    attached = [f"{named}={text}"] + ([named + text] if short else [])
    return random.choice([[named, text], *([form] for form in attached)])
