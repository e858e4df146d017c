"""Reads options by clap's rule for a simple command (docs/SCRIPT.md, "I TOOL OPTIONS")."""

from typing import Callable, NamedTuple


class Option(NamedTuple):
    """An option: its letter or None, its long name, and how its text is read, or None for a flag.

    `reads` takes the text, and returns its value, or None if it has no value in range.
    """

    short: str | None
    long: str
    reads: Callable | None = None


class Refused(Exception):
    """Words that clap refuses."""


def given(options, words):
    """The options that the words give: long name to text, or to None for a flag."""
    found, rest = {}, list(words)
    while rest:
        word = rest.pop(0)
        if word == "--":  # it ends the options, and no other word may follow
            if rest:
                raise Refused
        elif word.startswith("--"):
            take_long(options, found, word[2:], rest)
        elif word.startswith("-") and word != "-":
            take_short(options, found, word[1:], rest)
        else:
            raise Refused  # there is no device name
    return found


def take_long(options, found, word, rest):
    """--len TEXT, --len=TEXT, --hex: long names are whole."""
    name, equals, text = word.partition("=")
    option = one([option for option in options if option.long == name])
    if option.reads is None and equals:
        raise Refused
    take(found, option, text if equals else None, rest)


def take_short(options, found, letters, rest):
    """-l TEXT, -lTEXT, -l=TEXT, and flags that share a word, as -eH, with the last one's text."""
    while letters:
        option = one([option for option in options if option.short == letters[0]])
        letters = letters[1:]
        if option.reads is None:
            take(found, option, None, rest)
        else:
            take(found, option, letters.removeprefix("=") if letters else None, rest)
            return


def one(options):
    """The option of a name, which has to exist."""
    if not options:
        raise Refused
    return options[0]


def take(found, option, text, rest):
    """Each option is given once; a text that is not attached is the next word, no option."""
    if option.long in found:
        raise Refused
    if option.reads is not None and text is None:
        if not rest or rest[0].startswith("-") and rest[0] != "-":
            raise Refused
        text = rest.pop(0)
    found[option.long] = text
